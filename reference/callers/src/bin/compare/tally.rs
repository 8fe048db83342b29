//! How often each entry point gave each number.

use std::fmt::Write;

const NUMBERS: usize = 22;

#[derive(Clone, Copy)]
pub enum Entry {
    Check,
    CheckSchedule,
    Pairs,
    Partialize,
    Header,
    Record,
    Alike,
    FromPddl,
}

/// The name of each entry point, and which numbers it gives: one bit a number.
const ENTRIES: [(&str, u32); 8] = [
    ("jobs_check", 0b10_0010_0011_1100_1111_1111),
    ("jobs_check_schedule", 0b10_0010_0011_1111_1111_1111),
    ("jobs_pairs", 0b00_0000_0000_0000_0111_1111),
    ("jobs_partialize", 0b10_0010_1011_1100_1111_1111),
    ("jobs_order_header", 0b00_0001_0000_0000_0000_0001),
    ("jobs_order_record", 0b00_0001_0000_0000_0000_0001),
    ("jobs_alike", 0b00_0001_0000_0000_0000_0001),
    ("jobs_from_pddl", 0b01_1100_1011_1100_1101_0001),
];

#[derive(Default)]
pub struct Tally {
    counts: [[u64; NUMBERS]; ENTRIES.len()],
    alike: u64,
    /// Searches that found a pair.
    found: u64,
}

impl Tally {
    pub fn count(&mut self, entry: Entry, number: u16) {
        self.counts[entry as usize][usize::from(number)] += 1;
    }

    pub fn count_alike(&mut self) {
        self.alike += 1;
    }

    pub fn count_found(&mut self) {
        self.found += 1;
    }

    /// Searches that were made and found no pair.
    fn none_found(&self) -> u64 {
        self.counts[Entry::Pairs as usize][0] - self.found
    }

    pub fn calls(&self) -> u64 {
        self.counts.iter().flatten().sum()
    }

    pub fn plus(mut self, other: Tally) -> Tally {
        let counts = self.counts.iter_mut().flatten();
        for (count, more) in counts.zip(other.counts.iter().flatten()) {
            *count += more;
        }
        self.alike += other.alike;
        self.found += other.found;
        self
    }

    pub fn report(&self) -> String {
        let mut text = format!(
            "{} calls agree, {} files alike, {} searches found a pair and {} none\n",
            self.calls(),
            self.alike,
            self.found,
            self.none_found()
        );
        for ((name, _), counts) in ENTRIES.iter().zip(&self.counts) {
            write!(text, "{name}").expect("a string takes it");
            let occurred = counts.iter().enumerate().filter(|(_, &count)| count > 0);
            for (number, count) in occurred {
                write!(text, "  {number}: {count}").expect("a string takes it");
            }
            text.push('\n');
        }
        text
    }

    /// What must occur, but never did, or a number that must not, but did.
    pub fn fault(&self) -> Option<String> {
        for ((name, given), counts) in ENTRIES.iter().zip(&self.counts) {
            for (number, &count) in counts.iter().enumerate() {
                match (given >> number & 1 == 1, count > 0) {
                    (true, false) => return Some(format!("{name} never gave {number}")),
                    (false, true) => return Some(format!("{name} gave {number}")),
                    _ => {}
                }
            }
        }
        let never = match (self.alike, self.found, self.none_found()) {
            (0, _, _) => "no two files were alike",
            (_, 0, _) => "no search found a pair",
            (_, _, 0) => "every search found a pair",
            _ => return None,
        };
        Some(never.to_string())
    }
}
