//! One call of the static library and of the second program with the same input.

use std::fmt::Debug;

use callers::Packed;
use reference::loosen::{loosen, order_file_of};
use reference::order_file::{alike, read_header, read_record, Record, NONE};
use reference::pairs::search;
use reference::pddl::jobs_from_pddl;
use reference::refusal::{number_and_place, Refusal, NOWHERE};
use reference::timing::{check_job, check_timing};

use crate::tally::{Entry, Tally};

/// What lent buffers and lists hold before a call, and what is around them.
const FILLING: u8 = 165;
const FILLING_NUMBER: u32 = 0xA5A5_A5A5;

/// So much around what is lent must stay as it was.
const MARGIN: usize = 16;

#[derive(Default)]
pub struct Both {
    pub tally: Tally,
}

impl Both {
    pub fn check(&mut self, job: &[u8]) -> Result<(), String> {
        let expected = packed(0, &check_job(job));
        let inputs = || format!("jobs_check, job {job:?}");
        self.agree(Entry::Check, callers::check(job), expected, inputs)
    }

    pub fn check_schedule(&mut self, job: &[u8], starts: &[u32]) -> Result<(), String> {
        let expected = packed(0, &check_timing(job, starts));
        let answer = callers::check_schedule(job, starts);
        let inputs = || format!("jobs_check_schedule, job {job:?} starts {starts:?}");
        self.agree(Entry::CheckSchedule, answer, expected, inputs)
    }

    pub fn pairs(&mut self, job: &[u8]) -> Result<(), String> {
        let expected = search(job);
        let verdict = (expected.number, expected.place);
        let packed = pack(expected.compared, verdict);
        let inputs = || format!("jobs_pairs, job {job:?}");
        self.agree(Entry::Pairs, callers::pairs(job), packed, inputs)?;
        if expected.number == 0 && expected.place != NOWHERE {
            self.tally.count_found();
        }
        Ok(())
    }

    /// With a buffer of the file's length and the slack. Gives the order file, if there is one.
    pub fn partialize(&mut self, job: &[u8], slack: isize) -> Result<Option<Vec<u8>>, String> {
        let file = order_file_of(job).ok().map(|file| file.to_file());
        let length = file.as_ref().map_or(0, Vec::len);
        self.partialize_into(job, length.saturating_add_signed(slack))?;
        Ok(file)
    }

    /// With a buffer of this length.
    pub fn partialize_into(&mut self, job: &[u8], length: usize) -> Result<(), String> {
        let lent = MARGIN..MARGIN + length;
        let mut expected_buffer = vec![FILLING; length + 2 * MARGIN];
        let mut buffer = expected_buffer.clone();
        let expected = loosen(job, &mut expected_buffer[lent.clone()]);
        let answer = callers::partialize(job, &mut buffer[lent]);
        let verdict = (expected.number, expected.place);
        let inputs = || format!("jobs_partialize, job {job:?} buffer of {length}");
        self.agree(
            Entry::Partialize,
            answer,
            pack(expected.length, verdict),
            inputs,
        )?;
        same("buffer", &buffer, &expected_buffer, inputs)
    }

    pub fn header(&mut self, file: &[u8], length: usize) -> Result<(), String> {
        let expected = read_header(file);
        let mut list = filled_list(length);
        let answer = callers::order_header(file, &mut list[MARGIN..MARGIN + length]);
        let inputs = || format!("jobs_order_header, file {file:?} list of {length}");
        self.agree(Entry::Header, answer, packed(0, &expected), inputs)?;
        let numbers = expected.map_or(vec![], |header| header.to_vec());
        same("list", &list, &list_with(&numbers, length), inputs)
    }

    pub fn record(
        &mut self,
        file: &[u8],
        table: u32,
        number: u32,
        length: usize,
    ) -> Result<(), String> {
        let expected = read_record(file, table, number);
        let mut list = filled_list(length);
        let lent = &mut list[MARGIN..MARGIN + length];
        let answer = callers::order_record(file, table, number, lent);
        let record = (table, number);
        let inputs = || format!("jobs_order_record, file {file:?} {record:?} list of {length}");
        self.agree(Entry::Record, answer, packed(0, &expected), inputs)?;
        let numbers = expected.map_or(vec![], numbers_of);
        same("list", &list, &list_with(&numbers, length), inputs)
    }

    pub fn alike(&mut self, a: &[u8], b: &[u8]) -> Result<(), String> {
        let expected = alike(a, b);
        let yes = expected.unwrap_or(false);
        let inputs = || format!("jobs_alike, files {a:?} and {b:?}");
        let packed = packed(usize::from(yes), &expected);
        self.agree(Entry::Alike, callers::alike(a, b), packed, inputs)?;
        if yes {
            self.tally.count_alike();
        }
        Ok(())
    }

    /// With a buffer of this length.
    pub fn texts(&mut self, actions: &[u8], plan: &[u8], length: usize) -> Result<(), String> {
        let lent = MARGIN..MARGIN + length;
        let mut expected_buffer = vec![FILLING; length + 2 * MARGIN];
        let mut buffer = expected_buffer.clone();
        let expected = jobs_from_pddl(actions, plan, &mut expected_buffer[lent.clone()]);
        let answer = callers::from_pddl(actions, plan, &mut buffer[lent]);
        let packed = pack(expected.length, (expected.number, expected.place));
        let inputs = || {
            let (actions, plan) = (actions.escape_ascii(), plan.escape_ascii());
            format!("jobs_from_pddl, actions \"{actions}\" plan \"{plan}\" buffer of {length}")
        };
        self.agree(Entry::FromPddl, answer, packed, inputs)?;
        same("buffer", &buffer, &expected_buffer, inputs)
    }

    fn agree(
        &mut self,
        entry: Entry,
        answer: Packed,
        expected: Packed,
        inputs: impl Fn() -> String,
    ) -> Result<(), String> {
        self.tally.count(entry, (expected.0 >> 16) as u16);
        same("answer", &answer, &expected, inputs)
    }
}

fn same<T: PartialEq + Debug>(
    what: &str,
    given: &T,
    expected: &T,
    inputs: impl Fn() -> String,
) -> Result<(), String> {
    if given == expected {
        return Ok(());
    }
    let inputs = inputs();
    Err(format!(
        "{what} {given:?}, but {expected:?} is expected of\n{inputs}\n"
    ))
}

// ---------------------------------------------------------------------------------------------
// What the second program says, in the library's form

fn packed<T>(answer: usize, verdict: &Result<T, Refusal>) -> Packed {
    pack(answer, number_and_place(verdict))
}

fn pack(answer: usize, (number, place): (u16, u16)) -> Packed {
    Packed((answer as u64) << 32 | u64::from(number) << 16 | u64::from(place))
}

fn numbers_of(record: Record) -> Vec<u32> {
    match record {
        Record::Window(window) => {
            let latest = window.latest.map_or(NONE, |latest| latest as u32);
            vec![window.limit as u32, latest, window.earliest as u32]
        }
        Record::Order(order) => vec![order.first as u32, order.second as u32, order.gap as u32],
        Record::Link(link) => vec![u32::from(link.number())],
    }
}

fn filled_list(length: usize) -> Vec<u32> {
    vec![FILLING_NUMBER; length + 2 * MARGIN]
}

/// The numbers at the front of the lent part, as many as it takes.
fn list_with(numbers: &[u32], length: usize) -> Vec<u32> {
    let mut list = filled_list(length);
    for (entry, &number) in list[MARGIN..MARGIN + length].iter_mut().zip(numbers) {
        *entry = number;
    }
    list
}
