//! Job files damaged at each byte and in their layout, for refusals 1 to 5. A damaged file is of
//! the edition of the whole one, but for what damages the edition.

use std::ops::Range;

use crate::bytes::{u16_at, u32_at};
use crate::job::{
    header_length, tables_of, Job, ADDED_ZERO_AT, COUNTS_AT, EDITION_AT, HIGHEST, LATEST_EDITION,
    OFFSETS_AT, SERIAL_AT, SHORTEST_HEADER, TENTH_AT,
};
use crate::job_file::edition_in;
use crate::random::Random;

/// A job with at least two records in each table, for damage to have something to hit.
pub fn full_job() -> Job {
    Job::with_facts(&[1, 0, 1])
        .level(2, 0, 5)
        .level(-3, -7, 0)
        .step(10, 5)
        .step(20, 6)
        .fixed_step(30, 4)
        .condition(1, 1, 0, 3, 1)
        .condition(2, 0, 2, 4, 0)
        .condition(0, 2, 5, 5, 1)
        .effect(0, 1, 5, 1)
        .effect(1, 0, 6, 0)
        .uses(0, 0, 0, -2)
        .uses(1, 0, 1, 3)
        .uses(1, 1, 6, -4)
        .goal_by(1, 1, 16)
        .goal(0, 0)
}

/// The same in an edition, from edition 2 on with timed facts, from edition 3 on with needs.
pub fn full_job_of(edition: u16) -> Job {
    let timed = |job: Job| job.timed(2, 40, 0).timed(1, 50, 1).timed(0, 8, 1);
    let needing = |job: Job| job.need(1, 0, 6, 3).need(2, 1, 0, -7).need(0, 0, 0, 2);
    match edition {
        1 => full_job(),
        2 => timed(full_job()),
        _ => needing(timed(full_job())),
    }
}

pub fn patched(file: &[u8], at: usize, bytes: &[u8]) -> Vec<u8> {
    let mut file = file.to_vec();
    file[at..at + bytes.len()].copy_from_slice(bytes);
    file
}

fn patched_u16(file: &[u8], at: usize, numbers: &[u16]) -> Vec<Vec<u8>> {
    let patch = |number: &u16| patched(file, at, &number.to_le_bytes());
    numbers.iter().map(patch).collect()
}

// ---------------------------------------------------------------------------------------------
// Refusals 1 to 5

/// Refusal 1: cut anywhere in the header, and what is left of nothing.
pub fn too_short(file: &[u8]) -> Vec<Vec<u8>> {
    let header = header_length(edition_in(file));
    let mut files: Vec<Vec<u8>> = (0..header).map(|length| file[..length].to_vec()).collect();
    files.push(vec![255; SHORTEST_HEADER - 1]);
    files.push(vec![0; header]);
    files
}

/// Refusal 2.
pub fn wrong_editions(file: &[u8]) -> Vec<Vec<u8>> {
    let next = LATEST_EDITION + 1;
    let editions = [0, next, 256, 256 + edition_in(file), 65_535];
    patched_u16(file, EDITION_AT, &editions)
}

/// Files that say to be of another edition than they are: what they hold disagrees.
pub fn other_editions(file: &[u8]) -> Vec<Vec<u8>> {
    let own = edition_in(file);
    let others: Vec<u16> = (1..=LATEST_EDITION).filter(|&other| other != own).collect();
    patched_u16(file, EDITION_AT, &others)
}

/// Refusal 3: the serial mark, in edition 1 the tenth number and in edition 3 the added zero. A mark
/// of 0 or 1 is good.
pub fn wrong_marks(file: &[u8]) -> Vec<Vec<u8>> {
    let mut files = patched_u16(file, SERIAL_AT, &[0, 1, 2, 256, 257, 65_535]);
    if edition_in(file) == 1 {
        files.extend(patched_u16(file, TENTH_AT, &[1, 256, 65_535]));
    }
    if edition_in(file) == 3 {
        files.extend(patched_u16(file, ADDED_ZERO_AT, &[1, 256, 65_535]));
    }
    files
}

/// Jobs of editions 1 and 2 with a level at the bytes at which edition 3 counts the needs and has the
/// added zero: none of these is 0. All are well formed.
pub fn levels_where_edition_3_counts() -> Vec<Job> {
    let job = Job::default().level(-1, -1, -1);
    vec![job.clone(), job.edition(2)]
}

/// Each table at its highest count, all others as small as that allows. All are well formed.
pub fn counts_at_highest(edition: u16) -> Vec<Job> {
    (0..tables_of(edition))
        .map(|table| filled(table, HIGHEST[table]).edition(edition))
        .collect()
}

/// Refusal 4: one record above the highest count, the tables in agreement.
pub fn counts_one_above(edition: u16) -> Vec<Job> {
    (0..tables_of(edition))
        .map(|table| filled(table, HIGHEST[table] + 1).edition(edition))
        .collect()
}

/// A job with so many records in one table.
fn filled(table: usize, count: usize) -> Job {
    let mut job = Job::with_facts(&[0]).level(0, 0, 1).step(0, 300);
    match table {
        0 => job.facts = vec![1; count],
        1 => job.levels = vec![job.levels[0]; count],
        2 => job.steps = vec![job.steps[0]; count],
        3 => job = repeated(job, count, |job, at| job.condition(0, 0, at, at, 0)),
        4 => job = repeated(job, count, |job, at| job.effect(0, 0, at, 1)),
        5 => job = repeated(job, count, |job, at| job.uses(0, 0, at, 1)),
        6 => job = repeated(job, count, |job, at| job.goal_by(0, 0, at)),
        7 => job = repeated(job, count, |job, tick| job.timed(0, tick, 1)),
        _ => job = repeated(job, count, |job, at| job.need(0, 0, at, 0)),
    }
    job
}

fn repeated(job: Job, count: usize, add: impl Fn(Job, i64) -> Job) -> Job {
    (0..count as i64).fold(job, |job, number| add(job, number % 300))
}

/// Refusals 4 and 5: a count that the tables do not bear out.
pub fn wrong_counts(file: &[u8]) -> Vec<Vec<u8>> {
    let mut files = Vec::new();
    let tables = tables_of(edition_in(file));
    for (&at, &highest) in COUNTS_AT.iter().zip(&HIGHEST).take(tables) {
        let count = u16_at(file, at);
        let highest = highest as u16;
        let numbers = [
            count + 1,
            count.saturating_sub(1),
            0,
            highest,
            highest + 1,
            count + 256,
            65_535,
        ];
        files.extend(patched_u16(file, at, &numbers));
    }
    files
}

/// Refusal 4: effects and timed facts that together come to 65,536 or more, so that their sum in a
/// u16 would begin again at 0.
pub fn effects_and_timed_facts_past_counting(file: &[u8]) -> Vec<Vec<u8>> {
    let counts = [(65_472, 64), (65_535, 3), (65_535, 65_535), (2, 65_535)];
    two_counts(file, [4, 7], &counts)
}

/// The same of uses and needs.
pub fn uses_and_needs_past_counting(file: &[u8]) -> Vec<Vec<u8>> {
    let counts = [(65_408, 128), (65_535, 4), (65_535, 65_535), (3, 65_535)];
    two_counts(file, [5, 8], &counts)
}

/// The counts of two tables, changed.
fn two_counts(file: &[u8], tables: [usize; 2], counts: &[(u16, u16)]) -> Vec<Vec<u8>> {
    let [one_at, other_at] = tables.map(|table| COUNTS_AT[table]);
    let both = |&(one, other): &(u16, u16)| {
        let file = patched(file, one_at, &one.to_le_bytes());
        patched(&file, other_at, &other.to_le_bytes())
    };
    counts.iter().map(both).collect()
}

/// Refusal 5: offsets off by a little, by a lot, and swapped.
pub fn wrong_offsets(file: &[u8]) -> Vec<Vec<u8>> {
    let offsets_at = &OFFSETS_AT[..tables_of(edition_in(file))];
    let mut files = Vec::new();
    for &at in offsets_at {
        let offset = u32_at(file, at);
        let wrong = [
            offset + 1,
            offset - 1,
            0,
            offset + 65_536,
            offset + 0x8000_0000,
            u32::MAX,
        ];
        files.extend(wrong.map(|number| patched(file, at, &number.to_le_bytes())));
    }
    for two in offsets_at.windows(2) {
        let mut swapped = file.to_vec();
        swapped.copy_within(two[1]..two[1] + 4, two[0]);
        swapped[two[1]..two[1] + 4].copy_from_slice(&file[two[0]..two[0] + 4]);
        files.push(swapped);
    }
    files
}

/// Refusal 5: the file a byte shorter or longer, or cut at the header's end.
pub fn wrong_lengths(file: &[u8]) -> Vec<Vec<u8>> {
    let header = header_length(edition_in(file));
    let longer = |more: usize| [file, &vec![0; more]].concat();
    vec![
        file[..file.len() - 1].to_vec(),
        file[..header.max(file.len() - 8)].to_vec(),
        file[..header].to_vec(),
        longer(1),
        longer(8),
        longer(256),
    ]
}

/// Two header numbers that change places, counts mostly; in edition 3 also the count of the needs
/// and the added zero.
pub fn swapped_header_numbers(file: &[u8]) -> Vec<Vec<u8>> {
    let mut first_at: Vec<usize> = (0..9).map(|number| 2 * number).collect();
    if edition_in(file) == 3 {
        first_at.push(COUNTS_AT[8]);
    }
    let swapped = |at: usize| {
        let mut swapped = file.to_vec();
        swapped[at..at + 4].rotate_left(2);
        swapped
    };
    first_at.into_iter().map(swapped).collect()
}

pub fn layouts(file: &[u8]) -> Vec<Vec<u8>> {
    [
        wrong_editions(file),
        other_editions(file),
        wrong_marks(file),
        wrong_counts(file),
        wrong_offsets(file),
        wrong_lengths(file),
        swapped_header_numbers(file),
    ]
    .concat()
}

// ---------------------------------------------------------------------------------------------
// Anywhere

/// Each byte in turn, changed three ways.
pub fn each_byte(file: &[u8]) -> Vec<Vec<u8>> {
    each_byte_of(file, 0..file.len())
}

/// Each byte of a part.
pub fn each_byte_of(file: &[u8], part: Range<usize>) -> Vec<Vec<u8>> {
    let mut files = Vec::new();
    for at in part {
        for other in [file[at] ^ 1, file[at] ^ 128, !file[at]] {
            files.push(patched(file, at, &[other]));
        }
    }
    files
}

/// One byte anywhere, the header of this edition as likely as the tables.
pub fn some_byte(random: &mut Random, edition: u16, file: &[u8]) -> Vec<u8> {
    let end = if random.chance(50) {
        file.len().min(header_length(edition))
    } else {
        file.len()
    };
    let at = random.below(end);
    let other = random.pick(&[0, 1, 2, 255, file[at] ^ 1, file[at].wrapping_add(1)]);
    patched(file, at, &[other])
}

/// Two faults in the layout: the one that is checked first decides.
pub fn two_faults(random: &mut Random, file: &[u8]) -> Vec<u8> {
    let faults = layouts(file);
    let one = &faults[random.below(faults.len())];
    if random.chance(20) {
        return one[..random.below(one.len())].to_vec();
    }
    let mut both = one.clone();
    let other = &faults[random.below(faults.len())];
    for (at, &byte) in other.iter().enumerate().take(file.len()) {
        if at < both.len() && byte != file[at] {
            both[at] = byte;
        }
    }
    both
}

/// Bytes that never were a job, with a good beginning now and then.
pub fn garbage(random: &mut Random, edition: u16) -> Vec<u8> {
    let length = random.below(120);
    let mut file: Vec<u8> = (0..length).map(|_| random.draw() as u8).collect();
    let good = random.below(header_length(edition) + 1).min(length);
    let header = Job::default().edition(edition).to_file();
    file[..good].copy_from_slice(&header[..good]);
    file
}
