//! Two faults in one job file, and a file for each refusal: what is checked first decides.

use crate::job::{
    header_length, Job, ADDED_ZERO_AT, COUNTS_AT, EDITION_AT, LATEST_EDITION, OFFSETS_AT,
    SERIAL_AT, SHORTEST_HEADER, TABLES, TENTH_AT,
};
use crate::job_file::{counts_in, edition_in, layout};
use crate::make::damage::{counts_one_above, full_job_of, patched};

/// Every two of the refusals 1 to 7, 17 and 11, in edition 3 also 12, 21 and 13, at once: the one
/// checked first decides.
pub fn pairs_of_refusals(edition: u16) -> Vec<Vec<u8>> {
    let file = one_byte_from_each_refusal(edition).to_file();
    let mut files = Vec::new();
    let faults = faults_in_checking_order(&file);
    for (number, &(_, at, byte)) in faults.iter().enumerate() {
        let one = patched(&file, at, &[byte]);
        for &(_, at, byte) in &faults[..number] {
            files.push(patched(&one, at, &[byte]));
        }
        files.push(one[..SHORTEST_HEADER - 1].to_vec());
        files.push(one[..file.len() - 1].to_vec());
        files.push(one);
    }
    files
}

/// The numbers of those faults.
pub fn numbers_in_checking_order(edition: u16) -> Vec<u16> {
    let file = one_byte_from_each_refusal(edition).to_file();
    let faults = faults_in_checking_order(&file);
    faults.iter().map(|&(number, _, _)| number).collect()
}

/// Its last two effects are equal, and from edition 2 on its first and its last timed fact.
fn one_byte_from_each_refusal(edition: u16) -> Job {
    let job = full_job_of(edition).effect(1, 0, 6, 0);
    match edition {
        1 => job,
        _ => job.timed(2, 40, 0),
    }
}

/// The refusal, the byte, and what it becomes.
fn faults_in_checking_order(file: &[u8]) -> Vec<(u16, usize, u8)> {
    let edition = edition_in(file);
    let (offsets, _) = layout(edition, counts_in(file));
    let first_offset = offsets[0] as u8;
    let last_value_of = |table: usize| offsets[table + 1] - 2;
    let mut faults = vec![
        (2, EDITION_AT, LATEST_EDITION as u8 + 1),
        (3, SERIAL_AT, 2),
        (4, COUNTS_AT[0] + 1, 2),
        (4, COUNTS_AT[6], 33),
        (5, OFFSETS_AT[0], first_offset + 1),
        (6, offsets[0], 2),
        (7, last_value_of(4), 1),
        (11, last_value_of(3), 0),
    ];
    if edition == 1 {
        faults.insert(2, (3, TENTH_AT, 1));
    } else {
        faults.insert(7, (17, last_value_of(7), 1));
        faults.insert(6, (6, offsets[7], 3));
        faults.insert(5, (5, OFFSETS_AT[7], 0));
        faults.insert(4, (4, TENTH_AT, 65));
    }
    if edition == 3 {
        faults.extend(faults_of_edition_3(offsets));
        faults.sort_by_key(|&(number, _, _)| when_checked(number));
    }
    faults
}

/// What is new in the header and in the last table, and 12, 21 and 13: a level's most, a need's
/// least, a goal's value.
fn faults_of_edition_3(offsets: [usize; TABLES]) -> [(u16, usize, u8); 7] {
    [
        (3, ADDED_ZERO_AT, 1),
        (4, COUNTS_AT[8], 129),
        (5, OFFSETS_AT[8], 0),
        (6, offsets[8], 3),
        (12, offsets[1] + 8, 2),
        (21, offsets[8] + 8, 4),
        (13, offsets[6] + 2, 0),
    ]
}

/// 17 comes after 7, and 21 after 12.
fn when_checked(number: u16) -> usize {
    let order = [1, 2, 3, 4, 5, 6, 7, 17, 8, 9, 10, 11, 12, 21, 13];
    let at = order.iter().position(|&checked| checked == number);
    at.expect("a refusal of jobs")
}

/// A file for each of the refusals 1 to 7, in their order, and from edition 2 on for 17.
pub fn one_of_each(edition: u16) -> Vec<Vec<u8>> {
    let full = full_job_of(edition);
    let file = full.to_file();
    let header = header_length(edition);
    let mut broken = full.clone();
    broken.steps[1].fixed = 2;
    let mut files = vec![
        file[..header - 1].to_vec(),
        patched(&file, EDITION_AT, &[LATEST_EDITION as u8 + 1]),
        match edition {
            1 => patched(&file, TENTH_AT, &[1]),
            2 => patched(&file, SERIAL_AT, &[2]),
            _ => patched(&file, ADDED_ZERO_AT, &[1]),
        },
        counts_one_above(edition).pop().expect("a table").to_file(),
        patched(&file, OFFSETS_AT[0], &[header as u8 + 1]),
        broken.to_file(),
        full.clone().effect(1, 0, 6, 1).to_file(),
    ];
    if edition > 1 {
        files.push(full.timed(1, 50, 0).to_file());
    }
    files
}
