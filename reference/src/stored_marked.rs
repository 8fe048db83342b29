//! The stored cases of the serial mark: files with it, each beside the same file without it.

use crate::cases::Case;
use crate::job::{LATEST_EDITION, SERIAL_AT};
use crate::loosen::order_file_of;
use crate::make::checking_order;
use crate::make::damage::{full_job_of, patched, wrong_marks};
use crate::make::marked::{marked_and_refused, marked_telling_jobs, marked_timings};
use crate::make::near_miss::{near_miss, nearly_missed};
use crate::make::sound::small_sound_job;
use crate::random::Random;
use crate::stored::{length_for, list, to_files};
use crate::well_formed::well_formed;

/// Order files and texts have no mark.
pub fn cases(command: char) -> Vec<Case> {
    let files = match command {
        'w' | 'c' | 't' | 'l' | 'p' => [twins(), marks()].concat(),
        _ => vec![],
    };
    let mut cases: Vec<Case> = files.into_iter().map(|file| case(command, file)).collect();
    if command == 't' {
        let timings = marked_timings().into_iter();
        cases.extend(timings.map(|(job, starts)| Case::timing(job.to_file(), &starts)));
    }
    cases
}

/// With the mark, then without it.
fn twins() -> Vec<Vec<u8>> {
    let sound = marked_telling_jobs().into_iter().map(|(_, job)| job);
    let by_hand = sound.chain(marked_and_refused()).collect();
    let editions = 1..=LATEST_EDITION;
    let files = [to_files(by_hand), editions.flat_map(made).collect()].concat();
    let with = |file: &Vec<u8>, mark| patched(file, SERIAL_AT, &[mark, 0]);
    let both = |file| [with(&file, 1), with(&file, 0)];
    files.into_iter().flat_map(both).collect()
}

/// Files for the refusals up to 7 and for 17, jobs that nearly miss the others, and sound ones.
fn made(edition: u16) -> Vec<Vec<u8>> {
    let mut random = Random::seeded(18);
    let mut jobs = Vec::new();
    for number in nearly_missed(edition) {
        jobs.extend((0..2).map(|_| near_miss(&mut random, edition, number)));
    }
    jobs.extend((0..4).map(|_| small_sound_job(&mut random, edition)));
    [checking_order::one_of_each(edition), to_files(jobs)].concat()
}

/// Only 0 and 1 are taken.
fn marks() -> Vec<Vec<u8>> {
    (1..=LATEST_EDITION)
        .flat_map(|edition| wrong_marks(&full_job_of(edition).to_file()))
        .collect()
}

fn case(command: char, file: Vec<u8>) -> Case {
    match command {
        't' => {
            let starts = starts_for(&file);
            Case::timing(file, &starts)
        }
        'l' => {
            let length = length_for(&file);
            Case::loosening(file, length)
        }
        _ => Case::job(command, file),
    }
}

/// The earliest times, else the written starts; one start for what cannot be read.
fn starts_for(file: &[u8]) -> Vec<u32> {
    match (order_file_of(file), well_formed(file)) {
        (Ok(written), _) => list(&written.earliest_times()),
        (_, Ok(job)) => list(&job.written_starts()),
        _ => vec![0],
    }
}
