//! The stored cases with jobs of edition 3.

use crate::bytes::u32_at;
use crate::cases::Case;
use crate::job::{header_length, Job, OFFSETS_AT};
use crate::make::highest::highest_needs_job;
use crate::make::near_miss::{near_miss, nearly_missed};
use crate::make::need_edges::need_edges;
use crate::make::need_telling::{largest_needs, need_telling_jobs};
use crate::make::need_timings::need_timings;
use crate::make::telling::empty_job;
use crate::make::timed_telling::timed_telling_jobs;
use crate::make::{checking_order, damage, ranges};
use crate::random::Random;
use crate::samples::calibration;
use crate::stored::{
    at_written_starts, loosened, loosened_into_buffers_around, made_of, timings_at_the_earliest,
    to_files,
};
use crate::stored_pairs;

/// Order files are what they were.
pub fn cases_of_edition_3(command: char) -> Vec<Case> {
    match command {
        'w' => well_formedness_cases(),
        'c' => job_check_cases(),
        't' => timing_cases(),
        'l' => loosening_cases(),
        'p' => stored_pairs::cases_of_edition_3(),
        'h' | 'r' | 'a' => vec![],
        _ => panic!("there is no command {command}"),
    }
}

/// The jobs made by hand: what tells mistakes apart, the edges of refusal 21, the sample.
fn jobs_by_hand() -> Vec<Job> {
    let telling = need_telling_jobs().into_iter().map(|(_, job)| job);
    telling.chain(need_edges()).chain([calibration()]).collect()
}

fn well_formedness_cases() -> Vec<Case> {
    let full = damage::full_job_of(3);
    let file = full.to_file();
    let files = [
        to_files(jobs_by_hand()),
        damage::too_short(&file),
        damage::layouts(&file),
        damage::layouts(&empty_job().edition(3).to_file()),
        empty_jobs_between_the_editions(),
        to_files(damage::levels_where_edition_3_counts()),
        damage::uses_and_needs_past_counting(&file),
        to_files(damage::counts_at_highest(3)),
        to_files(damage::counts_one_above(3)),
        to_files(ranges::needs(&full)),
        to_files(ranges::two_broken_records(3)),
        checking_order::pairs_of_refusals(3),
        each_new_byte(&file),
        to_files(last_need_of_a_highest_job_broken()),
    ]
    .concat();
    let mut cases: Vec<Case> = files.into_iter().map(|file| Case::job('w', file)).collect();
    cases.extend(made_of(3, 'w', 150));
    cases
}

/// The empty jobs of editions 1 and 2 that say 3, with as many bytes more as their headers lack and
/// fewer.
fn empty_jobs_between_the_editions() -> Vec<Vec<u8>> {
    let mut files = Vec::new();
    for edition in [1, 2] {
        let mut file = empty_job().edition(edition).to_file();
        file[0] = 3;
        let lacking = header_length(3) - file.len();
        files.extend((0..=lacking + 1).map(|more| [&file[..], &vec![0; more]].concat()));
    }
    files
}

/// What the header has more than that of edition 2, and the needs.
fn each_new_byte(file: &[u8]) -> Vec<Vec<u8>> {
    let needs = u32_at(file, OFFSETS_AT[8]) as usize;
    let header = header_length(2)..header_length(3);
    [
        damage::each_byte_of(file, header),
        damage::each_byte_of(file, needs..file.len()),
    ]
    .concat()
}

/// A job with every table full, and the same with its very last need broken.
fn last_need_of_a_highest_job_broken() -> Vec<Job> {
    let job = highest_needs_job(1, 256);
    let mut broken = job.clone();
    broken.needs[127].least = 1_000_000_001;
    vec![job, broken]
}

fn job_check_cases() -> Vec<Case> {
    let mut jobs = jobs_by_hand();
    jobs.push(highest_needs_job(2, 8));
    jobs.push(last_need_of_a_highest_job_unmet());
    let mut random = Random::seeded(10);
    for number in nearly_missed(3) {
        let count = if number == 21 { 100 } else { 10 };
        jobs.extend((0..count).map(|_| near_miss(&mut random, 3, number)));
    }
    let files = [checking_order::pairs_of_refusals(3), to_files(jobs)].concat();
    let mut cases: Vec<Case> = files.into_iter().map(|file| Case::job('c', file)).collect();
    cases.extend(made_of(3, 'c', 150));
    cases
}

fn last_need_of_a_highest_job_unmet() -> Job {
    let mut job = highest_needs_job(3, 256);
    job.needs[127].least = 1_000_000_000;
    job
}

fn timing_cases() -> Vec<Case> {
    let mut cases: Vec<Case> = need_timings()
        .into_iter()
        .map(|(job, starts)| Case::timing(job.to_file(), &starts))
        .collect();
    for job in jobs_by_hand() {
        cases.extend(timings_at_the_earliest(&job));
    }
    let broken = checking_order::one_of_each(3).into_iter();
    cases.extend(broken.map(|file| Case::timing(file, &[0])));
    let mut random = Random::seeded(14);
    for number in nearly_missed(3) {
        let count = if number == 21 { 60 } else { 5 };
        let missed = (0..count).map(|_| near_miss(&mut random, 3, number));
        cases.extend(missed.map(|job| at_written_starts(&job)));
    }
    cases.push(at_written_starts(&highest_needs_job(4, 8)));
    cases.extend(made_of(3, 't', 300));
    cases
}

fn loosening_cases() -> Vec<Case> {
    let mut cases = Vec::new();
    for job in jobs_by_hand() {
        cases.extend(loosened_into_buffers_around(&job));
    }
    // What has no needs is answered as in edition 2.
    let timed = timed_telling_jobs().into_iter();
    cases.extend(timed.map(|(_, job)| loosened(&job.edition(3))));
    let broken = checking_order::one_of_each(3).into_iter();
    cases.extend(broken.map(|file| Case::loosening(file, 16)));
    let largest = [highest_needs_job(5, 1), highest_needs_job(5, 8)];
    let needs = largest_needs().into_iter().map(|(_, job)| job);
    cases.extend(largest.into_iter().chain(needs).map(|job| loosened(&job)));
    cases.push(Case::loosening(highest_needs_job(6, 256).to_file(), 24));
    cases.extend(made_of(3, 'l', 200));
    cases
}
