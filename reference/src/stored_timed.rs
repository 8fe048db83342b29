//! The stored cases with jobs of edition 2 and with links to timed facts.

use crate::cases::Case;
use crate::job::Job;
use crate::loosen::order_file_of;
use crate::make::highest::{highest_timed_job, longest_sheet};
use crate::make::near_miss::{near_miss, nearly_missed};
use crate::make::order_files::{files_with_timed_links, plain_file};
use crate::make::telling::empty_job;
use crate::make::ties::largest_timed_ties;
use crate::make::timed_edges::timed_edges;
use crate::make::timed_telling::timed_telling_jobs;
use crate::make::timed_timings::timed_timings;
use crate::make::{checking_order, damage, ranges};
use crate::random::Random;
use crate::samples::barriers;
use crate::stored::{
    at_written_starts, list, loosened, loosened_into_buffers_around, made_of, order_files,
    timings_at_the_earliest, to_files,
};
use crate::stored_pairs;

pub fn cases_of_edition_2(command: char) -> Vec<Case> {
    match command {
        'w' => well_formedness_cases(),
        'c' => job_check_cases(),
        't' => timing_cases(),
        'h' => header_cases(),
        'r' => record_cases(),
        'a' => alike_cases(),
        'l' => loosening_cases(),
        'p' => stored_pairs::cases_of_edition_2(),
        _ => panic!("there is no command {command}"),
    }
}

// ---------------------------------------------------------------------------------------------
// Jobs

/// The jobs made by hand: what tells mistakes apart, the edges of the refusals, the sample.
fn jobs_by_hand() -> Vec<Job> {
    let telling = timed_telling_jobs().into_iter().map(|(_, job)| job);
    telling.chain(timed_edges()).chain([barriers()]).collect()
}

fn well_formedness_cases() -> Vec<Case> {
    let full = damage::full_job_of(2);
    let file = full.to_file();
    let files = [
        to_files(jobs_by_hand()),
        damage::too_short(&file),
        damage::layouts(&file),
        damage::layouts(&empty_job().edition(2).to_file()),
        empty_jobs_between_the_editions(),
        damage::effects_and_timed_facts_past_counting(&file),
        to_files(damage::counts_at_highest(2)),
        to_files(damage::counts_one_above(2)),
        to_files(ranges::ranges(&full)),
        to_files(ranges::two_broken_records(2)),
        checking_order::pairs_of_refusals(2),
        damage::each_byte(&file),
        to_files(last_timed_fact_of_a_highest_job_broken()),
    ]
    .concat();
    let mut cases: Vec<Case> = files.into_iter().map(|file| Case::job('w', file)).collect();
    cases.extend(made_of(2, 'w', 200));
    cases
}

/// The empty job of edition 1 that says 2, with as many bytes more as its header lacks and fewer.
fn empty_jobs_between_the_editions() -> Vec<Vec<u8>> {
    let mut file = empty_job().to_file();
    file[0] = 2;
    (0..=5)
        .map(|more| [&file[..], &vec![0; more]].concat())
        .collect()
}

/// A job with every table full, and the same with its very last timed fact broken or both ways.
fn last_timed_fact_of_a_highest_job_broken() -> Vec<Job> {
    let job = highest_timed_job(1, 256);
    let mut broken = job.clone();
    broken.timed[63].value = 2;
    let mut both_ways = job.clone();
    both_ways.timed[63] = both_ways.timed[5];
    both_ways.timed[63].value = 1 - both_ways.timed[5].value;
    vec![job, broken, both_ways]
}

fn job_check_cases() -> Vec<Case> {
    let mut jobs = jobs_by_hand();
    jobs.push(highest_timed_job(2, 8));
    jobs.push(last_condition_of_a_highest_job_fails());
    let mut random = Random::seeded(10);
    for number in nearly_missed(2) {
        jobs.extend((0..30).map(|_| near_miss(&mut random, 2, number)));
    }
    let files = [checking_order::pairs_of_refusals(2), to_files(jobs)].concat();
    let mut cases: Vec<Case> = files.into_iter().map(|file| Case::job('c', file)).collect();
    cases.extend(made_of(2, 'c', 150));
    cases
}

fn last_condition_of_a_highest_job_fails() -> Job {
    let mut job = highest_timed_job(3, 256);
    job.conditions[511].wanted = 1 - job.conditions[511].wanted;
    job
}

fn timing_cases() -> Vec<Case> {
    let mut cases: Vec<Case> = timed_timings()
        .into_iter()
        .map(|(job, starts)| Case::timing(job.to_file(), &starts))
        .collect();
    for job in jobs_by_hand() {
        cases.extend(timings_at_the_earliest(&job));
        cases.extend(one_step_too_late(&job));
    }
    let broken = checking_order::one_of_each(2).into_iter();
    cases.extend(broken.map(|file| Case::timing(file, &[0])));
    let mut random = Random::seeded(14);
    for number in nearly_missed(2) {
        let missed = (0..20).map(|_| near_miss(&mut random, 2, number));
        cases.extend(missed.map(|job| at_written_starts(&job)));
    }
    cases.push(at_written_starts(&highest_timed_job(4, 8)));
    cases.extend(made_of(2, 't', 400));
    cases
}

/// The written starts with one step at its latest start, and a tick after it.
fn one_step_too_late(job: &Job) -> Vec<Case> {
    let Ok(file) = order_file_of(&job.to_file()) else {
        return vec![];
    };
    let mut cases = Vec::new();
    for (step, window) in file.windows.iter().enumerate() {
        for start in window.latest.into_iter().flat_map(|last| [last, last + 1]) {
            let mut starts = job.written_starts();
            starts[step] = start;
            cases.push(Case::timing(job.to_file(), &list(&starts)));
        }
    }
    cases
}

fn loosening_cases() -> Vec<Case> {
    let mut cases = Vec::new();
    for job in jobs_by_hand() {
        cases.extend(loosened_into_buffers_around(&job));
    }
    let broken = checking_order::one_of_each(2).into_iter();
    cases.extend(broken.map(|file| Case::loosening(file, 16)));
    let largest = [
        highest_timed_job(5, 1),
        highest_timed_job(5, 8),
        longest_sheet(),
    ];
    let ties = largest_timed_ties().into_iter().map(|(_, job)| job);
    cases.extend(largest.into_iter().chain(ties).map(|job| loosened(&job)));
    cases.push(Case::loosening(highest_timed_job(6, 256).to_file(), 24));
    cases.extend(made_of(2, 'l', 300));
    cases
}

// ---------------------------------------------------------------------------------------------
// Order files

fn header_cases() -> Vec<Case> {
    let files = order_files(files_with_timed_links()).into_iter();
    let mut cases: Vec<Case> = files.map(Case::header).collect();
    cases.extend(made_of(2, 'h', 60));
    cases
}

fn record_cases() -> Vec<Case> {
    let mut cases = Vec::new();
    for file in order_files(files_with_timed_links()) {
        cases.extend((0..4).map(|number| Case::record(file.clone(), 2, number)));
    }
    cases.extend(made_of(2, 'r', 80));
    cases
}

fn alike_cases() -> Vec<Case> {
    let plain = plain_file().to_file();
    let mut cases = Vec::new();
    for other in order_files(files_with_timed_links()) {
        cases.push(Case::alike(plain.clone(), other.clone()));
        cases.push(Case::alike(other, plain.clone()));
    }
    cases.extend(made_of(2, 'a', 60));
    cases
}
