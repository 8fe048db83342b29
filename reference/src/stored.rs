//! The stored cases of the replay program, and the lines expected of them.

use crate::cases::{answers, cases_file, Case, LONGEST_FIELD, MOST_FURTHER};
use crate::job::Job;
use crate::loosen::order_file_of;
use crate::made::made_case_of;
use crate::make::edges::edges;
use crate::make::highest::{chain_of_all_steps, every_pair_ordered_both_ways, highest_job};
use crate::make::near_miss::near_miss;
use crate::make::order_files::{
    alike_files, broken_files, each_byte, files_at_the_limits, highest_file, plain_file,
    too_many_orders, unlike_files,
};
use crate::make::own_conflicts::own_conflicts;
use crate::make::telling::{empty_job, small_job, telling_jobs};
use crate::make::ties::largest_ties;
use crate::make::timings::telling_timings;
use crate::make::{checking_order, damage, ranges};
use crate::order_file::OrderFile;
use crate::random::Random;
use crate::samples::{sample, SAMPLES};
use crate::stored_marked;
use crate::stored_needs;
use crate::stored_pairs;
use crate::stored_texts;
use crate::stored_timed;

/// The commands that the replay program serves; the others join here as it learns them.
pub const SERVED: &str = "whractlpf";

pub struct Stored {
    pub cases: Vec<u8>,
    pub stdout: String,
}

/// The stored cases of these commands, with jobs of every edition that is taken.
pub fn stored(commands: &str) -> Stored {
    let cases: Vec<Case> = commands.chars().flat_map(stored_cases).collect();
    let cases = cases_file(&cases);
    let stdout = answers(&cases);
    Stored { cases, stdout }
}

/// The stored cases of one command do not depend on which others are served.
pub fn stored_cases(command: char) -> Vec<Case> {
    if command == 'f' {
        return stored_texts::cases();
    }
    let mut cases = cases_of_edition_1(command);
    cases.extend(stored_timed::cases_of_edition_2(command));
    cases.extend(stored_needs::cases_of_edition_3(command));
    cases.extend(stored_marked::cases(command));
    cases
}

fn cases_of_edition_1(command: char) -> Vec<Case> {
    match command {
        'w' => well_formedness_cases(),
        'c' => job_check_cases(),
        't' => timing_cases(),
        'h' => header_cases(),
        'r' => record_cases(),
        'a' => alike_cases(),
        'l' => loosening_cases(),
        'p' => stored_pairs::cases_of_edition_1(),
        _ => panic!("there is no command {command}"),
    }
}

fn made(command: char, count: usize) -> Vec<Case> {
    made_of(1, command, count)
}

pub fn made_of(edition: u16, command: char, count: usize) -> Vec<Case> {
    let mut random = Random::seeded(u64::from(command));
    (0..count)
        .map(|_| made_case_of(edition, &mut random, command))
        .collect()
}

// ---------------------------------------------------------------------------------------------
// Jobs

pub fn to_files(jobs: Vec<Job>) -> Vec<Vec<u8>> {
    jobs.iter().map(Job::to_file).collect()
}

/// The jobs made by hand: what tells mistakes apart, the edges of the refusals, the samples.
fn jobs_by_hand() -> Vec<Job> {
    let telling = telling_jobs().into_iter().map(|(_, job)| job);
    let samples = SAMPLES.into_iter().filter_map(sample);
    telling
        .chain(edges())
        .chain(own_conflicts())
        .chain(samples)
        .collect()
}

fn well_formedness_cases() -> Vec<Case> {
    let full = damage::full_job();
    let file = full.to_file();
    let files = [
        to_files(jobs_by_hand()),
        damage::too_short(&file),
        damage::layouts(&file),
        damage::layouts(&empty_job().to_file()),
        to_files(damage::counts_at_highest(1)),
        to_files(damage::counts_one_above(1)),
        to_files(ranges::ranges(&full)),
        to_files(ranges::two_broken_records(1)),
        checking_order::pairs_of_refusals(1),
        damage::each_byte(&file),
        to_files(last_record_of_a_highest_job_broken()),
    ]
    .concat();
    let mut cases: Vec<Case> = files.into_iter().map(|file| Case::job('w', file)).collect();
    cases.extend(made('w', 300));
    cases
}

/// A job with every table full, and the same with its very last goal or effect broken.
fn last_record_of_a_highest_job_broken() -> Vec<Job> {
    let job = highest_job(1, 256);
    let mut goal = job.clone();
    goal.goals[31].value = 2;
    let mut effect = goal.clone();
    effect.effects[511].value = 2;
    vec![job, goal, effect]
}

fn job_check_cases() -> Vec<Case> {
    let mut jobs = jobs_by_hand();
    jobs.push(highest_job(2, 8));
    jobs.extend(last_record_of_a_highest_job_fails());
    let mut random = Random::seeded(10);
    for number in 10..=13 {
        jobs.extend((0..40).map(|_| near_miss(&mut random, 1, number)));
    }
    let files = [checking_order::pairs_of_refusals(1), to_files(jobs)].concat();
    let mut cases: Vec<Case> = files.into_iter().map(|file| Case::job('c', file)).collect();
    cases.extend(made('c', 250));
    cases
}

/// A full job of which only the last condition, or only the last goal, fails.
fn last_record_of_a_highest_job_fails() -> Vec<Job> {
    let job = highest_job(3, 256);
    let mut condition = job.clone();
    condition.conditions[511].wanted = 1 - job.conditions[511].wanted;
    let mut goal = job.clone();
    goal.goals[31].value = 1 - job.goals[31].value;
    vec![condition, goal]
}

fn timing_cases() -> Vec<Case> {
    let mut cases: Vec<Case> = telling_timings()
        .into_iter()
        .map(|(job, starts)| Case::timing(job.to_file(), &starts))
        .collect();
    for job in jobs_by_hand() {
        cases.extend(timings_at_the_earliest(&job));
    }
    // A list of another length is found only after what is wrong with the job.
    let broken = checking_order::one_of_each(1).into_iter();
    cases.extend(broken.map(|file| Case::timing(file, &[0])));
    cases.extend(lists_too_long());
    let mut random = Random::seeded(14);
    for number in 10..=13 {
        let missed = (0..25).map(|_| near_miss(&mut random, 1, number));
        cases.extend(missed.map(|job| at_written_starts(&job)));
    }
    cases.push(at_written_starts(&highest_job(4, 8)));
    cases.extend(made('t', 700));
    cases
}

/// Lists whose lengths differ from the steps only above their lowest 8 or 16 bits.
fn lists_too_long() -> Vec<Case> {
    let mut cases = Vec::new();
    for job in [empty_job(), small_job(), chain_of_all_steps()] {
        let starts = list(&job.written_starts());
        for further in [1, 256, MOST_FURTHER] {
            cases.push(Case::timing_and_further(job.to_file(), &starts, further));
        }
    }
    cases
}

/// The earliest times of a sound job, and with one step too early.
pub fn timings_at_the_earliest(job: &Job) -> Vec<Case> {
    let Ok(file) = order_file_of(&job.to_file()) else {
        return vec![at_written_starts(job)];
    };
    let earliest = file.earliest_times();
    let mut cases = vec![Case::timing(job.to_file(), &list(&earliest))];
    cases.extend(one_step_too_early(job, &earliest));
    cases
}

pub fn at_written_starts(job: &Job) -> Case {
    Case::timing(job.to_file(), &list(&job.written_starts()))
}

pub fn list(starts: &[i64]) -> Vec<u32> {
    let within = |&start| u32::try_from(start).expect("a start fits");
    starts.iter().map(within).collect()
}

/// The earliest times with one step a tick earlier: an order of that step is broken.
fn one_step_too_early(job: &Job, earliest: &[i64]) -> Vec<Case> {
    let raised = (0..earliest.len()).filter(|&step| earliest[step] > 0);
    raised
        .map(|step| {
            let mut starts = list(earliest);
            starts[step] -= 1;
            Case::timing(job.to_file(), &starts)
        })
        .collect()
}

fn loosening_cases() -> Vec<Case> {
    let mut cases = Vec::new();
    for job in jobs_by_hand() {
        cases.extend(loosened_into_buffers_around(&job));
    }
    let broken = checking_order::one_of_each(1).into_iter();
    cases.extend(broken.map(|file| Case::loosening(file, 16)));
    let largest = [
        every_pair_ordered_both_ways(),
        chain_of_all_steps(),
        highest_job(5, 8),
    ];
    let ties = largest_ties().into_iter().map(|(_, job)| job);
    cases.extend(largest.into_iter().chain(ties).map(|job| loosened(&job)));
    cases.push(Case::loosening(highest_job(6, 256).to_file(), 24));
    cases.extend(long_buffers());
    cases.extend(made('l', 500));
    cases
}

/// Buffers longer than the file by more than a record, or than a number of a few bits tells; for a
/// refused job, as long; and buffers shorter than a file by as much.
fn long_buffers() -> Vec<Case> {
    let mut random = Random::seeded(17);
    let mut jobs = vec![empty_job(), small_job()];
    jobs.extend((10..=13).map(|number| near_miss(&mut random, 1, number)));
    let mut cases = Vec::new();
    for file in [to_files(jobs), checking_order::one_of_each(1)].concat() {
        let length = length_for(&file);
        for length in [length + 9, length + 64, length + 1_000, LONGEST_FIELD] {
            cases.push(Case::loosening(file.clone(), length));
        }
    }
    let file = every_pair_ordered_both_ways().to_file();
    let length = length_for(&file);
    for missing in [1, 9, 64, 1_000, length - 24] {
        cases.push(Case::loosening(file.clone(), length - missing));
    }
    cases.push(Case::loosening(file, LONGEST_FIELD));
    cases
}

/// A buffer of just the length.
pub fn loosened(job: &Job) -> Case {
    let file = job.to_file();
    let length = length_for(&file);
    Case::loosening(file, length)
}

/// A buffer of just the length, and one a byte too short; a refused job says so even to none.
pub fn loosened_into_buffers_around(job: &Job) -> Vec<Case> {
    let file = job.to_file();
    let length = length_for(&file);
    let lengths = match order_file_of(&file) {
        Ok(_) => [length, length - 1],
        Err(_) => [length, 0],
    };
    lengths
        .into_iter()
        .map(|length| Case::loosening(file.clone(), length))
        .collect()
}

/// The length of a job's order file; for a refused job, some bytes that must stay.
pub fn length_for(file: &[u8]) -> usize {
    order_file_of(file).map_or(20, |written| written.to_file().len())
}

// ---------------------------------------------------------------------------------------------
// Order files

pub fn order_files(files: Vec<OrderFile>) -> Vec<Vec<u8>> {
    files.iter().map(OrderFile::to_file).collect()
}

fn broken() -> Vec<Vec<u8>> {
    broken_files().into_iter().map(|(_, file)| file).collect()
}

fn header_cases() -> Vec<Case> {
    let files = [
        order_files(files_at_the_limits()),
        order_files(vec![highest_file()]),
        broken(),
        too_many_orders(),
        each_byte(),
    ]
    .concat();
    let mut cases: Vec<Case> = files.into_iter().map(Case::header).collect();
    cases.extend(made('h', 150));
    cases
}

fn record_cases() -> Vec<Case> {
    let plain = plain_file().to_file();
    let mut cases = Vec::new();
    for table in [0, 1, 2, 3, 256, 65_536, u32::MAX] {
        for number in [0, 1, 3, 4, 5, 256, 65_536, 1 << 31, u32::MAX] {
            cases.push(Case::record(plain.clone(), table, number));
        }
    }
    let mut random = Random::seeded(16);
    for file in [order_files(files_at_the_limits()), broken()].concat() {
        let table = random.below(4) as u32;
        cases.push(Case::record(file, table, random.below(4) as u32));
    }
    let highest = highest_file().to_file();
    for (table, number) in [(0, 63), (0, 64), (1, 4_031), (1, 4_032), (2, 543), (2, 544)] {
        cases.push(Case::record(highest.clone(), table, number));
    }
    cases.extend(made('r', 260));
    cases
}

fn alike_cases() -> Vec<Case> {
    let plain = plain_file().to_file();
    let mut cases = Vec::new();
    for other in order_files([unlike_files(), alike_files()].concat()) {
        cases.push(Case::alike(plain.clone(), other.clone()));
        cases.push(Case::alike(other, plain.clone()));
    }
    for file in broken() {
        cases.push(Case::alike(plain.clone(), file.clone()));
        cases.push(Case::alike(file.clone(), plain.clone()));
    }
    for two in broken().windows(2).step_by(8) {
        cases.push(Case::alike(two[0].clone(), two[1].clone()));
    }
    let highest = highest_file();
    let mut last_gap = highest.clone();
    last_gap.orders[4_031].gap += 1;
    cases.push(Case::alike(highest.to_file(), highest.to_file()));
    cases.push(Case::alike(highest.to_file(), last_gap.to_file()));
    cases.extend(made('a', 150));
    cases
}
