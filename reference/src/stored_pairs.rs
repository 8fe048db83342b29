//! The stored cases of the search for a fact that a step sets both ways.

use crate::cases::Case;
use crate::job::Job;
use crate::make::highest::{highest_job, highest_needs_job, highest_timed_job};
use crate::make::own_conflicts::own_conflicts;
use crate::make::pairs::{
    beside_needs, beside_timed_facts, for_damage, large_pairs, one_effect_too_many, small_pairs,
};
use crate::make::telling::{empty_job, small_job};
use crate::make::timed_edges::{both_ways_and_more, timed_facts_both_ways};
use crate::make::{checking_order, damage};
use crate::samples::{barriers, calibration};
use crate::stored::{made_of, to_files};

pub fn cases_of_edition_1() -> Vec<Case> {
    let mut jobs = [small_pairs(), own_conflicts(), large_pairs()].concat();
    jobs.extend([empty_job(), small_job(), damage::full_job()]);
    jobs.extend([one_effect_too_many(), highest_job(7, 256)]);
    jobs.extend(damage::counts_at_highest(1));
    cases_of(1, jobs, 150)
}

pub fn cases_of_edition_2() -> Vec<Case> {
    let mut jobs = [beside_timed_facts(), timed_facts_both_ways()].concat();
    jobs.extend(both_ways_and_more());
    let untimed = [small_pairs(), large_pairs(), damage::counts_at_highest(2)].concat();
    jobs.extend(untimed.into_iter().map(|job| job.edition(2)));
    jobs.extend([barriers(), highest_timed_job(7, 256)]);
    cases_of(2, jobs, 150)
}

pub fn cases_of_edition_3() -> Vec<Case> {
    let mut jobs = beside_needs();
    jobs.extend(small_pairs().into_iter().map(|job| job.edition(3)));
    jobs.extend([calibration(), highest_needs_job(7, 256)]);
    let files = [to_files(jobs), checking_order::one_of_each(3)].concat();
    let mut cases: Vec<Case> = files.into_iter().map(|file| Case::job('p', file)).collect();
    cases.extend(made_of(3, 'p', 60));
    cases
}

/// These jobs, files for each refusal, a small job cut short and damaged at each byte, made ones.
fn cases_of(edition: u16, jobs: Vec<Job>, made: usize) -> Vec<Case> {
    let small = for_damage(edition).to_file();
    let files = [
        to_files(jobs),
        checking_order::one_of_each(edition),
        cut_short(&small),
        damage::each_byte(&small),
    ]
    .concat();
    let mut cases: Vec<Case> = files.into_iter().map(|file| Case::job('p', file)).collect();
    cases.extend(made_of(edition, 'p', made));
    cases
}

/// Around the lengths of both headers.
fn cut_short(file: &[u8]) -> Vec<Vec<u8>> {
    let lengths = [0, 1, 47, 48, 51, 52];
    lengths.map(|length| file[..length].to_vec()).to_vec()
}
