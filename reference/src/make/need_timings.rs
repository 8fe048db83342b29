//! Timings of jobs of edition 3: starts that meet needs or leave them unmet, and where 21 comes.

use crate::job::Job;
use crate::make::timings::{Timed, LAST};
use crate::samples::calibration;

pub fn need_timings() -> Vec<Timed> {
    [
        starts_around_a_fall(),
        starts_around_a_rise(),
        starts_of_the_calibration(),
        written_starts_do_not_matter(),
        unmet_beside_other_refusals(),
        starts_past_counting_and_a_need(),
    ]
    .concat()
}

/// Step 0 needs two at its start and 3, step 1 takes one of two at its start and 1.
fn starts_around_a_fall() -> Vec<Timed> {
    let job = || {
        Job::default()
            .level(2, 0, 2)
            .step(0, 5)
            .step(9, 5)
            .uses(1, 0, 1, -1)
            .need(0, 0, 3, 2)
    };
    [
        [0, 9],
        [10, 13],
        [10, 12],
        [10, 11],
        [10, 0],
        [2_000_000, 3_000_000],
    ]
    .map(|starts| (job(), starts.to_vec()))
    .to_vec()
}

/// Step 0 needs two at its start and 3, step 1 brings the second at its start and 1; step 2 takes
/// and brings one at the ends of its length.
fn starts_around_a_rise() -> Vec<Timed> {
    let job = || {
        Job::default()
            .level(1, 0, 3)
            .step(30, 5)
            .step(0, 5)
            .step(40, 4)
            .uses(1, 0, 1, 1)
            .uses(2, 0, 0, -1)
            .uses(2, 0, 4, 1)
            .need(0, 0, 3, 2)
    };
    [
        [30, 0, 40],
        [30, 31, 40],
        [30, 32, 40],
        [30, 33, 40],
        [30, 0, 34],
        [30, 0, 33],
        [30, 0, 32],
        [30, 0, 29],
        [30, 0, 28],
    ]
    .map(|starts| (job(), starts.to_vec()))
    .to_vec()
}

/// One round must be back and the other must not leave before the end.
fn starts_of_the_calibration() -> Vec<Timed> {
    [
        [0, 35, 56],
        [0, 31, 52],
        [0, 30, 51],
        [0, 31, 51],
        [0, 31, 50],
        [100, 0, 21],
        [21, 0, 100],
        [20, 0, 100],
    ]
    .map(|starts| (calibration(), starts.to_vec()))
    .to_vec()
}

/// The timing check never asks whether the written starts meet a need.
fn written_starts_do_not_matter() -> Vec<Timed> {
    let mut unmet = calibration();
    unmet.steps[1].start = 10;
    vec![(unmet.clone(), vec![0, 31, 52]), (unmet, vec![0, 10, 56])]
}

/// 8 and 9 come before 21, 12 too, 13 after it.
fn unmet_beside_other_refusals() -> Vec<Timed> {
    let job = || {
        Job::with_facts(&[0])
            .level(2, 1, 2)
            .step(0, 5)
            .fixed_step(9, 5)
            .effect(0, 0, 2, 1)
            .uses(0, 0, 4, -1)
            .need(1, 0, 0, 1)
            .need(1, 0, 2, 2)
            .goal_by(0, 1, 10)
    };
    let taking_more = || job().uses(1, 0, 5, -1);
    let failing = || job().goal(0, 0);
    vec![
        (job(), vec![12, 9]),
        (job(), vec![8, 9]),
        (job(), vec![7, 9]),
        (job(), vec![6, 9]),
        (job(), vec![0, 9]),
        (job(), vec![0, 10]),
        (job(), vec![0]),
        (job(), vec![0, 9, 0]),
        (taking_more(), vec![0, 9]),
        (taking_more(), vec![8, 9]),
        (failing(), vec![7, 9]),
        (failing(), vec![8, 9]),
    ]
}

/// Sums past 4,294,967,295 that would lie before the other point if they began again at 0.
fn starts_past_counting_and_a_need() -> Vec<Timed> {
    let fall = || {
        Job::default()
            .level(1, 0, 1)
            .step(0, 6)
            .step(9, 6)
            .uses(1, 0, 6, -1)
            .need(0, 0, 0, 1)
    };
    let rise = || {
        Job::default()
            .level(0, 0, 1)
            .step(20, 6)
            .step(9, 6)
            .uses(1, 0, 0, 1)
            .need(0, 0, 6, 1)
    };
    vec![
        (fall(), vec![5, LAST]),
        (fall(), vec![LAST, LAST]),
        (fall(), vec![LAST, LAST - 6]),
        (fall(), vec![LAST, LAST - 5]),
        (rise(), vec![LAST, 5]),
        (rise(), vec![LAST, LAST]),
        (rise(), vec![LAST - 6, LAST]),
        (rise(), vec![LAST - 5, LAST]),
    ]
}
