//! Timings of jobs of edition 2: what the clock does to starts, and where 17 comes.

use crate::job::Job;
use crate::make::telling::{fixed_step_between, small_job};
use crate::make::timings::{Timed, LAST};

pub fn timed_timings() -> Vec<Timed> {
    [
        both_ways_before_8_and_9(),
        lists_with_a_start_for_the_clock(),
        starts_around_the_clock(),
        starts_past_counting_and_the_clock(),
    ]
    .concat()
}

/// 17 comes before 8, whatever the list, and before 9.
fn both_ways_before_8_and_9() -> Vec<Timed> {
    let both_ways = |job: Job| job.timed(0, 7, 1).timed(0, 7, 0);
    vec![
        (both_ways(small_job()), vec![10, 20]),
        (both_ways(small_job()), vec![10]),
        (both_ways(small_job()), vec![10, 20, 0]),
        (both_ways(fixed_step_between()), vec![3, 51, 60]),
        (both_ways(fixed_step_between()), vec![3, 51]),
    ]
}

/// A list one longer than the steps is 8: the clock has no entry.
fn lists_with_a_start_for_the_clock() -> Vec<Timed> {
    let job = || small_job().timed(0, 2, 1);
    vec![
        (job(), vec![10, 20]),
        (job(), vec![10, 20, 0]),
        (job(), vec![10, 20, 5]),
        (Job::with_facts(&[0]).timed(0, 2, 1), vec![]),
        (Job::with_facts(&[0]).timed(0, 2, 1), vec![0]),
    ]
}

/// Step 1 of the small job ends fact 0 at its start and 3; step 0 gives fact 1 at its start and 5.
/// The clock gives fact 0 at 30 and takes fact 1 at 40.
fn starts_around_the_clock() -> Vec<Timed> {
    let job = || small_job().timed(0, 30, 1).timed(1, 40, 0);
    [
        [10, 20],
        [10, 27],
        [10, 26],
        [10, 28],
        [20, 36],
        [20, 37],
        [20, 41],
        [35, 50],
        [36, 50],
        [36, 41],
    ]
    .map(|starts| (job(), starts.to_vec()))
    .to_vec()
}

/// Sums past 4,294,967,295 that would meet the clock if they began again at 0.
fn starts_past_counting_and_the_clock() -> Vec<Timed> {
    let set = |value| {
        Job::with_facts(&[0])
            .step(20, 6)
            .effect(0, 0, 6, 1)
            .timed(0, 5, value)
    };
    let wanted = |tick, value| {
        Job::with_facts(&[1])
            .step(0, 4)
            .condition(0, 0, 4, 4, 1)
            .timed(0, tick, value)
    };
    vec![
        (set(0), vec![LAST]),
        (set(1), vec![LAST]),
        (set(0).goal(0, 1), vec![LAST]),
        (set(0).goal_by(0, 1, 30), vec![LAST]),
        (set(0).goal_by(0, 1, 30), vec![24]),
        (set(0).goal_by(0, 1, 30), vec![25]),
        (wanted(9, 0), vec![LAST]),
        (wanted(9, 0), vec![4]),
        (wanted(9, 0), vec![5]),
        (wanted(9, 1), vec![LAST]),
    ]
}
