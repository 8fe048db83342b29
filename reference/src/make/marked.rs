//! Jobs with the serial mark, which is read as if it were 0: each is named for what a version that
//! still heeds the mark would say of it.

use crate::job::{Job, HIGHEST};
use crate::make::telling::small_job;
use crate::make::timings::{Timed, LAST};

fn marked() -> Job {
    Job::default().serial()
}

/// Document 01's two serial cases.
pub fn steps_that_touch() -> Job {
    marked().step(0, 5).step(5, 2)
}

pub fn steps_that_overlap_by_one() -> Job {
    marked().step(0, 5).step(4, 2)
}

pub fn marked_without_steps() -> Job {
    marked()
}

pub fn marked_small_job() -> Job {
    small_job().serial()
}

pub fn steps_apart() -> Job {
    marked().step(20, 4).step(0, 5).step(9, 2)
}

pub fn steps_of_no_length_at_one_tick() -> Job {
    marked().step(6, 0).step(2, 3).step(6, 0).step(6, 0)
}

pub fn step_of_no_length_where_a_lower_one_starts() -> Job {
    marked().step(5, 3).step(5, 0)
}

pub fn step_of_no_length_where_a_higher_one_ends() -> Job {
    marked().step(5, 0).step(2, 3)
}

pub fn step_of_no_length_within_another() -> Job {
    marked().step(2, 3).step(3, 0)
}

pub fn two_steps_in_one() -> Job {
    marked().step(3, 1).step(3, 1)
}

pub fn only_the_last_two_overlap() -> Job {
    marked().step(90, 5).step(0, 1).step(40, 9).step(48, 2)
}

pub fn fixed_steps_that_overlap() -> Job {
    marked().fixed_step(7, 9).step(30, 1).fixed_step(12, 9)
}

/// Support asks for a gap of 0, the length of the first step would be 5.
pub fn support_asks_for_less_than_the_length() -> Job {
    Job::with_facts(&[0])
        .serial()
        .step(0, 5)
        .step(6, 2)
        .condition(1, 0, 2, 2, 1)
        .effect(0, 0, 1, 1)
}

pub fn every_step_at_one_tick() -> Job {
    (0..HIGHEST[2]).fold(marked(), |job, _| job.step(3, 2))
}

pub fn timed_fact_while_a_step_lasts() -> Job {
    Job::with_facts(&[0])
        .serial()
        .step(0, 5)
        .step(5, 2)
        .timed(0, 3, 1)
}

pub fn overlapping_steps_behind_the_clock() -> Job {
    Job::with_facts(&[0])
        .serial()
        .step(20, 9)
        .step(21, 9)
        .condition(1, 0, 0, 9, 1)
        .timed(0, 4, 1)
}

pub fn overlapping_steps_and_a_need() -> Job {
    marked()
        .level(5, 0, 9)
        .step(10, 4)
        .step(12, 9)
        .uses(1, 0, 0, -1)
        .need(0, 0, 1, 5)
}

/// All that are sound, with their names.
pub fn marked_telling_jobs() -> Vec<(&'static str, Job)> {
    by_name![
        steps_that_touch,
        steps_that_overlap_by_one,
        marked_without_steps,
        marked_small_job,
        steps_apart,
        steps_of_no_length_at_one_tick,
        step_of_no_length_where_a_lower_one_starts,
        step_of_no_length_where_a_higher_one_ends,
        step_of_no_length_within_another,
        two_steps_in_one,
        only_the_last_two_overlap,
        fixed_steps_that_overlap,
        support_asks_for_less_than_the_length,
        every_step_at_one_tick,
        timed_fact_while_a_step_lasts,
        overlapping_steps_behind_the_clock,
        overlapping_steps_and_a_need,
    ]
}

/// Overlapping steps beside what is refused: 6, 7, 17, 10, 11, 12, 21 and 13.
pub fn marked_and_refused() -> Vec<Job> {
    let job = || {
        Job::with_facts(&[0])
            .serial()
            .level(2, 0, 2)
            .step(5, 4)
            .step(6, 4)
    };
    vec![
        job().goal(1, 0),
        job().effect(0, 0, 2, 1).effect(0, 0, 2, 0),
        job().timed(0, 9, 1).timed(0, 9, 0),
        job().effect(0, 0, 2, 1).effect(1, 0, 1, 0),
        job().condition(0, 0, 0, 0, 1),
        job().uses(0, 0, 3, 1),
        job().need(0, 0, 0, 3),
        job().goal(0, 1),
    ]
}

/// Steps that touch, overlap or take no time, up to the end of counting.
pub fn marked_timings() -> Vec<Timed> {
    let two = [
        [0, 5],
        [0, 4],
        [0, 0],
        [2, 0],
        [1, 0],
        [LAST, 3],
        [LAST - 1, LAST],
        [LAST; 2],
    ];
    let with_no_length = [[0, 0], [5, 8], [5, 6], [LAST, LAST], [LAST - 1, LAST]];
    let two = two.map(|starts| (steps_that_touch(), starts.to_vec()));
    let job = step_of_no_length_where_a_lower_one_starts;
    let with_no_length = with_no_length.map(|starts| (job(), starts.to_vec()));
    let fixed = [[7, 8, 12], [7, 0, 11]];
    let fixed = fixed.map(|starts| (fixed_steps_that_overlap(), starts.to_vec()));
    [&two[..], &with_no_length, &fixed].concat()
}
