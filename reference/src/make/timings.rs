//! Timings for the timing check: starts for a job, good, nearly good, and past every limit.

use crate::brute::obeying_choice;
use crate::job::{Job, Step};
use crate::loosen::order_file_of;
use crate::make::telling::{fixed_step_between, small_job};
use crate::random::Random;

pub const LAST: u32 = u32::MAX;

/// A job and the starts to check it with.
pub type Timed = (Job, Vec<u32>);

pub fn telling_timings() -> Vec<Timed> {
    [
        starts_of_the_small_job(),
        lists_of_another_length(),
        fixed_steps_moved(),
        starts_past_counting(),
        written_starts_do_not_matter(),
    ]
    .concat()
}

fn starts_of_the_small_job() -> Vec<Timed> {
    let starts = [
        [10, 20],
        [10, 16],
        [10, 15],
        [0, 6],
        [0, 5],
        [20, 10],
        [1000, 2000],
    ];
    starts.map(|starts| (small_job(), starts.to_vec())).to_vec()
}

/// Refusal 8, also where a fixed step stands elsewhere.
fn lists_of_another_length() -> Vec<Timed> {
    vec![
        (small_job(), vec![]),
        (small_job(), vec![10]),
        (small_job(), vec![10, 20, 30]),
        (fixed_step_between(), vec![3, 51]),
        (Job::default(), vec![]),
        (Job::default(), vec![0]),
    ]
}

/// Refusal 9: the lowest fixed step that moved, before anything that fails.
fn fixed_steps_moved() -> Vec<Timed> {
    let three = || {
        Job::with_facts(&[0])
            .fixed_step(1, 1)
            .step(2, 1)
            .fixed_step(3, 1)
    };
    let failing = || three().goal(0, 1);
    vec![
        (three(), vec![1, 90, 3]),
        (three(), vec![0, 2, 4]),
        (three(), vec![1, 2, 4]),
        (three(), vec![2, 2, 3]),
        (three(), vec![1, 2, 3 + (1 << 16)]),
        (failing(), vec![1, 2, 4]),
        (failing(), vec![1, 2, 3]),
        (fixed_step_between(), vec![0, 50, 53]),
        (fixed_step_between(), vec![0, 49, 53]),
    ]
}

/// Sums past 4,294,967,295: each would be judged otherwise if it began again at 0.
fn starts_past_counting() -> Vec<Timed> {
    let meeting = || {
        Job::with_facts(&[0])
            .step(0, 6)
            .step(20, 6)
            .effect(0, 0, 6, 1)
            .effect(1, 0, 0, 0)
    };
    let opposed = || {
        Job::with_facts(&[1])
            .step(0, 3)
            .step(9, 0)
            .condition(0, 0, 0, 3, 1)
            .effect(1, 0, 0, 0)
    };
    let lent = || {
        Job::default()
            .level(0, 0, 1)
            .step(0, 2)
            .step(0, 2)
            .uses(0, 0, 0, 1)
            .uses(1, 0, 2, -1)
    };
    let due = || {
        Job::with_facts(&[0])
            .step(0, 6)
            .effect(0, 0, 6, 1)
            .goal_by(0, 1, 10)
    };
    vec![
        (small_job(), vec![LAST - 3, 20]),
        (small_job(), vec![LAST - 5, LAST]),
        (small_job(), vec![LAST - 6, LAST]),
        (small_job(), vec![LAST, LAST]),
        (meeting(), vec![LAST, 5]),
        (meeting(), vec![LAST - 6, LAST]),
        (meeting(), vec![LAST - 5, LAST]),
        (opposed(), vec![LAST, LAST]),
        (opposed(), vec![LAST - 3, LAST]),
        (opposed(), vec![LAST - 4, LAST]),
        (lent(), vec![LAST, LAST]),
        (lent(), vec![LAST, LAST - 2]),
        (lent(), vec![LAST, LAST - 3]),
        (due(), vec![LAST]),
        (due(), vec![4]),
        (due(), vec![5]),
        (due(), vec![1 << 31]),
    ]
}

/// The timing check never asks whether the written starts are sound.
fn written_starts_do_not_matter() -> Vec<Timed> {
    let mut unsound = small_job();
    unsound.steps[1].start = 3;
    vec![(unsound.clone(), vec![10, 20]), (unsound, vec![10, 3])]
}

/// Starts for any well-formed job.
pub fn some_starts(random: &mut Random, job: &Job) -> Vec<u32> {
    let written: Vec<i64> = job.written_starts();
    let starts = match random.below(10) {
        0 => written,
        1..4 => obeying(random, job),
        4..7 => moved(random, job, written),
        7 => shuffled_steps(random, job, written),
        8 => shifted(random, written),
        _ => anywhere(random, job),
    };
    let mut starts: Vec<u32> = starts.into_iter().map(within_u32).collect();
    if random.chance(3) {
        starts.push(0);
    } else if random.chance(3) {
        starts.pop();
    }
    starts
}

fn within_u32(start: i64) -> u32 {
    start.clamp(0, i64::from(LAST)) as u32
}

/// A choice that obeys the job's order file, if the job is sound.
fn obeying(random: &mut Random, job: &Job) -> Vec<i64> {
    match order_file_of(&job.to_file()) {
        Ok(file) => obeying_choice(random, &file),
        Err(_) => job.written_starts(),
    }
}

/// One step, not often a fixed one, moved by a little.
fn moved(random: &mut Random, job: &Job, mut starts: Vec<i64>) -> Vec<i64> {
    if starts.is_empty() {
        return starts;
    }
    let step = random.below(starts.len());
    if !job.steps[step].is_fixed() || random.chance(20) {
        starts[step] += random.pick(&[-5, -2, -1, -1, 1, 1, 2, 5]);
    }
    starts
}

/// Two steps change places.
fn shuffled_steps(random: &mut Random, job: &Job, mut starts: Vec<i64>) -> Vec<i64> {
    let movable: Vec<usize> = (0..starts.len())
        .filter(|&step| !job.steps[step].is_fixed())
        .collect();
    if !movable.is_empty() {
        starts.swap(random.pick(&movable), random.pick(&movable));
    }
    starts
}

/// All steps later by the same, up to the end of counting.
fn shifted(random: &mut Random, starts: Vec<i64>) -> Vec<i64> {
    let last = starts.iter().copied().max().unwrap_or(0);
    let most = i64::from(LAST) - last;
    let by = random.pick(&[1, 1 << 16, 1 << 31, most - 1, most, most + 3]);
    starts.into_iter().map(|start| start + by).collect()
}

fn anywhere(random: &mut Random, job: &Job) -> Vec<i64> {
    let last = random.pick(&[5, 20, 100]);
    let place = |step: &Step| match step.is_fixed() {
        true => step.start,
        false => random.between(0, last),
    };
    job.steps.iter().map(place).collect()
}
