//! Jobs at the edge of the refusals 10 to 13, on either side of it.

use crate::job::Job;
use crate::make::telling::small_job;

/// Step 1 of the paper's job at 16 is accepted, at 15 it is refused: an effect is not yet seen at
/// its own tick.
pub fn effect_at_the_first_tick_of_a_condition() -> Vec<Job> {
    (14..=17)
        .map(|start| {
            let mut job = small_job();
            job.steps[1].start = start;
            job
        })
        .collect()
}

/// Another step opposes a condition from 10 to 12, at 8 to 14. The last tick counts.
pub fn another_step_opposes_a_condition() -> Vec<Job> {
    (8..=14)
        .map(|tick| {
            Job::with_facts(&[1])
                .step(10, 2)
                .step(tick, 0)
                .condition(0, 0, 0, 2, 1)
                .effect(1, 0, 0, 0)
        })
        .collect()
}

/// The own step opposes a condition at its last tick, and at the tick of a one-tick condition.
pub fn the_own_step_opposes_a_condition() -> Vec<Job> {
    let job = || Job::with_facts(&[1]).step(10, 4);
    vec![
        job().condition(0, 0, 0, 4, 1).effect(0, 0, 4, 0),
        job().condition(0, 0, 0, 3, 1).effect(0, 0, 4, 0),
        job().condition(0, 0, 2, 2, 1).effect(0, 0, 2, 0),
        job().condition(0, 0, 2, 2, 1).effect(0, 0, 1, 0),
        job()
            .condition(0, 0, 2, 2, 1)
            .effect(0, 0, 1, 0)
            .effect(0, 0, 0, 1),
        job()
            .step(10, 4)
            .condition(0, 0, 0, 4, 1)
            .effect(1, 0, 4, 0),
    ]
}

/// A value taken away and given back while it is wanted.
pub fn a_value_lost_in_between() -> Vec<Job> {
    let job = |lost, regained| {
        Job::with_facts(&[1])
            .step(10, 20)
            .step(lost, 0)
            .step(regained, 0)
            .condition(0, 0, 5, 15, 1)
            .effect(1, 0, 0, 0)
            .effect(2, 0, 0, 1)
    };
    vec![
        job(17, 20),
        job(12, 14),
        job(12, 15),
        job(26, 29),
        job(25, 29),
    ]
}

/// A long condition, of which one tick decides.
pub fn a_long_condition() -> Vec<Job> {
    let job = |tick| {
        Job::with_facts(&[1])
            .step(0, 100_000)
            .step(tick, 0)
            .condition(0, 0, 0, 100_000, 1)
            .effect(1, 0, 0, 0)
    };
    vec![job(0), job(50_000), job(99_999), job(100_000), job(100_001)]
}

/// Falls at one tick do not wait for its rises, nor rises for its falls.
pub fn rises_and_falls_at_one_tick() -> Vec<Job> {
    let job = |least, most| {
        Job::default()
            .level(1, least, most)
            .step(4, 0)
            .step(2, 2)
            .uses(0, 0, 0, -1)
            .uses(1, 0, 2, 1)
    };
    vec![job(0, 1), job(0, 2), job(1, 2), job(1, 1)]
}

/// All falls of one tick count together, and all rises.
pub fn sums_of_one_tick() -> Vec<Job> {
    let job = |sign: i64, least, most| {
        Job::default()
            .level(0, least, most)
            .step(4, 0)
            .step(4, 0)
            .step(4, 0)
            .uses(0, 0, 0, 2 * sign)
            .uses(1, 0, 0, 3 * sign)
            .uses(2, 0, 0, -sign)
    };
    vec![
        job(1, -1, 5),
        job(1, -1, 4),
        job(1, 0, 5),
        job(-1, -5, 1),
        job(-1, -4, 1),
        job(-1, -5, 0),
    ]
}

/// A level that reaches its bounds, and passes them by one, by uses at later ticks.
pub fn levels_at_their_bounds() -> Vec<Job> {
    let job = |amount, again| {
        Job::default()
            .level(0, 0, 9)
            .level(2, 0, 3)
            .step(1, 0)
            .step(3, 0)
            .uses(0, 1, 0, amount)
            .uses(1, 1, 0, again)
    };
    vec![
        job(-2, 3),
        job(-3, 3),
        job(-2, 4),
        job(1, -3),
        job(2, -2),
        job(1, -4),
        job(-1, -1),
        job(-1, -2),
    ]
}

/// A deadline around the tick 15 of the effect that brings the goal.
pub fn deadlines_around_the_effect() -> Vec<Job> {
    (13..=17)
        .map(|tick| small_job().goal_by(1, 1, tick))
        .collect()
}

/// A goal that holds in the end and by its deadline, but not at every tick after it.
pub fn goal_lost_and_regained() -> Vec<Job> {
    let job = |deadline| {
        Job::with_facts(&[1])
            .step(10, 0)
            .step(20, 0)
            .effect(0, 0, 0, 0)
            .effect(1, 0, 0, 1)
            .goal(0, 1)
            .goal_by(0, 1, deadline)
    };
    [0, 9, 10, 11, 19, 20, 21].map(job).to_vec()
}

/// Goals that are never brought about, or are taken away.
pub fn goals_that_fail() -> Vec<Job> {
    vec![
        Job::with_facts(&[0]).goal(0, 1),
        Job::with_facts(&[0]).goal_by(0, 1, 5),
        Job::with_facts(&[0]).goal_by(0, 0, 0),
        Job::with_facts(&[1])
            .step(3, 0)
            .effect(0, 0, 0, 0)
            .goal(0, 1),
        Job::with_facts(&[1, 0])
            .step(3, 0)
            .effect(0, 0, 0, 0)
            .goal(1, 0)
            .goal(0, 1),
    ]
}

/// Opposing effects at one tick, near it, of one value, on two facts.
pub fn meeting_effects() -> Vec<Job> {
    let job = |tick, value| {
        Job::with_facts(&[0, 0])
            .step(5, 3)
            .step(tick, 3)
            .effect(0, 1, 0, 1)
            .effect(0, 0, 3, 1)
            .effect(1, 0, 1, value)
    };
    vec![
        job(6, 0),
        job(7, 0),
        job(8, 0),
        job(7, 1),
        Job::with_facts(&[0, 0])
            .step(5, 0)
            .step(5, 0)
            .effect(0, 0, 0, 1)
            .effect(1, 1, 0, 0),
    ]
}

/// The lowest record concerned, which is not the first that a search by time or pairs meets.
pub fn lowest_places() -> Vec<Job> {
    let quiet = || {
        Job::with_facts(&[0, 0, 0])
            .step(50, 0)
            .step(9, 0)
            .step(9, 0)
            .step(3, 0)
            .step(3, 0)
    };
    vec![
        quiet()
            .effect(0, 2, 0, 1)
            .effect(1, 0, 0, 1)
            .effect(3, 1, 0, 1)
            .effect(4, 1, 0, 0)
            .effect(2, 0, 0, 0),
        quiet()
            .condition(0, 0, 0, 0, 0)
            .condition(1, 1, 0, 0, 1)
            .condition(3, 2, 0, 0, 1),
        quiet()
            .level(5, 0, 9)
            .level(0, 0, 1)
            .level(0, 0, 1)
            .uses(0, 0, 0, 1)
            .uses(3, 2, 0, 2)
            .uses(1, 1, 0, 2),
        quiet().goal(0, 0).goal(1, 1).goal_by(2, 1, 3),
        quiet().goal(0, 0).goal_by(2, 1, 3).goal(1, 1),
    ]
}

/// Two refusals at once: the lower number decides, whatever the places.
pub fn lower_number_first() -> Vec<Job> {
    let meet = |job: Job| job.effect(2, 1, 0, 1).effect(3, 1, 0, 0);
    let fail = |job: Job| job.condition(0, 0, 0, 0, 1);
    let pass = |job: Job| job.level(0, 0, 1).uses(1, 0, 0, 2);
    let miss = |job: Job| job.goal(0, 1);
    let apart = || {
        Job::with_facts(&[0, 0])
            .step(0, 3)
            .step(1, 1)
            .step(8, 0)
            .step(8, 0)
    };
    vec![
        meet(fail(apart())),
        fail(pass(apart())),
        pass(miss(apart())),
        meet(pass(apart())),
        fail(miss(apart())),
        meet(miss(apart())),
    ]
}

pub fn edges() -> Vec<Job> {
    [
        effect_at_the_first_tick_of_a_condition(),
        another_step_opposes_a_condition(),
        the_own_step_opposes_a_condition(),
        a_value_lost_in_between(),
        a_long_condition(),
        rises_and_falls_at_one_tick(),
        sums_of_one_tick(),
        levels_at_their_bounds(),
        deadlines_around_the_effect(),
        goal_lost_and_regained(),
        goals_that_fail(),
        meeting_effects(),
        lowest_places(),
        lower_number_first(),
    ]
    .concat()
}
