//! Jobs of edition 2 at the edge of the refusals that timed facts bring about, 17, 10, 11 and 13,
//! on either side of it.

use crate::job::Job;

// ---------------------------------------------------------------------------------------------
// 17

/// Two timed facts of one fact at one tick, in either order, and pairs that differ in one thing.
pub fn timed_facts_both_ways() -> Vec<Job> {
    let two = |first: (usize, i64, u16), second: (usize, i64, u16)| {
        Job::with_facts(&[0, 0])
            .timed(first.0, first.1, first.2)
            .timed(second.0, second.1, second.2)
    };
    vec![
        two((0, 5, 1), (0, 5, 0)),
        two((0, 5, 0), (0, 5, 1)),
        two((0, 5, 1), (0, 5, 1)),
        two((0, 5, 1), (0, 6, 0)),
        two((0, 5, 1), (1, 5, 0)),
        two((0, 0, 1), (0, 0, 0)),
        two((1, 1_100_000, 1), (1, 1_100_000, 0)),
        two((0, 5, 1), (0, 5 + 65_536, 0)),
    ]
}

/// The lower of the two, and the lowest of several pairs: neither the first by time nor the first
/// whose second is found.
pub fn lowest_of_several_pairs() -> Vec<Job> {
    let facts = || Job::with_facts(&[0, 0]);
    vec![
        facts().timed(1, 3, 1).timed(0, 9, 1).timed(0, 9, 0),
        facts()
            .timed(1, 8, 1)
            .timed(0, 9, 1)
            .timed(1, 3, 1)
            .timed(1, 3, 0)
            .timed(0, 9, 0),
        facts()
            .timed(0, 1, 1)
            .timed(0, 9, 1)
            .timed(0, 9, 1)
            .timed(0, 9, 0),
    ]
}

/// 17 beside another refusal: 6 and 7 come before it, all others after it.
pub fn both_ways_and_more() -> Vec<Job> {
    let facts = || {
        Job::with_facts(&[0, 0])
            .level(0, 0, 1)
            .step(5, 4)
            .step(5, 4)
            .timed(0, 9, 1)
            .timed(0, 9, 0)
    };
    vec![
        facts().goal(2, 0),
        facts().timed(0, 1_100_001, 0),
        facts().effect(0, 0, 2, 1).effect(0, 0, 2, 0),
        facts().effect(0, 0, 2, 1).effect(1, 0, 2, 0),
        facts().effect(0, 0, 4, 1),
        facts().condition(0, 1, 0, 0, 1),
        facts().uses(0, 0, 0, 2),
        facts().goal(1, 1),
    ]
}

// ---------------------------------------------------------------------------------------------
// 10

/// A timed fact before, at and after the tick of an effect that it opposes, and one that agrees.
pub fn timed_fact_around_an_effect() -> Vec<Job> {
    let job = |tick, value| {
        Job::with_facts(&[0, 0])
            .step(5, 3)
            .effect(0, 1, 3, 1)
            .effect(0, 0, 3, 1)
            .timed(0, tick, value)
    };
    vec![job(7, 0), job(8, 0), job(9, 0), job(8, 1)]
}

/// The lowest step's effect concerned, also where effects of two steps meet as well.
pub fn lowest_effect_that_meets() -> Vec<Job> {
    let quiet = || {
        Job::with_facts(&[0, 0, 0])
            .step(50, 0)
            .step(9, 0)
            .step(9, 0)
            .step(3, 0)
            .effect(0, 2, 0, 1)
    };
    vec![
        quiet()
            .effect(1, 0, 0, 1)
            .effect(2, 0, 0, 1)
            .timed(1, 9, 0)
            .timed(0, 9, 0),
        quiet()
            .effect(3, 1, 0, 1)
            .effect(1, 0, 0, 1)
            .effect(2, 0, 0, 0)
            .timed(1, 3, 0),
        quiet()
            .effect(1, 0, 0, 1)
            .effect(2, 0, 0, 0)
            .effect(3, 1, 0, 1)
            .timed(1, 3, 0),
    ]
}

// ---------------------------------------------------------------------------------------------
// 11

/// The clock opposes a condition from 10 to 12, at 8 to 14. Both ends count.
pub fn the_clock_opposes_a_condition() -> Vec<Job> {
    let job = |tick| {
        Job::with_facts(&[1])
            .step(10, 2)
            .condition(0, 0, 0, 2, 1)
            .timed(0, tick, 0)
    };
    (8..=14).map(job).collect()
}

/// The clock gives at 8 to 11 what is wanted from 10 on: it is not yet seen at its own tick.
pub fn the_clock_gives_what_is_wanted() -> Vec<Job> {
    let job = |tick| {
        Job::with_facts(&[0])
            .step(10, 2)
            .condition(0, 0, 0, 2, 1)
            .timed(0, tick, 1)
    };
    (8..=11).map(job).collect()
}

/// A value that the clock takes away, and the clock or a step gives back.
pub fn a_value_lost_by_the_clock() -> Vec<Job> {
    let by_the_clock = |lost, regained| {
        Job::with_facts(&[1])
            .step(10, 20)
            .condition(0, 0, 5, 15, 1)
            .timed(0, lost, 0)
            .timed(0, regained, 1)
    };
    let by_a_step = |lost, regained| {
        Job::with_facts(&[1])
            .step(10, 20)
            .step(regained, 0)
            .condition(0, 0, 5, 15, 1)
            .effect(1, 0, 0, 1)
            .timed(0, lost, 0)
    };
    vec![
        by_the_clock(12, 14),
        by_the_clock(12, 15),
        by_the_clock(17, 20),
        by_the_clock(26, 29),
        by_the_clock(25, 29),
        by_a_step(12, 14),
        by_a_step(12, 15),
        by_a_step(26, 29),
    ]
}

/// Only a step's own effect may oppose at the last tick: here the clock does, alone or as well.
pub fn at_the_last_tick() -> Vec<Job> {
    let job = || Job::with_facts(&[1]).step(10, 4).condition(0, 0, 0, 4, 1);
    vec![
        job().effect(0, 0, 4, 0).edition(2),
        job().timed(0, 14, 0),
        job().effect(0, 0, 4, 0).timed(0, 14, 0),
        job().effect(0, 0, 4, 0).timed(0, 15, 0),
    ]
}

// ---------------------------------------------------------------------------------------------
// 13

/// A deadline around the tick 15 of the timed fact that brings the goal.
pub fn deadlines_around_a_timed_fact() -> Vec<Job> {
    let job = |deadline| {
        Job::with_facts(&[0])
            .timed(0, 15, 1)
            .goal_by(0, 1, deadline)
    };
    (13..=17).map(job).collect()
}

/// The clock takes a goal away and gives it back: it must have its value after the deadline.
pub fn goal_lost_and_regained_by_the_clock() -> Vec<Job> {
    let job = |deadline| {
        Job::with_facts(&[1])
            .timed(0, 10, 0)
            .timed(0, 20, 1)
            .goal(0, 1)
            .goal_by(0, 1, deadline)
    };
    [0, 9, 10, 11, 19, 20, 21].map(job).to_vec()
}

/// Goals that the clock takes away after all steps, or gives.
pub fn goals_after_all_steps() -> Vec<Job> {
    let job = |initial| Job::with_facts(&[initial]).step(2, 1);
    vec![
        job(0).effect(0, 0, 1, 1).timed(0, 50, 0).goal(0, 1),
        job(0).effect(0, 0, 1, 1).timed(0, 50, 0).goal(0, 0),
        job(1).timed(0, 1_100_000, 0).goal(0, 1),
        job(1).timed(0, 1_100_000, 0).goal_by(0, 1, 1_100_000),
        job(1).timed(0, 1_100_000, 0).goal_by(0, 0, 1_100_000),
        job(1).timed(0, 1_100_000, 0).goal_by(0, 0, 1_099_999),
    ]
}

pub fn timed_edges() -> Vec<Job> {
    [
        timed_facts_both_ways(),
        lowest_of_several_pairs(),
        both_ways_and_more(),
        timed_fact_around_an_effect(),
        lowest_effect_that_meets(),
        the_clock_opposes_a_condition(),
        the_clock_gives_what_is_wanted(),
        a_value_lost_by_the_clock(),
        at_the_last_tick(),
        deadlines_around_a_timed_fact(),
        goal_lost_and_regained_by_the_clock(),
        goals_after_all_steps(),
    ]
    .concat()
}
