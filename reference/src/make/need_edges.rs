//! Jobs of edition 3 at the edge of refusal 21, on either side of it.

use crate::job::Job;
use crate::make::need_telling::every_step_needs_at_the_tick_of_all_uses;

/// Two on the shelf; step 0 begins at 5.
fn shelf() -> Job {
    Job::default().level(2, 0, 9).step(5, 4)
}

/// Nothing is taken: needs of 1 and 2 are met, of 3 not.
pub fn leasts_around_the_level() -> Vec<Job> {
    [-9, 0, 1, 2, 3]
        .map(|least| shelf().need(0, 0, 2, least))
        .to_vec()
}

// ---------------------------------------------------------------------------------------------
// What counts at the need's tick, 7, and beside it

/// Another step takes one at 6, 7 and 8: its fall at the tick counts. One is left, or two.
pub fn falls_of_another() -> Vec<Job> {
    let job = |tick, least| shelf().step(tick, 0).uses(1, 0, 0, -1).need(0, 0, 2, least);
    vec![
        job(6, 2),
        job(7, 2),
        job(8, 2),
        job(6, 1),
        job(7, 1),
        job(8, 1),
    ]
}

/// Another step brings one at 6, 7 and 8: its rise at the tick does not count.
pub fn rises_of_another() -> Vec<Job> {
    let job = |tick, least| shelf().step(tick, 0).uses(1, 0, 0, 1).need(0, 0, 2, least);
    vec![
        job(6, 3),
        job(7, 3),
        job(8, 3),
        job(6, 4),
        job(7, 2),
        job(8, 2),
    ]
}

/// The own step takes one at 6, 7 and 8: its fall at the tick does not count.
pub fn falls_of_the_own_step() -> Vec<Job> {
    let job = |at, least| shelf().uses(0, 0, at, -1).need(0, 0, 2, least);
    vec![job(1, 2), job(2, 2), job(3, 2), job(1, 1), job(2, 3)]
}

/// The own step brings one at 6, 7 and 8: its rise at the tick does not count.
pub fn rises_of_the_own_step() -> Vec<Job> {
    let job = |at, least| shelf().uses(0, 0, at, 1).need(0, 0, 2, least);
    vec![job(1, 3), job(2, 3), job(3, 3), job(1, 4), job(2, 2)]
}

/// Two uses at the tick: falls of two others sum up; the own fall stays out; no rise makes up for a
/// fall, whoever's they are.
pub fn several_at_the_tick() -> Vec<Job> {
    let job = |one: (usize, i64), other: (usize, i64), least| {
        let at = |step: usize| [2, 0, 4][step];
        shelf()
            .step(7, 0)
            .step(3, 4)
            .uses(one.0, 0, at(one.0), one.1)
            .uses(other.0, 0, at(other.0), other.1)
            .need(0, 0, 2, least)
    };
    vec![
        job((1, -1), (2, -1), 0),
        job((1, -1), (2, -1), 1),
        job((0, -1), (2, -1), 1),
        job((0, -1), (2, -1), 2),
        job((1, -1), (2, 1), 1),
        job((1, -1), (2, 1), 2),
        job((0, -1), (2, 1), 2),
        job((0, -1), (2, 1), 3),
        job((0, 1), (2, -1), 1),
        job((0, 1), (2, -1), 2),
    ]
}

/// Earlier uses count, the own step's too: taken at 5 and brought back at 8.
pub fn after_earlier_uses() -> Vec<Job> {
    let job = |at, least| {
        shelf()
            .uses(0, 0, 0, -1)
            .uses(0, 0, 3, 1)
            .need(0, 0, at, least)
    };
    vec![
        job(0, 2),
        job(1, 2),
        job(1, 1),
        job(3, 2),
        job(3, 1),
        job(4, 2),
    ]
}

/// What another level loses before the tick and at it does not count, nor what it has.
pub fn two_levels() -> Vec<Job> {
    let job = |level, at| {
        shelf()
            .level(5, 0, 9)
            .step(6, 1)
            .uses(1, level, at, -2)
            .need(0, 0, 2, 2)
            .need(0, 1, 2, 4)
    };
    vec![job(0, 0), job(1, 0), job(0, 1), job(1, 1)]
}

/// At the very first tick and at a step's last; a step of no length.
pub fn first_and_last_ticks() -> Vec<Job> {
    let at_0 = |least| {
        Job::default()
            .level(1, 0, 1)
            .step(0, 0)
            .step(0, 3)
            .uses(1, 0, 0, -1)
            .need(0, 0, 0, least)
    };
    let at_the_end = |least| shelf().step(9, 0).uses(1, 0, 0, -1).need(0, 0, 4, least);
    vec![at_0(0), at_0(1), at_the_end(1), at_the_end(2)]
}

// ---------------------------------------------------------------------------------------------
// How much may be needed

/// A least is within ±1,000,000,000 whatever the level's bounds.
pub fn leasts_past_the_bounds() -> Vec<Job> {
    let far = 1_000_000_000;
    let job = |initial, least| {
        Job::default()
            .level(initial, -far, far)
            .step(0, 0)
            .need(0, 0, 0, least)
    };
    vec![
        job(far, far),
        job(far - 1, far),
        job(-far, -far),
        job(-far, -far + 1),
        job(-far, far),
        job(far, -far),
        shelf().need(0, 0, 0, far),
        shelf().need(0, 0, 0, -far),
        shelf().need(0, 0, 0, 10),
        shelf().need(0, 0, 0, -1),
    ]
}

/// 64 steps take a million each at one tick, at which each of them needs what the others leave.
pub fn millions_at_one_tick() -> Vec<Job> {
    let job = |more: i64| {
        let far = 1_000_000_000;
        let mut job = Job::default().level(-936_000_000, -far, far);
        for step in 0..64 {
            job = job.step(100 - step, 100);
        }
        for step in 0..64 {
            job = job.uses(step, 0, step as i64, -1_000_000).need(
                step,
                0,
                step as i64,
                -999_000_000 + more,
            );
        }
        job
    };
    vec![job(0), job(1)]
}

// ---------------------------------------------------------------------------------------------
// Places

/// The lowest unmet need: neither the first by time, nor of the lowest level or step, nor the last.
pub fn lowest_unmet() -> Vec<Job> {
    let job = || {
        Job::default()
            .level(2, 0, 2)
            .level(0, 0, 2)
            .step(5, 9)
            .step(1, 9)
    };
    vec![
        job().need(0, 0, 0, 2).need(0, 0, 9, 3).need(1, 0, 0, 3),
        job().need(0, 0, 0, 2).need(1, 1, 0, 1).need(0, 0, 0, 3),
        job().need(0, 0, 0, 2).need(0, 1, 0, 0).need(1, 1, 3, 1),
        job().need(0, 1, 9, 1).need(0, 0, 0, 2).need(0, 0, 0, 3),
        job().need(1, 0, 0, 3).need(0, 0, 0, 3).need(0, 1, 0, 1),
    ]
}

/// 128 needs of which only the last is unmet, and all but the first.
pub fn last_of_128_needs() -> Vec<Job> {
    let job = |unmet: fn(i64) -> bool| {
        let mut job = Job::default().level(2, 0, 2).step(0, 127);
        for number in 0..128 {
            job = job.need(0, 0, number, 2 + i64::from(unmet(number)));
        }
        job
    };
    vec![job(|number| number == 127), job(|number| number > 0)]
}

/// All steps take one at one tick, at which one need of 128 asks for one more than the others leave.
pub fn one_of_128_at_the_tick_of_all_uses() -> Vec<Job> {
    let job = |unmet: usize| {
        let mut job = every_step_needs_at_the_tick_of_all_uses();
        job.needs[unmet].least += 1;
        job
    };
    vec![job(0), job(64), job(127)]
}

// ---------------------------------------------------------------------------------------------
// Beside other refusals

/// An unmet need beside what comes before 21: 6, 7, 17, 10, 11 and 12; and after it: 13.
pub fn unmet_and_more() -> Vec<Job> {
    let job = || {
        Job::with_facts(&[0, 0])
            .level(2, 0, 2)
            .step(5, 4)
            .step(5, 4)
            .need(0, 0, 0, 2)
            .need(1, 0, 2, 3)
    };
    vec![
        job(),
        job().need(0, 0, 5, 0),
        job().uses(0, 0, 2, -1).uses(0, 0, 2, 1),
        job().timed(0, 9, 1).timed(0, 9, 0),
        job().effect(0, 0, 2, 1).effect(1, 0, 2, 0),
        job().condition(0, 0, 0, 0, 1),
        job().uses(0, 0, 3, 1),
        job().uses(0, 0, 3, -3),
        job().goal(0, 1),
        job().goal_by(0, 0, 3).goal_by(1, 1, 3),
        job().effect(0, 0, 2, 1).timed(0, 7, 0),
    ]
}

/// The same refusals beside needs that are met.
pub fn met_and_refused() -> Vec<Job> {
    let job = || {
        Job::with_facts(&[0, 0])
            .level(2, 0, 2)
            .step(5, 4)
            .step(5, 4)
            .need(0, 0, 0, 2)
            .need(1, 0, 2, 1)
    };
    vec![
        job(),
        job().uses(0, 0, 2, -1).uses(0, 0, 2, 1),
        job().timed(0, 9, 1).timed(0, 9, 0),
        job().effect(0, 0, 2, 1).effect(1, 0, 2, 0),
        job().condition(0, 0, 0, 0, 1),
        job().uses(0, 0, 3, 1),
        job().uses(0, 0, 2, -1),
        job().goal(0, 1),
    ]
}

pub fn need_edges() -> Vec<Job> {
    [
        leasts_around_the_level(),
        falls_of_another(),
        rises_of_another(),
        falls_of_the_own_step(),
        rises_of_the_own_step(),
        several_at_the_tick(),
        after_earlier_uses(),
        two_levels(),
        first_and_last_ticks(),
        leasts_past_the_bounds(),
        millions_at_one_tick(),
        lowest_unmet(),
        last_of_128_needs(),
        one_of_128_at_the_tick_of_all_uses(),
        unmet_and_more(),
        met_and_refused(),
    ]
    .concat()
}
