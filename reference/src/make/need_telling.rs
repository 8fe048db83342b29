//! Sound jobs of edition 3 that tell mistakes apart, each named for what a mistaken version would
//! miss.

use crate::job::{Job, HIGHEST};
use crate::make::telling::small_job;
use crate::make::timed_telling::rounds_begin_with_the_limits;

/// An edition 3 without needs is loosened as edition 1 is.
pub fn small_job_of_edition_3() -> Job {
    small_job().edition(3)
}

/// And one with timed facts as edition 2 is.
pub fn timed_facts_without_needs() -> Job {
    rounds_begin_with_the_limits().edition(3)
}

/// A need by itself orders nobody and limits nobody.
pub fn needs_without_uses() -> Job {
    shelf().need(0, 0, 2, 2).need(1, 0, 3, 2)
}

// ---------------------------------------------------------------------------------------------
// Which orders

/// Plenty on the shelf; step 0 lasts from 10 to 19, step 1 from 20 to 29.
fn shelf() -> Job {
    Job::default().level(5, 0, 9).step(10, 9).step(20, 9)
}

/// Whether there is enough or not, the two stay as they lie.
pub fn need_before_a_fall() -> Job {
    shelf().uses(1, 0, 3, -1).need(0, 0, 6, 1)
}

pub fn need_before_a_rise() -> Job {
    shelf().uses(1, 0, 3, 1).need(0, 0, 6, 1)
}

pub fn need_after_a_fall() -> Job {
    shelf().uses(0, 0, 6, -1).need(1, 0, 3, 1)
}

pub fn need_after_a_rise() -> Job {
    shelf().uses(0, 0, 6, 1).need(1, 0, 3, 1)
}

/// Of a step with a lower number too, on either side.
pub fn need_of_the_higher_step_before_a_use() -> Job {
    Job::default()
        .level(5, 0, 9)
        .step(20, 9)
        .step(10, 9)
        .uses(0, 0, 3, -1)
        .need(1, 0, 6, 1)
}

/// At one tick no order, whether it is a fall or a rise.
pub fn need_and_a_fall_at_one_tick() -> Job {
    Job::default()
        .level(5, 0, 9)
        .step(10, 9)
        .step(12, 9)
        .uses(1, 0, 4, -1)
        .need(0, 0, 6, 4)
}

pub fn need_and_a_rise_at_one_tick() -> Job {
    Job::default()
        .level(5, 0, 9)
        .step(12, 9)
        .step(10, 9)
        .uses(1, 0, 6, 1)
        .need(0, 0, 4, 5)
}

/// A tick apart they are ordered, with the narrowest gaps.
pub fn need_a_tick_before_and_a_tick_after() -> Job {
    Job::default()
        .level(5, 0, 9)
        .step(10, 9)
        .step(10, 9)
        .step(10, 9)
        .uses(0, 0, 4, -1)
        .need(1, 0, 3, 5)
        .need(2, 0, 5, 4)
}

/// Only different steps are ordered.
pub fn need_and_uses_of_the_own_step() -> Job {
    shelf()
        .uses(0, 0, 1, -1)
        .uses(0, 0, 4, 1)
        .uses(0, 0, 8, -1)
        .need(0, 0, 2, 4)
        .need(0, 0, 4, 4)
        .need(0, 0, 6, 5)
}

/// Needs are not ordered with each other, but with the use between them.
pub fn two_needs_and_a_use_between() -> Job {
    Job::default()
        .level(5, 0, 9)
        .step(0, 4)
        .step(10, 4)
        .step(20, 4)
        .uses(1, 0, 1, -3)
        .need(0, 0, 4, 5)
        .need(2, 0, 2, 2)
}

pub fn need_and_a_use_of_another_level() -> Job {
    shelf().level(0, 0, 1).uses(1, 1, 3, 1).need(0, 0, 6, 5)
}

/// The need has the number of the level, step or use of another.
pub fn need_of_the_second_level() -> Job {
    shelf()
        .level(2, 0, 4)
        .step(40, 5)
        .uses(0, 0, 2, -1)
        .uses(2, 1, 1, -1)
        .need(1, 1, 3, 2)
        .need(1, 1, 5, 2)
}

/// One need between two uses of one other step: ordered both ways.
pub fn need_between_two_uses() -> Job {
    Job::default()
        .level(1, 0, 1)
        .step(0, 30)
        .step(10, 5)
        .uses(0, 0, 2, -1)
        .uses(0, 0, 28, 1)
        .need(1, 0, 3, 0)
}

/// One use between two needs of one other step: ordered both ways.
pub fn use_between_two_needs() -> Job {
    Job::default()
        .level(1, 0, 1)
        .step(0, 30)
        .step(10, 5)
        .uses(1, 0, 3, -1)
        .need(0, 0, 2, 1)
        .need(0, 0, 28, 0)
}

/// All others use the level at the need's tick, and each at another tick as well.
pub fn uses_at_the_tick_and_around() -> Job {
    Job::default()
        .level(5, 0, 9)
        .step(10, 9)
        .step(5, 20)
        .step(8, 20)
        .uses(1, 0, 8, -1)
        .uses(1, 0, 2, -1)
        .uses(2, 0, 5, 1)
        .uses(2, 0, 15, -1)
        .need(0, 0, 3, 3)
}

// ---------------------------------------------------------------------------------------------
// Gaps

/// Points are ordered, not steps: 5 − 8 + 1 and 1 − 9 + 1.
pub fn negative_gaps() -> Job {
    Job::default()
        .level(5, 0, 9)
        .step(10, 8)
        .step(10, 9)
        .step(8, 9)
        .step(10, 9)
        .uses(1, 0, 5, -1)
        .uses(2, 0, 9, 1)
        .need(0, 0, 8, 4)
        .need(3, 0, 1, 5)
}

/// From one end of the longest step to the other, both ways.
pub fn widest_gaps() -> Job {
    Job::default()
        .level(5, 0, 9)
        .step(0, 100_000)
        .step(100_001, 0)
        .step(50_000, 100_000)
        .uses(1, 0, 0, -1)
        .need(0, 0, 100_000, 5)
        .need(2, 0, 100_000, 4)
}

/// Of several needs of one step the nearest to the use decides: the last before, the first after.
pub fn several_needs_of_one_step() -> Job {
    Job::default()
        .level(5, 0, 9)
        .step(0, 60)
        .step(20, 9)
        .uses(1, 0, 5, -1)
        .need(0, 0, 20, 5)
        .need(0, 0, 24, 5)
        .need(0, 0, 3, 5)
        .need(0, 0, 50, 4)
        .need(0, 0, 28, 4)
        .need(0, 0, 60, 4)
}

/// Of a need and a use of one step against the same use of another, the need is nearer.
pub fn need_nearer_than_the_use() -> Job {
    shelf().uses(0, 0, 2, 1).uses(1, 0, 3, -1).need(0, 0, 6, 5)
}

/// Here the use is nearer.
pub fn use_nearer_than_the_need() -> Job {
    shelf().uses(0, 0, 6, 1).uses(1, 0, 3, -1).need(0, 0, 2, 5)
}

/// Support asks for more than the need, and then for less.
pub fn support_beside_a_need() -> Job {
    Job::with_facts(&[0, 0])
        .level(5, 0, 9)
        .step(10, 9)
        .step(20, 9)
        .step(40, 9)
        .condition(1, 0, 0, 0, 1)
        .condition(2, 1, 0, 0, 1)
        .effect(0, 0, 8, 1)
        .effect(1, 1, 2, 1)
        .uses(1, 0, 3, -1)
        .uses(2, 0, 1, -1)
        .need(0, 0, 6, 5)
        .need(1, 0, 9, 4)
}

// ---------------------------------------------------------------------------------------------
// What is met just so

/// The own step takes all at the tick at which it needs all.
pub fn own_fall_at_the_tick() -> Job {
    Job::default()
        .level(2, 0, 2)
        .step(5, 3)
        .uses(0, 0, 1, -2)
        .need(0, 0, 1, 2)
}

/// What the own step took before is gone, what it brought is there.
pub fn own_uses_before() -> Job {
    Job::default()
        .level(2, 0, 4)
        .step(5, 9)
        .uses(0, 0, 1, -2)
        .uses(0, 0, 5, 4)
        .need(0, 0, 2, 0)
        .need(0, 0, 6, 4)
}

/// Less than the level's least and more than nothing: each need is met whatever the timing.
pub fn needs_below_the_bounds() -> Job {
    shelf()
        .uses(0, 0, 0, -5)
        .uses(1, 0, 0, 5)
        .need(0, 0, 3, -1)
        .need(1, 0, 1, -1_000_000_000)
}

// ---------------------------------------------------------------------------------------------
// Windows and rounds

/// A need sets no limit: a fixed step's window is its written start, the other's is open.
pub fn need_of_a_fixed_step() -> Job {
    Job::default()
        .level(5, 0, 9)
        .fixed_step(10, 9)
        .step(20, 9)
        .step(1, 3)
        .uses(1, 0, 3, -1)
        .uses(2, 0, 2, -1)
        .need(0, 0, 6, 4)
}

/// What brings a goal is not what a need waits for, and needs have no links.
pub fn goal_beside_a_need() -> Job {
    Job::with_facts(&[0])
        .level(0, 0, 9)
        .step(10, 9)
        .step(20, 9)
        .effect(1, 0, 4, 1)
        .uses(0, 0, 6, 1)
        .need(1, 0, 3, 1)
        .goal_by(0, 1, 30)
}

/// Each step needs what the one before brings: as many rounds as steps.
pub fn chain_of_needs() -> Job {
    let mut job = Job::default();
    for step in 0..4 {
        job = job.level(0, 0, 1).step(30 - 10 * step, 3);
    }
    for step in 0..4 {
        job = job.uses(step, step, 3, 1);
        if step < 3 {
            job = job.need(step, step + 1, 1, 1);
        }
    }
    job
}

/// The clock limits the user, which the need waits for.
pub fn need_behind_the_clock() -> Job {
    Job::with_facts(&[0])
        .level(0, 0, 2)
        .step(10, 2)
        .step(20, 4)
        .condition(0, 0, 0, 1, 1)
        .uses(0, 0, 2, 2)
        .timed(0, 6, 1)
        .timed(0, 50, 0)
        .need(1, 0, 1, 2)
}

/// And the clock limits the needing step, before which the user stays.
pub fn need_before_the_clock() -> Job {
    Job::with_facts(&[1])
        .level(2, 0, 2)
        .step(10, 4)
        .step(30, 4)
        .condition(0, 0, 0, 4, 1)
        .uses(1, 0, 0, -2)
        .need(0, 0, 2, 2)
        .timed(0, 20, 0)
}

// ---------------------------------------------------------------------------------------------
// As many as there can be

/// All 64 steps take one at tick 100, and each needs twice what the others leave: no order at all.
pub fn every_step_needs_at_the_tick_of_all_uses() -> Job {
    let mut job = Job::default().level(64, 0, 64);
    for step in 0..HIGHEST[2] as i64 {
        job = job.step(100 - step, 200);
    }
    for number in 0..HIGHEST[8] {
        let (step, at) = (number % HIGHEST[2], (number % HIGHEST[2]) as i64);
        job = job.need(step, 0, at, 1);
        if number < HIGHEST[2] {
            job = job.uses(step, 0, at, -1);
        }
    }
    job
}

/// One step takes one at tick 200; 63 others need the level 128 times, each before and after: orders
/// both ways between that step and all others, of needs alone.
pub fn one_use_among_128_needs() -> Job {
    let mut job = Job::default().level(2, 0, 2);
    for step in 0..HIGHEST[2] as i64 {
        job = job.step(step, 500);
    }
    job = job.uses(63, 0, 137, -1);
    for number in 0..HIGHEST[8] {
        let step = number % 63;
        let (tick, left) = [(150, 2), (250, 1), (260, 1)][number / 63];
        job = job.need(step, 0, tick - step as i64, left);
    }
    job
}

/// Each step uses the level four times and needs it twice, all of them overlapping.
pub fn uses_and_needs_of_every_step() -> Job {
    let mut job = Job::default().level(200, 0, 400);
    for step in 0..HIGHEST[2] {
        job = job.step(3 * step as i64, 1_000);
        for (at, amount) in [(0, -1), (400, 1), (700, -2), (1_000, 2)] {
            job = job.uses(step, 0, at, amount);
        }
        job = job.need(step, 0, 399, 0).need(step, 0, 701, 0);
    }
    job
}

// ---------------------------------------------------------------------------------------------

/// All small ones, with their names.
pub fn need_telling_jobs() -> Vec<(&'static str, Job)> {
    [of_orders(), of_gaps(), of_the_rest()].concat()
}

fn of_orders() -> Vec<(&'static str, Job)> {
    by_name![
        needs_without_uses,
        need_before_a_fall,
        need_before_a_rise,
        need_after_a_fall,
        need_after_a_rise,
        need_of_the_higher_step_before_a_use,
        need_and_a_fall_at_one_tick,
        need_and_a_rise_at_one_tick,
        need_a_tick_before_and_a_tick_after,
        need_and_uses_of_the_own_step,
        two_needs_and_a_use_between,
        need_and_a_use_of_another_level,
        need_of_the_second_level,
        need_between_two_uses,
        use_between_two_needs,
        uses_at_the_tick_and_around,
    ]
}

fn of_gaps() -> Vec<(&'static str, Job)> {
    by_name![
        negative_gaps,
        widest_gaps,
        several_needs_of_one_step,
        need_nearer_than_the_use,
        use_nearer_than_the_need,
        support_beside_a_need,
    ]
}

fn of_the_rest() -> Vec<(&'static str, Job)> {
    by_name![
        small_job_of_edition_3,
        timed_facts_without_needs,
        own_fall_at_the_tick,
        own_uses_before,
        needs_below_the_bounds,
        need_of_a_fixed_step,
        goal_beside_a_need,
        chain_of_needs,
        need_behind_the_clock,
        need_before_the_clock,
    ]
}

/// Those with 128 needs.
pub fn largest_needs() -> Vec<(&'static str, Job)> {
    by_name![
        every_step_needs_at_the_tick_of_all_uses,
        one_use_among_128_needs,
        uses_and_needs_of_every_step,
    ]
}
