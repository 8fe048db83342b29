//! Sound jobs of edition 2 that tell mistakes apart, each named for what a mistaken version would
//! miss.

use crate::job::{Job, HIGHEST};
use crate::make::telling::small_job;
use crate::make::ties::timed_ties;

/// An edition 2 without timed facts is loosened as edition 1 is.
pub fn small_job_of_edition_2() -> Job {
    small_job().edition(2)
}

/// The clock is no step: it has no window and takes no round.
pub fn timed_facts_without_steps() -> Job {
    Job::with_facts(&[0]).timed(0, 5, 1).goal_by(0, 1, 5)
}

// ---------------------------------------------------------------------------------------------
// Rule 1: which setter supports

/// Step 1 wants the fact; step 0 gives it at this tick, the clock at tick 5.
fn given_by_a_step_at(tick: i64) -> Job {
    Job::with_facts(&[0])
        .step(tick - 2, 2)
        .step(9, 1)
        .condition(1, 0, 0, 1, 1)
        .effect(0, 0, 2, 1)
        .timed(0, 5, 1)
        .goal_by(0, 1, 8)
}

pub fn tie_goes_to_the_effect() -> Job {
    given_by_a_step_at(5)
}

pub fn effect_before_a_timed_fact() -> Job {
    given_by_a_step_at(4)
}

pub fn timed_fact_before_an_effect() -> Job {
    given_by_a_step_at(6)
}

/// The own step's effect too comes before a timed fact.
pub fn tie_goes_to_the_own_effect() -> Job {
    Job::with_facts(&[0])
        .step(3, 8)
        .condition(0, 0, 4, 8, 1)
        .effect(0, 0, 2, 1)
        .timed(0, 5, 1)
}

pub fn tie_goes_to_the_lower_timed_fact() -> Job {
    Job::with_facts(&[0, 0])
        .step(9, 1)
        .condition(0, 0, 0, 1, 1)
        .timed(1, 2, 1)
        .timed(0, 5, 1)
        .timed(0, 5, 1)
        .goal_by(0, 1, 5)
}

/// The earliest timed fact, not the one with the lowest number.
pub fn later_timed_fact_with_a_lower_number() -> Job {
    Job::with_facts(&[0])
        .step(9, 1)
        .condition(0, 0, 0, 1, 1)
        .timed(0, 7, 1)
        .timed(0, 5, 1)
}

/// The initial state, though a timed fact gives the value too.
pub fn initial_state_though_a_timed_fact_gives_it() -> Job {
    Job::with_facts(&[1])
        .step(9, 1)
        .condition(0, 0, 0, 1, 1)
        .timed(0, 5, 1)
        .goal_by(0, 1, 0)
}

/// Not the initial state once the clock has opposed it.
pub fn initial_state_opposed_by_the_clock() -> Job {
    Job::with_facts(&[1])
        .step(8, 4)
        .condition(0, 0, 2, 4, 1)
        .timed(0, 3, 0)
        .timed(0, 6, 1)
        .goal(0, 1)
}

/// Not an effect whose value the clock has taken away.
pub fn effect_before_an_opposing_timed_fact_does_not_support() -> Job {
    Job::with_facts(&[0])
        .step(0, 2)
        .step(6, 1)
        .step(10, 2)
        .condition(2, 0, 0, 2, 1)
        .effect(0, 0, 2, 1)
        .effect(1, 0, 1, 1)
        .timed(0, 4, 0)
        .goal_by(0, 1, 9)
}

/// Not a timed fact whose value an effect has taken away.
pub fn timed_fact_before_an_opposing_effect_does_not_support() -> Job {
    Job::with_facts(&[0])
        .step(4, 1)
        .step(10, 2)
        .condition(1, 0, 0, 2, 1)
        .effect(0, 0, 1, 0)
        .timed(0, 2, 1)
        .timed(0, 7, 1)
        .goal(0, 1)
}

/// A timed fact after the condition does not support it; for the goal all count.
pub fn opposing_timed_fact_after_the_condition() -> Job {
    Job::with_facts(&[0])
        .step(5, 1)
        .condition(0, 0, 0, 1, 1)
        .timed(0, 2, 1)
        .timed(0, 9, 0)
        .timed(0, 12, 1)
        .goal(0, 1)
}

/// Everything of the value 0.
pub fn timed_fact_gives_zero() -> Job {
    Job::with_facts(&[1])
        .step(9, 3)
        .condition(0, 0, 1, 3, 0)
        .timed(0, 4, 0)
        .timed(0, 14, 1)
        .timed(0, 20, 0)
        .goal_by(0, 0, 20)
}

/// 64 timed facts, of which the last supports: link 575.
pub fn highest_link_of_a_job() -> Job {
    let mut job = Job::with_facts(&[0, 0])
        .step(90, 1)
        .condition(0, 0, 0, 1, 1);
    for number in 1..HIGHEST[7] {
        job = job.timed(1, number as i64, number as u16 % 2);
    }
    job.timed(0, 80, 1).goal(0, 1)
}

// ---------------------------------------------------------------------------------------------
// Limits

/// A condition's last tick counts, not its first: latest 4, not 7, and not none.
pub fn timed_fact_after_a_condition() -> Job {
    Job::with_facts(&[1])
        .step(2, 6)
        .condition(0, 0, 1, 4, 1)
        .timed(0, 9, 0)
}

/// At the next tick after the last: the step cannot be later at all.
pub fn timed_fact_right_after_a_condition() -> Job {
    Job::with_facts(&[1])
        .step(2, 6)
        .condition(0, 0, 1, 4, 1)
        .timed(0, 7, 0)
}

/// An opposing timed fact before the condition limits by its first tick, though another step
/// supports it.
pub fn opposing_timed_fact_before_a_condition() -> Job {
    Job::with_facts(&[1])
        .step(10, 9)
        .step(9, 2)
        .condition(0, 0, 6, 9, 1)
        .effect(1, 0, 1, 1)
        .timed(0, 8, 0)
}

pub fn effect_before_an_opposing_timed_fact() -> Job {
    Job::with_facts(&[0])
        .step(1, 3)
        .effect(0, 0, 2, 1)
        .timed(0, 8, 0)
}

pub fn effect_after_an_opposing_timed_fact() -> Job {
    Job::with_facts(&[0])
        .step(10, 3)
        .effect(0, 0, 2, 1)
        .timed(0, 8, 0)
}

/// The nearest on either side, whatever their numbers.
pub fn tightest_of_several_timed_facts() -> Job {
    Job::with_facts(&[0])
        .step(10, 3)
        .effect(0, 0, 2, 1)
        .timed(0, 25, 0)
        .timed(0, 5, 0)
        .timed(0, 20, 0)
        .timed(0, 2, 0)
}

/// Of two points of one step: the later one against what comes after, the earlier one against what
/// came before.
pub fn tightest_of_several_points() -> Job {
    Job::with_facts(&[0])
        .step(10, 9)
        .effect(0, 0, 2, 1)
        .effect(0, 0, 7, 1)
        .timed(0, 5, 0)
        .timed(0, 25, 0)
}

/// What gives the same value, or sets another fact, limits nobody.
pub fn agreeing_timed_facts() -> Job {
    Job::with_facts(&[1, 1])
        .step(10, 3)
        .condition(0, 0, 0, 1, 1)
        .effect(0, 0, 2, 1)
        .timed(0, 5, 1)
        .timed(0, 20, 1)
        .timed(1, 4, 0)
        .timed(1, 21, 1)
}

/// The clock is another step than all: a step's own effect beside it does not excuse.
pub fn own_effect_at_the_last_tick_and_the_clock_after_it() -> Job {
    Job::with_facts(&[1])
        .step(5, 3)
        .condition(0, 0, 0, 3, 1)
        .effect(0, 0, 3, 0)
        .timed(0, 9, 0)
        .goal(0, 0)
}

/// T + 1 − point comes to less than 0: the limit is 0.
pub fn limit_below_nothing() -> Job {
    Job::with_facts(&[0])
        .step(10, 50)
        .condition(0, 0, 40, 50, 1)
        .timed(0, 3, 1)
}

/// T + 1 − point comes to 0 and to 1.
pub fn limits_at_nothing() -> Job {
    Job::with_facts(&[0])
        .step(10, 4)
        .step(10, 4)
        .condition(0, 0, 4, 4, 1)
        .condition(1, 0, 3, 3, 1)
        .timed(0, 3, 1)
}

fn due_by_9_and_before_the_clock_at(tick: i64) -> Job {
    Job::with_facts(&[0, 1])
        .step(2, 3)
        .condition(0, 1, 0, 1, 1)
        .effect(0, 0, 3, 1)
        .timed(1, tick, 0)
        .goal_by(0, 1, 9)
}

pub fn deadline_tighter_than_the_clock() -> Job {
    due_by_9_and_before_the_clock_at(20)
}

pub fn clock_tighter_than_the_deadline() -> Job {
    due_by_9_and_before_the_clock_at(5)
}

/// A fixed step's window is its written start, however far the clock is.
pub fn fixed_step_between_timed_facts() -> Job {
    Job::with_facts(&[0])
        .fixed_step(10, 3)
        .effect(0, 0, 2, 1)
        .timed(0, 4, 0)
        .timed(0, 20, 0)
}

/// A fixed step that waits for a timed fact.
pub fn fixed_step_supported_by_the_clock() -> Job {
    Job::with_facts(&[0])
        .fixed_step(10, 3)
        .condition(0, 0, 1, 3, 1)
        .timed(0, 4, 1)
        .timed(0, 40, 0)
}

/// The timed supporter of a goal limits nobody, though a step gives the value too.
pub fn goal_supported_by_the_clock() -> Job {
    Job::with_facts(&[0])
        .step(2, 3)
        .effect(0, 0, 3, 1)
        .timed(0, 4, 1)
        .goal_by(0, 1, 9)
}

/// The same with a step before the opposing timed fact, and a deadline at the supporter's tick.
pub fn goal_regained_by_the_clock() -> Job {
    Job::with_facts(&[0])
        .step(0, 2)
        .step(12, 2)
        .effect(0, 0, 2, 1)
        .effect(1, 0, 1, 1)
        .timed(0, 5, 0)
        .timed(0, 9, 1)
        .goal_by(0, 1, 9)
}

/// With 512 effects a link to a timed fact, read as an effect's number, would lead into the uses:
/// here to step 3, which nothing orders or limits.
pub fn links_past_a_full_table_of_effects() -> Job {
    let mut job = Job::with_facts(&[0, 0]).level(0, 0, 1);
    for step in 0..HIGHEST[2] {
        job = job.step(100, 20);
        for at in 0..8 {
            job = job.effect(step, 1, at, 1);
        }
    }
    job.condition(5, 0, 2, 2, 1)
        .uses(3, 0, 0, 1)
        .timed(0, 50, 1)
        .timed(0, 60, 1)
        .goal_by(0, 1, 200)
}

/// The highest tick and the highest step before it.
pub fn highest_tick() -> Job {
    Job::with_facts(&[1])
        .step(1_000_000, 100_000)
        .condition(0, 0, 0, 99_999, 1)
        .timed(0, 1_100_000, 0)
        .goal_by(0, 0, 1_100_000)
}

/// A limit near the highest start.
pub fn highest_limit() -> Job {
    Job::with_facts(&[0])
        .step(1_000_000, 0)
        .condition(0, 0, 0, 0, 1)
        .timed(0, 999_999, 1)
}

// ---------------------------------------------------------------------------------------------
// Rounds

/// Step 0 waits for the clock, step 1 for step 0: the rounds begin with the limits.
pub fn rounds_begin_with_the_limits() -> Job {
    Job::with_facts(&[0, 0])
        .step(10, 2)
        .step(20, 1)
        .condition(0, 0, 0, 0, 1)
        .condition(1, 1, 0, 1, 1)
        .effect(0, 1, 2, 1)
        .timed(0, 6, 1)
}

/// The clock asks more of step 1 than step 0 does: one round.
pub fn limit_higher_than_what_an_order_demands() -> Job {
    Job::with_facts(&[0, 0])
        .step(10, 2)
        .step(20, 1)
        .condition(1, 0, 0, 0, 1)
        .condition(1, 1, 0, 1, 1)
        .effect(0, 1, 2, 1)
        .timed(0, 16, 1)
}

/// Each step waits for the one before, the first for the clock.
pub fn chain_behind_the_clock() -> Job {
    let mut job = Job::with_facts(&[0; 4]);
    for step in 0..4 {
        job = job
            .step(100 + 10 * step as i64, 3)
            .condition(step, step, 0, 3, 1);
        if step < 3 {
            job = job.effect(step, step + 1, 3, 1);
        }
    }
    job.timed(0, 49, 1)
}

/// All of them, with their names.
pub fn timed_telling_jobs() -> Vec<(&'static str, Job)> {
    [of_supporters(), timed_ties(), of_limits(), of_rounds()].concat()
}

fn of_supporters() -> Vec<(&'static str, Job)> {
    by_name![
        small_job_of_edition_2,
        timed_facts_without_steps,
        tie_goes_to_the_effect,
        effect_before_a_timed_fact,
        timed_fact_before_an_effect,
        tie_goes_to_the_own_effect,
        tie_goes_to_the_lower_timed_fact,
        later_timed_fact_with_a_lower_number,
        initial_state_though_a_timed_fact_gives_it,
        initial_state_opposed_by_the_clock,
        effect_before_an_opposing_timed_fact_does_not_support,
        timed_fact_before_an_opposing_effect_does_not_support,
        opposing_timed_fact_after_the_condition,
        timed_fact_gives_zero,
        highest_link_of_a_job,
    ]
}

fn of_limits() -> Vec<(&'static str, Job)> {
    by_name![
        timed_fact_after_a_condition,
        timed_fact_right_after_a_condition,
        opposing_timed_fact_before_a_condition,
        effect_before_an_opposing_timed_fact,
        effect_after_an_opposing_timed_fact,
        tightest_of_several_timed_facts,
        tightest_of_several_points,
        agreeing_timed_facts,
        own_effect_at_the_last_tick_and_the_clock_after_it,
        limit_below_nothing,
        limits_at_nothing,
        deadline_tighter_than_the_clock,
        clock_tighter_than_the_deadline,
        fixed_step_between_timed_facts,
        fixed_step_supported_by_the_clock,
        goal_supported_by_the_clock,
        goal_regained_by_the_clock,
        links_past_a_full_table_of_effects,
        highest_tick,
        highest_limit,
    ]
}

fn of_rounds() -> Vec<(&'static str, Job)> {
    by_name![
        rounds_begin_with_the_limits,
        limit_higher_than_what_an_order_demands,
        chain_behind_the_clock,
    ]
}
