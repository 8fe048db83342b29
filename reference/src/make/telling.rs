//! Sound jobs that tell mistakes apart, each named for what a mistaken version would miss.

use crate::job::Job;
use crate::make::ties::ties;

/// The paper's small job.
pub fn small_job() -> Job {
    Job::with_facts(&[1, 0])
        .step(10, 5)
        .step(20, 3)
        .condition(1, 1, 0, 3, 1)
        .effect(0, 1, 5, 1)
        .effect(1, 0, 3, 0)
}

pub fn empty_job() -> Job {
    Job::default()
}

// ---------------------------------------------------------------------------------------------
// Rule 1: which effect supports

/// Not the latest supporter.
pub fn later_supporter_available() -> Job {
    Job::with_facts(&[0])
        .step(0, 5)
        .step(2, 6)
        .step(10, 2)
        .condition(2, 0, 0, 2, 1)
        .effect(0, 0, 5, 1)
        .effect(1, 0, 6, 1)
        .goal(0, 1)
}

/// Not the supporter with the lowest number either.
pub fn later_supporter_with_a_lower_number() -> Job {
    Job::with_facts(&[0])
        .step(0, 5)
        .step(2, 6)
        .step(10, 2)
        .condition(2, 0, 0, 2, 1)
        .effect(1, 0, 6, 1)
        .effect(0, 0, 5, 1)
        .goal(0, 1)
}

/// Not a supporter whose value an opposing effect has taken away.
pub fn supporter_before_an_opposing_effect() -> Job {
    Job::with_facts(&[0])
        .step(0, 1)
        .step(3, 1)
        .step(6, 1)
        .step(10, 2)
        .condition(3, 0, 0, 2, 1)
        .effect(0, 0, 1, 1)
        .effect(1, 0, 1, 0)
        .effect(2, 0, 1, 1)
        .goal_by(0, 1, 9)
}

/// Not the initial state once an effect has opposed it.
pub fn initial_state_before_an_opposing_effect() -> Job {
    Job::with_facts(&[1])
        .step(3, 1)
        .step(6, 1)
        .step(10, 2)
        .condition(2, 0, 0, 2, 1)
        .effect(0, 0, 1, 0)
        .effect(1, 0, 1, 1)
        .goal(0, 1)
}

/// The initial state, though an effect gives the value too.
pub fn initial_state_supports_though_an_effect_gives_it() -> Job {
    Job::with_facts(&[1])
        .step(0, 3)
        .step(10, 2)
        .condition(1, 0, 0, 2, 1)
        .effect(0, 0, 3, 1)
        .goal_by(0, 1, 0)
}

/// An opposing effect after the condition does not change its supporter; for the goal all count.
pub fn opposing_effect_after_the_condition() -> Job {
    Job::with_facts(&[0])
        .step(0, 2)
        .step(5, 1)
        .step(8, 1)
        .step(11, 1)
        .condition(1, 0, 0, 1, 1)
        .effect(0, 0, 2, 1)
        .effect(2, 0, 1, 0)
        .effect(3, 0, 1, 1)
        .goal(0, 1)
}

/// The last opposing effect may be the condition's own step's.
pub fn last_opposing_effect_of_the_own_step() -> Job {
    Job::with_facts(&[0])
        .step(10, 10)
        .step(15, 0)
        .step(3, 0)
        .condition(0, 0, 8, 8, 1)
        .effect(2, 0, 0, 1)
        .effect(0, 0, 2, 0)
        .effect(1, 0, 0, 1)
}

/// A step that takes away at its last tick what it wants, as boarding does.
pub fn own_opposing_effect_at_the_last_tick() -> Job {
    Job::with_facts(&[0])
        .step(0, 4)
        .step(5, 3)
        .condition(1, 0, 0, 3, 1)
        .condition(1, 0, 3, 3, 1)
        .effect(0, 0, 4, 1)
        .effect(1, 0, 3, 0)
        .goal(0, 0)
}

/// A link, but no order of a step after itself.
pub fn own_step_supports() -> Job {
    Job::with_facts(&[0])
        .step(4, 6)
        .condition(0, 0, 3, 6, 1)
        .effect(0, 0, 2, 1)
        .goal_by(0, 1, 6)
}

/// Everything of the value 0: the wanted value is not always 1.
pub fn wanted_as_zero() -> Job {
    Job::with_facts(&[1, 0])
        .step(0, 3)
        .step(2, 4)
        .step(9, 3)
        .condition(2, 0, 1, 2, 0)
        .condition(2, 1, 0, 3, 0)
        .effect(0, 0, 3, 0)
        .effect(1, 0, 4, 0)
        .goal_by(0, 0, 5)
        .goal(1, 0)
}

// ---------------------------------------------------------------------------------------------
// Gaps

/// Points are ordered, not whole steps: the gap is −2.
pub fn condition_late_in_its_step() -> Job {
    Job::with_facts(&[0])
        .step(10, 5)
        .step(20, 8)
        .condition(1, 0, 8, 8, 1)
        .effect(0, 0, 5, 1)
}

/// The gaps furthest from 0 that a job can have: 100,001 and −99,999.
pub fn widest_gaps() -> Job {
    Job::with_facts(&[0, 0])
        .step(0, 100_000)
        .step(100_001, 100_000)
        .step(7, 0)
        .condition(1, 0, 0, 0, 1)
        .condition(1, 1, 100_000, 100_000, 1)
        .effect(0, 0, 100_000, 1)
        .effect(2, 1, 0, 1)
}

/// Of several orders of a pair the largest gap, here the first found.
pub fn largest_gap_comes_first() -> Job {
    Job::with_facts(&[0])
        .step(0, 4)
        .step(10, 6)
        .condition(1, 0, 0, 0, 1)
        .condition(1, 0, 3, 3, 1)
        .condition(1, 0, 6, 6, 1)
        .effect(0, 0, 4, 1)
}

/// Here the last found.
pub fn largest_gap_comes_last() -> Job {
    Job::with_facts(&[0])
        .step(0, 4)
        .step(10, 6)
        .condition(1, 0, 6, 6, 1)
        .condition(1, 0, 3, 3, 1)
        .condition(1, 0, 0, 0, 1)
        .effect(0, 0, 4, 1)
}

/// Here each from another rule, the largest from rule 4.
pub fn largest_gap_of_several_rules() -> Job {
    Job::with_facts(&[0, 1])
        .level(0, 0, 2)
        .step(0, 9)
        .step(12, 5)
        .condition(1, 0, 3, 4, 1)
        .condition(0, 1, 2, 6, 1)
        .effect(0, 0, 4, 1)
        .effect(1, 1, 4, 0)
        .uses(0, 0, 9, 1)
        .uses(1, 0, 1, 1)
}

/// Of two steps, points of each come before points of the other.
pub fn ordered_both_ways() -> Job {
    Job::with_facts(&[0, 0])
        .step(0, 20)
        .step(0, 20)
        .condition(1, 0, 10, 10, 1)
        .condition(0, 1, 18, 20, 1)
        .effect(0, 0, 5, 1)
        .effect(1, 1, 12, 1)
}

// ---------------------------------------------------------------------------------------------
// Rules 2 to 4, each the only cause of an order

pub fn only_opposing_effects_order() -> Job {
    Job::with_facts(&[0])
        .step(1, 2)
        .step(6, 4)
        .effect(0, 0, 2, 1)
        .effect(1, 0, 3, 0)
}

/// Effects of one value are not ordered, whatever lies between them.
pub fn equal_effects_are_not_ordered() -> Job {
    Job::with_facts(&[0])
        .step(1, 1)
        .step(4, 1)
        .step(7, 1)
        .effect(0, 0, 1, 1)
        .effect(1, 0, 1, 1)
        .effect(2, 0, 1, 1)
}

/// Every opposing pair, not only neighbours in time.
pub fn opposing_effects_far_apart() -> Job {
    Job::with_facts(&[0])
        .step(7, 1)
        .step(4, 1)
        .step(1, 1)
        .step(10, 1)
        .effect(0, 0, 1, 0)
        .effect(1, 0, 1, 1)
        .effect(2, 0, 1, 1)
        .effect(3, 0, 0, 0)
}

/// Opposing effects of one step are its own affair.
pub fn opposing_effects_of_one_step() -> Job {
    Job::with_facts(&[0])
        .step(3, 6)
        .effect(0, 0, 0, 1)
        .effect(0, 0, 6, 0)
}

/// The condition's last tick comes before another step's opposing effect.
pub fn only_the_end_of_a_condition_orders() -> Job {
    Job::with_facts(&[1])
        .step(2, 4)
        .step(5, 3)
        .condition(0, 0, 1, 4, 1)
        .effect(1, 0, 2, 0)
}

/// An opposing effect comes before the condition's first tick; steps 0 and 2 have no other order.
pub fn only_an_opposing_effect_before_a_condition_orders() -> Job {
    Job::with_facts(&[0])
        .step(1, 3)
        .step(5, 2)
        .step(9, 4)
        .condition(2, 0, 2, 4, 1)
        .effect(0, 0, 3, 0)
        .effect(1, 0, 2, 1)
}

/// Effects that give the wanted value are not ordered after the condition.
pub fn agreeing_effect_after_a_condition() -> Job {
    Job::with_facts(&[1])
        .step(2, 4)
        .step(9, 3)
        .condition(0, 0, 1, 4, 1)
        .effect(1, 0, 2, 1)
}

pub fn two_rises_are_ordered() -> Job {
    Job::default()
        .level(0, 0, 9)
        .step(3, 4)
        .step(5, 6)
        .uses(0, 0, 4, 2)
        .uses(1, 0, 6, 3)
}

pub fn two_falls_are_ordered() -> Job {
    Job::default()
        .level(9, 0, 9)
        .step(5, 6)
        .step(3, 4)
        .uses(0, 0, 6, -2)
        .uses(1, 0, 4, -3)
}

pub fn a_fall_and_a_rise_are_ordered() -> Job {
    Job::default()
        .level(1, 0, 1)
        .step(3, 4)
        .step(8, 2)
        .uses(0, 0, 4, -1)
        .uses(1, 0, 0, 1)
}

/// At one tick there is no order, before it and after it there is.
pub fn uses_at_one_tick_get_no_order() -> Job {
    Job::default()
        .level(3, 0, 5)
        .step(3, 4)
        .step(5, 2)
        .step(0, 1)
        .step(9, 1)
        .uses(0, 0, 4, -1)
        .uses(1, 0, 2, -1)
        .uses(2, 0, 1, 1)
        .uses(3, 0, 1, 2)
}

/// The starred case with most 2: a rise and a fall at one tick.
pub fn rise_and_fall_at_one_tick_with_room() -> Job {
    Job::default()
        .level(1, 0, 2)
        .step(4, 0)
        .step(4, 0)
        .uses(0, 0, 0, -1)
        .uses(1, 0, 0, 1)
}

pub fn uses_of_two_levels_are_not_ordered() -> Job {
    Job::default()
        .level(0, 0, 1)
        .level(0, 0, 1)
        .step(0, 1)
        .step(5, 1)
        .uses(0, 0, 1, 1)
        .uses(1, 1, 0, 1)
}

/// No step's orders may be skipped, nor filed by second.
pub fn orders_of_every_step() -> Job {
    Job::with_facts(&[0, 0, 0])
        .step(30, 2)
        .step(20, 2)
        .step(10, 2)
        .step(0, 2)
        .condition(0, 0, 0, 2, 1)
        .condition(1, 1, 0, 2, 1)
        .condition(2, 2, 0, 2, 1)
        .effect(1, 0, 2, 1)
        .effect(2, 1, 2, 1)
        .effect(3, 2, 2, 1)
        .effect(0, 2, 2, 0)
        .effect(0, 1, 2, 0)
}

// ---------------------------------------------------------------------------------------------
// Windows

pub fn fixed_step_supports() -> Job {
    let mut job = small_job();
    job.steps[0].fixed = 1;
    job
}

pub fn fixed_step_is_supported() -> Job {
    let mut job = small_job();
    job.steps[1].fixed = 1;
    job
}

pub fn fixed_step_between() -> Job {
    Job::with_facts(&[0, 0])
        .step(3, 2)
        .fixed_step(50, 2)
        .step(60, 2)
        .condition(1, 0, 0, 2, 1)
        .condition(2, 1, 0, 2, 1)
        .effect(0, 0, 2, 1)
        .effect(1, 1, 2, 1)
}

/// Only the linked effect's step gets a latest start.
pub fn deadline_of_the_linked_effect() -> Job {
    Job::with_facts(&[0])
        .step(7, 4)
        .step(2, 3)
        .effect(0, 0, 4, 1)
        .effect(1, 0, 3, 1)
        .goal_by(0, 1, 13)
}

/// The supporter of a condition alone gets no latest start.
pub fn deadline_is_not_the_condition_supporter_s() -> Job {
    Job::with_facts(&[0, 0])
        .step(0, 2)
        .step(5, 4)
        .condition(1, 0, 0, 4, 1)
        .effect(0, 0, 2, 1)
        .effect(1, 1, 4, 1)
        .goal_by(1, 1, 9)
}

/// The least of (deadline − at), not the one of the earliest deadline.
pub fn least_of_two_deadlines() -> Job {
    Job::with_facts(&[0, 0])
        .step(2, 9)
        .effect(0, 0, 1, 1)
        .effect(0, 1, 9, 1)
        .goal_by(0, 1, 15)
        .goal_by(1, 1, 20)
}

/// The same with the goals the other way round.
pub fn least_of_two_deadlines_first() -> Job {
    Job::with_facts(&[0, 0])
        .step(2, 9)
        .effect(0, 0, 1, 1)
        .effect(0, 1, 9, 1)
        .goal_by(1, 1, 20)
        .goal_by(0, 1, 15)
        .goal(0, 1)
}

pub fn goal_of_the_initial_state() -> Job {
    Job::with_facts(&[1])
        .step(2, 3)
        .effect(0, 0, 3, 1)
        .goal_by(0, 1, 9)
}

pub fn goal_without_a_deadline() -> Job {
    Job::with_facts(&[0])
        .step(2, 3)
        .effect(0, 0, 3, 1)
        .goal(0, 1)
}

/// A fixed step's latest start is its written start, whatever its deadlines.
pub fn fixed_step_with_a_later_deadline() -> Job {
    Job::with_facts(&[0])
        .fixed_step(2, 3)
        .effect(0, 0, 3, 1)
        .goal_by(0, 1, 900)
}

/// The starred case: an effect on the deadline tick is in time.
pub fn deadline_on_the_tick_of_the_effect() -> Job {
    small_job().goal_by(1, 1, 15)
}

/// The supporter of a goal lies after the last opposing effect of all.
pub fn deadline_after_an_opposing_effect() -> Job {
    Job::with_facts(&[0])
        .step(1, 1)
        .step(4, 1)
        .step(7, 1)
        .effect(2, 0, 1, 1)
        .effect(1, 0, 1, 0)
        .effect(0, 0, 1, 1)
        .goal_by(0, 1, 10)
}

/// The highest starts, lengths and deadlines.
pub fn highest_times() -> Job {
    Job::with_facts(&[0])
        .level(1_000_000_000, -1_000_000_000, 1_000_000_000)
        .step(1_000_000, 100_000)
        .fixed_step(1_000_000, 100_000)
        .effect(0, 0, 100_000, 1)
        .uses(0, 0, 0, -1_000_000)
        .uses(1, 0, 100_000, 1_000_000)
        .goal_by(0, 1, 1_100_000)
}

// ---------------------------------------------------------------------------------------------
// Rounds

/// Each step waits for the one before: raising in place along the steps would need two rounds.
pub fn chain_along_the_steps() -> Job {
    chain([0, 1, 2, 3, 4])
}

/// Raising in place against the steps would need two rounds here.
pub fn chain_against_the_steps() -> Job {
    chain([4, 3, 2, 1, 0])
}

pub fn chain_to_and_fro() -> Job {
    chain([2, 0, 4, 1, 3])
}

/// Steps in this order in time, each supporting the next.
fn chain(order: [usize; 5]) -> Job {
    let mut job = Job::with_facts(&[0; 5]);
    for step in 0..5 {
        let place = order.iter().position(|&s| s == step).unwrap_or_default();
        job = job.step(10 * place as i64, 3);
    }
    for (place, &step) in order.iter().enumerate() {
        job = job.effect(step, place, 3, 1);
        if place > 0 {
            job = job.condition(step, place - 1, 0, 3, 1);
        }
    }
    job
}

/// A step raised in two rounds: first by a short way, then by a long one.
pub fn raised_twice() -> Job {
    Job::with_facts(&[0, 0, 0])
        .step(0, 4)
        .step(10, 4)
        .step(20, 4)
        .condition(2, 0, 0, 0, 1)
        .condition(1, 1, 0, 0, 1)
        .condition(2, 2, 0, 0, 1)
        .effect(0, 0, 1, 1)
        .effect(0, 1, 4, 1)
        .effect(1, 2, 4, 1)
}

/// An order that asks for less than 0 raises nothing: one round.
pub fn demand_below_nothing() -> Job {
    condition_late_in_its_step()
}

/// Steps and no orders: the round that changes nothing is the only one.
pub fn steps_without_orders() -> Job {
    Job::default().step(4, 2).step(0, 9).fixed_step(7, 1)
}

/// All of them, with their names.
pub fn telling_jobs() -> Vec<(&'static str, Job)> {
    let jobs = by_name![
        small_job,
        empty_job,
        later_supporter_available,
        later_supporter_with_a_lower_number,
        supporter_before_an_opposing_effect,
        initial_state_before_an_opposing_effect,
        initial_state_supports_though_an_effect_gives_it,
        opposing_effect_after_the_condition,
        last_opposing_effect_of_the_own_step,
        own_opposing_effect_at_the_last_tick,
        own_step_supports,
        wanted_as_zero,
        condition_late_in_its_step,
        widest_gaps,
        largest_gap_comes_first,
        largest_gap_comes_last,
        largest_gap_of_several_rules,
        ordered_both_ways,
        only_opposing_effects_order,
        equal_effects_are_not_ordered,
        opposing_effects_far_apart,
        opposing_effects_of_one_step,
        only_the_end_of_a_condition_orders,
        only_an_opposing_effect_before_a_condition_orders,
        agreeing_effect_after_a_condition,
        two_rises_are_ordered,
        two_falls_are_ordered,
        a_fall_and_a_rise_are_ordered,
        uses_at_one_tick_get_no_order,
        rise_and_fall_at_one_tick_with_room,
        uses_of_two_levels_are_not_ordered,
        orders_of_every_step,
        fixed_step_supports,
        fixed_step_is_supported,
        fixed_step_between,
        deadline_of_the_linked_effect,
        deadline_is_not_the_condition_supporter_s,
        least_of_two_deadlines,
        least_of_two_deadlines_first,
        goal_of_the_initial_state,
        goal_without_a_deadline,
        fixed_step_with_a_later_deadline,
        deadline_on_the_tick_of_the_effect,
        deadline_after_an_opposing_effect,
        highest_times,
        chain_along_the_steps,
        chain_against_the_steps,
        chain_to_and_fro,
        raised_twice,
        demand_below_nothing,
        steps_without_orders,
    ];
    [jobs, ties()].concat()
}
