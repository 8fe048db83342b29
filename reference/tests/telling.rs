//! What each telling job is loosened to, worked out by hand; the mistaken answer beside it.

use reference::job::Job;
use reference::loosen::order_file_of;
use reference::make::highest::{chain_of_all_steps, every_pair_ordered_both_ways};
use reference::make::telling::*;
use reference::order_file::{Link, OrderFile};

fn loosened(job: Job) -> OrderFile {
    order_file_of(&job.to_file()).expect("a telling job is sound")
}

fn orders(job: Job) -> Vec<(usize, usize, i64)> {
    let file = loosened(job);
    let orders = file.orders.iter();
    orders.map(|o| (o.first, o.second, o.gap)).collect()
}

/// Effect numbers, −1 for the initial state.
fn links(job: Job) -> Vec<i64> {
    let number = |link: &Link| match *link {
        Link::InitialState => -1,
        link => i64::from(link.number()),
    };
    loosened(job).links.iter().map(number).collect()
}

/// Latest starts, −1 for none.
fn latest(job: Job) -> Vec<i64> {
    let windows = loosened(job).windows;
    windows.iter().map(|w| w.latest.unwrap_or(-1)).collect()
}

fn limits(job: Job) -> Vec<i64> {
    loosened(job).windows.iter().map(|w| w.limit).collect()
}

fn earliest(job: Job) -> Vec<i64> {
    loosened(job).earliest_times()
}

#[test]
fn every_telling_job_is_sound() {
    for (name, job) in telling_jobs() {
        assert!(order_file_of(&job.to_file()).is_ok(), "{name}");
    }
}

#[test]
fn supporters() {
    // The latest would be 1, with order (1, 2, 7).
    assert_eq!(links(later_supporter_available()), [0, 0]);
    assert_eq!(orders(later_supporter_available()), [(0, 2, 6)]);
    // The lowest number would be 0.
    assert_eq!(links(later_supporter_with_a_lower_number()), [1, 1]);
    // One before the opposing effect would be 0.
    assert_eq!(links(supporter_before_an_opposing_effect()), [2, 2]);
    let job = supporter_before_an_opposing_effect();
    let expected = [(0, 1, 1), (1, 2, 1), (1, 3, 2), (2, 3, 2)];
    assert_eq!(orders(job), expected);
    let job = supporter_before_an_opposing_effect();
    assert_eq!(latest(job), [-1, -1, 8, -1]);
    // The initial state would be −1.
    assert_eq!(links(initial_state_before_an_opposing_effect()), [1, 1]);
    // The effect would be 0.
    let job = initial_state_supports_though_an_effect_gives_it();
    assert_eq!(links(job), [-1, -1]);
    // Counting opposing effects after the condition would leave 2.
    assert_eq!(links(opposing_effect_after_the_condition()), [0, 2]);
    // Passing over the own step's opposing effect would give 0.
    assert_eq!(links(last_opposing_effect_of_the_own_step()), [2]);
    assert_eq!(links(own_opposing_effect_at_the_last_tick()), [0, 0, 1]);
    assert_eq!(links(own_step_supports()), [0, 0]);
    assert_eq!(orders(own_step_supports()), []);
    assert_eq!(links(wanted_as_zero()), [0, -1, 0, -1]);
}

#[test]
fn gaps() {
    // Whole steps would give 6, points without the + 1 would give −3.
    assert_eq!(orders(condition_late_in_its_step()), [(0, 1, -2)]);
    let widest = [(0, 1, 100_001), (2, 1, -99_999)];
    assert_eq!(orders(widest_gaps()), widest);
    // The smallest would be −1, the last −1, the first of the second job −1.
    assert_eq!(orders(largest_gap_comes_first()), [(0, 1, 5)]);
    assert_eq!(orders(largest_gap_comes_last()), [(0, 1, 5)]);
    // Support 2, condition before effect 3, uses 9.
    assert_eq!(orders(largest_gap_of_several_rules()), [(0, 1, 9)]);
    assert_eq!(orders(ordered_both_ways()), [(0, 1, -4), (1, 0, -5)]);
}

#[test]
fn rule_2_alone() {
    assert_eq!(orders(only_opposing_effects_order()), [(0, 1, 0)]);
    assert_eq!(orders(equal_effects_are_not_ordered()), []);
    // Neighbours only would leave out (2, 0) and those to 3.
    let far = [(1, 0, 1), (1, 3, 2), (2, 0, 1), (2, 3, 2)];
    assert_eq!(orders(opposing_effects_far_apart()), far);
    assert_eq!(orders(opposing_effects_of_one_step()), []);
}

#[test]
fn rule_3_alone() {
    // From the first tick it would be 0.
    assert_eq!(orders(only_the_end_of_a_condition_orders()), [(0, 1, 3)]);
    // Without the rule (0, 2) would be missing; to the last tick it would be 0.
    let job = only_an_opposing_effect_before_a_condition_orders();
    assert_eq!(orders(job), [(0, 1, 2), (0, 2, 2), (1, 2, 1)]);
    assert_eq!(orders(agreeing_effect_after_a_condition()), []);
}

#[test]
fn rule_4_alone() {
    assert_eq!(orders(two_rises_are_ordered()), [(0, 1, -1)]);
    assert_eq!(orders(two_falls_are_ordered()), [(1, 0, -1)]);
    assert_eq!(orders(a_fall_and_a_rise_are_ordered()), [(0, 1, 5)]);
    let around = [(0, 3, 4), (1, 3, 2), (2, 0, -2), (2, 1, 0), (2, 3, 1)];
    assert_eq!(orders(uses_at_one_tick_get_no_order()), around);
    assert_eq!(orders(rise_and_fall_at_one_tick_with_room()), []);
    assert_eq!(orders(uses_of_two_levels_are_not_ordered()), []);
}

#[test]
fn no_step_is_skipped_and_orders_are_filed_by_first() {
    let filed = [(1, 0, 3), (2, 0, 1), (2, 1, 3), (3, 0, 1), (3, 2, 3)];
    assert_eq!(orders(orders_of_every_step()), filed);
}

#[test]
fn windows() {
    assert_eq!(limits(fixed_step_supports()), [10, 0]);
    assert_eq!(latest(fixed_step_supports()), [10, -1]);
    assert_eq!(earliest(fixed_step_supports()), [10, 16]);
    assert_eq!(limits(fixed_step_is_supported()), [0, 20]);
    assert_eq!(earliest(fixed_step_is_supported()), [0, 20]);
    assert_eq!(earliest(fixed_step_between()), [0, 50, 53]);
    // A latest start for every step that gives the value would be [9, 10].
    assert_eq!(latest(deadline_of_the_linked_effect()), [-1, 10]);
    assert_eq!(latest(deadline_is_not_the_condition_supporter_s()), [-1, 5]);
    // The earliest deadline would give 14.
    assert_eq!(latest(least_of_two_deadlines()), [11]);
    assert_eq!(latest(least_of_two_deadlines_first()), [11]);
    assert_eq!(latest(goal_of_the_initial_state()), [-1]);
    assert_eq!(latest(goal_without_a_deadline()), [-1]);
    // The deadline would give 897.
    assert_eq!(latest(fixed_step_with_a_later_deadline()), [2]);
    assert_eq!(latest(deadline_on_the_tick_of_the_effect()), [10, -1]);
    assert_eq!(latest(deadline_after_an_opposing_effect()), [-1, -1, 9]);
    assert_eq!(latest(highest_times()), [1_000_000, 1_000_000]);
}

#[test]
fn rounds() {
    assert_eq!(loosened(empty_job()).rounds, 0);
    assert_eq!(loosened(steps_without_orders()).rounds, 1);
    assert_eq!(loosened(demand_below_nothing()).rounds, 1);
    // One round would leave 4 for every step but the first; raising in place would need two.
    for job in [
        chain_along_the_steps(),
        chain_against_the_steps(),
        chain_to_and_fro(),
    ] {
        assert_eq!(loosened(job).rounds, 5);
    }
    assert_eq!(earliest(chain_along_the_steps()), [0, 4, 8, 12, 16]);
    assert_eq!(earliest(chain_to_and_fro()), [4, 12, 0, 16, 8]);
    assert_eq!(earliest(raised_twice()), [0, 5, 10]);
    assert_eq!(loosened(raised_twice()).rounds, 3);
    assert_eq!(loosened(chain_of_all_steps()).rounds, 64);
}

#[test]
fn the_most_orders_a_job_can_have() {
    assert_eq!(orders(every_pair_ordered_both_ways()).len(), 4_032);
}
