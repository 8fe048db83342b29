//! What each telling job of edition 2 is loosened to, worked out by hand; the mistaken answer
//! beside it.

use reference::brute::{try_anywhere, Tried};
use reference::job::Job;
use reference::loosen::order_file_of;
use reference::make::telling::small_job;
use reference::make::timed_telling::*;
use reference::order_file::{Link, OrderFile};
use reference::random::Random;
use reference::show::show;

fn loosened(job: Job) -> OrderFile {
    order_file_of(&job.to_file()).expect("a telling job is sound")
}

fn orders(job: Job) -> Vec<(usize, usize, i64)> {
    let file = loosened(job);
    let orders = file.orders.iter();
    orders.map(|o| (o.first, o.second, o.gap)).collect()
}

/// As they are written, −1 for the initial state.
fn links(job: Job) -> Vec<i64> {
    let number = |link: &Link| match *link {
        Link::InitialState => -1,
        link => i64::from(link.number()),
    };
    loosened(job).links.iter().map(number).collect()
}

fn limits(job: Job) -> Vec<i64> {
    loosened(job).windows.iter().map(|w| w.limit).collect()
}

/// Latest starts, −1 for none.
fn latest(job: Job) -> Vec<i64> {
    let windows = loosened(job).windows;
    windows.iter().map(|w| w.latest.unwrap_or(-1)).collect()
}

fn earliest(job: Job) -> Vec<i64> {
    loosened(job).earliest_times()
}

#[test]
fn every_telling_job_is_sound_and_of_edition_2() {
    for (name, job) in timed_telling_jobs() {
        assert_eq!(job.edition, 2, "{name}");
        assert!(order_file_of(&job.to_file()).is_ok(), "{name}");
    }
}

#[test]
fn choices_that_obey_their_files_are_sound_and_end_alike() {
    let mut random = Random::seeded(4);
    let mut tried = Tried::default();
    for (_, job) in timed_telling_jobs() {
        for _ in 0..5 {
            try_anywhere(&job, &mut random, &mut tried).unwrap_or_else(|broken| panic!("{broken}"));
        }
    }
    assert_eq!(tried.choices, 46 * 5 * 60);
}

#[test]
fn without_timed_facts_it_is_as_in_edition_1() {
    let sheet = "\
steps 2 rounds 2
step 0 earliest 0 latest none
step 1 earliest 6 latest none
order 0 1 6
";
    assert_eq!(show(&small_job_of_edition_2().to_file()), sheet);
    assert_eq!(show(&small_job().to_file()), sheet);
}

#[test]
fn the_clock_is_no_step() {
    let job = timed_facts_without_steps;
    assert_eq!(show(&job().to_file()), "steps 0 rounds 0\n");
    assert_eq!(links(job()), [512]);
}

#[test]
fn ties_go_to_effects_then_to_the_lower_timed_fact() {
    // The timed fact would be 512, with limit 6 for step 1 and no latest start.
    for job in [tie_goes_to_the_effect, effect_before_a_timed_fact] {
        assert_eq!((links(job()), orders(job())), (vec![0, 0], vec![(0, 1, 3)]));
        assert_eq!((limits(job()), latest(job())), (vec![0, 0], vec![6, -1]));
    }
    // The effect would be 0.
    let job = timed_fact_before_an_effect;
    assert_eq!((links(job()), orders(job())), (vec![512, 512], vec![]));
    assert_eq!((limits(job()), latest(job())), (vec![0, 6], vec![-1, -1]));
    // The timed fact would give limit 2.
    let job = tie_goes_to_the_own_effect;
    assert_eq!((links(job()), limits(job())), (vec![0], vec![0]));
    // The higher would be 514.
    let job = tie_goes_to_the_lower_timed_fact;
    assert_eq!((links(job()), limits(job())), (vec![513, 513], vec![6]));
    assert_eq!(latest(job()), [-1]);
    // The lowest number would be 512, with limit 8.
    let job = later_timed_fact_with_a_lower_number;
    assert_eq!((links(job()), limits(job())), (vec![513], vec![6]));
}

#[test]
fn supporters() {
    let job = initial_state_though_a_timed_fact_gives_it;
    assert_eq!((links(job()), limits(job())), (vec![-1, -1], vec![0]));
    let job = initial_state_opposed_by_the_clock;
    assert_eq!((links(job()), limits(job())), (vec![513, 513], vec![5]));
    // Without the clock effect 0 would support, with order (0, 2, 3).
    let job = effect_before_an_opposing_timed_fact_does_not_support;
    assert_eq!((links(job()), orders(job())), (vec![1, 1], vec![(1, 2, 2)]));
    assert_eq!(limits(job()), [0, 4, 5]);
    assert_eq!(latest(job()), [1, 8, -1]);
    assert_eq!(earliest(job()), [0, 4, 6]);
    // The earliest timed fact of all would be 512.
    let job = timed_fact_before_an_opposing_effect_does_not_support;
    assert_eq!(links(job()), [513, 513]);
    assert_eq!(orders(job()), [(0, 1, 2)]);
    assert_eq!((limits(job()), latest(job())), (vec![2, 8], vec![5, -1]));
    // Counting what comes after the condition would leave 514 for it too.
    let job = opposing_timed_fact_after_the_condition;
    assert_eq!(links(job()), [512, 514]);
    assert_eq!((limits(job()), latest(job())), (vec![3], vec![7]));
    let job = timed_fact_gives_zero;
    assert_eq!(links(job()), [512, 514]);
    assert_eq!((limits(job()), latest(job())), (vec![4], vec![10]));
    let job = highest_link_of_a_job;
    assert_eq!((links(job()), limits(job())), (vec![575, 575], vec![81]));
}

#[test]
fn conditions_keep_their_whole_length_from_the_clock() {
    // By the first tick it would be 7; not held apart, none.
    assert_eq!(latest(timed_fact_after_a_condition()), [4]);
    assert_eq!(links(timed_fact_after_a_condition()), [-1]);
    assert_eq!(limits(timed_fact_after_a_condition()), [0]);
    assert_eq!(latest(timed_fact_right_after_a_condition()), [2]);
    // By the last tick it would be 0.
    let job = opposing_timed_fact_before_a_condition;
    assert_eq!((limits(job()), latest(job())), (vec![3, 8], vec![-1, -1]));
    assert_eq!(
        (orders(job()), earliest(job())),
        (vec![(1, 0, -4)], vec![4, 8])
    );
    // The own effect at the last tick does not excuse the clock: none.
    let job = own_effect_at_the_last_tick_and_the_clock_after_it;
    assert_eq!((links(job()), latest(job())), (vec![-1, 0], vec![5]));
}

#[test]
fn effects_keep_their_side_of_the_clock() {
    let job = effect_before_an_opposing_timed_fact;
    assert_eq!((limits(job()), latest(job())), (vec![0], vec![5]));
    let job = effect_after_an_opposing_timed_fact;
    assert_eq!((limits(job()), latest(job())), (vec![7], vec![-1]));
    // The first found would be (4, 22), the last (1, 17).
    let job = tightest_of_several_timed_facts;
    assert_eq!((limits(job()), latest(job())), (vec![4], vec![17]));
    let job = tightest_of_several_points;
    assert_eq!((limits(job()), latest(job())), (vec![4], vec![17]));
    let job = agreeing_timed_facts;
    assert_eq!((limits(job()), latest(job())), (vec![0], vec![-1]));
    assert_eq!(links(job()), [-1]);
}

#[test]
fn limits_are_at_least_0_and_the_tightest() {
    assert_eq!(limits(limit_below_nothing()), [0]);
    assert_eq!(links(limit_below_nothing()), [512]);
    assert_eq!(limits(limits_at_nothing()), [0, 1]);
    assert_eq!(latest(deadline_tighter_than_the_clock()), [6]);
    assert_eq!(latest(clock_tighter_than_the_deadline()), [3]);
    // Loosened they would be 3 and 17.
    let job = fixed_step_between_timed_facts;
    assert_eq!((limits(job()), latest(job())), (vec![10], vec![10]));
    let job = fixed_step_supported_by_the_clock;
    assert_eq!((limits(job()), latest(job())), (vec![10], vec![10]));
    assert_eq!(links(job()), [512]);
    let job = highest_tick;
    assert_eq!(
        (links(job()), latest(job())),
        (vec![-1, 512], vec![1_000_000])
    );
    assert_eq!(limits(highest_limit()), [1_000_000]);
}

#[test]
fn a_goal_of_the_clock_limits_nobody() {
    // The deadline would give 6.
    let job = goal_supported_by_the_clock;
    assert_eq!((links(job()), latest(job())), (vec![512], vec![-1]));
    assert_eq!(limits(job()), [0]);
    let job = goal_regained_by_the_clock;
    assert_eq!(links(job()), [513]);
    assert_eq!((limits(job()), latest(job())), (vec![0, 5], vec![2, -1]));
}

#[test]
fn links_to_timed_facts_are_no_numbers_of_effects() {
    let job = links_past_a_full_table_of_effects;
    assert_eq!(job().effects.len(), 512);
    assert_eq!(links(job()), [512, 512]);
    // Read so, step 3 would come before step 5 and have the latest start 200.
    assert_eq!(orders(job()), []);
    assert_eq!(latest(job()), [-1; 64]);
    let mut expected = [0; 64];
    expected[5] = 49;
    assert_eq!(limits(job()), expected);
}

#[test]
fn rounds_begin_with_limits() {
    let job = rounds_begin_with_the_limits;
    assert_eq!(limits(job()), [7, 0]);
    assert_eq!(orders(job()), [(0, 1, 3)]);
    // Raised from 0 and cut off at the limits afterwards, step 1 would have 3.
    assert_eq!(earliest(job()), [7, 10]);
    assert_eq!(loosened(job()).rounds, 2);
    let job = limit_higher_than_what_an_order_demands;
    assert_eq!(earliest(job()), [0, 17]);
    assert_eq!(loosened(job()).rounds, 1);
    let job = chain_behind_the_clock;
    assert_eq!(earliest(job()), [50, 54, 58, 62]);
    assert_eq!(loosened(job()).rounds, 4);
}
