//! What each telling job of edition 3 is loosened to, worked out by hand; the mistaken answer beside
//! it.

use reference::brute::{try_anywhere, Tried};
use reference::job::Job;
use reference::loosen::order_file_of;
use reference::make::need_telling::*;
use reference::make::telling::small_job;
use reference::make::timed_telling::rounds_begin_with_the_limits;
use reference::order_file::{Link, OrderFile};
use reference::random::Random;

fn loosened(job: Job) -> OrderFile {
    order_file_of(&job.to_file()).expect("a telling job is sound")
}

fn orders(job: Job) -> Vec<(usize, usize, i64)> {
    let file = loosened(job);
    let orders = file.orders.iter();
    orders.map(|o| (o.first, o.second, o.gap)).collect()
}

/// Limits, and latest starts, −1 for none.
fn windows(job: Job) -> (Vec<i64>, Vec<i64>) {
    let windows = loosened(job).windows;
    let windows = windows.iter();
    windows.map(|w| (w.limit, w.latest.unwrap_or(-1))).unzip()
}

fn earliest_and_rounds(job: Job) -> (Vec<i64>, usize) {
    let file = loosened(job);
    (file.earliest_times(), file.rounds)
}

#[test]
fn every_telling_job_is_sound_and_of_edition_3() {
    for (name, job) in [need_telling_jobs(), largest_needs()].concat() {
        assert_eq!(job.edition, 3, "{name}");
        assert!(order_file_of(&job.to_file()).is_ok(), "{name}");
    }
}

#[test]
fn choices_that_obey_their_files_are_sound_and_end_alike() {
    let mut random = Random::seeded(4);
    let mut tried = Tried::default();
    for (_, job) in need_telling_jobs() {
        for _ in 0..5 {
            try_anywhere(&job, &mut random, &mut tried).unwrap_or_else(|broken| panic!("{broken}"));
        }
    }
    assert_eq!(tried.choices, 32 * 5 * 60);
}

#[test]
fn without_needs_it_is_as_in_the_editions_before() {
    assert_eq!(loosened(small_job_of_edition_3()), loosened(small_job()));
    assert_eq!(
        loosened(timed_facts_without_needs()),
        loosened(rounds_begin_with_the_limits())
    );
}

#[test]
fn a_need_and_another_step_s_use_are_ordered_as_they_lie() {
    // Whole steps would give 10, points the other way round −2.
    for job in [
        need_before_a_fall,
        need_before_a_rise,
        need_after_a_fall,
        need_after_a_rise,
    ] {
        assert_eq!(orders(job()), [(0, 1, 4)]);
        assert_eq!(earliest_and_rounds(job()), (vec![0, 4], 2));
    }
    let job = need_of_the_higher_step_before_a_use;
    assert_eq!(orders(job()), [(1, 0, 4)]);
    let job = need_a_tick_before_and_a_tick_after;
    assert_eq!(orders(job()), [(0, 2, 0), (1, 0, 0)]);
    // Needs ordered with each other would give (0, 2, 3) as well.
    let job = two_needs_and_a_use_between;
    assert_eq!(orders(job()), [(0, 1, 4), (1, 2, 0)]);
    for job in [need_between_two_uses, use_between_two_needs] {
        assert_eq!(orders(job()), [(0, 1, 0), (1, 0, -24)]);
    }
}

#[test]
fn what_gives_no_order() {
    assert_eq!(orders(needs_without_uses()), []);
    // With the need first they would be (0, 1, 3) and (0, 1, −1), with the use first (1, 0, −1) and
    // (1, 0, 3).
    assert_eq!(orders(need_and_a_fall_at_one_tick()), []);
    assert_eq!(orders(need_and_a_rise_at_one_tick()), []);
    assert_eq!(orders(need_and_uses_of_the_own_step()), []);
    assert_eq!(orders(own_fall_at_the_tick()), []);
    assert_eq!(orders(own_uses_before()), []);
    assert_eq!(orders(need_and_a_use_of_another_level()), []);
    // By the number of a need or a use instead of its level, step 0 would be ordered too.
    assert_eq!(orders(need_of_the_second_level()), [(1, 2, 5)]);
    // At the tick of the need step 1 has a use, and step 2; only their other uses are ordered with it.
    let job = uses_at_the_tick_and_around;
    assert_eq!(orders(job()), [(0, 2, -11), (1, 0, 0), (1, 2, -2)]);
}

#[test]
fn gaps() {
    let job = negative_gaps;
    let expected = [(1, 0, -2), (1, 2, -3), (2, 0, 2), (3, 1, -3), (3, 2, -7)];
    assert_eq!(orders(job()), expected);
    let job = widest_gaps;
    assert_eq!(orders(job()), [(0, 1, 100_001), (1, 2, -99_999)]);
    // The first need of each side would give 16 and −44, the last −1 and −54.
    let job = several_needs_of_one_step;
    assert_eq!(orders(job()), [(0, 1, 20), (1, 0, -22)]);
}

#[test]
fn the_largest_gap_of_all_rules_stays() {
    // The use alone would give 0.
    assert_eq!(orders(need_nearer_than_the_use()), [(0, 1, 4)]);
    // The need alone would give 0.
    assert_eq!(orders(use_nearer_than_the_need()), [(0, 1, 4)]);
    // Support alone would give 9 and 3, the needs alone 4 and 9.
    let job = support_beside_a_need;
    assert_eq!(orders(job()), [(0, 1, 9), (0, 2, 6), (1, 2, 9)]);
    // Met whatever the timing, and ordered nevertheless; the uses alone would give 1.
    assert_eq!(orders(needs_below_the_bounds()), [(0, 1, 4)]);
}

#[test]
fn needs_set_no_limits_and_have_no_links() {
    let job = need_of_a_fixed_step;
    assert_eq!(orders(job()), [(0, 1, 4), (2, 0, -3), (2, 1, 0)]);
    assert_eq!(windows(job()), (vec![10, 0, 0], vec![10, -1, -1]));
    assert_eq!(earliest_and_rounds(job()), (vec![10, 14, 0], 2));
    let job = goal_beside_a_need;
    assert_eq!(loosened(job()).links, [Link::Effect(0)]);
    assert_eq!(windows(job()), (vec![0, 0], vec![-1, 26]));
    assert_eq!(orders(job()), [(0, 1, 4)]);
}

#[test]
fn needs_beside_the_clock() {
    let job = need_behind_the_clock;
    assert_eq!(loosened(job()).links, [Link::Timed(0)]);
    assert_eq!(orders(job()), [(0, 1, 2)]);
    assert_eq!(windows(job()), (vec![7, 0], vec![48, -1]));
    assert_eq!(earliest_and_rounds(job()), (vec![7, 9], 2));
    let job = need_before_the_clock;
    assert_eq!(loosened(job()).links, [Link::InitialState]);
    assert_eq!(orders(job()), [(0, 1, 3)]);
    assert_eq!(windows(job()), (vec![0, 0], vec![15, -1]));
    assert_eq!(earliest_and_rounds(job()), (vec![0, 3], 2));
}

#[test]
fn rounds_along_needs() {
    let job = chain_of_needs;
    assert_eq!(orders(job()), [(1, 0, 3), (2, 1, 3), (3, 2, 3)]);
    assert_eq!(earliest_and_rounds(job()), (vec![9, 6, 3, 0], 4));
}

#[test]
fn jobs_with_128_needs() {
    let job = every_step_needs_at_the_tick_of_all_uses;
    assert_eq!((job().uses.len(), job().needs.len()), (64, 128));
    assert_eq!(orders(job()), []);
    let job = one_use_among_128_needs;
    assert_eq!((job().uses.len(), job().needs.len()), (1, 128));
    let before = (0..63).map(|s| (s, 63, 14 - s as i64));
    let after = (0..63).map(|s| (63, s, s as i64 - 112));
    assert_eq!(orders(job()), before.chain(after).collect::<Vec<_>>());
    let job = uses_and_needs_of_every_step;
    assert_eq!((job().uses.len(), job().needs.len()), (256, 128));
    assert_eq!(orders(job()).len(), 4_032);
}
