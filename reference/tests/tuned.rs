//! The tuned check and loosening answer as the literal ones do, byte for byte.

use std::collections::BTreeSet;

use reference::job::Job;
use reference::loosen::{loosen, order_file_of};
use reference::made::made_case_of;
use reference::make::bench_jobs::{
    bench_job, needs_bench_job, timed_bench_job, SPREADS, TIMED_SPREADS,
};
use reference::make::edges::edges;
use reference::make::highest::{
    chain_of_all_steps, every_pair_ordered_both_ways, highest_job, highest_needs_job,
    highest_timed_job,
};
use reference::make::marked::{marked_and_refused, marked_telling_jobs};
use reference::make::near_miss::{near_miss, nearly_missed};
use reference::make::need_edges::need_edges;
use reference::make::need_telling::{largest_needs, need_telling_jobs};
use reference::make::own_conflicts::own_conflicts;
use reference::make::sound::{sound_job, Shape};
use reference::make::telling::telling_jobs;
use reference::make::ties::{largest_ties, largest_timed_ties};
use reference::make::timed_edges::timed_edges;
use reference::make::timed_telling::timed_telling_jobs;
use reference::make::{checking_order, damage, ranges};
use reference::random::Random;
use reference::refusal::number_and_place;
use reference::timing::check_job;
use reference::tuned;

/// Both answers to one job, in buffers of the file's length, one byte less, and some more. Gives
/// the number of the job check.
fn compare(job: &[u8]) -> u16 {
    let checked = number_and_place(&check_job(job));
    assert_eq!(tuned::check(job), checked);
    let length = order_file_of(job).map_or(20, |file| file.to_file().len());
    for length in [0, length - 1, length, length + 9] {
        let (mut expected, mut buffer) = (vec![165; length], vec![165; length]);
        let answer = loosen(job, &mut expected);
        let tuned = tuned::partialize(job, &mut buffer);
        assert_eq!(tuned, (answer.number, answer.place, answer.length));
        assert_eq!(buffer, expected);
    }
    checked.0
}

fn compare_all<'a>(jobs: impl IntoIterator<Item = &'a Job>) {
    for job in jobs {
        compare(&job.to_file());
    }
}

#[test]
fn on_jobs_that_tell_and_jobs_at_the_edges() {
    compare_all(telling_jobs().iter().map(|(_, job)| job));
    compare_all(timed_telling_jobs().iter().map(|(_, job)| job));
    compare_all(need_telling_jobs().iter().map(|(_, job)| job));
    compare_all(&edges());
    compare_all(&timed_edges());
    compare_all(&need_edges());
    compare_all(&own_conflicts());
    compare_all(marked_telling_jobs().iter().map(|(_, job)| job));
    compare_all(&marked_and_refused());
}

#[test]
fn on_damaged_jobs() {
    for edition in [1, 2, 3] {
        let job = damage::full_job_of(edition);
        let file = job.to_file();
        for file in [
            damage::too_short(&file),
            damage::layouts(&file),
            damage::each_byte(&file),
            checking_order::pairs_of_refusals(edition),
        ]
        .concat()
        {
            compare(&file);
        }
        compare_all(&ranges::ranges(&job));
        compare_all(&ranges::two_broken_records(edition));
        compare_all(&damage::counts_at_highest(edition));
        compare_all(&damage::counts_one_above(edition));
    }
}

#[test]
fn on_made_jobs_with_every_refusal() {
    for edition in [1, 2, 3] {
        let mut random = Random::seeded(7);
        let mut numbers = BTreeSet::new();
        for _ in 0..1_500 {
            for command in ['w', 'c', 'l'] {
                let case = made_case_of(edition, &mut random, command);
                numbers.insert(compare(&case.fields[0]));
            }
        }
        let missed = nearly_missed(edition);
        for &number in &missed {
            let job = near_miss(&mut random, edition, number);
            numbers.insert(compare(&job.to_file()));
        }
        let of_the_job_check = (0..=7).chain(missed);
        assert_eq!(numbers, of_the_job_check.collect());
    }
}

/// Enough points on a fact and a level for rows instead of pairs, half of them with timed facts, half
/// of them with needs.
#[test]
fn on_jobs_crowded_into_few_ticks() {
    let mut random = Random::seeded(11);
    for number in 0..120 {
        let shape = Shape {
            edition: 3,
            timed: random.pick(&[0, 64]),
            needs: random.pick(&[0, 100]),
            serial: random.chance(30),
            facts: 1 + number % 2,
            levels: 1,
            steps: 12,
            conditions: 60,
            effects: 90,
            uses: 60,
            goals: 3,
            last_start: 40,
            longest: 20,
            fixed_percent: 5,
            tied_percent: random.pick(&[0, 40]),
        };
        let mut job = sound_job(&mut random, &shape);
        assert_eq!(compare(&job.to_file()), 0);
        let moved = random.below(job.steps.len());
        job.steps[moved].start += 1;
        compare(&job.to_file());
    }
}

#[test]
fn on_jobs_as_large_as_jobs_can_be() {
    compare_all(&[every_pair_ordered_both_ways(), chain_of_all_steps()]);
    let ties = [largest_ties(), largest_timed_ties()].concat();
    compare_all(ties.iter().map(|(_, job)| job));
    compare_all(&[1, 8, 256].map(|facts| highest_job(3, facts)));
    compare_all(&[1, 8, 256].map(|facts| highest_timed_job(3, facts)));
    compare_all(&[1, 8, 256].map(|facts| highest_needs_job(3, facts)));
    compare_all(largest_needs().iter().map(|(_, job)| job));
}

#[test]
fn bench_jobs_are_sound_and_full() {
    for spread in SPREADS {
        for steps in [8, 16, 32, 64] {
            let job = bench_job(spread, steps);
            assert_eq!(compare(&job.to_file()), 0, "{}", spread.name());
            let [_, _, held, conditions, effects, uses, goals, ..] = job.counts();
            let full = [steps, 8 * steps, 8 * steps, 4 * steps, steps / 2];
            assert_eq!([held, conditions, effects, uses, goals], full);
        }
    }
}

#[test]
fn timed_bench_jobs_are_sound_and_full() {
    for spread in TIMED_SPREADS {
        let job = timed_bench_job(spread);
        assert_eq!(compare(&job.to_file()), 0, "{}", spread.name());
        assert_eq!(job.counts()[2..], [64, 512, 512, 256, 32, 64, 0]);
    }
}

#[test]
fn bench_jobs_with_needs_are_sound_and_full() {
    for spread in TIMED_SPREADS {
        let job = needs_bench_job(spread);
        assert_eq!(compare(&job.to_file()), 0, "{}", spread.name());
        assert_eq!(job.counts()[2..], [64, 512, 512, 256, 32, 64, 128]);
    }
}
