//! A timed fact acts as an effect of another step that cannot move. So a job of edition 2 is held
//! against one of edition 1 that has, for each timed fact, a fixed step of no length with one
//! effect: what is sound, links, limits, orders and earliest times agree.

use std::collections::BTreeMap;

use reference::job::{Effect, Job, Step};
use reference::make::scribbled::scribbled_job;
use reference::make::sound::some_sound_job;
use reference::make::timings::some_starts;
use reference::order_file::{Link, Order, OrderFile};
use reference::orders::orders_of;
use reference::random::Random;
use reference::refusal::number_and_place;
use reference::timing::{end_state, sound};
use reference::well_formed::well_formed;

/// The clock's steps and effects come after all others, so that ties go to the others.
fn with_fixed_steps(job: &Job) -> Job {
    let mut fixed = job.clone();
    fixed.edition = 1;
    for timed in fixed.timed.drain(..) {
        fixed.effects.push(Effect {
            step: fixed.steps.len(),
            fact: timed.fact,
            at: 0,
            value: timed.value,
        });
        fixed.steps.push(Step {
            start: timed.tick,
            length: 0,
            fixed: 1,
        });
    }
    fixed
}

fn ticks_of_the_clock(job: &Job) -> Vec<i64> {
    job.timed.iter().map(|timed| timed.tick).collect()
}

/// What the file of the job with fixed steps says about the job without them: orders from and to
/// the clock's steps are limits.
fn without_the_clock(job: &Job, mut file: OrderFile) -> OrderFile {
    let steps = job.steps.len();
    let clock = ticks_of_the_clock(job);
    for &Order { first, second, gap } in &file.orders {
        if first >= steps && second < steps {
            let limit = &mut file.windows[second].limit;
            *limit = (*limit).max(clock[first - steps] + gap);
        }
        if second >= steps && first < steps {
            let latest = &mut file.windows[first].latest;
            let demanded = clock[second - steps] - gap;
            *latest = Some(latest.map_or(demanded, |other| other.min(demanded)));
        }
    }
    file.windows.truncate(steps);
    file.orders.retain(|o| o.first < steps && o.second < steps);
    for link in &mut file.links {
        match *link {
            Link::Effect(number) if number >= job.effects.len() => {
                *link = Link::Timed(number - job.effects.len());
            }
            _ => {}
        }
    }
    file
}

#[test]
fn sound_timings_and_end_states_agree() {
    let mut random = Random::seeded(31);
    let mut counts: BTreeMap<u16, usize> = BTreeMap::new();
    for round in 0..20_000 {
        let job = match round % 2 {
            0 => some_sound_job(&mut random, 2),
            _ => scribbled_job(&mut random, 2),
        };
        let starts = some_starts(&mut random, &job);
        let starts: Vec<i64> = starts.into_iter().map(i64::from).collect();
        if well_formed(&job.to_file()).is_err() || starts.len() != job.steps.len() {
            continue;
        }
        let fixed = with_fixed_steps(&job);
        let all_starts = [starts.clone(), ticks_of_the_clock(&job)].concat();
        let verdict = sound(&job, &starts);
        assert_eq!(verdict, sound(&fixed, &all_starts), "{job:?} {starts:?}");
        if verdict.is_ok() {
            assert_eq!(end_state(&job, &starts), end_state(&fixed, &all_starts));
        }
        *counts.entry(number_and_place(&verdict).0).or_default() += 1;
    }
    for number in [0, 10, 11, 12, 13] {
        assert!(counts.get(&number) > Some(&200), "{number}: {counts:?}");
    }
}

#[test]
fn order_files_agree() {
    let mut random = Random::seeded(32);
    let mut compared = 0;
    while compared < 5_000 {
        let job = some_sound_job(&mut random, 2);
        let ticks = ticks_of_the_clock(&job);
        if ticks.iter().any(|&tick| tick > 1_000_000) {
            continue;
        }
        let file = orders_of(&job);
        let expected = without_the_clock(&job, orders_of(&with_fixed_steps(&job)));
        // The clock's steps have a round more to demand what limits demand at once.
        assert!(file.rounds <= expected.rounds, "{job:?}");
        let rounds = file.rounds;
        assert_eq!(file, OrderFile { rounds, ..expected }, "{job:?}");
        compared += 1;
    }
}
