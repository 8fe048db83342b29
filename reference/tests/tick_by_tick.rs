//! When a timing is sound, looked at tick by tick, agrees with looking where something happens.

use std::collections::BTreeMap;

use reference::job::{Job, Need};
use reference::make::scribbled::scribbled_job;
use reference::make::sound::small_sound_job;
use reference::make::timings::some_starts;
use reference::random::Random;
use reference::refusal::{number_and_place, refuse_at, Verdict};
use reference::timing::{end_state, sound};
use reference::well_formed::well_formed;

/// Everything that happens, from tick 0 to one past the last.
struct Course {
    /// By tick and fact: the value seen.
    seen: Vec<Vec<u16>>,
    /// By tick and level: the level from earlier ticks.
    before: Vec<Vec<i64>>,
}

fn last_tick(job: &Job, starts: &[i64]) -> i64 {
    let ends = job.steps.iter().zip(starts);
    let last_end = ends.map(|(step, start)| start + step.length).max();
    let last_deadline = job.goals.iter().filter_map(|goal| goal.deadline).max();
    let last_timed = job.timed.iter().map(|timed| timed.tick).max();
    last_end.max(last_deadline).max(last_timed).unwrap_or(0)
}

fn course(job: &Job, starts: &[i64]) -> Course {
    let mut values = job.facts.clone();
    let mut amounts: Vec<i64> = job.levels.iter().map(|level| level.initial).collect();
    let mut course = Course {
        seen: Vec::new(),
        before: Vec::new(),
    };
    for tick in 0..=last_tick(job, starts) + 2 {
        course.seen.push(values.clone());
        course.before.push(amounts.clone());
        for effect in job.effects.iter().filter(|e| e.tick(starts) == tick) {
            values[effect.fact] = effect.value;
        }
        for timed in job.timed.iter().filter(|timed| timed.tick == tick) {
            values[timed.fact] = timed.value;
        }
        for used in job.uses.iter().filter(|u| u.tick(starts) == tick) {
            amounts[used.level] += used.amount;
        }
    }
    course
}

/// The sentences of "When a timing is sound", each over every tick.
fn sound_tick_by_tick(job: &Job, starts: &[i64]) -> Verdict {
    let course = course(job, starts);
    let ticks = || 0..course.seen.len();
    refuse_at(
        10,
        ticks()
            .filter_map(|tick| meeting_at(job, starts, tick))
            .min(),
    )?;
    let failing = |number: &usize| {
        let condition = &job.conditions[*number];
        (condition.first_tick(starts)..=condition.last_tick(starts)).any(|tick| {
            let seen = course.seen[tick as usize][condition.fact];
            let mut effects = job.effects.iter().filter(|e| e.tick(starts) == tick);
            seen != condition.wanted
                || effects.any(|e| {
                    e.step != condition.step && e.opposes(condition.fact, condition.wanted)
                })
                || set_by_the_clock(job, tick, condition.fact, 1 - condition.wanted)
        })
    };
    refuse_at(11, (0..job.conditions.len()).find(failing))?;
    let past_a_bound =
        |level: &usize| ticks().any(|tick| past_at(job, starts, &course, *level, tick));
    refuse_at(12, (0..job.levels.len()).find(past_a_bound))?;
    let unmet = |number: &usize| unmet(job, starts, &course, &job.needs[*number]);
    refuse_at(21, (0..job.needs.len()).find(unmet))?;
    let missed = |number: &usize| {
        let goal = &job.goals[*number];
        let end = course.seen.last().expect("there is an end")[goal.fact];
        let due = goal.deadline.map_or(ticks().end, |tick| tick as usize + 1);
        end != goal.value
            || (due..ticks().end).any(|tick| course.seen[tick][goal.fact] != goal.value)
    };
    refuse_at(13, (0..job.goals.len()).find(missed))
}

fn set_by_the_clock(job: &Job, tick: i64, fact: usize, value: u16) -> bool {
    let mut timed = job.timed.iter().filter(|timed| timed.tick == tick);
    timed.any(|timed| timed.fact == fact && timed.value == value)
}

fn meeting_at(job: &Job, starts: &[i64], tick: usize) -> Option<usize> {
    let here: Vec<usize> = (0..job.effects.len())
        .filter(|&number| job.effects[number].tick(starts) == tick as i64)
        .collect();
    let opposed = |number: &usize| {
        let effect = &job.effects[*number];
        let others = here.iter().map(|&other| &job.effects[other]);
        others.into_iter().any(|other| {
            other.step != effect.step && other.fact == effect.fact && other.value != effect.value
        }) || set_by_the_clock(job, tick as i64, effect.fact, 1 - effect.value)
    };
    here.iter().copied().find(|number| opposed(number))
}

fn past_at(job: &Job, starts: &[i64], course: &Course, level: usize, tick: usize) -> bool {
    let mut low = course.before[tick][level];
    let mut high = low;
    for used in &job.uses {
        if used.level == level && used.tick(starts) == tick as i64 {
            low += used.amount.min(0);
            high += used.amount.max(0);
        }
    }
    low < job.levels[level].least || high > job.levels[level].most
}

fn unmet(job: &Job, starts: &[i64], course: &Course, need: &Need) -> bool {
    let tick = starts[need.step] + need.at;
    let mut left = course.before[tick as usize][need.level];
    for used in &job.uses {
        let another = used.level == need.level && used.step != need.step;
        if another && used.tick(starts) == tick {
            left += used.amount.min(0);
        }
    }
    left < need.least
}

#[test]
fn agrees_with_looking_where_something_happens() {
    agrees_on_jobs_of(1);
}

#[test]
fn agrees_with_looking_where_something_happens_in_edition_2() {
    agrees_on_jobs_of(2);
}

#[test]
fn agrees_with_looking_where_something_happens_in_edition_3() {
    let counts = agrees_on_jobs_of(3);
    assert!(counts.get(&21) > Some(&100), "{counts:?}");
}

/// How often each number came.
fn agrees_on_jobs_of(edition: u16) -> BTreeMap<u16, usize> {
    let mut random = Random::seeded(20);
    let mut counts: BTreeMap<u16, usize> = BTreeMap::new();
    for round in 0..20_000 {
        let job = match round % 2 {
            0 => small_sound_job(&mut random, edition),
            _ => scribbled_job(&mut random, edition),
        };
        let starts = some_starts(&mut random, &job);
        let starts: Vec<i64> = starts.into_iter().map(i64::from).collect();
        let well_formed = well_formed(&job.to_file()).is_ok();
        if !well_formed || starts.len() != job.steps.len() || last_tick(&job, &starts) > 500 {
            continue;
        }
        let verdict = sound(&job, &starts);
        assert_eq!(
            sound_tick_by_tick(&job, &starts),
            verdict,
            "{job:?} {starts:?}"
        );
        if verdict.is_ok() {
            let course = course(&job, &starts);
            let end = end_state(&job, &starts);
            assert_eq!(course.seen.last(), Some(&end.facts));
            assert_eq!(course.before.last(), Some(&end.levels));
        }
        *counts.entry(number_and_place(&verdict).0).or_default() += 1;
    }
    for number in [0, 10, 11, 12, 13] {
        assert!(counts.get(&number) > Some(&100), "{number}: {counts:?}");
    }
    counts
}
