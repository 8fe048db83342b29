//! Jobs scribbled down without a thought: each record by itself is in range, most of the time.

use crate::job::{Condition, Effect, Goal, Job, Level, Need, Step, TimedFact, Use};
use crate::random::Random;

pub fn scribbled_job(random: &mut Random, edition: u16) -> Job {
    let longest = random.pick(&[0, 2, 4, 8]);
    let last_start = random.pick(&[3, 8, 20]);
    let facts = 1 + random.below(2);
    let levels = random.below(3);
    let mut job = Job {
        edition,
        serial: u16::from(random.chance(30)),
        facts: (0..facts).map(|_| bit(random)).collect(),
        levels: (0..levels).map(|_| level(random)).collect(),
        ..Job::default()
    };
    for _ in 0..random.below(6) {
        job.steps.push(Step {
            start: random.between(0, last_start),
            length: random.between(0, longest),
            fixed: u16::from(random.chance(20)),
        });
    }
    if !job.steps.is_empty() {
        scribble_points(random, &mut job);
    }
    job.goals = (0..random.below(3)).map(|_| goal(random, &job)).collect();
    if edition > 1 {
        job.timed = (0..random.below(6))
            .map(|_| timed_fact(random, &job))
            .collect();
    }
    if edition > 2 && !job.steps.is_empty() && !job.levels.is_empty() {
        job.needs = (0..random.below(4)).map(|_| need(random, &job)).collect();
    }
    job
}

fn scribble_points(random: &mut Random, job: &mut Job) {
    let often = 1 + random.below(6);
    job.conditions = (0..random.below(often))
        .map(|_| condition(random, job))
        .collect();
    job.effects = (0..random.below(often))
        .map(|_| effect(random, job))
        .collect();
    if !job.levels.is_empty() {
        job.uses = (0..random.below(often))
            .map(|_| used(random, job))
            .collect();
    }
}

fn bit(random: &mut Random) -> u16 {
    random.below(2) as u16
}

fn level(random: &mut Random) -> Level {
    let initial = random.between(-2, 2);
    Level {
        initial,
        least: initial - random.between(0, 3),
        most: initial + random.between(0, 3),
    }
}

/// Now and then one past the end of the step.
fn point(random: &mut Random, length: i64) -> i64 {
    random.between(0, length) + i64::from(random.chance(1))
}

fn condition(random: &mut Random, job: &Job) -> Condition {
    let step = random.below(job.steps.len());
    let one = point(random, job.steps[step].length);
    let other = point(random, job.steps[step].length);
    Condition {
        step,
        fact: random.below(job.facts.len()),
        from: one.min(other),
        to: one.max(other),
        wanted: bit(random),
    }
}

fn effect(random: &mut Random, job: &Job) -> Effect {
    let step = random.below(job.steps.len());
    Effect {
        step,
        fact: random.below(job.facts.len()),
        at: point(random, job.steps[step].length),
        value: bit(random),
    }
}

fn used(random: &mut Random, job: &Job) -> Use {
    let step = random.below(job.steps.len());
    Use {
        step,
        level: random.below(job.levels.len()),
        at: point(random, job.steps[step].length),
        amount: random.pick(&[-2, -1, -1, 1, 1, 2]),
    }
}

fn goal(random: &mut Random, job: &Job) -> Goal {
    Goal {
        fact: random.below(job.facts.len()),
        value: bit(random),
        deadline: random.chance(50).then_some(random.between(0, 25)),
    }
}

/// So few ticks that some come twice.
fn timed_fact(random: &mut Random, job: &Job) -> TimedFact {
    TimedFact {
        fact: random.below(job.facts.len()),
        tick: random.between(0, 12) * random.pick(&[1, 1, 2]),
        value: bit(random),
    }
}

/// Most are met by what such levels hold.
fn need(random: &mut Random, job: &Job) -> Need {
    let step = random.below(job.steps.len());
    Need {
        step,
        level: random.below(job.levels.len()),
        at: point(random, job.steps[step].length),
        least: random.between(-6, 1),
    }
}
