//! Jobs whose effects crowd in few steps, on few facts and at few ticks, so that pairs of one
//! step's effects are many and often meet.

use crate::job::{Effect, Job, Step, TimedFact};
use crate::random::Random;

/// As it comes, mostly with an early pair both ways; or without any; or with few and late ones.
pub fn crowded_job(random: &mut Random, edition: u16) -> Job {
    let mut job = crowd(random, edition);
    match random.below(10) {
        0..3 => {}
        3..6 => agree(&mut job),
        _ => {
            agree(&mut job);
            disagree(random, &mut job);
        }
    }
    if random.chance(20) {
        job.effects.sort_by_key(|effect| effect.step);
    }
    if random.chance(15) {
        use_twice(random, &mut job);
    }
    if edition > 1 {
        job.timed = (0..random.below(4))
            .map(|_| timed_fact(random, &job))
            .collect();
    }
    job
}

fn crowd(random: &mut Random, edition: u16) -> Job {
    let facts = 1 + random.below(3);
    let length = random.pick(&[0, 1, 2, 4, 300]);
    let steps = 1 + random.below(4);
    let mut job = Job {
        edition,
        serial: u16::from(random.chance(30)),
        facts: vec![0; facts],
        steps: (0..steps).map(|_| step(random, length)).collect(),
        ..Job::default()
    };
    let most = random.pick(&[3, 6, 8, 16, 40]);
    job.effects = (0..=random.below(most))
        .map(|_| effect(random, &job))
        .collect();
    job
}

fn step(random: &mut Random, length: i64) -> Step {
    Step {
        start: random.between(0, 9),
        length,
        fixed: 0,
    }
}

/// A long step's effects lie at ticks that their lowest 8 bits do not tell apart.
fn effect(random: &mut Random, job: &Job) -> Effect {
    let step = random.below(job.steps.len());
    let length = job.steps[step].length;
    let at = match length {
        0..5 => random.between(0, length),
        _ => random.pick(&[0, 1, 256, 257, length]),
    };
    Effect {
        step,
        fact: random.below(job.facts.len()),
        at,
        value: random.below(2) as u16,
    }
}

/// Of effects of one step on one fact at one tick, all set what the first does.
fn agree(job: &mut Job) {
    for number in 0..job.effects.len() {
        let effect = job.effects[number];
        let first = job.effects.iter().find(|other| {
            (other.step, other.fact, other.at) == (effect.step, effect.fact, effect.at)
        });
        let value = first.map_or(effect.value, |first| first.value);
        job.effects[number].value = value;
    }
}

/// One effect once more with the other value, anywhere in the table; now and then two are.
fn disagree(random: &mut Random, job: &mut Job) {
    for _ in 0..1 + random.below(2) {
        let effect = random.pick(&job.effects);
        let value = 1 - effect.value;
        let place = random.below(job.effects.len() + 1);
        job.effects.insert(place, Effect { value, ..effect });
    }
}

/// Another part of refusal 7.
fn use_twice(random: &mut Random, job: &mut Job) {
    let step = random.below(job.steps.len());
    let again = job.clone().level(0, -9, 9);
    *job = again.uses(step, 0, 0, 1).uses(step, 0, 0, 1);
}

/// So few ticks that some come both ways.
fn timed_fact(random: &mut Random, job: &Job) -> TimedFact {
    TimedFact {
        fact: random.below(job.facts.len()),
        tick: random.between(0, 2),
        value: random.below(2) as u16,
    }
}
