//! Jobs as large as jobs can be.

use crate::job::{Job, HIGHEST};
use crate::make::sound::{sound_job, Shape};
use crate::random::Random;

/// Every table at its highest count, and sound.
pub fn highest_job(seed: u64, facts: usize) -> Job {
    let mut random = Random::seeded(seed);
    let shape = Shape::highest(&mut random, facts);
    sound_job(&mut random, &shape)
}

/// The same with 64 timed facts.
pub fn highest_timed_job(seed: u64, facts: usize) -> Job {
    let mut random = Random::seeded(seed);
    let shape = Shape::highest(&mut random, facts).with_most_timed_facts();
    sound_job(&mut random, &shape)
}

/// The same with 128 needs as well.
pub fn highest_needs_job(seed: u64, facts: usize) -> Job {
    let mut random = Random::seeded(seed);
    let shape = Shape::highest(&mut random, facts).with_most_needs();
    sound_job(&mut random, &shape)
}

/// 64 steps that all overlap, each taking at its start and giving back at its end: 4,032 orders.
pub fn every_pair_ordered_both_ways() -> Job {
    let steps = HIGHEST[2];
    let mut job = Job::default().level(64, 0, 64);
    for step in 0..steps {
        job = job
            .step(7 * step as i64, 1_000)
            .uses(step, 0, 0, -1)
            .uses(step, 0, 1_000, 1);
    }
    job
}

/// Nothing that `show` prints is longer: 4,032 orders with gaps of six signs, and 64 steps with
/// windows of seven digits, given by the clock alone.
pub fn longest_sheet() -> Job {
    let mut job = Job::with_facts(&[0]).level(64, 0, 64);
    for step in 0..HIGHEST[2] {
        job = job
            .step(1_000_000, 100_000)
            .condition(step, 0, 0, 0, 1)
            .uses(step, 0, 0, -1)
            .uses(step, 0, 100_000, 1);
    }
    job.timed(0, 999_999, 1).timed(0, 1_100_000, 0)
}

/// 64 steps, each supporting the one numbered before it: 64 rounds.
pub fn chain_of_all_steps() -> Job {
    let steps = HIGHEST[2];
    let mut job = Job::with_facts(&vec![0; steps]);
    for step in 0..steps {
        let start = 10 * (steps - 1 - step) as i64;
        job = job.step(start, 4).effect(step, step, 4, 1);
        if step + 1 < steps {
            job = job.condition(step, step + 1, 0, 4, 1);
        }
    }
    job
}
