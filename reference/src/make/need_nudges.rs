//! Needs nudged so that a sound job is refused with 21.

use crate::job::{Job, Use};
use crate::random::Random;

/// One need asks for more, lies a tick beside, or meets another step's fall; else another step that
/// uses the level lies a tick beside.
pub fn nudge_a_need(random: &mut Random, job: &mut Job) {
    if job.needs.is_empty() {
        return;
    }
    let number = random.below(job.needs.len());
    match random.below(4) {
        0 => job.needs[number].least += random.pick(&[1, 1, 2, 1_000]),
        1 => move_the_point(random, job, number),
        2 => add_a_fall(random, job, number),
        _ => move_a_user(random, job, number),
    }
}

fn move_the_point(random: &mut Random, job: &mut Job, number: usize) {
    let need = &mut job.needs[number];
    let length = job.steps[need.step].length;
    need.at = (need.at + random.pick(&[1, -1])).clamp(0, length);
}

/// By some step that lasts then: its own falls do not count, and the bounds may not allow it.
fn add_a_fall(random: &mut Random, job: &mut Job, number: usize) {
    let need = job.needs[number];
    let tick = need.tick(&job.written_starts());
    let step = random.below(job.steps.len());
    let at = tick - job.steps[step].start;
    if (0..=job.steps[step].length).contains(&at) {
        let place = random.below(job.uses.len() + 1);
        let fall = Use {
            step,
            level: need.level,
            at,
            amount: -1,
        };
        job.uses.insert(place, fall);
    }
}

fn move_a_user(random: &mut Random, job: &mut Job, number: usize) {
    let level = job.needs[number].level;
    let uses = job.uses.iter().filter(|used| used.level == level);
    let users: Vec<usize> = uses.map(|used| used.step).collect();
    if !users.is_empty() {
        let start = &mut job.steps[random.pick(&users)].start;
        *start = (*start + random.pick(&[1, -1])).clamp(0, 1_000_000);
    }
}
