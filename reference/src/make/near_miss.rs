//! Jobs that would be sound but for one nudge, for each of the refusals 10 to 13, 17 and 21.

use crate::job::Job;
use crate::make::need_nudges::nudge_a_need;
use crate::make::sound::{sound_job, Shape};
use crate::make::timed_nudges::nudge_a_timed_fact;
use crate::random::Random;
use crate::timing::check_job;

/// The refusals that a job of an edition can nearly miss.
pub fn nearly_missed(edition: u16) -> Vec<u16> {
    let mut numbers: Vec<u16> = (10..=13).collect();
    if edition > 1 {
        numbers.push(17);
    }
    if edition > 2 {
        numbers.push(21);
    }
    numbers
}

/// A job that the job check refuses with this number, one nudge away from a sound one.
pub fn near_miss(random: &mut Random, edition: u16, number: u16) -> Job {
    loop {
        let shape = Shape {
            steps: 2 + random.below(5),
            ..Shape::small(random)
        };
        let shape = shape.in_edition(random, edition);
        let mut job = sound_job(random, &shape);
        if number == 17 || (edition > 1 && random.chance(50)) {
            nudge_a_timed_fact(random, &mut job, number);
        } else {
            nudge(random, &mut job, number);
        }
        let refused = check_job(&job.to_file()).err();
        if refused.is_some_and(|refusal| refusal.number == number) {
            return job;
        }
    }
}

fn nudge(random: &mut Random, job: &mut Job, number: u16) {
    match number {
        10 => move_an_effect_onto_an_opposing_one(random, job),
        11 if random.chance(60) => stretch_or_flip_a_condition(random, job),
        12 if random.chance(60) => tighten_a_level(random, job),
        13 => hurry_or_flip_a_goal(random, job),
        21 if random.chance(80) => nudge_a_need(random, job),
        _ => move_or_stretch_a_step(random, job),
    }
}

fn move_an_effect_onto_an_opposing_one(random: &mut Random, job: &mut Job) {
    if job.effects.is_empty() {
        return;
    }
    let starts = job.written_starts();
    let moved = random.below(job.effects.len());
    let onto = random.pick(&job.effects);
    let effect = &mut job.effects[moved];
    let at = onto.tick(&starts) - starts[effect.step];
    if (0..=job.steps[effect.step].length).contains(&at) {
        effect.at = at;
        effect.fact = onto.fact;
        effect.value = 1 - onto.value;
    }
}

fn stretch_or_flip_a_condition(random: &mut Random, job: &mut Job) {
    if job.conditions.is_empty() {
        return;
    }
    let number = random.below(job.conditions.len());
    let condition = &mut job.conditions[number];
    match random.below(3) {
        0 => condition.to += i64::from(condition.to < job.steps[condition.step].length),
        1 => condition.from -= i64::from(condition.from > 0),
        _ => condition.wanted = 1 - condition.wanted,
    }
}

fn tighten_a_level(random: &mut Random, job: &mut Job) {
    if job.levels.is_empty() {
        return;
    }
    let number = random.below(job.levels.len());
    let level = &mut job.levels[number];
    if random.chance(50) {
        level.least = (level.least + 1).min(level.initial);
    } else {
        level.most = (level.most - 1).max(level.initial);
    }
}

fn hurry_or_flip_a_goal(random: &mut Random, job: &mut Job) {
    if job.goals.is_empty() {
        return;
    }
    let number = random.below(job.goals.len());
    let goal = &mut job.goals[number];
    match goal.deadline {
        Some(deadline) if deadline > 0 && random.chance(70) => goal.deadline = Some(deadline - 1),
        _ => goal.value = 1 - goal.value,
    }
}

fn move_or_stretch_a_step(random: &mut Random, job: &mut Job) {
    let number = random.below(job.steps.len().max(1));
    let Some(step) = job.steps.get_mut(number) else {
        return;
    };
    match random.below(3) {
        0 => step.start = (step.start + 1).min(1_000_000),
        1 => step.start = (step.start - 1).max(0),
        _ => step.length = (step.length + 1).min(100_000),
    }
}
