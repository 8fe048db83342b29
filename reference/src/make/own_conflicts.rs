//! Refusal 7 and its edges: a step against itself.

use crate::job::{Effect, Job, Use};
use crate::make::sound::small_sound_job;
use crate::random::Random;

fn one_step() -> Job {
    Job::with_facts(&[0, 0]).level(0, -9, 9).step(5, 4)
}

/// One step that sets a fact both ways, at one tick or not.
pub fn setting_both_ways() -> Vec<Job> {
    vec![
        one_step().effect(0, 0, 2, 1).effect(0, 0, 2, 0),
        one_step().effect(0, 0, 2, 0).effect(0, 0, 2, 1),
        one_step().effect(0, 0, 2, 1).effect(0, 0, 2, 1),
        one_step().effect(0, 0, 2, 1).effect(0, 0, 3, 0),
        one_step().effect(0, 0, 2, 1).effect(0, 1, 2, 0),
        one_step().step(5, 4).effect(0, 0, 2, 1).effect(1, 0, 2, 0),
        one_step()
            .effect(0, 0, 0, 1)
            .effect(0, 1, 4, 1)
            .effect(0, 0, 4, 0)
            .effect(0, 1, 0, 0)
            .effect(0, 0, 0, 0),
    ]
}

/// One step that uses a level twice, at one tick or not.
pub fn using_twice() -> Vec<Job> {
    vec![
        one_step().uses(0, 0, 2, 1).uses(0, 0, 2, 1),
        one_step().uses(0, 0, 2, 1).uses(0, 0, 2, -1),
        one_step().uses(0, 0, 2, 1).uses(0, 0, 3, 1),
        one_step().level(0, -9, 9).uses(0, 0, 2, 1).uses(0, 1, 2, 1),
        one_step().step(5, 4).uses(0, 0, 2, 1).uses(1, 0, 2, 1),
        one_step()
            .uses(0, 0, 0, 1)
            .uses(0, 0, 1, 1)
            .uses(0, 0, 4, 1)
            .uses(0, 0, 1, -2),
    ]
}

/// A condition from 1 to 3 and an opposing effect of its step at 0, 1, 2, 3 and 4.
pub fn opposing_the_own_condition() -> Vec<Job> {
    (0..=4)
        .map(|at| one_step().condition(0, 0, 1, 3, 0).effect(0, 0, at, 1))
        .collect()
}

/// A condition of one tick is never refused, though its step opposes it at that tick.
pub fn opposing_a_condition_of_one_tick() -> Vec<Job> {
    (0..=4)
        .map(|at| one_step().condition(0, 0, 2, 2, 0).effect(0, 0, at, 1))
        .collect()
}

/// What does not oppose: the wanted value, another fact, another step.
pub fn not_opposing_the_own_condition() -> Vec<Job> {
    vec![
        one_step().condition(0, 0, 1, 3, 0).effect(0, 0, 2, 0),
        one_step().condition(0, 0, 1, 3, 0).effect(0, 1, 2, 1),
        one_step()
            .step(5, 4)
            .condition(0, 0, 1, 3, 0)
            .effect(1, 0, 2, 1),
    ]
}

/// Three steps, each breaking another part, in every arrangement: the lowest step is the place.
pub fn lowest_step_across_the_parts() -> Vec<Job> {
    let arrangements = [
        [1, 2, 3],
        [1, 3, 2],
        [2, 1, 3],
        [2, 3, 1],
        [3, 1, 2],
        [3, 2, 1],
    ];
    arrangements.map(three_conflicts).to_vec()
}

fn three_conflicts([both_ways, twice, opposing]: [usize; 3]) -> Job {
    Job::with_facts(&[0, 0])
        .level(0, -9, 9)
        .step(0, 9)
        .step(0, 9)
        .step(0, 9)
        .step(0, 9)
        .effect(0, 0, 1, 1)
        .effect(both_ways, 0, 3, 1)
        .effect(both_ways, 0, 3, 0)
        .uses(0, 0, 1, 1)
        .uses(twice, 0, 4, 1)
        .uses(twice, 0, 4, 1)
        .condition(opposing, 1, 2, 5, 0)
        .effect(opposing, 1, 4, 1)
}

/// The step is the place, not the record; later records name the lower step.
pub fn lower_step_named_by_later_records() -> Vec<Job> {
    let three = || one_step().step(5, 4).step(5, 4);
    vec![
        three()
            .effect(2, 0, 1, 1)
            .effect(2, 0, 1, 0)
            .effect(1, 0, 1, 1)
            .effect(1, 0, 1, 0),
        three()
            .uses(2, 0, 1, 1)
            .uses(2, 0, 1, 1)
            .uses(1, 0, 1, 1)
            .uses(1, 0, 1, 1),
        three()
            .condition(2, 0, 0, 2, 0)
            .condition(1, 0, 0, 2, 0)
            .effect(2, 0, 1, 1)
            .effect(1, 0, 1, 1),
    ]
}

pub fn own_conflicts() -> Vec<Job> {
    [
        setting_both_ways(),
        using_twice(),
        opposing_the_own_condition(),
        opposing_a_condition_of_one_tick(),
        not_opposing_the_own_condition(),
        lowest_step_across_the_parts(),
        lower_step_named_by_later_records(),
    ]
    .concat()
}

/// A record beside another of the same step: at its tick, or next to it.
pub fn some_own_conflict(random: &mut Random, edition: u16) -> Job {
    let mut job = small_sound_job(random, edition);
    match random.below(3) {
        0 => set_again(random, &mut job),
        1 => use_again(random, &mut job),
        _ => oppose_a_condition(random, &mut job),
    }
    job
}

fn set_again(random: &mut Random, job: &mut Job) {
    if job.effects.is_empty() {
        return;
    }
    let set = random.pick(&job.effects);
    let at = nearby(random, set.at, job.steps[set.step].length);
    let value = 1 - set.value;
    job.effects.push(Effect { at, value, ..set });
}

fn use_again(random: &mut Random, job: &mut Job) {
    if job.uses.is_empty() {
        return;
    }
    let used = random.pick(&job.uses);
    let at = nearby(random, used.at, job.steps[used.step].length);
    let amount = random.pick(&[1, -1, used.amount, -used.amount]);
    job.uses.push(Use { at, amount, ..used });
}

fn oppose_a_condition(random: &mut Random, job: &mut Job) {
    if job.conditions.is_empty() {
        return;
    }
    let condition = random.pick(&job.conditions);
    let end = random.pick(&[condition.from, condition.to]);
    job.effects.push(Effect {
        step: condition.step,
        fact: condition.fact,
        at: nearby(random, end, job.steps[condition.step].length),
        value: 1 - condition.wanted,
    });
}

fn nearby(random: &mut Random, at: i64, length: i64) -> i64 {
    (at + random.pick(&[0, 0, 0, 1, -1])).clamp(0, length)
}
