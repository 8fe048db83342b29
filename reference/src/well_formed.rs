//! Refusals 1 to 7 and 17: what a file must be before it is a job.

use crate::bytes::u16_at;
use crate::job::{
    header_length, Condition, Effect, Goal, Job, Level, Need, Step, TimedFact, Use, ADDED_ZERO_AT,
    HIGHEST, LATEST_EDITION, SERIAL_AT, SHORTEST_HEADER, TABLES, TENTH_AT,
};
use crate::job_file::{counts_in, edition_in, layout, offsets_in, records_in};
use crate::refusal::{refuse_at, refuse_if, Refusal};

/// The job in a file, or the first of the refusals 1 to 7 and 17 in checking order.
pub fn well_formed(file: &[u8]) -> Result<Job, Refusal> {
    let job = in_range(file)?;
    refuse_at(7, first_step_against_itself(&job))?;
    refuse_at(17, first_timed_fact_against_another(&job))?;
    Ok(job)
}

/// The job in a file, or the first of the refusals 1 to 6.
pub fn in_range(file: &[u8]) -> Result<Job, Refusal> {
    refuse_if(1, file.len() < SHORTEST_HEADER)?;
    refuse_if(2, !(1..=LATEST_EDITION).contains(&edition_in(file)))?;
    refuse_if(1, file.len() < header_length(edition_in(file)))?;
    refuse_if(3, a_mark_is_wrong(file))?;
    refuse_if(4, a_count_exceeds_its_highest(file))?;
    refuse_if(5, layout_disagrees(file))?;
    let job = records_in(file);
    refuse_at(6, first_broken_record(&job))?;
    Ok(job)
}

/// Refusal 3: the tenth number must be 0 in edition 1, since only from edition 2 on it counts
/// something, and the added zero from edition 3 on, since before it belongs to a table.
fn a_mark_is_wrong(file: &[u8]) -> bool {
    let edition = edition_in(file);
    u16_at(file, SERIAL_AT) > 1
        || (edition == 1 && u16_at(file, TENTH_AT) != 0)
        || (edition >= 3 && u16_at(file, ADDED_ZERO_AT) != 0)
}

/// Refusal 4.
fn a_count_exceeds_its_highest(file: &[u8]) -> bool {
    let counts = counts_in(file);
    (0..TABLES).any(|table| counts[table] > HIGHEST[table])
}

/// Refusal 5.
fn layout_disagrees(file: &[u8]) -> bool {
    let (offsets, end) = layout(edition_in(file), counts_in(file));
    let mut written = offsets_in(file).zip(offsets);
    file.len() != end || written.any(|(written, offset)| written != offset)
}

/// Refusal 6: the lowest broken record of the first table, in table order, that has one.
fn first_broken_record(job: &Job) -> Option<usize> {
    lowest_not(&job.facts, |&initial| initial <= 1)
        .or_else(|| lowest_not(&job.levels, level_in_range))
        .or_else(|| lowest_not(&job.steps, step_in_range))
        .or_else(|| lowest_not(&job.conditions, |c| condition_in_range(job, c)))
        .or_else(|| lowest_not(&job.effects, |e| effect_in_range(job, e)))
        .or_else(|| lowest_not(&job.uses, |u| use_in_range(job, u)))
        .or_else(|| lowest_not(&job.goals, |g| goal_in_range(job, g)))
        .or_else(|| lowest_not(&job.timed, |t| timed_fact_in_range(job, t)))
        .or_else(|| lowest_not(&job.needs, |n| need_in_range(job, n)))
}

fn lowest_not<R>(records: &[R], in_range: impl Fn(&R) -> bool) -> Option<usize> {
    records.iter().position(|record| !in_range(record))
}

/// What an amount of a level may be, by itself.
fn bounded(amount: i64) -> bool {
    (-1_000_000_000..=1_000_000_000).contains(&amount)
}

fn level_in_range(level: &Level) -> bool {
    bounded(level.initial)
        && bounded(level.least)
        && bounded(level.most)
        && level.least <= level.initial
        && level.initial <= level.most
}

fn step_in_range(step: &Step) -> bool {
    step.start <= 1_000_000 && step.length <= 100_000 && step.fixed <= 1
}

fn condition_in_range(job: &Job, condition: &Condition) -> bool {
    condition.step < job.steps.len()
        && condition.fact < job.facts.len()
        && condition.from <= condition.to
        && condition.to <= job.steps[condition.step].length
        && condition.wanted <= 1
}

fn effect_in_range(job: &Job, effect: &Effect) -> bool {
    effect.step < job.steps.len()
        && effect.fact < job.facts.len()
        && effect.at <= job.steps[effect.step].length
        && effect.value <= 1
}

fn use_in_range(job: &Job, used: &Use) -> bool {
    used.step < job.steps.len()
        && used.level < job.levels.len()
        && used.at <= job.steps[used.step].length
        && used.amount != 0
        && (-1_000_000..=1_000_000).contains(&used.amount)
}

fn goal_in_range(job: &Job, goal: &Goal) -> bool {
    goal.fact < job.facts.len()
        && goal.value <= 1
        && goal.deadline.is_none_or(|deadline| deadline <= 1_100_000)
}

fn timed_fact_in_range(job: &Job, timed: &TimedFact) -> bool {
    timed.fact < job.facts.len() && timed.tick <= 1_100_000 && timed.value <= 1
}

/// Whatever the bounds of the level are.
fn need_in_range(job: &Job, need: &Need) -> bool {
    need.step < job.steps.len()
        && need.level < job.levels.len()
        && need.at <= job.steps[need.step].length
        && bounded(need.least)
}

/// Refusal 7: the lowest step that breaks any of its three parts.
fn first_step_against_itself(job: &Job) -> Option<usize> {
    (0..job.steps.len()).find(|&step| {
        sets_a_fact_both_ways(job, step)
            || uses_a_level_twice(job, step)
            || opposes_its_own_condition(job, step)
    })
}

fn sets_a_fact_both_ways(job: &Job, step: usize) -> bool {
    let own = || job.effects.iter().filter(move |e| e.step == step);
    own().any(|a| own().any(|b| a.opposes(b.fact, b.value) && a.at == b.at))
}

fn uses_a_level_twice(job: &Job, step: usize) -> bool {
    let own = || {
        job.uses
            .iter()
            .enumerate()
            .filter(move |(_, u)| u.step == step)
    };
    own().any(|(i, a)| own().any(|(k, b)| i != k && a.level == b.level && a.at == b.at))
}

/// From the condition's first tick to before its last.
fn opposes_its_own_condition(job: &Job, step: usize) -> bool {
    let conditions = job.conditions.iter().filter(|c| c.step == step);
    let own = || job.effects.iter().filter(move |e| e.step == step);
    conditions
        .into_iter()
        .any(|c| own().any(|e| e.opposes(c.fact, c.wanted) && c.from <= e.at && e.at < c.to))
}

/// Refusal 17: the lower of two timed facts that set one fact both ways at one tick.
fn first_timed_fact_against_another(job: &Job) -> Option<usize> {
    job.timed.iter().position(|a| {
        let mut others = job.timed.iter();
        others.any(|b| a.opposes(b.fact, b.value) && a.tick == b.tick)
    })
}
