//! The job of two texts that have been read: refusals 20 and 4, and its records.

use super::actions::{Action, Actions, Point, When};
use super::names::Kind;
use super::plan::PlanLine;
use crate::job::{Condition, Effect, Goal, Job, Level, Step, Use, HIGHEST};
use crate::refusal::{refuse_if, Refusal};

const HIGHEST_LEVEL: i64 = 1_000_000_000;

/// A plan line that names an action and has its duration.
pub struct Planned<'a> {
    pub start: i64,
    pub action: &'a Action,
}

/// Refusal 20, at the first plan line that names no action or has another duration.
pub fn steps_of<'a>(actions: &'a Actions, plan: &[PlanLine]) -> Result<Vec<Planned<'a>>, Refusal> {
    let lines = plan.iter();
    lines.map(|line| planned(actions, line)).collect()
}

fn planned<'a>(actions: &'a Actions, line: &PlanLine) -> Result<Planned<'a>, Refusal> {
    let number = actions.names.number(line.name, Kind::Action);
    let action = number.map(|number| &actions.actions[number]);
    let with_its_duration = action.filter(|action| action.duration == line.duration);
    match with_its_duration {
        Some(action) => Ok(Planned {
            start: line.start,
            action,
        }),
        None => Err(Refusal::at(20, line.line)),
    }
}

/// The records of the job, or refusal 4. Counts may be far above what a file can say, so that they
/// are looked at before there are records.
pub fn job_of(actions: &Actions, steps: &[Planned]) -> Result<Job, Refusal> {
    let counts = counts(actions, steps);
    let mut with_highest = counts.iter().zip(&HIGHEST);
    refuse_if(4, with_highest.any(|(count, highest)| count > highest))?;
    let mut job = Job {
        facts: actions.facts.clone(),
        levels: actions.levels.iter().map(|&w| level(w)).collect(),
        goals: actions
            .goals
            .iter()
            .map(|g| goal(g.fact, g.value))
            .collect(),
        ..Job::default()
    };
    for (step, planned) in steps.iter().enumerate() {
        put_step(&mut job, step, planned);
    }
    Ok(job)
}

/// In the tables' order.
fn counts(actions: &Actions, steps: &[Planned]) -> [usize; 7] {
    let sum = |of: fn(&Action) -> usize| steps.iter().map(|step| of(step.action)).sum();
    [
        actions.facts.len(),
        actions.levels.len(),
        steps.len(),
        sum(|action| conditions(action).count()),
        sum(|action| action.effects.len()),
        sum(|action| action.uses.len()),
        actions.goals.len(),
    ]
}

fn level(initial: i64) -> Level {
    Level {
        initial,
        least: 0,
        most: HIGHEST_LEVEL,
    }
}

fn goal(fact: usize, value: u16) -> Goal {
    Goal {
        fact,
        value,
        deadline: None,
    }
}

fn put_step(job: &mut Job, step: usize, planned: &Planned) {
    let action = planned.action;
    let length = action.duration;
    job.steps.push(Step {
        start: planned.start,
        length,
        fixed: 0,
    });
    for (from, to, fact, wanted) in conditions(action) {
        job.conditions.push(Condition {
            step,
            fact,
            from,
            to,
            wanted,
        });
    }
    for &(point, set) in &action.effects {
        job.effects.push(Effect {
            step,
            fact: set.fact,
            at: tick_of(point, length),
            value: set.value,
        });
    }
    for &(point, change) in &action.uses {
        job.uses.push(Use {
            step,
            level: change.level,
            at: tick_of(point, length),
            amount: change.amount,
        });
    }
}

/// From, to, fact and wanted value of the conditions that an action gives each of its steps.
fn conditions(action: &Action) -> impl Iterator<Item = (i64, i64, usize, u16)> + '_ {
    let length = action.duration;
    action.conditions.iter().filter_map(move |(when, wanted)| {
        let (from, to) = ticks_of(*when, length)?;
        Some((from, to, wanted.fact, wanted.value))
    })
}

/// The first and the last tick; an "over all" of a duration under 2 ticks has none.
fn ticks_of(when: When, length: i64) -> Option<(i64, i64)> {
    match when {
        When::At(point) => Some((tick_of(point, length), tick_of(point, length))),
        When::OverAll => (length >= 2).then_some((1, length - 1)),
    }
}

/// From the step's start.
fn tick_of(point: Point, length: i64) -> i64 {
    match point {
        Point::Start => 0,
        Point::End => length,
    }
}
