//! Limits: from when a step may start at the earliest and until when at the latest.
//!
//! A timed fact cannot move, so that an order against it limits the one step that can: a point
//! strictly after tick T gives start ≥ T + 1 − point, one strictly before it start ≤ T − point − 1.

use crate::job::{Goal, Job};
use crate::order_file::Link;

/// What one order against a timed fact, or one deadline, demands of a step's start.
#[derive(Clone, Copy, Debug, PartialEq, Eq)]
pub enum Limit {
    AtLeast(i64),
    AtMost(i64),
}

/// The largest of all that is demanded, the written start of a fixed step among it, and 0.
pub fn earliest_limit(job: &Job, links: &[Link], step: usize) -> i64 {
    let demanded = demanded(job, links, step).into_iter();
    let at_least = demanded.filter_map(|limit| match limit {
        Limit::AtLeast(start) => Some(start),
        Limit::AtMost(_) => None,
    });
    at_least.fold(0, i64::max)
}

/// The least of all that is demanded, the written start of a fixed step among it, or none.
pub fn latest_start(job: &Job, links: &[Link], step: usize) -> Option<i64> {
    let demanded = demanded(job, links, step).into_iter();
    let at_most = demanded.filter_map(|limit| match limit {
        Limit::AtLeast(_) => None,
        Limit::AtMost(start) => Some(start),
    });
    at_most.min()
}

fn demanded(job: &Job, links: &[Link], step: usize) -> Vec<Limit> {
    [
        by_a_written_start(job, step),
        by_deadlines(job, links, step),
        by_timed_supporters(job, links, step),
        by_opposing_effects(job, step),
        by_conditions(job, step),
    ]
    .concat()
}

fn by_a_written_start(job: &Job, step: usize) -> Vec<Limit> {
    let step = job.steps[step];
    match step.is_fixed() {
        true => vec![Limit::AtLeast(step.start), Limit::AtMost(step.start)],
        false => vec![],
    }
}

/// (deadline − at) for each goal with a deadline that the step's effects support. A goal that a
/// timed fact supports limits nobody.
fn by_deadlines(job: &Job, links: &[Link], step: usize) -> Vec<Limit> {
    let goal_links = &links[job.conditions.len()..];
    let supported = |(goal, link): (&Goal, &Link)| {
        let Link::Effect(number) = *link else {
            return None;
        };
        let effect = job.effects[number];
        let deadline = goal.deadline.filter(|_| effect.step == step)?;
        Some(Limit::AtMost(deadline - effect.at))
    };
    let goals = job.goals.iter().zip(goal_links);
    goals.filter_map(supported).collect()
}

// ---------------------------------------------------------------------------------------------
// Orders against timed facts, by the job's own ticks

/// A point of a step, as it lies to a tick; none where it lies at that very tick.
fn as_it_lies(start: i64, point: i64, tick: i64) -> Option<Limit> {
    if tick < start + point {
        Some(after(tick, point))
    } else if start + point < tick {
        Some(before(tick, point))
    } else {
        None
    }
}

fn after(tick: i64, point: i64) -> Limit {
    Limit::AtLeast(tick + 1 - point)
}

fn before(tick: i64, point: i64) -> Limit {
    Limit::AtMost(tick - point - 1)
}

/// Rule 1: a condition's first tick comes after the timed fact that supports it.
fn by_timed_supporters(job: &Job, links: &[Link], step: usize) -> Vec<Limit> {
    let conditions = job.conditions.iter().zip(links);
    let linked = conditions.filter_map(|(condition, link)| match *link {
        Link::Timed(number) if condition.step == step => {
            Some(after(job.timed[number].tick, condition.from))
        }
        _ => None,
    });
    linked.collect()
}

/// Rule 2: an effect and an opposing timed fact, as they lie.
fn by_opposing_effects(job: &Job, step: usize) -> Vec<Limit> {
    let start = job.steps[step].start;
    let mut limits = Vec::new();
    for effect in job.effects.iter().filter(|e| e.step == step) {
        let timed = job.timed.iter();
        let opposing = timed.filter(|t| t.opposes(effect.fact, effect.value));
        limits.extend(opposing.filter_map(|t| as_it_lies(start, effect.at, t.tick)));
    }
    limits
}

/// Rule 3: an opposing timed fact before a condition's first tick, or after its last.
fn by_conditions(job: &Job, step: usize) -> Vec<Limit> {
    let start = job.steps[step].start;
    let mut limits = Vec::new();
    for condition in job.conditions.iter().filter(|c| c.step == step) {
        let timed = job.timed.iter();
        for t in timed.filter(|t| t.opposes(condition.fact, condition.wanted)) {
            if t.tick < start + condition.from {
                limits.push(after(t.tick, condition.from));
            }
            if start + condition.to < t.tick {
                limits.push(before(t.tick, condition.to));
            }
        }
    }
    limits
}
