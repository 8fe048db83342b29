//! When a timing is sound: refusals 8 to 13 and 21, and the state a timing ends with.
//!
//! A timing is a start for each step. What holds "at each tick" is looked at only where it can
//! change; a test compares this with looking at every tick.

use crate::job::{Condition, Effect, Goal, Job, Need, Use};
use crate::refusal::{refuse_at, refuse_if, Verdict};
use crate::setters::setters;
use crate::well_formed::well_formed;

/// The job check: 1 to 7 and 17, then 10 to 13 with 21 on the written starts.
pub fn check_job(file: &[u8]) -> Verdict {
    let job = well_formed(file)?;
    sound(&job, &job.written_starts())
}

/// The timing check: 1 to 7 and 17, then 8 to 13 with 21.
pub fn check_timing(file: &[u8], starts: &[u32]) -> Verdict {
    let job = well_formed(file)?;
    refuse_if(8, starts.len() != job.steps.len())?;
    let starts: Vec<i64> = starts.iter().map(|&start| i64::from(start)).collect();
    refuse_at(9, first_moved_fixed_step(&job, &starts))?;
    sound(&job, &starts)
}

/// Refusals 10 to 12, 21 and 13.
pub fn sound(job: &Job, starts: &[i64]) -> Verdict {
    refuse_at(10, first_meeting_effect(job, starts))?;
    refuse_at(11, first_failing_condition(job, starts))?;
    refuse_at(12, first_level_past_a_bound(job, starts))?;
    refuse_at(21, first_unmet_need(job, starts))?;
    refuse_at(13, first_failing_goal(job, starts))
}

// ---------------------------------------------------------------------------------------------
// Ticks and values

impl Condition {
    pub fn first_tick(&self, starts: &[i64]) -> i64 {
        starts[self.step] + self.from
    }

    pub fn last_tick(&self, starts: &[i64]) -> i64 {
        starts[self.step] + self.to
    }
}

impl Effect {
    pub fn tick(&self, starts: &[i64]) -> i64 {
        starts[self.step] + self.at
    }
}

impl Use {
    pub fn tick(&self, starts: &[i64]) -> i64 {
        starts[self.step] + self.at
    }
}

impl Need {
    pub fn tick(&self, starts: &[i64]) -> i64 {
        starts[self.step] + self.at
    }
}

/// The value seen at a tick counts all that is set at earlier ticks and nothing at that tick.
///
/// Where opposing values share the latest earlier tick the value is free; 7, 17 and 10 refuse that
/// before a value is asked for.
pub fn value_seen(job: &Job, starts: &[i64], fact: usize, tick: i64) -> u16 {
    let earlier = setters(job, starts).filter(|s| s.fact == fact && s.tick < tick);
    match earlier.max_by_key(|s| s.tick) {
        Some(setter) => setter.value,
        None => job.facts[fact],
    }
}

/// The value of a fact after all effects and timed facts.
pub fn end_value(job: &Job, starts: &[i64], fact: usize) -> u16 {
    value_seen(job, starts, fact, i64::MAX)
}

/// The ticks at which another value of the fact may come to be seen.
fn changes<'a>(job: &'a Job, starts: &'a [i64], fact: usize) -> impl Iterator<Item = i64> + 'a {
    let setters = setters(job, starts).filter(move |s| s.fact == fact);
    setters.map(|s| s.tick + 1)
}

// ---------------------------------------------------------------------------------------------
// The rules

/// Refusal 9.
pub fn first_moved_fixed_step(job: &Job, starts: &[i64]) -> Option<usize> {
    let mut steps = job.steps.iter().zip(starts);
    steps.position(|(step, &start)| step.is_fixed() && start != step.start)
}

/// Refusal 10: the lowest step's effect that meets another step's or a timed fact.
fn first_meeting_effect(job: &Job, starts: &[i64]) -> Option<usize> {
    job.effects.iter().position(|e| {
        setters(job, starts)
            .any(|s| !s.is_of(e.step) && s.opposes(e.fact, e.value) && s.tick == e.tick(starts))
    })
}

/// Refusal 11.
fn first_failing_condition(job: &Job, starts: &[i64]) -> Option<usize> {
    job.conditions.iter().position(|c| {
        !wanted_value_seen_throughout(job, starts, c) || opposed_by_another(job, starts, c)
    })
}

fn wanted_value_seen_throughout(job: &Job, starts: &[i64], condition: &Condition) -> bool {
    let ticks = condition.first_tick(starts)..=condition.last_tick(starts);
    let seen = |tick| value_seen(job, starts, condition.fact, tick);
    seen(*ticks.start()) == condition.wanted
        && changes(job, starts, condition.fact)
            .filter(|tick| ticks.contains(tick))
            .all(|tick| seen(tick) == condition.wanted)
}

fn opposed_by_another(job: &Job, starts: &[i64], condition: &Condition) -> bool {
    let ticks = condition.first_tick(starts)..=condition.last_tick(starts);
    setters(job, starts).any(|s| {
        !s.is_of(condition.step)
            && s.opposes(condition.fact, condition.wanted)
            && ticks.contains(&s.tick)
    })
}

/// Refusal 12.
fn first_level_past_a_bound(job: &Job, starts: &[i64]) -> Option<usize> {
    (0..job.levels.len()).find(|&level| {
        let uses = job.uses.iter().filter(|u| u.level == level);
        uses.map(|u| u.tick(starts))
            .any(|tick| level_past_a_bound(job, starts, level, tick))
    })
}

/// Falls do not wait for the tick's rises, nor rises for its falls.
fn level_past_a_bound(job: &Job, starts: &[i64], level: usize, tick: i64) -> bool {
    let bounds = job.levels[level];
    let before = level_before(job, starts, level, tick);
    let uses = || job.uses.iter().filter(move |u| u.level == level);
    let now = || uses().filter(|u| u.tick(starts) == tick).map(|u| u.amount);
    let falls: i64 = now().filter(|&amount| amount < 0).sum();
    let rises: i64 = now().filter(|&amount| amount > 0).sum();
    before + falls < bounds.least || before + rises > bounds.most
}

/// The level from earlier ticks.
fn level_before(job: &Job, starts: &[i64], level: usize, tick: i64) -> i64 {
    let uses = job.uses.iter().filter(|u| u.level == level);
    let earlier = uses.filter(|u| u.tick(starts) < tick);
    job.levels[level].initial + earlier.map(|u| u.amount).sum::<i64>()
}

/// Refusal 21.
fn first_unmet_need(job: &Job, starts: &[i64]) -> Option<usize> {
    job.needs
        .iter()
        .position(|need| left_for(job, starts, need) < need.least)
}

/// What a need finds: the level from earlier ticks and all other steps' falls at its tick. Its own
/// step's uses at that tick and all rises do not count.
pub fn left_for(job: &Job, starts: &[i64], need: &Need) -> i64 {
    let tick = need.tick(starts);
    let others = job.uses.iter().filter(|u| u.step != need.step);
    let falls = others.filter(|u| u.level == need.level && u.amount < 0);
    let now = falls.filter(|u| u.tick(starts) == tick);
    level_before(job, starts, need.level, tick) + now.map(|u| u.amount).sum::<i64>()
}

/// Refusal 13.
fn first_failing_goal(job: &Job, starts: &[i64]) -> Option<usize> {
    job.goals
        .iter()
        .position(|goal| end_value(job, starts, goal.fact) != goal.value || late(job, starts, goal))
}

/// A goal with a deadline has its value seen at every tick after the deadline.
fn late(job: &Job, starts: &[i64], goal: &Goal) -> bool {
    let Some(deadline) = goal.deadline else {
        return false;
    };
    let opposed = |tick| value_seen(job, starts, goal.fact, tick) != goal.value;
    opposed(deadline + 1)
        || changes(job, starts, goal.fact).any(|tick| tick > deadline && opposed(tick))
}

// ---------------------------------------------------------------------------------------------
// The end

/// What a timing ends with.
#[derive(Clone, Debug, PartialEq, Eq)]
pub struct EndState {
    pub facts: Vec<u16>,
    pub levels: Vec<i64>,
}

pub fn end_state(job: &Job, starts: &[i64]) -> EndState {
    let amounts = |level: usize| {
        let uses = job.uses.iter().filter(move |u| u.level == level);
        uses.map(|u| u.amount).sum::<i64>()
    };
    EndState {
        facts: (0..job.facts.len())
            .map(|fact| end_value(job, starts, fact))
            .collect(),
        levels: (0..job.levels.len())
            .map(|level| job.levels[level].initial + amounts(level))
            .collect(),
    }
}
