//! Timed facts nudged so that a sound job is refused: moved onto an effect or onto each other, into
//! a condition, or behind a goal.

use crate::job::{Job, TimedFact};
use crate::random::Random;

/// Nudges one timed fact, or adds one, towards the refusal with this number.
pub fn nudge_a_timed_fact(random: &mut Random, job: &mut Job, number: u16) {
    let nudged = match number {
        10 => onto_an_effect(random, job),
        11 => into_a_condition(random, job),
        13 => behind_a_goal(random, job),
        17 => onto_another(random, job),
        _ => None,
    };
    let Some(timed) = nudged else {
        return;
    };
    if job.timed.is_empty() || random.chance(50) {
        let at = random.below(job.timed.len() + 1);
        job.timed.insert(at, timed);
    } else {
        let number = random.below(job.timed.len());
        job.timed[number] = timed;
    }
}

/// Refusal 10: it opposes an effect at its tick.
fn onto_an_effect(random: &mut Random, job: &Job) -> Option<TimedFact> {
    if job.effects.is_empty() {
        return None;
    }
    let effect = random.pick(&job.effects);
    Some(TimedFact {
        fact: effect.fact,
        tick: effect.tick(&job.written_starts()),
        value: 1 - effect.value,
    })
}

/// Refusal 11: it opposes a condition at one of its ticks, most often the first or the last, or at
/// the tick before the first.
fn into_a_condition(random: &mut Random, job: &Job) -> Option<TimedFact> {
    if job.conditions.is_empty() {
        return None;
    }
    let condition = random.pick(&job.conditions);
    let starts = job.written_starts();
    let first = condition.first_tick(&starts);
    let last = condition.last_tick(&starts);
    let tick = random.pick(&[first - 1, first, last, (first + last) / 2]);
    Some(TimedFact {
        fact: condition.fact,
        tick: tick.max(0),
        value: 1 - condition.wanted,
    })
}

/// Refusal 13: it opposes a goal where it is due, or at the very end.
fn behind_a_goal(random: &mut Random, job: &Job) -> Option<TimedFact> {
    if job.goals.is_empty() {
        return None;
    }
    let goal = random.pick(&job.goals);
    let due = goal.deadline.unwrap_or(0);
    Some(TimedFact {
        fact: goal.fact,
        tick: random.pick(&[due, due + 1, 1_100_000]).min(1_100_000),
        value: 1 - goal.value,
    })
}

/// Refusal 17: it sets the fact of another the other way at its tick.
fn onto_another(random: &mut Random, job: &Job) -> Option<TimedFact> {
    if job.timed.is_empty() {
        return None;
    }
    let other = random.pick(&job.timed);
    Some(TimedFact {
        value: 1 - other.value,
        ..other
    })
}
