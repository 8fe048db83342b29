//! Supplies that would be sound but for one nudge, for each refusal of the job's checks.

use super::sound::{put_a_piece, some_end, some_start, sound_supply};
use super::supplied::{Action, Done, Init, Supplied};
use crate::random::Random;

/// What a job from texts can be refused for, but for 15.
pub const NUDGED: [u16; 7] = [4, 6, 7, 10, 11, 12, 13];

/// A supply that the job's checks refuse with this number.
pub fn some_nudge(random: &mut Random, number: u16) -> Supplied {
    loop {
        let mut supplied = sound_supply(random);
        nudge(random, &mut supplied, number);
        let refused = supplied.verdict().err();
        if refused.is_some_and(|refusal| refusal.number == number) {
            return supplied;
        }
    }
}

fn nudge(random: &mut Random, supplied: &mut Supplied, number: u16) {
    match number {
        4 => pass_a_highest_count(random, supplied),
        6 => pass_a_range(random, supplied),
        7 => do_two_things_at_once(random, supplied),
        12 => drain_a_level(random, supplied),
        10 if random.chance(80) => let_two_steps_meet(random, supplied),
        10 | 11 if random.chance(60) => move_a_step(random, supplied),
        _ => put_a_piece(random, supplied),
    }
}

/// Mostly just above the highest count, now and then far above.
fn pass_a_highest_count(random: &mut Random, supplied: &mut Supplied) {
    let more = random.pick(&[0, 0, 1, 7]);
    match random.below(5) {
        0 => {
            let new = 100..100 + 257 + more;
            supplied.init.extend(new.map(Init::Fact));
        }
        1 => {
            let new = 100..100 + 17 + more;
            supplied.init.extend(new.map(|level| Init::Level(level, 1)));
        }
        2 => again(&mut supplied.goals, 33 + more),
        3 => again(&mut supplied.plan, 65 + more),
        _ => {
            let Some(&(_, action)) = supplied.plan.first() else {
                return;
            };
            let action = &mut supplied.actions[action];
            again(&mut action.conditions, 513 + more);
            again(&mut action.effects, 513 + more);
        }
    }
}

/// So many by repeating what is there.
fn again<T: Clone>(records: &mut Vec<T>, count: usize) {
    let there = records.clone();
    let all = there.into_iter().cycle();
    *records = all.take(count).collect();
}

fn pass_a_range(random: &mut Random, supplied: &mut Supplied) {
    if supplied.plan.is_empty() {
        return;
    }
    let step = random.below(supplied.plan.len());
    let action = &mut supplied.actions[supplied.plan[step].1];
    match random.below(3) {
        0 => supplied.plan[step].0 = random.pick(&[1_000_001, 1_000_500, 999_999_999]),
        1 => action.duration = random.pick(&[100_001, 100_500, 999_999_999]),
        _ => {
            let amount = random.pick(&[0, 0, 1_000_001, -1_000_001, 999_999_999, -999_999_999]);
            let place = random.below(action.effects.len() + 1);
            let change = Done::Change(random.below(3), amount);
            action.effects.insert(place, (some_end(random), change));
        }
    }
}

/// One of an action's effects once more, at an end, and the other way if it sets a fact.
fn do_two_things_at_once(random: &mut Random, supplied: &mut Supplied) {
    let number = random.below(supplied.actions.len().max(1));
    let Some(action) = supplied.actions.get_mut(number) else {
        return;
    };
    if action.effects.is_empty() || random.chance(20) {
        action.duration = 0;
        return;
    }
    let (end, done) = random.pick(&action.effects);
    let done = match done {
        Done::Set(fact, value) => Done::Set(fact, 1 - value),
        change => change,
    };
    let place = random.below(action.effects.len() + 1);
    let end = if random.chance(50) {
        end
    } else {
        some_end(random)
    };
    action.effects.insert(place, (end, done));
}

fn drain_a_level(random: &mut Random, supplied: &mut Supplied) {
    let number = random.below(supplied.actions.len().max(1));
    let Some(action) = supplied.actions.get_mut(number) else {
        return;
    };
    let amount = random.pick(&[-1, -2, -11, -1_000_000, 2]);
    let change = Done::Change(random.below(3), amount);
    action.effects.push((some_end(random), change));
}

/// Opposing effects of two steps at one tick.
fn let_two_steps_meet(random: &mut Random, supplied: &mut Supplied) {
    if supplied.plan.len() < 2 {
        return;
    }
    let fact = random.below(4);
    let value = random.below(2) as u16;
    let (start, one) = random.pick(&supplied.plan);
    let moved = random.below(supplied.plan.len());
    let other = supplied.plan[moved].1;
    let at_one = set_somewhere(random, &mut supplied.actions[one], Done::Set(fact, value));
    let at_other = set_somewhere(
        random,
        &mut supplied.actions[other],
        Done::Set(fact, 1 - value),
    );
    supplied.plan[moved].0 = (start + at_one - at_other).clamp(0, 1_000_000);
}

/// At an end of the action, of which the tick from its start is given back.
fn set_somewhere(random: &mut Random, action: &mut Action, done: Done) -> i64 {
    let end = some_end(random);
    let place = random.below(action.effects.len() + 1);
    action.effects.insert(place, (end, done));
    action.point(end)
}

/// To another step's start or end, where their effects meet, or anywhere.
fn move_a_step(random: &mut Random, supplied: &mut Supplied) {
    if supplied.plan.is_empty() {
        return;
    }
    let moved = random.below(supplied.plan.len());
    let (start, action) = random.pick(&supplied.plan);
    let duration = supplied.actions[action].duration;
    let own_duration = supplied.actions[supplied.plan[moved].1].duration;
    let start = match random.below(4) {
        0 => start,
        1 => start + duration,
        2 => (start + duration - own_duration).max(0),
        _ => some_start(random, 1_000),
    };
    supplied.plan[moved].0 = start.min(1_000_000);
}
