//! Supplies whose jobs are sound: piece by piece, each kept only if the job stays sound.

use super::supplied::{Action, Done, End, Init, Supplied, Wanted};
use crate::random::Random;

pub fn sound_supply(random: &mut Random) -> Supplied {
    let mut supplied = bare(random);
    for _ in 0..random.pick(&[0, 5, 15, 15, 15, 30, 60]) {
        let mut more = supplied.clone();
        put_a_piece(random, &mut more);
        if more.verdict().is_ok() {
            supplied = more;
        }
    }
    supplied
}

/// Actions that do nothing yet, a plan of them, and some of init.
fn bare(random: &mut Random) -> Supplied {
    let tick = random.pick(&[1, 1, 500, 1_000, 1_000, 10_000]);
    let actions = random.pick(&[0, 1, 1, 2, 2, 3, 5]);
    let action = |random: &mut Random| Action {
        duration: some_duration(random, tick),
        ..Action::default()
    };
    let mut supplied = Supplied {
        actions: (0..actions).map(|_| action(random)).collect(),
        init: some_init(random),
        ..Supplied::default()
    };
    if actions > 0 {
        let steps = random.pick(&[0, 1, 2, 2, 3, 4, 6]);
        let step = |_| (some_start(random, tick), random.below(actions));
        supplied.plan = (0..steps).map(step).collect();
    }
    supplied
}

/// Few ticks, so that steps meet, and those at which an "over all" begins to count.
fn some_duration(random: &mut Random, tick: i64) -> i64 {
    match random.below(20) {
        0..5 => random.between(0, 3),
        5 => 100_000,
        6 => random.between(0, 100_000),
        _ => tick * random.between(0, 5),
    }
}

pub fn some_start(random: &mut Random, tick: i64) -> i64 {
    match random.below(20) {
        0 => 1_000_000,
        1 => random.between(0, 1_000_000),
        2 => tick * random.between(0, 9) + random.between(0, 2),
        _ => tick * random.between(0, 9),
    }
}

const FACTS: usize = 6;
const LEVELS: usize = 3;

fn some_init(random: &mut Random) -> Vec<Init> {
    let mut init = Vec::new();
    for fact in 0..FACTS {
        if random.chance(35) {
            init.push(Init::Fact(fact));
        }
    }
    for level in 0..LEVELS {
        if random.chance(40) {
            let amount = random.pick(&[0, 1, 2, 3, 10, 5_000_000, 999_999_999]);
            init.push(Init::Level(level, amount));
        }
    }
    random.shuffle(&mut init);
    init
}

/// A condition, an effect, a use or a goal, anywhere.
pub fn put_a_piece(random: &mut Random, supplied: &mut Supplied) {
    let fact = random.below(FACTS);
    let value = random.below(2) as u16;
    if supplied.actions.is_empty() || random.chance(15) {
        let place = random.below(supplied.goals.len() + 1);
        supplied.goals.insert(place, (fact, value));
        return;
    }
    let number = random.below(supplied.actions.len());
    let action = &mut supplied.actions[number];
    if random.chance(45) {
        let at = random.pick(&[Some(End::Start), Some(End::End), None]);
        let place = random.below(action.conditions.len() + 1);
        action.conditions.insert(place, Wanted { at, fact, value });
    } else {
        let done = if random.chance(60) {
            Done::Set(fact, value)
        } else {
            let amount = random.pick(&[-1, 1, -1, 1, 2, -2, 7, -1_000_000, 1_000_000]);
            Done::Change(random.below(LEVELS), amount)
        };
        let place = random.below(action.effects.len() + 1);
        action.effects.insert(place, (some_end(random), done));
    }
}

pub fn some_end(random: &mut Random) -> End {
    random.pick(&[End::Start, End::End])
}
