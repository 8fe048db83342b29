//! Made PDDL texts: what a supplier means, its spelling, and faults in either.

pub mod by_hand;
pub mod damage;
pub mod highest;
pub mod nudges;
pub mod sound;
pub mod spelling;
pub mod supplied;

use crate::pddl::job_from_texts;
use crate::pddl::words::LONGEST_TEXT;
use crate::random::Random;
use damage::damage;
use nudges::{some_nudge, NUDGED};
use sound::sound_supply;
use spelling::{spell, Spacing};
use supplied::Supplied;

/// Two texts and the length of the buffer for their job.
#[derive(Clone, Debug, PartialEq, Eq)]
pub struct Texts {
    pub actions: Vec<u8>,
    pub plan: Vec<u8>,
    pub room: usize,
}

/// Good texts, texts of jobs that the job's checks refuse, and damaged ones.
pub fn some_texts(random: &mut Random) -> Texts {
    let kind = random.below(100);
    let supplied = match kind {
        0..25 => sound_supply(random),
        25..65 => some_nudged(random),
        _ => some_supply(random),
    };
    let (actions, plan) = if kind < 65 {
        texts_of(random, &supplied)
    } else {
        let spelled = spell(random, &supplied);
        let spacing = Spacing::some(random);
        damage(random, spelled).texts(random, spacing)
    };
    let (mut actions, mut plan) = match random.below(100) {
        0..6 => (damage::some_byte(random, actions), plan),
        6..10 => (actions, damage::some_byte(random, plan)),
        10 if random.chance(30) => (damage::over_its_length(random, actions), plan),
        10 if random.chance(40) => (actions, damage::over_its_length(random, plan)),
        _ => (actions, plan),
    };
    // A byte over its length says as much as many do.
    actions.truncate(LONGEST_TEXT + 1);
    plan.truncate(LONGEST_TEXT + 1);
    let room = some_room(random, &actions, &plan);
    Texts {
        actions,
        plan,
        room,
    }
}

/// Mostly sound, so that what is damaged has that one fault.
pub fn some_supply(random: &mut Random) -> Supplied {
    if random.chance(70) {
        sound_supply(random)
    } else {
        some_nudged(random)
    }
}

fn some_nudged(random: &mut Random) -> Supplied {
    let number = random.pick(&NUDGED);
    some_nudge(random, number)
}

/// Just the job's length, a byte too short, or with room that must stay as it was.
fn some_room(random: &mut Random, actions: &[u8], plan: &[u8]) -> usize {
    let length = match job_from_texts(actions, plan) {
        Ok(file) => file.len(),
        Err(_) => random.below(30),
    };
    match random.below(10) {
        0 if random.chance(50) => length.saturating_sub(1),
        0 => random.below(length + 1),
        1..4 => length + 1 + random.below(9),
        _ => length,
    }
}

/// The texts of what a supplier means, spelled in some way that is short enough.
pub fn texts_of(random: &mut Random, supplied: &Supplied) -> (Vec<u8>, Vec<u8>) {
    loop {
        let spelled = spell(random, supplied);
        let spacing = Spacing::some(random);
        let (actions, plan) = spelled.texts(random, spacing);
        if actions.len() <= LONGEST_TEXT && plan.len() <= LONGEST_TEXT {
            return (actions, plan);
        }
    }
}
