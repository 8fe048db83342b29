//! What sets facts: the steps' effects, then the timed facts, each of which acts as an effect of
//! another step that cannot move.

use crate::job::Job;
use crate::order_file::Link;

#[derive(Clone, Copy, Debug, PartialEq, Eq)]
pub struct Setter {
    /// What links to it say.
    pub link: Link,
    /// None for a timed fact, which no step moves.
    pub step: Option<usize>,
    pub fact: usize,
    pub value: u16,
    pub tick: i64,
}

impl Setter {
    pub fn opposes(&self, fact: usize, value: u16) -> bool {
        self.fact == fact && self.value != value
    }

    pub fn gives(&self, fact: usize, value: u16) -> bool {
        self.fact == fact && self.value == value
    }

    pub fn is_of(&self, step: usize) -> bool {
        self.step == Some(step)
    }
}

/// All of a job under a timing. Where a tie goes to nobody first, it goes to the one that comes first
/// here: a step's effect before a timed fact, and of either the lower number.
pub fn setters<'a>(job: &'a Job, starts: &'a [i64]) -> impl Iterator<Item = Setter> + 'a {
    let effects = job.effects.iter().enumerate();
    let effects = effects.map(|(number, effect)| Setter {
        link: Link::Effect(number),
        step: Some(effect.step),
        fact: effect.fact,
        value: effect.value,
        tick: effect.tick(starts),
    });
    let timed = job.timed.iter().enumerate();
    let timed = timed.map(|(number, timed)| Setter {
        link: Link::Timed(number),
        step: None,
        fact: timed.fact,
        value: timed.value,
        tick: timed.tick,
    });
    effects.chain(timed)
}
