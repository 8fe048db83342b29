//! Ties: of the effects that give a value at one tick, those of the condition's own step come first.
//! The walk along a fact links to the lowest of all, which is right wherever there is no tie.

use super::form::STEPS;
use super::nearest::bits;
use super::points::{Point, Points};
use super::sound::Links;

/// The facts that two steps, or a step and the clock, may set at one tick: one bit a fact.
#[derive(Default)]
pub struct TiedFacts([u64; 4]);

impl TiedFacts {
    pub fn add(&mut self, fact: usize) {
        self.0[fact / 64] |= 1 << (fact % 64);
    }
}

/// Of a sound job: every condition that the first of a tie supports. A timed fact is no step's, and
/// where an effect is tied with it the effect is linked already.
pub fn settle(tied: &TiedFacts, points: &Points, links: &mut Links) {
    for (word, &facts) in tied.0.iter().enumerate() {
        for bit in bits(facts) {
            let fact = 64 * word + bit;
            let (effects, conditions) = (&points.effects, &points.conditions);
            settle_fact(effects.group(fact), conditions.group(fact), links);
        }
    }
}

fn settle_fact(mut effects: &[Point], mut conditions: &[Point], links: &mut Links) {
    while let Some(at) = effects
        .windows(2)
        .position(|two| two[0].meeting(two[1]) != 0)
    {
        let tick = effects[at].tick();
        let tied = |e: &&Point| e.tick() == tick;
        let start = at - effects[..at].iter().rev().take_while(tied).count();
        let end = at + effects[at..].iter().take_while(tied).count();
        let before = conditions.iter().take_while(|c| c.tick() <= tick).count();
        conditions = &conditions[before..];
        settle_one(&effects[start..end], conditions, links);
        effects = &effects[end..];
    }
}

/// The conditions come after the tie. Those that it supports follow on each other.
fn settle_one(tie: &[Point], conditions: &[Point], links: &mut Links) {
    let first = tie[0].number() as u16;
    let supported = |c: &&Point| links[c.number()] == first;
    let count = conditions.iter().take_while(supported).count();
    if count == 0 {
        return;
    }
    // Back along the tie, so that the lowest effect of each step stays.
    let mut lowest = [first; STEPS];
    for effect in tie.iter().rev() {
        lowest[effect.step()] = effect.number() as u16;
    }
    for condition in &conditions[..count] {
        links[condition.number()] = lowest[condition.step()];
    }
}
