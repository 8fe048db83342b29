//! The orders, as the nearest two points of each two steps that the rules put in an order.
//!
//! With p and q counted from the starts of their steps, a gap is p − q + 1. With ticks it is the
//! tick of p less the tick of q, plus what depends on the two steps alone. So of all orders from
//! one step to the same other, the two points nearest in time have the largest gap; and of a
//! step's points after p, only the soonest can be nearest to it.

use super::form::{Form, STEPS};
use super::needs::Needs;
use super::points::{Point, Points};
use super::sound::Links;

/// Added to the distance of two points, so that nearer is more and 0 is no order.
pub const FAR: i32 = 1 << 21;

/// From so many points on, a row for all steps costs less than a look at each pair.
const MANY: usize = 32;

pub struct Nearest {
    /// By the first step, then by the second.
    pub rows: [[i32; STEPS]; STEPS],
    /// The steps ordered after each step, one bit a step.
    pub after: [u64; STEPS],
}

impl Nearest {
    pub const NONE: Nearest = Nearest {
        rows: [[0; STEPS]; STEPS],
        after: [0; STEPS],
    };

    /// By the rules for orders from a sound job.
    pub fn find(&mut self, form: &Form, points: &Points, needs: Option<&Needs>, links: &Links) {
        for fact in 0..form.facts.len() {
            let effects = points.effects.group(fact);
            let conditions = points.conditions.group(fact);
            self.support(form, links, conditions);
            if effects.len() < MANY {
                self.pairs_of_a_fact(form, effects, conditions);
            } else {
                self.rows_of_a_fact(form, effects, conditions);
            }
        }
        for level in 0..form.levels.len() {
            let uses = points.uses.group(level);
            if uses.len() < MANY {
                self.pairs_of_a_level(uses);
            } else {
                self.rows_of_a_level(uses);
            }
            if let Some(needs) = needs {
                self.needs_of_a_level(uses, needs.group(level));
            }
        }
        self.forget_own(form.steps.count);
    }

    fn raise(&mut self, first: usize, second: usize, distance: i32) {
        let nearness = &mut self.rows[first][second];
        *nearness = (*nearness).max(FAR + distance);
        self.after[first] |= 1 << second;
    }

    fn raise_row(&mut self, first: usize, tick: i32, soonest: &Soonest) {
        let row = &mut self.rows[first];
        for (nearness, soonest) in row.iter_mut().zip(&soonest.ticks) {
            *nearness = (*nearness).max(FAR + tick - soonest);
        }
        self.after[first] |= soonest.steps;
    }

    /// Only different steps are ordered.
    fn forget_own(&mut self, steps: usize) {
        for step in 0..steps {
            self.rows[step][step] = 0;
            self.after[step] &= !(1 << step);
        }
    }

    /// Rule 1.
    fn support(&mut self, form: &Form, links: &Links, conditions: &[Point]) {
        for condition in conditions {
            if let Some(effect) = form.linked(links[condition.number()]) {
                self.raise(
                    effect.step,
                    condition.step(),
                    effect.tick - condition.tick(),
                );
            }
        }
    }

    /// Rules 2 and 3. In a sound job what opposes is apart, but for a step's own.
    fn pairs_of_a_fact(&mut self, form: &Form, effects: &[Point], conditions: &[Point]) {
        for (number, p) in effects.iter().enumerate() {
            for q in effects[number..].iter().filter(|q| q.value() != p.value()) {
                self.raise(p.step(), q.step(), p.tick() - q.tick());
            }
        }
        for c in conditions {
            let last = form.last_tick(*c);
            for e in effects.iter().filter(|e| e.value() != c.value()) {
                if e.tick() < c.tick() {
                    self.raise(e.step(), c.step(), e.tick() - c.tick());
                } else {
                    self.raise(c.step(), e.step(), last - e.tick());
                }
            }
        }
    }

    /// The same, back in time. An effect that opposes a condition and comes after its first tick
    /// comes after its last.
    fn rows_of_a_fact(&mut self, form: &Form, effects: &[Point], conditions: &[Point]) {
        let mut setting = [Soonest::NONE; 2];
        let mut setting_or_wanting = [Soonest::NONE; 2];
        let mut conditions = conditions.iter().rev().peekable();
        for e in effects.iter().rev() {
            while let Some(c) = conditions.next_if(|c| c.tick() >= e.tick()) {
                self.raise_row(c.step(), form.last_tick(*c), &setting[1 - c.value()]);
                setting_or_wanting[c.value()].note(*c);
            }
            self.raise_row(e.step(), e.tick(), &setting_or_wanting[1 - e.value()]);
            setting[e.value()].note(*e);
            setting_or_wanting[e.value()].note(*e);
        }
        for c in conditions {
            self.raise_row(c.step(), form.last_tick(*c), &setting[1 - c.value()]);
        }
    }

    /// Rule 4.
    fn pairs_of_a_level(&mut self, uses: &[Point]) {
        for (number, p) in uses.iter().enumerate() {
            for q in uses[number..].iter().filter(|q| q.tick() != p.tick()) {
                self.raise(p.step(), q.step(), p.tick() - q.tick());
            }
        }
    }

    fn rows_of_a_level(&mut self, uses: &[Point]) {
        let mut soonest = Soonest::NONE;
        for at_one_tick in uses.chunk_by(|a, b| a.tick() == b.tick()).rev() {
            for p in at_one_tick {
                self.raise_row(p.step(), p.tick(), &soonest);
            }
            for q in at_one_tick {
                soonest.note(*q);
            }
        }
    }

    /// Rule 4: needs and uses, as they lie.
    #[cold]
    fn needs_of_a_level(&mut self, uses: &[Point], needs: &[Point]) {
        if uses.len().min(needs.len()) < MANY {
            self.pairs_before(needs, uses);
            self.pairs_before(uses, needs);
        } else {
            self.rows_before(needs, uses);
            self.rows_before(uses, needs);
        }
    }

    /// Each of the first that lies before any of the others.
    fn pairs_before(&mut self, first: &[Point], second: &[Point]) {
        for p in first {
            for q in second.iter().filter(|q| p.tick() < q.tick()) {
                self.raise(p.step(), q.step(), p.tick() - q.tick());
            }
        }
    }

    /// The same, back in time.
    fn rows_before(&mut self, first: &[Point], second: &[Point]) {
        let mut soonest = Soonest::NONE;
        let mut second = second.iter().rev().peekable();
        for p in first.iter().rev() {
            while let Some(q) = second.next_if(|q| p.tick() < q.tick()) {
                soonest.note(*q);
            }
            self.raise_row(p.step(), p.tick(), &soonest);
        }
    }
}

/// The soonest point of each step, going back in time, of the kind that a row is about.
#[derive(Clone, Copy)]
struct Soonest {
    ticks: [i32; STEPS],
    steps: u64,
}

impl Soonest {
    /// So late that the nearness comes to less than 0.
    const NONE: Soonest = Soonest {
        ticks: [2 * FAR; STEPS],
        steps: 0,
    };

    fn note(&mut self, point: Point) {
        self.ticks[point.step()] = point.tick();
        self.steps |= point.step_bit();
    }
}

/// The steps in a set of one bit a step, ascending.
pub fn bits(mut set: u64) -> impl Iterator<Item = usize> {
    std::iter::from_fn(move || {
        let lowest = set.trailing_zeros() as usize;
        set &= set.wrapping_sub(1);
        (lowest < STEPS).then_some(lowest)
    })
}
