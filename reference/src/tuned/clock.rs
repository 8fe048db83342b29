//! What the clock does: timed facts by fact, alone and together with the effects. A job without
//! timed facts has no clock, and pays for none.

use super::form::Form;
use super::points::{Grouped, Point, Points};
use crate::bytes::{u16_at, u32_at};
use crate::order_file::FIRST_TIMED;

pub struct Clock {
    pub timed: Grouped<64>,
    /// All that sets a fact, by tick; of what is at one tick effects come first.
    pub setters: Grouped<{ 512 + 64 }>,
}

impl Clock {
    pub fn of(form: &Form, points: &Points) -> Option<Clock> {
        if form.timed.is_empty() {
            return None;
        }
        let mut clock = Clock {
            timed: Grouped::NONE,
            setters: Grouped::NONE,
        };
        let facts = form.facts.len();
        clock.timed.gather::<0, _>(facts, form.timed, timed_point);
        for fact in 0..facts {
            let (effects, timed) = (points.effects.group(fact), clock.timed.group(fact));
            clock.setters.add_merged(fact, effects, timed);
        }
        Some(clock)
    }
}

/// A timed fact is numbered by its link. It is of no step, so its step must not be asked for.
fn timed_point(number: usize, timed: &[u8; 8]) -> Point {
    let (tick, value) = (u32_at(timed, 2) as i32, u16_at(timed, 6));
    Point::new(tick, usize::from(FIRST_TIMED) + number, value, 0)
}
