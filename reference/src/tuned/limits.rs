//! Limits: earliest limits and latest starts, from written starts, deadlines and timed facts.

use super::clock::Clock;
use super::form::{Form, STEPS};
use super::points::{Point, Points};
use super::sound::Links;
use crate::bytes::u32_at;
use crate::job::NO_DEADLINE;
use crate::order_file::NONE;

pub struct Limits {
    pub earliest: [i32; STEPS],
    pub latest: [u32; STEPS],
}

impl Limits {
    pub fn of(form: &Form, points: &Points, clock: Option<&Clock>, links: &Links) -> Limits {
        let mut limits = Limits {
            earliest: [0; STEPS],
            latest: [NONE; STEPS],
        };
        limits.deadlines(form, links);
        if let Some(clock) = clock {
            limits.timed_facts(form, points, clock, links);
        }
        limits.fixed_steps(form);
        limits
    }

    fn deadlines(&mut self, form: &Form, links: &Links) {
        let goal_links = &links[form.conditions.len()..];
        for (goal, &link) in form.goals.iter().zip(goal_links) {
            let (effect, deadline) = (form.linked(link), u32_at(goal, 4));
            if let Some(effect) = effect.filter(|_| deadline != NO_DEADLINE) {
                let of_step = &mut self.latest[effect.step];
                *of_step = (*of_step).min(deadline - effect.at as u32);
            }
        }
    }

    /// The written start of a fixed step is the tightest: it obeys all others.
    fn fixed_steps(&mut self, form: &Form) {
        let steps = &form.steps;
        for step in (0..steps.count).filter(|&step| steps.is_fixed(step)) {
            self.earliest[step] = steps.starts[step];
            self.latest[step] = steps.starts[step] as u32;
        }
    }

    /// Rules 1 to 3 against timed facts. Of those before a point that limit it the last is the
    /// tightest, of those after it the first.
    fn timed_facts(&mut self, form: &Form, points: &Points, clock: &Clock, links: &Links) {
        for fact in 0..form.facts.len() {
            let timed = clock.timed.group(fact);
            if timed.is_empty() {
                continue;
            }
            let conditions = points.conditions.group(fact);
            let last = |c: Point| form.last_tick(c);
            self.after_timed(form, timed, points.effects.group(fact));
            self.after_timed(form, timed, conditions);
            self.before_timed(form, timed, points.effects.group(fact), Point::tick);
            self.before_timed(form, timed, conditions, last);
            self.support(form, links, conditions);
        }
    }

    /// Rules 2 and 3: points, by tick, after opposing timed facts.
    fn after_timed(&mut self, form: &Form, timed: &[Point], points: &[Point]) {
        let mut before = [None; 2];
        let mut coming = timed.iter().peekable();
        for point in points {
            while let Some(timed) = coming.next_if(|timed| timed.tick() < point.tick()) {
                before[timed.value()] = Some(timed.tick());
            }
            if let Some(tick) = before[1 - point.value()] {
                self.after(form, point.step(), tick, point.tick());
            }
        }
    }

    /// Rules 2 and 3: points before opposing timed facts, back in time. What opposes a condition
    /// after its first tick comes after its last.
    fn before_timed(
        &mut self,
        form: &Form,
        timed: &[Point],
        points: &[Point],
        last: impl Fn(Point) -> i32,
    ) {
        let mut after = [None; 2];
        let mut coming = timed.iter().rev().peekable();
        for point in points.iter().rev() {
            while let Some(timed) = coming.next_if(|timed| timed.tick() > point.tick()) {
                after[timed.value()] = Some(timed.tick());
            }
            if let Some(tick) = after[1 - point.value()] {
                self.before(form, point.step(), tick, last(*point));
            }
        }
    }

    /// Rule 1.
    fn support(&mut self, form: &Form, links: &Links, conditions: &[Point]) {
        for condition in conditions {
            if let Some((tick, _)) = form.linked_timed_fact(links[condition.number()]) {
                self.after(form, condition.step(), tick, condition.tick());
            }
        }
    }

    /// A point of a step, given by its tick, strictly after a tick.
    fn after(&mut self, form: &Form, step: usize, tick: i32, point: i32) {
        let limit = &mut self.earliest[step];
        *limit = (*limit).max(tick + 1 - point + form.steps.starts[step]);
    }

    /// And strictly before a tick.
    fn before(&mut self, form: &Form, step: usize, tick: i32, point: i32) {
        let limit = &mut self.latest[step];
        *limit = (*limit).min((tick - 1 - point + form.steps.starts[step]) as u32);
    }
}
