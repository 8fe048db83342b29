//! Refusals 7, 17, 10 to 13 and 21, and the links, which the walk along each fact meets anyway.

use super::clock::Clock;
use super::form::{Form, STEPS};
use super::needs::Needs;
use super::points::{Point, Points};
use super::ties::TiedFacts;
use crate::bytes::{i32_at, u16_at, u32_at};
use crate::order_file::{FIRST_TIMED, INITIAL_STATE, MOST_LINKS};
use crate::refusal::{refuse_at, Refusal, Verdict};

/// One link a condition, then one a goal.
pub type Links = [u16; MOST_LINKS];

pub const UNLINKED: Links = [INITIAL_STATE; MOST_LINKS];

/// Refuses a job that is not sound, else finds its links, to the lowest of each tie, and where ties
/// may be.
pub fn link(
    form: &Form,
    points: &Points,
    clock: Option<&Clock>,
    needs: Option<&Needs>,
    links: &mut Links,
) -> Result<TiedFacts, Refusal> {
    let mut found = Found::default();
    // What supports each fact in the end.
    let mut ends = [INITIAL_STATE; 256];
    for (fact, &initial) in form.facts.iter().enumerate() {
        let setters = match clock {
            Some(clock) => clock.setters.group(fact),
            None => points.effects.group(fact),
        };
        found.meetings(fact, setters);
        let mut walk = Walk::new(initial, setters);
        for &condition in points.conditions.group(fact) {
            walk.pass_setters_before(condition.tick());
            links[condition.number()] = walk.link;
            found.condition(&mut walk, condition, form.last_tick(condition));
        }
        walk.pass_setters_before(i32::MAX);
        ends[fact] = walk.link;
    }
    found.levels(form, points, needs);
    found.refuse()?;
    for (number, goal) in form.goals.iter().enumerate() {
        let link = ends[usize::from(u16_at(goal, 0))];
        refuse_at(13, goal_fails(form, goal, link).then_some(number))?;
        links[form.conditions.len() + number] = link;
    }
    Ok(found.tied)
}

impl Form<'_> {
    pub fn last_tick(&self, condition: Point) -> i32 {
        let to = u32_at(&self.conditions[condition.number()], 8);
        self.steps.starts[condition.step()] + to as i32
    }

    /// The effect that a link names, if it names one: there are no more effects than the links to
    /// timed facts leave.
    pub fn linked(&self, link: u16) -> Option<Effect> {
        let effect = self.effects.get(usize::from(link))?;
        let (step, at) = (usize::from(u16_at(effect, 0)), u32_at(effect, 4) as i32);
        Some(Effect {
            step,
            at,
            tick: self.steps.starts[step] + at,
            value: u16_at(effect, 8),
        })
    }

    /// The tick and value of a timed fact that a link names, if it names one.
    pub fn linked_timed_fact(&self, link: u16) -> Option<(i32, u16)> {
        let timed = self
            .timed
            .get(usize::from(link.checked_sub(FIRST_TIMED)?))?;
        Some((u32_at(timed, 2) as i32, u16_at(timed, 6)))
    }
}

pub struct Effect {
    pub step: usize,
    pub at: i32,
    pub tick: i32,
    value: u16,
}

// ---------------------------------------------------------------------------------------------
// Along a fact

/// A place in a fact's time: the value seen there and what supports it.
struct Walk<'a> {
    /// Effects and timed facts.
    setters: &'a [Point],
    passed: usize,
    value: usize,
    link: u16,
    /// The next that opposes each value; it never goes back.
    opposing: [usize; 2],
}

impl Walk<'_> {
    fn new(initial: u8, setters: &[Point]) -> Walk<'_> {
        Walk {
            setters,
            passed: 0,
            value: usize::from(initial),
            link: INITIAL_STATE,
            opposing: [0; 2],
        }
    }

    /// The first of a run that gives one value is what supports it.
    fn pass_setters_before(&mut self, tick: i32) {
        while let Some(setter) = self.setters.get(self.passed).filter(|s| s.tick() < tick) {
            if setter.value() != self.value {
                self.value = setter.value();
                self.link = setter.number() as u16;
            }
            self.passed += 1;
        }
    }

    /// What is still to come, from the first that opposes the value on.
    fn opposing_on(&mut self, value: usize) -> &[Point] {
        let mut next = self.opposing[value].max(self.passed);
        while self.setters.get(next).is_some_and(|s| s.value() == value) {
            next += 1;
        }
        self.opposing[value] = next;
        &self.setters[next..]
    }
}

// ---------------------------------------------------------------------------------------------
// What is found, before it is known which number comes first

#[derive(Default)]
struct Found {
    /// Refusal 7: one bit a step.
    against_itself: u64,
    /// Refusals 17, 10 to 12 and 21: the lowest place.
    timed_both_ways: Option<usize>,
    meeting: Option<usize>,
    condition: Option<usize>,
    level: Option<usize>,
    need: Option<usize>,
    tied: TiedFacts,
}

impl Found {
    fn refuse(&self) -> Verdict {
        let step = self.against_itself.trailing_zeros() as usize;
        refuse_at(7, (step < STEPS).then_some(step))?;
        refuse_at(17, self.timed_both_ways)?;
        refuse_at(10, self.meeting)?;
        refuse_at(11, self.condition)?;
        refuse_at(12, self.level)?;
        refuse_at(21, self.need)
    }

    /// What opposes each other on one fact at one tick: effects of one step or of two, timed facts.
    fn meetings(&mut self, fact: usize, setters: &[Point]) {
        let neighbours = setters.windows(2);
        let meeting = neighbours.fold(0, |all, two| all | two[0].meeting(two[1]));
        if meeting != 0 {
            self.tied.add(fact);
        }
        if meeting & Point::VALUE != 0 {
            for at_one_tick in setters.chunk_by(|a, b| a.tick() == b.tick()) {
                let effects = at_one_tick.partition_point(|setter| !setter.is_timed());
                let (effects, timed) = at_one_tick.split_at(effects);
                self.meetings_at_one_tick(effects, timed);
            }
        }
    }

    fn meetings_at_one_tick(&mut self, effects: &[Point], timed: &[Point]) {
        let mut setting = [0; 2];
        for effect in effects {
            setting[effect.value()] |= effect.step_bit();
        }
        self.against_itself |= setting[0] & setting[1];
        let by_the_clock = |value: usize| timed.iter().any(|timed| timed.value() == value);
        let by_the_clock = [by_the_clock(0), by_the_clock(1)];
        let meets = |e: &&Point| {
            let other = 1 - e.value();
            setting[other] & !e.step_bit() != 0 || by_the_clock[other]
        };
        if let Some(effect) = effects.iter().find(meets) {
            lower(&mut self.meeting, effect.number());
        }
        if by_the_clock == [true, true] {
            let lowest = timed[0].number() - usize::from(FIRST_TIMED);
            lower(&mut self.timed_both_ways, lowest);
        }
    }

    /// The walk stands at the condition's first tick.
    fn condition(&mut self, walk: &mut Walk, condition: Point, last: i32) {
        let wanted = condition.value();
        if walk.value != wanted {
            lower(&mut self.condition, condition.number());
        }
        for setter in walk.opposing_on(wanted) {
            if setter.tick() > last {
                break;
            }
            if setter.value() == wanted {
                continue;
            }
            if setter.is_timed() || setter.step() != condition.step() {
                lower(&mut self.condition, condition.number());
            } else if setter.tick() < last {
                self.against_itself |= condition.step_bit();
            }
        }
    }

    fn levels(&mut self, form: &Form, points: &Points, needs: Option<&Needs>) {
        for level in 0..form.levels.len() {
            let uses = points.uses.group(level);
            self.level(form, level, uses);
            if let Some(needs) = needs {
                self.needs(form, level, uses, needs.group(level));
            }
        }
    }

    /// Falls do not wait for the tick's rises, nor rises for its falls.
    fn level(&mut self, form: &Form, number: usize, uses: &[Point]) {
        let level = &form.levels[number];
        let (mut amount, least, most) = (i32_at(level, 0), i32_at(level, 4), i32_at(level, 8));
        for at_one_tick in uses.chunk_by(|a, b| a.tick() == b.tick()) {
            let (mut falls, mut rises, mut users) = (0, 0, 0);
            for used in at_one_tick {
                let change = i32_at(&form.uses[used.number()], 8);
                falls += change.min(0);
                rises += change.max(0);
                self.against_itself |= users & used.step_bit();
                users |= used.step_bit();
            }
            if amount + falls < least || amount + rises > most {
                lower(&mut self.level, number);
            }
            amount += falls + rises;
        }
    }

    /// Of the tick of a need only the falls of other steps count.
    #[cold]
    fn needs(&mut self, form: &Form, level: usize, uses: &[Point], needs: &[Point]) {
        let change = |used: &Point| i32_at(&form.uses[used.number()], 8);
        let mut amount = i32_at(&form.levels[level], 0);
        let mut coming = uses;
        for need in needs {
            while let Some((used, later)) = coming.split_first() {
                if used.tick() >= need.tick() {
                    break;
                }
                amount += change(used);
                coming = later;
            }
            let now = coming.iter().take_while(|u| u.tick() == need.tick());
            let others = now.filter(|u| u.step() != need.step());
            let falls: i32 = others.map(|u| change(u).min(0)).sum();
            if amount + falls < i32_at(&form.needs[need.number()], 8) {
                lower(&mut self.need, need.number());
            }
        }
    }
}

fn lower(lowest: &mut Option<usize>, number: usize) {
    *lowest = Some(lowest.map_or(number, |before| before.min(number)));
}

// ---------------------------------------------------------------------------------------------
// Goals

/// A goal holds from the tick after its link on, so the link must not come after the deadline.
fn goal_fails(form: &Form, goal: &[u8; 8], link: u16) -> bool {
    let (fact, value, deadline) = (u16_at(goal, 0), u16_at(goal, 2), u32_at(goal, 4));
    let set = match form.linked(link) {
        Some(effect) => Some((effect.tick, effect.value)),
        None => form.linked_timed_fact(link),
    };
    match set {
        Some((tick, given)) => given != value || tick as u32 > deadline,
        None => u16::from(form.facts[usize::from(fact)]) != value,
    }
}
