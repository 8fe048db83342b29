//! Sound jobs of many shapes, built by simulating forward: effects and timed facts get their values
//! tick by tick, and conditions, bounds, goals and needs are read off what then happens.

use std::collections::{BTreeMap, BTreeSet};

use crate::job::{Condition, Effect, Goal, Job, Level, Need, Step, TimedFact, Use, HIGHEST};
use crate::random::Random;
use crate::setters::{setters, Setter};
use crate::timing::{end_value, left_for, value_seen};

/// How much of everything a job is to have. Records that find no room stay out.
pub struct Shape {
    pub edition: u16,
    pub serial: bool,
    pub facts: usize,
    pub levels: usize,
    pub steps: usize,
    pub conditions: usize,
    pub effects: usize,
    pub uses: usize,
    pub goals: usize,
    pub timed: usize,
    pub needs: usize,
    pub last_start: i64,
    pub longest: i64,
    pub fixed_percent: u64,
    /// How often an effect goes where a fact is set anyway, and a condition wants a fact that its
    /// own step sets.
    pub tied_percent: u64,
}

impl Shape {
    /// A few steps crowded into few ticks, now and then spread over the whole range.
    pub fn small(random: &mut Random) -> Shape {
        let (last_start, longest) = random.pick(&[
            (6, 3),
            (12, 5),
            (12, 5),
            (30, 10),
            (200, 60),
            (1_000_000, 100_000),
        ]);
        let steps = random.below(7);
        Shape {
            edition: 1,
            serial: random.chance(30),
            facts: 1 + random.below(3),
            levels: random.below(3),
            steps,
            conditions: random.below(2 * steps + 1),
            effects: random.below(2 * steps + 2),
            uses: random.below(steps + 2),
            goals: random.below(3),
            timed: 0,
            needs: 0,
            last_start,
            longest,
            fixed_percent: random.pick(&[0, 0, 15, 40]),
            tied_percent: random.pick(&[0, 60]),
        }
    }

    /// The same in this edition; from edition 2 on mostly with some timed facts, from edition 3 on
    /// mostly with some needs, and with a level for them.
    pub fn in_edition(self, random: &mut Random, edition: u16) -> Shape {
        let mut shape = Shape { edition, ..self };
        if edition > 1 {
            shape.timed = shape.none_or_more(random);
        }
        if edition > 2 {
            shape.needs = shape.none_or_more(random);
            shape.levels = shape.levels.max(1);
            shape.uses += random.below(shape.steps + 1);
        }
        shape
    }

    fn none_or_more(&self, random: &mut Random) -> usize {
        let few = 1 + random.below(4);
        random.pick(&[0, few, few, few, few + self.steps, 2 * self.steps])
    }

    /// Few enough ticks and steps to try every choice nearby.
    pub fn tiny(random: &mut Random) -> Shape {
        Shape {
            steps: random.pick(&[1, 2, 2, 3, 3, 3, 3, 4]),
            last_start: 6,
            longest: 3,
            ..Shape::small(random)
        }
    }

    /// More steps, and more to do for each, than a person keeps in mind.
    pub fn middling(random: &mut Random) -> Shape {
        let steps = 8 + random.below(6);
        Shape {
            facts: 2 + random.below(5),
            levels: 1 + random.below(3),
            steps,
            conditions: 2 * steps,
            effects: 2 * steps,
            uses: steps,
            goals: 4,
            ..Shape::small(random)
        }
    }

    /// Every table at its highest count; with few facts nearly every pair of steps is ordered.
    pub fn highest(random: &mut Random, facts: usize) -> Shape {
        Shape {
            edition: 1,
            serial: false,
            facts,
            levels: HIGHEST[1],
            steps: HIGHEST[2],
            conditions: HIGHEST[3],
            effects: HIGHEST[4],
            uses: HIGHEST[5],
            goals: HIGHEST[6],
            timed: 0,
            needs: 0,
            last_start: 1_000_000,
            longest: random.pick(&[2_000, 100_000]),
            fixed_percent: 5,
            tied_percent: 0,
        }
    }

    /// Where nothing is to be tied no number is drawn for it.
    fn is_tied(&self, random: &mut Random) -> bool {
        self.tied_percent > 0 && random.chance(self.tied_percent)
    }

    /// The same in edition 2, with as many timed facts as there can be.
    pub fn with_most_timed_facts(self) -> Shape {
        Shape {
            edition: 2,
            timed: HIGHEST[7],
            ..self
        }
    }

    /// The same in edition 3, with as many timed facts and needs as there can be.
    pub fn with_most_needs(self) -> Shape {
        Shape {
            edition: 3,
            needs: HIGHEST[8],
            ..self.with_most_timed_facts()
        }
    }
}

pub fn small_sound_job(random: &mut Random, edition: u16) -> Job {
    let shape = Shape::small(random).in_edition(random, edition);
    sound_job(random, &shape)
}

/// Mostly small, now and then middling.
pub fn some_sound_job(random: &mut Random, edition: u16) -> Job {
    let shape = if random.chance(8) {
        Shape::middling(random)
    } else {
        Shape::small(random)
    };
    let shape = shape.in_edition(random, edition);
    sound_job(random, &shape)
}

pub fn sound_job(random: &mut Random, shape: &Shape) -> Job {
    let mut job = Job {
        edition: shape.edition,
        serial: u16::from(shape.serial),
        facts: (0..shape.facts).map(|_| bit(random)).collect(),
        steps: steps(random, shape),
        ..Job::default()
    };
    set_facts(random, &mut job, shape);
    if !job.steps.is_empty() {
        job.conditions = conditions(random, &job, shape);
        job.uses = uses(random, &job, shape);
    }
    job.levels = levels(random, &job, shape.levels);
    job.goals = (0..shape.goals).map(|_| goal(random, &job)).collect();
    if !job.steps.is_empty() && !job.levels.is_empty() {
        job.needs = (0..shape.needs).map(|_| need(random, &job)).collect();
    }
    random.shuffle(&mut job.effects);
    random.shuffle(&mut job.uses);
    random.shuffle(&mut job.timed);
    job
}

fn bit(random: &mut Random) -> u16 {
    random.below(2) as u16
}

/// A point of a step, often one of its ends.
fn point(random: &mut Random, length: i64) -> i64 {
    match random.below(4) {
        0 => 0,
        1 => length,
        _ => random.between(0, length),
    }
}

fn steps(random: &mut Random, shape: &Shape) -> Vec<Step> {
    let mut steps: Vec<Step> = (0..shape.steps)
        .map(|_| Step {
            length: point(random, shape.longest),
            start: point(random, shape.last_start),
            fixed: u16::from(random.chance(shape.fixed_percent)),
        })
        .collect();
    random.shuffle(&mut steps);
    steps
}

// ---------------------------------------------------------------------------------------------
// What sets facts

/// What is to be set by tick and fact, in time order: by the points of steps, and by the clock.
#[derive(Default)]
struct Settings {
    by_steps: Vec<(usize, i64)>,
    by_the_clock: usize,
}

/// All that sets one fact at one tick gets one value, so nothing opposes anything there.
fn set_facts(random: &mut Random, job: &mut Job, shape: &Shape) {
    let mut settings: BTreeMap<(i64, usize), Settings> = BTreeMap::new();
    if !job.steps.is_empty() {
        settings_of_effects(random, job, shape, &mut settings);
    }
    for _ in 0..shape.timed {
        let place = place_of_a_timed_fact(random, shape, &settings);
        settings.entry(place).or_default().by_the_clock += 1;
    }
    let mut values = job.facts.clone();
    for ((tick, fact), settings) in settings {
        if random.chance(60) {
            values[fact] = 1 - values[fact];
        }
        let value = values[fact];
        let effect = |(step, at)| Effect {
            step,
            fact,
            at,
            value,
        };
        job.effects
            .extend(settings.by_steps.into_iter().map(effect));
        let timed = TimedFact { fact, tick, value };
        job.timed.extend(vec![timed; settings.by_the_clock]);
    }
}

fn settings_of_effects(
    random: &mut Random,
    job: &Job,
    shape: &Shape,
    settings: &mut BTreeMap<(i64, usize), Settings>,
) {
    for _ in 0..shape.effects {
        let number = random.below(job.steps.len());
        let step = &job.steps[number];
        let (tick, fact) = place_of_an_effect(random, shape, step, settings);
        let place = settings.entry((tick, fact)).or_default();
        place.by_steps.push((number, tick - step.start));
    }
}

/// While the step lasts; now and then where a fact is set anyway.
fn place_of_an_effect(
    random: &mut Random,
    shape: &Shape,
    step: &Step,
    settings: &BTreeMap<(i64, usize), Settings>,
) -> (i64, usize) {
    if shape.is_tied(random) {
        let ticks = step.start..=step.start + step.length;
        let places = settings.keys().filter(|(tick, _)| ticks.contains(tick));
        let places: Vec<(i64, usize)> = places.copied().collect();
        if !places.is_empty() {
            return random.pick(&places);
        }
    }
    let fact = random.below(shape.facts);
    (step.start + point(random, step.length), fact)
}

/// Often where the fact is set anyway, or a tick beside it.
fn place_of_a_timed_fact(
    random: &mut Random,
    shape: &Shape,
    settings: &BTreeMap<(i64, usize), Settings>,
) -> (i64, usize) {
    let last = (shape.last_start + shape.longest).min(1_100_000);
    if settings.is_empty() || random.chance(50) {
        return (random.between(0, last), random.below(shape.facts));
    }
    let places = settings.keys();
    let &(tick, fact) = places
        .clone()
        .nth(random.below(places.len()))
        .expect("it is one of them");
    let beside = random.pick(&[0, 0, 1, -1]);
    ((tick + beside).clamp(0, 1_100_000), fact)
}

// ---------------------------------------------------------------------------------------------
// What is read off

fn conditions(random: &mut Random, job: &Job, shape: &Shape) -> Vec<Condition> {
    let mut conditions = Vec::new();
    for _ in 0..20 * shape.conditions {
        if conditions.len() < shape.conditions {
            let (step, fact, from) = match shape.is_tied(random) && !job.effects.is_empty() {
                true => after_an_own_effect(random, job),
                false => anywhere(random, job),
            };
            conditions.extend(condition(random, job, step, fact, from));
        }
    }
    conditions
}

/// A step, a fact, and a point of the step.
fn anywhere(random: &mut Random, job: &Job) -> (usize, usize, i64) {
    let step = random.below(job.steps.len());
    let fact = random.below(job.facts.len());
    (step, fact, point(random, job.steps[step].length))
}

/// A fact that the step itself sets before that point, if it lasts so long.
fn after_an_own_effect(random: &mut Random, job: &Job) -> (usize, usize, i64) {
    let Effect { step, fact, at, .. } = random.pick(&job.effects);
    let length = job.steps[step].length;
    (step, fact, random.between(length.min(at + 1), length))
}

/// A condition on the value seen at a point, lasting at most as long as it may.
fn condition(
    random: &mut Random,
    job: &Job,
    step: usize,
    fact: usize,
    from: i64,
) -> Option<Condition> {
    let starts = job.written_starts();
    let length = job.steps[step].length;
    let first = starts[step] + from;
    let wanted = value_seen(job, &starts, fact, first);
    let last_allowed = |s: Setter| s.tick - starts[step] - 1 + i64::from(s.is_of(step));
    let farthest = setters(job, &starts)
        .filter(|s| s.opposes(fact, wanted) && s.tick >= first)
        .map(last_allowed)
        .fold(length, i64::min);
    if farthest < from {
        return None;
    }
    let to = match random.below(4) {
        0 => from,
        1 => random.between(from, farthest),
        _ => farthest,
    };
    Some(Condition {
        step,
        fact,
        from,
        to,
        wanted,
    })
}

fn uses(random: &mut Random, job: &Job, shape: &Shape) -> Vec<Use> {
    let mut taken = BTreeSet::new();
    let mut uses = Vec::new();
    if shape.levels == 0 {
        return uses;
    }
    for _ in 0..20 * shape.uses {
        let step = random.below(job.steps.len());
        let level = random.below(shape.levels);
        let at = point(random, job.steps[step].length);
        if uses.len() < shape.uses && taken.insert((step, level, at)) {
            let amount = random.pick(&[-1, 1, -1, 1, -2, 2, -5, 7, -1_000_000, 1_000_000]);
            uses.push(Use {
                step,
                level,
                at,
                amount,
            });
        }
    }
    uses
}

/// Bounds that the uses reach, or nearly.
fn levels(random: &mut Random, job: &Job, wished: usize) -> Vec<Level> {
    let starts = job.written_starts();
    let mut levels = Vec::new();
    for level in 0..wished {
        let mut by_tick: BTreeMap<i64, Vec<i64>> = BTreeMap::new();
        for used in job.uses.iter().filter(|u| u.level == level) {
            let tick = used.tick(&starts);
            by_tick.entry(tick).or_default().push(used.amount);
        }
        let initial = random.between(-2, 4);
        let (mut amount, mut least, mut most) = (initial, initial, initial);
        for amounts in by_tick.values() {
            let falls: i64 = amounts.iter().filter(|&&a| a < 0).sum();
            let rises: i64 = amounts.iter().filter(|&&a| a > 0).sum();
            least = least.min(amount + falls);
            most = most.max(amount + rises);
            amount += falls + rises;
        }
        levels.push(Level {
            initial,
            least: least - random.pick(&[0, 0, 0, 1]),
            most: most + random.pick(&[0, 0, 0, 1]),
        });
    }
    levels
}

/// The end value of some fact, with a deadline no earlier than the tick that settles it.
fn goal(random: &mut Random, job: &Job) -> Goal {
    let starts = job.written_starts();
    let fact = random.below(job.facts.len());
    let value = end_value(job, &starts, fact);
    let opposing = setters(job, &starts).filter(|s| s.opposes(fact, value));
    let last_opposing = opposing.map(|s| s.tick).max();
    let settled = match last_opposing {
        None if job.facts[fact] == value => 0,
        _ => setters(job, &starts)
            .filter(|s| s.gives(fact, value))
            .map(|s| s.tick)
            .filter(|&tick| last_opposing.is_none_or(|last| last < tick))
            .min()
            .expect("the end value comes from something"),
    };
    let later = random.pick(&[0, 0, 1, 5, 1_000]);
    let deadline = random
        .chance(75)
        .then_some((settled + later).min(1_100_000));
    Goal {
        fact,
        value,
        deadline,
    }
}

/// What is left of a level at a point, or a little less.
fn need(random: &mut Random, job: &Job) -> Need {
    let (step, level, at) = place_of_a_need(random, job);
    let least = 0;
    let need = Need {
        step,
        level,
        at,
        least,
    };
    let left = left_for(job, &job.written_starts(), &need);
    let least = left - random.pick(&[0, 0, 0, 0, 1, 3, 2_000_000]);
    Need { least, ..need }
}

/// Mostly at the tick of a use or beside it, of any step that lasts then, the user's own too.
fn place_of_a_need(random: &mut Random, job: &Job) -> (usize, usize, i64) {
    if !job.uses.is_empty() && random.chance(70) {
        let used = random.pick(&job.uses);
        let tick = used.tick(&job.written_starts()) + random.pick(&[0, 0, 0, 1, -1]);
        let lasts = |step: &Step| (step.start..=step.start + step.length).contains(&tick);
        let steps = (0..job.steps.len()).filter(|&step| lasts(&job.steps[step]));
        let steps: Vec<usize> = steps.collect();
        if !steps.is_empty() {
            let step = random.pick(&steps);
            return (step, used.level, tick - job.steps[step].start);
        }
    }
    let step = random.below(job.steps.len());
    let level = random.below(job.levels.len());
    (step, level, point(random, job.steps[step].length))
}
