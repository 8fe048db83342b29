//! Orders from a sound job: links, the four rules, rounds.

use std::collections::BTreeMap;

use crate::job::{Condition, Effect, Job, Need, Use};
use crate::limits::{earliest_limit, latest_start};
use crate::order_file::{Link, Order, OrderFile, Window};
use crate::setters::{setters, Setter};

/// What a sound job is loosened to.
pub fn orders_of(job: &Job) -> OrderFile {
    let starts = job.written_starts();
    let links = links(job, &starts);
    let orders = largest_gaps(
        [
            support_orders(job, &links),
            opposing_effects_orders(job, &starts),
            condition_orders(job, &starts),
            level_orders(job, &starts),
            need_orders(job, &starts),
        ]
        .concat(),
    );
    let limits: Vec<i64> = (0..job.steps.len())
        .map(|step| earliest_limit(job, &links, step))
        .collect();
    let (earliest, rounds) = earliest_times(&limits, &orders);
    let windows = (0..job.steps.len())
        .map(|step| Window {
            limit: limits[step],
            latest: latest_start(job, &links, step),
            earliest: earliest[step],
        })
        .collect();
    OrderFile {
        rounds,
        windows,
        orders,
        links,
    }
}

// ---------------------------------------------------------------------------------------------
// Rule 1: support

/// Whom a tie goes to before the lower number decides.
#[derive(Clone, Copy)]
enum TieFirst {
    Step(usize),
    Nobody,
}

impl TieFirst {
    fn is(self, setter: &Setter) -> bool {
        match self {
            TieFirst::Step(step) => setter.is_of(step),
            TieFirst::Nobody => false,
        }
    }
}

/// One link for each condition, then each goal. A condition's tie goes first to its own step.
fn links(job: &Job, starts: &[i64]) -> Vec<Link> {
    let conditions = job.conditions.iter().map(|c| {
        let own = TieFirst::Step(c.step);
        supporter(job, starts, c.fact, c.wanted, c.first_tick(starts), own)
    });
    // Everything is set before the end of time, so for a goal all of it counts.
    let goals = job
        .goals
        .iter()
        .map(|g| supporter(job, starts, g.fact, g.value, i64::MAX, TieFirst::Nobody));
    conditions.chain(goals).collect()
}

/// The supporter of a value wanted from a tick on.
fn supporter(
    job: &Job,
    starts: &[i64],
    fact: usize,
    wanted: u16,
    first: i64,
    tie_first: TieFirst,
) -> Link {
    let last_opposing = setters(job, starts)
        .filter(|s| s.opposes(fact, wanted) && s.tick < first)
        .map(|s| s.tick)
        .max();
    if last_opposing.is_none() && job.facts[fact] == wanted {
        return Link::InitialState;
    }
    let after_that = |s: &Setter| last_opposing.is_none_or(|tick| tick < s.tick);
    let giving = setters(job, starts).filter(|s| s.gives(fact, wanted) && after_that(s));
    // Of several at one tick whom the tie goes to first, and of those the first.
    let earliest = giving.min_by_key(|s| (s.tick, !tie_first.is(s)));
    let supporter = earliest.expect("in a sound job something gives the wanted value");
    supporter.link
}

/// A timed supporter is no step's, so it gives no order but a limit.
fn support_orders(job: &Job, links: &[Link]) -> Vec<Order> {
    let mut orders = Vec::new();
    for (condition, link) in job.conditions.iter().zip(links) {
        if let Link::Effect(number) = *link {
            let supporter = Point::of_effect(&job.effects[number]);
            order(&mut orders, supporter, Point::first_of(condition));
        }
    }
    orders
}

// ---------------------------------------------------------------------------------------------
// Rules 2 to 4

/// Rule 2: opposing effects are ordered as they lie.
fn opposing_effects_orders(job: &Job, starts: &[i64]) -> Vec<Order> {
    let mut orders = Vec::new();
    for a in &job.effects {
        for b in &job.effects {
            if a.opposes(b.fact, b.value) && a.tick(starts) < b.tick(starts) {
                order(&mut orders, Point::of_effect(a), Point::of_effect(b));
            }
        }
    }
    orders
}

/// Rule 3: a condition and another step's opposing effect.
fn condition_orders(job: &Job, starts: &[i64]) -> Vec<Order> {
    let mut orders = Vec::new();
    for c in &job.conditions {
        for e in &job.effects {
            if !e.opposes(c.fact, c.wanted) {
                continue;
            }
            if e.tick(starts) < c.first_tick(starts) {
                order(&mut orders, Point::of_effect(e), Point::first_of(c));
            }
            if c.last_tick(starts) < e.tick(starts) {
                order(&mut orders, Point::last_of(c), Point::of_effect(e));
            }
        }
    }
    orders
}

/// Rule 4: two uses of one level at different ticks are ordered as they lie.
fn level_orders(job: &Job, starts: &[i64]) -> Vec<Order> {
    let mut orders = Vec::new();
    for a in &job.uses {
        for b in &job.uses {
            if a.level == b.level && a.tick(starts) < b.tick(starts) {
                order(&mut orders, Point::of_use(a), Point::of_use(b));
            }
        }
    }
    orders
}

/// Rule 4 too: a need and another step's use of that level at different ticks are ordered as they
/// lie.
fn need_orders(job: &Job, starts: &[i64]) -> Vec<Order> {
    let mut orders = Vec::new();
    for need in &job.needs {
        for used in job.uses.iter().filter(|u| u.level == need.level) {
            if need.tick(starts) < used.tick(starts) {
                order(&mut orders, Point::of_need(need), Point::of_use(used));
            }
            if used.tick(starts) < need.tick(starts) {
                order(&mut orders, Point::of_use(used), Point::of_need(need));
            }
        }
    }
    orders
}

/// A point of a step, counted from the step's start.
struct Point {
    step: usize,
    at: i64,
}

impl Point {
    fn of_effect(effect: &Effect) -> Point {
        Point {
            step: effect.step,
            at: effect.at,
        }
    }

    fn of_use(used: &Use) -> Point {
        Point {
            step: used.step,
            at: used.at,
        }
    }

    fn of_need(need: &Need) -> Point {
        Point {
            step: need.step,
            at: need.at,
        }
    }

    fn first_of(condition: &Condition) -> Point {
        Point {
            step: condition.step,
            at: condition.from,
        }
    }

    fn last_of(condition: &Condition) -> Point {
        Point {
            step: condition.step,
            at: condition.to,
        }
    }
}

/// Point p strictly before point q. Only different steps are ordered.
fn order(orders: &mut Vec<Order>, p: Point, q: Point) {
    if p.step != q.step {
        orders.push(Order {
            first: p.step,
            second: q.step,
            gap: p.at - q.at + 1,
        });
    }
}

/// Of several orders from one step to the same other, the largest gap stays; ascending by first,
/// then second.
fn largest_gaps(orders: Vec<Order>) -> Vec<Order> {
    let mut gaps = BTreeMap::new();
    for Order { first, second, gap } in orders {
        let largest = gaps.entry((first, second)).or_insert(gap);
        *largest = gap.max(*largest);
    }
    gaps.into_iter()
        .map(|((first, second), gap)| Order { first, second, gap })
        .collect()
}

// ---------------------------------------------------------------------------------------------
// Rounds

/// The rounds from the earliest limits, and how many they are. The last one changes nothing.
fn earliest_times(limits: &[i64], orders: &[Order]) -> (Vec<i64>, usize) {
    let mut starts = limits.to_vec();
    let mut rounds = 0;
    if starts.is_empty() {
        return (starts, rounds);
    }
    loop {
        let raised = round(&starts, orders);
        rounds += 1;
        if raised == starts {
            return (starts, rounds);
        }
        starts = raised;
    }
}

/// Takes all starts from the round before and raises each to the largest demanded by its orders.
fn round(before: &[i64], orders: &[Order]) -> Vec<i64> {
    let mut raised = before.to_vec();
    for order in orders {
        let demanded = before[order.first] + order.gap;
        raised[order.second] = raised[order.second].max(demanded);
    }
    raised
}
