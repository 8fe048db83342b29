//! The checks of the job from 4 on, and which refusal comes first.

use super::{action, actions, told, told_alone, Told, GOOD};
use crate::job::HIGHEST;

pub fn all() -> Vec<Told> {
    [
        counts_at_their_highest(),
        uses_at_their_highest(),
        what_counts_of_unused_actions(),
        conditions_that_are_none(),
        starts_and_durations(),
        amounts(),
        steps_before_uses(),
        steps_against_themselves(),
        effects_conditions_levels_and_goals(),
        bounds_of_levels(),
        spans_of_over_all(),
        checking_order(),
    ]
    .concat()
}

const NOWHERE_4: (u16, u16) = (4, 65_535);

fn repeated(count: usize, item: impl Fn(usize) -> String) -> String {
    (0..count).map(item).collect()
}

// ---------------------------------------------------------------------------------------------
// 4

/// Each table but uses at its highest count and one above.
pub fn counts_at_their_highest() -> Vec<Told> {
    let mut texts = Vec::new();
    for table in [0, 1, 2, 3, 4, 6] {
        texts.push(counted(table, HIGHEST[table], GOOD));
        texts.push(counted(table, HIGHEST[table] + 1, NOWHERE_4));
    }
    texts
}

/// A job with so many records in one table, and no more in the others than that needs.
fn counted(table: usize, count: usize, answer: (u16, u16)) -> Told {
    let one = |condition: &str, effect: &str| action("a", "1", condition, effect);
    let many = |item: &str| format!("(and {})", item.repeat(count));
    match table {
        0 => {
            let facts = repeated(count, |number| format!("(f{number})"));
            told_alone(actions(&[], &facts, "(and)"), answer)
        }
        1 => {
            let levels = repeated(count, |number| format!("(= (l{number}) 1)"));
            told_alone(actions(&[], &levels, "(and)"), answer)
        }
        2 => {
            let text = actions(&[&one("(and)", "(and)")], "", "(and)");
            told(text, "0:(a)[1]\n".repeat(count), answer)
        }
        3 => {
            let text = actions(&[&one(&many("(at end (f))"), "(and)")], "(f)", "(and)");
            told(text, "0:(a)[1]", answer)
        }
        4 => {
            let text = actions(&[&one("(and)", &many("(at end (f))"))], "", "(and)");
            told(text, "0:(a)[1]", answer)
        }
        _ => told_alone(actions(&[], "(f)", &many("(f)")), answer),
    }
}

/// A step uses a level once at a tick, so that many uses need many steps: 64 with 4 each, and one
/// of them with one more.
pub fn uses_at_their_highest() -> Vec<Told> {
    let five = "(and (at end (increase (l0) 1)) (at start (increase (l0) 1)) \
                (at end (increase (l1) 1)) (at start (increase (l1) 1)) \
                (at start (increase (l2) 1)))";
    let four = five.replace("(at start (increase (l2) 1))", "");
    let one = action("a", "1", "(and)", &four);
    let other = action("b", "1", "(and)", five);
    let text = actions(&[&one, &other], "", "(and)");
    let plan = |last: &str| "0:(a)[1]\n".repeat(63) + last;
    vec![
        told(&text, plan("0:(a)[1]"), GOOD),
        told(&text, plan("0:(b)[1]"), NOWHERE_4),
    ]
}

/// Their facts and levels do, their conditions, effects and uses do not.
pub fn what_counts_of_unused_actions() -> Vec<Told> {
    let and = |items: String| format!("(and {items})");
    let alone = |condition: &str, effect: &str, answer| {
        let act = action("a", "1", condition, effect);
        told_alone(actions(&[&act], "", "(and)"), answer)
    };
    let facts = and(repeated(257, |number| format!("(at end (f{number}))")));
    let levels = and(repeated(17, |number| {
        format!("(at end (increase (l{number}) 1))")
    }));
    let many = "(at end (f))".repeat(600);
    let uses = "(at end (increase (l) 1))".repeat(600);
    vec![
        alone(&facts, "(and)", NOWHERE_4),
        alone("(and)", &levels, NOWHERE_4),
        alone(&and(many.clone()), &and(many + &uses), GOOD),
    ]
}

/// Under 2 ticks they do not count, from there on they do.
pub fn conditions_that_are_none() -> Vec<Told> {
    let none = format!("(and {})", "(over all (f))".repeat(600));
    let text = |duration: &str| {
        let act = action("a", duration, &none, "(and)");
        actions(&[&act], "", "(and)")
    };
    vec![
        told(text("0.001"), "0:(a)[0.001]", GOOD),
        told(text("0.002"), "0:(a)[0.002]", NOWHERE_4),
    ]
}

// ---------------------------------------------------------------------------------------------
// 6

pub fn starts_and_durations() -> Vec<Told> {
    let one = action("a", "100", "(and)", "(and)");
    let other = action("b", "100.001", "(and)", "(and)");
    let text = actions(&[&one, &other], "", "(and)");
    vec![
        told(&text, "1000: (a) [100]", GOOD),
        told(&text, "0: (a) [100]\n\n1000.001: (a) [100]", (6, 1)),
        told(&text, "0: (a) [100]\n\n1000: (b) [100.001]", (6, 1)),
        told(&text, "999999.999: (a) [100]", (6, 0)),
    ]
}

/// Only in actions that the plan uses.
pub fn amounts() -> Vec<Told> {
    let text = |verb: &str, amount: &str| {
        let effect = format!("(and (at end (increase (m) 1)) (at end ({verb} (l) {amount})))");
        let act = action("a", "1", "(and)", &effect);
        actions(&[&act], "(= (l) 5000000)", "(and)")
    };
    let mut texts = Vec::new();
    for verb in ["increase", "decrease"] {
        texts.push(told(text(verb, "1000000"), "0: (a) [1]", GOOD));
        for amount in ["1000001", "999999999", "0", "000000000"] {
            texts.push(told(text(verb, amount), "0: (a) [1]", (6, 1)));
            texts.push(told_alone(text(verb, amount), GOOD));
        }
    }
    texts
}

/// A broken step comes before a broken use.
pub fn steps_before_uses() -> Vec<Told> {
    let one = action("a", "1", "(and)", "(at end (increase (l) 0))");
    let other = action("b", "1", "(and)", "(and)");
    let text = actions(&[&one, &other], "", "(and)");
    let broken_step = "0: (a) [1]\n0: (b) [1]\n1001: (b) [1]";
    vec![
        told(&text, broken_step, (6, 2)),
        told(&text, "0: (b) [1]\n0: (a) [1]\n1: (b) [1]", (6, 0)),
    ]
}

// ---------------------------------------------------------------------------------------------
// 7 and 10 to 13

pub fn steps_against_themselves() -> Vec<Told> {
    let step = |duration: &str, effect: &str, answer| {
        let calm = action("calm", "1", "(and)", "(and)");
        let act = action("a", duration, "(and)", effect);
        let text = actions(&[&calm, &act], "", "(and)");
        let plan = format!("0: (calm) [1]\n0: (a) [{duration}]");
        told(text, plan, answer)
    };
    let both = "(and (at start (f)) (at end (not (f))))";
    let twice = "(and (at start (increase (l) 1)) (at end (increase (l) 1)))";
    vec![
        step("1", both, GOOD),
        step("0.001", both, GOOD),
        step("0", both, (7, 1)),
        step("1", &both.replace("start", "end"), (7, 1)),
        step("1", twice, GOOD),
        step("0", twice, (7, 1)),
        step("1", &twice.replace("end", "start"), (7, 1)),
    ]
}

/// A sign lit, put out and waited for.
pub fn effects_conditions_levels_and_goals() -> Vec<Told> {
    let lights = "(and (at end (lit)) (at start (decrease (l) 3)))";
    let on = action("on", "2", "(and)", lights);
    let off = action("off", "1", "(over all (ready))", "(at end (not (lit)))");
    let wait = action("wait", "0.001", "(at start (lit))", "(and)");
    let text = actions(&[&on, &off, &wait], "(ready) (= (l) 5)", "(lit)");
    let plan = |plan: &str, answer| told(&text, plan, answer);
    let wait_too_early = "7: (wait) [0.001]\n5: (on) [2]";
    vec![
        plan("5: (on) [2]", GOOD),
        // Both set the light at tick 7,000.
        plan("5: (on) [2]\n6: (off) [1]", (10, 0)),
        plan("5: (on) [2]\n5.999: (off) [1]", GOOD),
        // What is set at a tick is not yet seen at it.
        plan("5: (on) [2]\n7.001: (wait) [0.001]", GOOD),
        plan("5: (on) [2]\n7: (wait) [0.001]", (11, 0)),
        // One of the level is missing.
        plan("5: (on) [2]\n15: (on) [2]", (12, 0)),
        plan("5: (on) [2]\n6.001: (off) [1]", (13, 0)),
        plan("", (13, 0)),
        // Of several the one checked first.
        plan(
            &format!("{wait_too_early}\n6: (off) [1]\n15: (on) [2]"),
            (10, 0),
        ),
        plan(&format!("{wait_too_early}\n15: (on) [2]"), (11, 0)),
    ]
}

/// From 0 to 1,000,000,000.
pub fn bounds_of_levels() -> Vec<Told> {
    let level = |initial: &str, effect: &str, answer| {
        let act = action("a", "1", "(and)", effect);
        let text = actions(&[&act], &format!("(= (l) {initial})"), "(and)");
        told(text, "0: (a) [1]", answer)
    };
    vec![
        level("5", "(at end (decrease (l) 5))", GOOD),
        level("5", "(at end (decrease (l) 6))", (12, 0)),
        level("999999999", "(at end (increase (l) 1))", GOOD),
        level("999999999", "(at end (increase (l) 2))", (12, 0)),
    ]
}

/// Of 1 tick it wants nothing, of 2 ticks its fact at the one between; its ends are not its own.
pub fn spans_of_over_all() -> Vec<Told> {
    let text = |duration: &str, init: &str, effect: &str| {
        let act = action("a", duration, "(over all (f))", effect);
        actions(&[&act], init, "(and)")
    };
    let set_at_start = "(and (at start (f)) (at end (not (f))))";
    vec![
        told(text("0", "", "(and)"), "0: (a) [0]", GOOD),
        told(text("0.001", "", "(and)"), "0: (a) [0.001]", GOOD),
        told(text("0.002", "", "(and)"), "0: (a) [0.002]", (11, 0)),
        told(text("0.002", "(f)", "(and)"), "0: (a) [0.002]", GOOD),
        told(text("0.002", "", set_at_start), "0: (a) [0.002]", GOOD),
        told(text("5", "", set_at_start), "0: (a) [5]", GOOD),
    ]
}

// ---------------------------------------------------------------------------------------------
// Two faults

/// Texts whose refusals are each ahead of all that follow.
pub fn checking_order() -> Vec<Told> {
    let two_ways = "(and (at end (f)) (at end (not (f))))";
    let all = format!("(and {two_ways} (at end (increase (l) 0)))");
    let many = repeated(257, |number| format!("(m{number})"));
    let text = |effect: &str, init: &str| {
        let act = action("a", "1", "(and)", effect);
        actions(&[&act], init, "(g)")
    };
    let most = text(&all, &many);
    let broken = format!("{most}\n)");
    let deep = actions(&[], "", &"(and ".repeat(17));
    vec![
        // The action text's fault, the plan's, then 20, 4, 6, 7 and 13.
        told(broken, "0", (18, 4)),
        told(deep, "0", (19, 2)),
        told(&most, "0: (b) [1]\n0: (a) [1", (18, 1)),
        told(&most, "0: (a) [1]\n0: (b) [1]", (20, 1)),
        told(&most, "0: (a) [1]", NOWHERE_4),
        told(text(&all, ""), "0: (a) [1]", (6, 0)),
        told(text(two_ways, ""), "0: (a) [1]", (7, 0)),
        told(text("(and)", ""), "0: (a) [1]", (13, 0)),
    ]
}
