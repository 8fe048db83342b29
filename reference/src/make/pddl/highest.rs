//! Texts whose job has every table full, and the same with one of its last records at fault.

use super::by_hand::{action, actions, told, Told, GOOD};

/// The length of their job; none of edition 1 is longer.
pub const LONGEST_JOB: usize = 16_752;

const FACTS: usize = 256;
const LEVELS: usize = 16;
const STEPS: usize = 64;
const GOALS: usize = 32;
/// Of each step.
const CONDITIONS: usize = 8;
const EFFECTS: usize = 8;
const USES: usize = 4;

/// An action a step. The lower half of the facts is only wanted, the upper half only set, and each
/// has one value throughout.
pub fn highest_texts() -> Told {
    let each: Vec<String> = (0..STEPS).map(action_of_step).collect();
    let each: Vec<&str> = each.iter().map(String::as_str).collect();
    let facts = (0..FACTS).step_by(2).map(|fact| format!("(f{fact})"));
    let levels = (0..LEVELS).map(|level| format!("(= (l{level}) 100)"));
    let init: String = facts.chain(levels).collect();
    let text = actions(&each, &init, &and((0..GOALS).map(value)));
    let plan = (0..STEPS).map(|step| format!("{}: (a{step}) [{step}.25]\n", 15 * step));
    told(text, plan.collect::<String>(), GOOD)
}

fn action_of_step(step: usize) -> String {
    let conditions = (0..CONDITIONS).map(|number| {
        let fact = (CONDITIONS * step + number) % (FACTS / 2);
        let when = ["at start", "over all", "at end"][number % 3];
        format!("({when} {})", value(fact))
    });
    let effects = (0..EFFECTS).map(|number| {
        let fact = FACTS / 2 + (EFFECTS * step + number) % (FACTS / 2);
        let when = ["at end", "at start"][number % 2];
        format!("({when} {})", value(fact))
    });
    let uses = (0..USES).map(|number| {
        let level = (USES * step + number) % LEVELS;
        let verb = ["increase", "decrease"][number % 2];
        format!("(at start ({verb} (l{level}) 1))")
    });
    action(
        &format!("a{step}"),
        &format!("{step}.25"),
        &and(conditions),
        &and(effects.chain(uses)),
    )
}

/// A fact of even number is true, one of odd number false.
fn value(fact: usize) -> String {
    match fact % 2 {
        0 => format!("(f{fact})"),
        _ => format!("(not (f{fact}))"),
    }
}

fn and(items: impl Iterator<Item = String>) -> String {
    format!("(and {})", items.collect::<String>())
}

/// The last use is out of range or too much, the last condition or goal fails.
pub fn last_records_at_fault() -> Vec<Told> {
    [
        ("(decrease (l15) 1)", "(decrease (l15) 0)", (6, 255)),
        ("(not (f127))", "(f127)", (11, 511)),
        ("(decrease (l15) 1)", "(decrease (l15) 99)", (12, 15)),
        ("(not (f31))", "(f31)", (13, 31)),
    ]
    .map(|(last, other, answer)| at_fault(last, other, answer))
    .to_vec()
}

fn at_fault(last: &str, other: &str, answer: (u16, u16)) -> Told {
    let texts = highest_texts();
    let text = String::from_utf8(texts.actions).expect("it is of words");
    let (before, after) = text.rsplit_once(last).expect("it is in the text");
    told(format!("{before}{other}{after}"), texts.plan, answer)
}
