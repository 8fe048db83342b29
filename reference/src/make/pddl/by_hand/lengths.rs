//! Texts at their longest and over it, and counts far above what a file can say.

use super::{action, actions, told, told_alone, Told, GOOD};

pub fn all() -> Vec<Told> {
    [
        longest_texts(),
        texts_over_their_length(),
        last_lines(),
        faults_far_down(),
        counts_past_65_535(),
        names_as_many_as_fit(),
    ]
    .concat()
}

const SHORT: &str = "(:init)(:goal(and))";

/// The same with so many bytes, by blanks at the end.
fn stretched(text: &str, length: usize) -> String {
    format!("{text}{}", " ".repeat(length - text.len()))
}

/// 65,535 bytes, and one more.
pub fn longest_texts() -> Vec<Told> {
    let over = stretched(SHORT, 65_536);
    let plan_over = stretched("", 65_536);
    vec![
        told(stretched(SHORT, 65_535), stretched("", 65_535), GOOD),
        told_alone(&over, (18, 0)),
        told(SHORT, &plan_over, (18, 0)),
        told(&over, &plan_over, (18, 0)),
    ]
}

/// That is a text's first fault; the action text's others come before the plan's, and the plan's
/// before a job's.
pub fn texts_over_their_length() -> Vec<Told> {
    let lines = "\n".repeat(65_536);
    let deep = format!("\n(:init)\n(:goal {}", "(and ".repeat(13_000));
    let plan = stretched("", 65_536);
    let deep_at_1 = format!("(:init)\n(:goal {}", "(and ".repeat(17));
    vec![
        told_alone(&lines, (18, 0)),
        told(SHORT, format!("{}x", &lines[1..]), (18, 0)),
        told_alone(stretched(&deep, 65_536), (18, 0)),
        told("\n\n(:init) x", &plan, (18, 2)),
        told(deep_at_1, &plan, (19, 1)),
        told("(:init)(:goal(f))", &plan, (18, 0)),
    ]
}

/// A place may be 65,535.
pub fn last_lines() -> Vec<Told> {
    let lines = |count: usize| "\n".repeat(count);
    vec![
        told_alone(lines(65_535), (18, 65_535)),
        told_alone(lines(65_534), (18, 65_534)),
        told_alone(lines(65_534) + ")", (18, 65_534)),
        told(SHORT, lines(65_535), GOOD),
        told(SHORT, lines(65_534) + "0", (18, 65_534)),
    ]
}

/// What counts of the longest texts is their last bytes.
pub fn faults_far_down() -> Vec<Told> {
    let down = |text: &str| format!("{}{text}", "\n".repeat(65_535 - text.len()));
    let one = action("a", "5", "(and)", "(and)");
    let text = actions(&[&one], "", "(and)");
    let deep = format!("(:init)(:goal{}", "(and".repeat(17));
    let lines_of_deep = (65_535 - deep.len()) as u16;
    vec![
        told(down(&text), "0:(a)[5]", GOOD),
        told(&text, down("0:(a)[5]"), GOOD),
        told(&text, down("0:(b)[5]"), (20, 65_527)),
        told(&text, down("0:(a)[6]"), (20, 65_527)),
        told_alone(down(&deep), (19, lines_of_deep)),
    ]
}

/// One action with so many conditions.
fn wanting(conditions: usize) -> String {
    let conditions = format!("(and {})", "(at end(f))".repeat(conditions));
    actions(&[&action("a", "1", &conditions, "(and)")], "", "(and)")
}

/// Among them 65,536, of which a u16 would see none.
pub fn counts_past_65_535() -> Vec<Told> {
    let plan = |steps: usize| "0:(a)[1]\n".repeat(steps);
    vec![
        told(wanting(5_000), plan(7_000), (4, 65_535)),
        told(wanting(2_048), plan(32), (4, 65_535)),
        told_alone(wanting(5_000), GOOD),
    ]
}

pub fn names_as_many_as_fit() -> Vec<Told> {
    let names = (0..9_357).map(|number| format!("(n{number:04x})"));
    let text = actions(&[], &names.collect::<String>(), "(and)");
    vec![told_alone(text, (4, 65_535))]
}
