//! Texts made by hand, each with the answer that the request gives it.

pub mod action_texts;
pub mod jobs;
pub mod lengths;
pub mod names;
pub mod plans;

use crate::refusal::NOWHERE;

/// Number and place of an acceptance.
pub const GOOD: (u16, u16) = (0, NOWHERE);

/// Two texts and the number and place that they are answered.
#[derive(Clone, Debug)]
pub struct Told {
    pub actions: Vec<u8>,
    pub plan: Vec<u8>,
    pub answer: (u16, u16),
}

pub fn all() -> Vec<Told> {
    [
        action_texts::all(),
        names::all(),
        plans::all(),
        lengths::all(),
        jobs::all(),
    ]
    .concat()
}

pub fn told(actions: impl AsRef<[u8]>, plan: impl AsRef<[u8]>, answer: (u16, u16)) -> Told {
    Told {
        actions: actions.as_ref().to_vec(),
        plan: plan.as_ref().to_vec(),
        answer,
    }
}

/// An action text by itself; the empty plan has no fault.
pub fn told_alone(actions: impl AsRef<[u8]>, answer: (u16, u16)) -> Told {
    told(actions, "", answer)
}

// ---------------------------------------------------------------------------------------------
// Texts

/// An action text of so many actions, with what init and goal hold.
pub fn actions(actions: &[&str], init: &str, goal: &str) -> String {
    format!("{}\n(:init {init})\n(:goal {goal})\n", actions.join("\n"))
}

pub fn action(name: &str, duration: &str, condition: &str, effect: &str) -> String {
    format!(
        "(:durative-action {name} :duration (= ?duration {duration}) \
         :condition {condition} :effect {effect})"
    )
}

/// An action text of one action with these conditions, and no goal.
pub fn with_condition(condition: &str) -> String {
    actions(&[&action("act", "5", condition, "(and)")], "", "(and)")
}

pub fn with_effect(effect: &str) -> String {
    actions(&[&action("act", "5", "(and)", effect)], "", "(and)")
}

/// An action text of which every blank becomes a line end, so that each word has a line of its own;
/// the mark `@` stands in front of what cannot stand there.
pub fn marked(number: u16, text: &str) -> Told {
    let lines = text.replace(' ', "\n");
    let before = lines
        .split('@')
        .next()
        .expect("there is a part before the mark");
    let line = before.matches('\n').count() as u16;
    told_alone(lines.replace('@', ""), (number, line))
}

/// Each of them outside the grammar.
pub fn all_marked(texts: &[&str]) -> Vec<Told> {
    texts.iter().map(|text| marked(18, text)).collect()
}

/// The same inside an action text.
pub fn all_marked_between(before: &str, texts: &[&str], after: &str) -> Vec<Told> {
    let whole = |text: &&str| marked(18, &format!("{before} {text} {after}"));
    texts.iter().map(whole).collect()
}
