//! Damaged texts: signs, names and bytes that do not belong where they are.

use super::spelling::{some_name, ticks, Spelled};
use crate::pddl::names::is_name;
use crate::pddl::words::LONGEST_TEXT;
use crate::random::Random;

/// One fault, now and then two: the one that is found first decides.
pub fn damage(random: &mut Random, spelled: Spelled) -> Spelled {
    let mut spelled = spelled;
    let faults = if random.chance(20) { 2 } else { 1 };
    for _ in 0..faults {
        match random.below(100) {
            0..25 => deepen(random, &mut spelled.actions),
            25..45 => give_another_s_name(random, &mut spelled.actions),
            45..65 => change_a_plan_line(random, &mut spelled),
            65..82 => disturb(random, &mut spelled.actions),
            _ => disturb_a_plan_line(random, &mut spelled.plan),
        }
    }
    spelled
}

// ---------------------------------------------------------------------------------------------
// Depth

/// Some (and ..) around an item or another (and ..), mostly to about the deepest.
fn deepen(random: &mut Random, signs: &mut Vec<String>) {
    let items = items_in(signs);
    if items.is_empty() {
        return;
    }
    let first = random.pick(&items);
    let Some(last) = closing(signs, first) else {
        return;
    };
    let more = match random.below(4) {
        0 => 1 + random.below(18),
        _ => random.pick(&[15, 16, 17]),
    };
    let inside = signs[first..=last].to_vec();
    let around = [
        ["(", "and"]
            .repeat(more)
            .into_iter()
            .map(String::from)
            .collect(),
        inside,
        vec![")".to_string(); more],
    ];
    signs.splice(first..=last, around.concat());
}

/// Where an item of conditions, effects or goals, or an (and ..), opens.
fn items_in(signs: &[String]) -> Vec<usize> {
    let goal = signs.iter().position(|sign| sign == ":goal");
    let goal = goal.unwrap_or(signs.len());
    let opens = |at: usize| signs[at - 1] == "(";
    let begins = |at: usize| matches!(signs[at].as_str(), "at" | "over" | "and");
    let items = (1..signs.len()).filter(|&at| opens(at) && (begins(at) || at == goal + 2));
    items.map(|at| at - 1).collect()
}

/// The bracket that closes the one that opens there.
fn closing(signs: &[String], opening: usize) -> Option<usize> {
    let mut depth = 0;
    for (at, sign) in signs.iter().enumerate().skip(opening) {
        depth += i32::from(sign == "(") - i32::from(sign == ")");
        if depth == 0 {
            return Some(at);
        }
    }
    None
}

// ---------------------------------------------------------------------------------------------
// Names and plan lines

/// A name where another stood: given twice, of two kinds, or just another fact.
fn give_another_s_name(random: &mut Random, signs: &mut [String]) {
    let names = names_in(signs);
    if names.is_empty() {
        return;
    }
    let name = signs[random.pick(&names)].clone();
    signs[random.pick(&names)] = name;
}

fn names_in(signs: &[String]) -> Vec<usize> {
    let follows = |at: usize| matches!(signs[at - 1].as_str(), "(" | ":durative-action");
    let names = (1..signs.len()).filter(|&at| follows(at) && is_name(signs[at].as_bytes()));
    names.collect()
}

/// Another name or another duration, which may be those of another action.
fn change_a_plan_line(random: &mut Random, spelled: &mut Spelled) {
    let names = names_in(&spelled.actions);
    let Some(line) = some_line(random, &mut spelled.plan) else {
        return;
    };
    if line.len() < 8 {
        return;
    }
    let (name_at, duration_at) = (3, 6);
    match random.below(4) {
        0 => line[name_at] = some_name(random),
        1 if !names.is_empty() => {
            line[name_at] = spelled.actions[random.pick(&names)].clone();
        }
        2 => line[duration_at] = line[0].clone(),
        _ => {
            let some_ticks = random.pick(&[0, 1, 2, 1_000, 5_000, 999_999_999]);
            line[duration_at] = ticks(random, some_ticks);
        }
    }
}

/// A plan line that is not blank.
fn some_line<'a>(random: &mut Random, plan: &'a mut [Vec<String>]) -> Option<&'a mut Vec<String>> {
    let mut lines: Vec<_> = plan.iter_mut().filter(|line| !line.is_empty()).collect();
    let number = random.below(lines.len().max(1));
    (number < lines.len()).then(|| lines.swap_remove(number))
}

// ---------------------------------------------------------------------------------------------
// Signs

/// Signs that stand somewhere in the texts, and words that stand nowhere.
const SIGNS: [&str; 36] = [
    "(",
    ")",
    "(",
    ")",
    "[",
    "]",
    ":",
    "and",
    "not",
    "at",
    "over",
    "start",
    "end",
    "all",
    "increase",
    "decrease",
    "=",
    "?duration",
    ":duration",
    ":condition",
    ":effect",
    ":init",
    ":goal",
    ":durative-action",
    "5",
    "0",
    "5.5",
    "5.1234",
    "1234567",
    ".5",
    "5.",
    "1234567890",
    "name",
    "a-name-of-just-as-many-as-32-byte",
    ";",
    "AND",
];

/// A sign taken out, doubled, put in, replaced, or swapped with the next.
pub fn disturb(random: &mut Random, signs: &mut Vec<String>) {
    if signs.is_empty() {
        return;
    }
    let at = random.below(signs.len());
    let next = (at + 1).min(signs.len() - 1);
    let other = random.pick(&SIGNS).to_string();
    match random.below(5) {
        0 => drop(signs.remove(at)),
        1 => signs.insert(at, signs[at].clone()),
        2 => signs.insert(at, other),
        3 => signs[at] = other,
        _ => signs.swap(at, next),
    }
}

/// Also two lines in one, or one in two.
fn disturb_a_plan_line(random: &mut Random, plan: &mut Vec<Vec<String>>) {
    match random.below(8) {
        0 if plan.len() > 1 => {
            let joined = plan.remove(1);
            plan[0].extend(joined);
        }
        1 if !plan.is_empty() => {
            let line = random.below(plan.len());
            let at = random.below(plan[line].len() + 1);
            let rest = plan[line].split_off(at);
            plan.insert(line + 1, rest);
        }
        _ => {
            if let Some(line) = some_line(random, plan) {
                disturb(random, line);
            }
        }
    }
}

// ---------------------------------------------------------------------------------------------
// Bytes

const BYTES: &[u8] = b" \t\n\n()[]::;.-_=?\r0159aAzZd\0\x0b\x7f\x80\xff";

/// A byte changed, put in or taken out, or the text cut there.
pub fn some_byte(random: &mut Random, text: Vec<u8>) -> Vec<u8> {
    let mut text = text;
    let at = random.below(text.len() + 1);
    let byte = random.pick(BYTES);
    match random.below(10) {
        0..4 if at < text.len() => text[at] = byte,
        0..7 => text.insert(at, byte),
        7..9 if at < text.len() => drop(text.remove(at)),
        _ => text.truncate(at),
    }
    text
}

/// As long as a text may be, or a byte longer, by blanks at its end.
pub fn over_its_length(random: &mut Random, text: Vec<u8>) -> Vec<u8> {
    let mut text = text;
    let length = LONGEST_TEXT + random.pick(&[0, 1, 1]);
    let blank = random.pick(b" \t\n");
    text.resize(length.max(text.len()), blank);
    text
}

/// Each place of a text with a byte changed, put in and taken out there.
pub fn each_byte(text: &[u8]) -> Vec<(usize, Vec<u8>)> {
    let mut texts = Vec::new();
    for at in 0..text.len() {
        let (before, after) = text.split_at(at);
        for byte in [b' ', b'\n', b'(', b')', b'x', b'0', b':', text[at] ^ 32] {
            texts.push((at, [before, &[byte], &after[1..]].concat()));
            texts.push((at, [before, &[byte], after].concat()));
        }
        texts.push((at, [before, &after[1..]].concat()));
    }
    texts
}
