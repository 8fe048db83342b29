//! How a supply is put into words: names, nesting, numbers and spacing by chance.

use std::collections::{BTreeMap, BTreeSet};

use super::supplied::{Action, Done, End, Init, Supplied, Wanted};
use crate::random::Random;

/// The words and brackets of the two texts; the plan line by line, of which some may be blank.
#[derive(Clone, Debug)]
pub struct Spelled {
    pub actions: Vec<String>,
    pub plan: Vec<Vec<String>>,
}

pub fn spell(random: &mut Random, supplied: &Supplied) -> Spelled {
    let names = Names::some(random, supplied);
    let mut speller = Speller { random, names };
    Spelled {
        actions: speller.action_text(supplied),
        plan: speller.plan(supplied),
    }
}

// ---------------------------------------------------------------------------------------------
// Names

/// Different names for all actions, facts and levels.
struct Names {
    actions: Vec<String>,
    facts: BTreeMap<usize, String>,
    levels: BTreeMap<usize, String>,
}

/// Names that begin as keywords do, that keywords are elsewhere, or that differ in capitals.
const ODD_NAMES: [&str; 24] = [
    "start",
    "end",
    "all",
    "AND",
    "And",
    "NOT",
    "At",
    "init",
    "goal",
    "duration",
    "android",
    "note",
    "att",
    "at-",
    "over-",
    "overall",
    "increases",
    "increase1",
    "decreased",
    "not_",
    "deck",
    "Deck",
    "DECK",
    "a",
];

impl Names {
    fn some(random: &mut Random, supplied: &Supplied) -> Names {
        let mut taken = BTreeSet::new();
        let actions = supplied.actions.iter();
        let actions = actions.map(|_| new_name(random, &mut taken)).collect();
        let facts = supplied.facts().into_iter();
        let facts = facts
            .map(|fact| (fact, new_name(random, &mut taken)))
            .collect();
        let levels = supplied.levels().into_iter();
        let levels = levels
            .map(|level| (level, new_name(random, &mut taken)))
            .collect();
        Names {
            actions,
            facts,
            levels,
        }
    }
}

fn new_name(random: &mut Random, taken: &mut BTreeSet<String>) -> String {
    loop {
        let name = some_name(random);
        if taken.insert(name.clone()) {
            return name;
        }
    }
}

pub fn some_name(random: &mut Random) -> String {
    if random.chance(30) {
        return random.pick(&ODD_NAMES).to_string();
    }
    let length = random.pick(&[1, 2, 3, 5, 8, 31]);
    let mut name = String::from(random.pick(&['a', 'f', 'l', 'x', 'B', 'Z']));
    while name.len() < length {
        name.push(random.pick(&['a', 'n', 'd', 'T', '0', '9', '-', '_']));
    }
    match name.as_str() {
        "and" | "at" => name + "9",
        _ => name,
    }
}

// ---------------------------------------------------------------------------------------------
// Words

struct Speller<'a> {
    random: &'a mut Random,
    names: Names,
}

type Words = Vec<String>;

/// The words of a piece of text whose signs are parted by spaces.
fn words(text: &str) -> Words {
    text.split_whitespace().map(str::to_string).collect()
}

impl Speller<'_> {
    fn action_text(&mut self, supplied: &Supplied) -> Words {
        let mut text = Words::new();
        for (number, action) in supplied.actions.iter().enumerate() {
            text.extend(self.action(number, action));
        }
        text.extend(words("( :init"));
        for init in &supplied.init {
            text.extend(self.init(init));
        }
        text.extend(words(") ( :goal"));
        let goals = supplied.goals.iter();
        let goals = goals
            .map(|&(fact, value)| self.value(fact, value))
            .collect();
        text.extend(self.one_or_many(goals));
        text.extend(words(")"));
        text
    }

    fn action(&mut self, number: usize, action: &Action) -> Words {
        let name = &self.names.actions[number];
        let duration = ticks(self.random, action.duration);
        let heading = format!("( :durative-action {name} :duration ( = ?duration {duration} )");
        let conditions = action.conditions.iter();
        let conditions = conditions.map(|wanted| self.condition(wanted)).collect();
        let effects = action.effects.iter();
        let effects = effects.map(|(end, done)| self.effect(*end, done)).collect();
        [
            words(&heading),
            words(":condition"),
            self.one_or_many(conditions),
            words(":effect"),
            self.one_or_many(effects),
            words(")"),
        ]
        .concat()
    }

    fn condition(&self, wanted: &Wanted) -> Words {
        let when = wanted.at.map_or("over all", at);
        under(when, self.value(wanted.fact, wanted.value))
    }

    fn effect(&mut self, end: End, done: &Done) -> Words {
        under(
            at(end),
            match *done {
                Done::Set(fact, value) => self.value(fact, value),
                Done::Change(level, amount) => self.change(level, amount),
            },
        )
    }

    fn value(&self, fact: usize, value: u16) -> Words {
        let name = &self.names.facts[&fact];
        match value {
            1 => words(&format!("( {name} )")),
            _ => words(&format!("( not ( {name} ) )")),
        }
    }

    /// An amount of 0 is either.
    fn change(&mut self, level: usize, amount: i64) -> Words {
        let increases = amount > 0 || (amount == 0 && self.random.chance(50));
        let verb = if increases { "increase" } else { "decrease" };
        let name = &self.names.levels[&level];
        let amount = with_zeros(self.random, amount.abs(), 9);
        words(&format!("( {verb} ( {name} ) {amount} )"))
    }

    fn init(&mut self, init: &Init) -> Words {
        match *init {
            Init::Fact(fact) => self.value(fact, 1),
            Init::Level(level, amount) => {
                let name = &self.names.levels[&level];
                let amount = with_zeros(self.random, amount, 9);
                words(&format!("( = ( {name} ) {amount} )"))
            }
        }
    }

    fn plan(&mut self, supplied: &Supplied) -> Vec<Words> {
        let mut lines = Vec::new();
        let blank = self.random.pick(&[0, 0, 30]);
        for &(start, action) in &supplied.plan {
            while self.random.chance(blank) {
                lines.push(Words::new());
            }
            let start = ticks(self.random, start);
            let name = &self.names.actions[action];
            let duration = ticks(self.random, supplied.actions[action].duration);
            lines.push(words(&format!("{start} : ( {name} ) [ {duration} ]")));
        }
        // An empty last line is what follows a last line end.
        if self.random.chance(60) {
            lines.push(Words::new());
        }
        lines
    }
}

fn at(end: End) -> &'static str {
    match end {
        End::Start => "at start",
        End::End => "at end",
    }
}

fn under(when: &str, what: Words) -> Words {
    [words(&format!("( {when}")), what, words(")")].concat()
}

// ---------------------------------------------------------------------------------------------
// Nesting

impl Speller<'_> {
    /// One item as it is or in (and ..), several in (and ..).
    fn one_or_many(&mut self, mut items: Vec<Words>) -> Words {
        if items.len() == 1 && self.random.chance(60) {
            return items.remove(0);
        }
        let deepest = self.random.pick(&[1, 1, 1, 2, 3, 16]);
        self.and(items, 1, deepest)
    }

    /// Runs of items in further (and ..), and empty ones, down to the deepest.
    fn and(&mut self, items: Vec<Words>, depth: usize, deepest: usize) -> Words {
        let mut inside = Words::new();
        let nests = if deepest == 16 { 85 } else { 30 };
        let mut rest = items.as_slice();
        if depth < deepest && self.random.chance(10) {
            inside.extend(words("( and )"));
        }
        while !rest.is_empty() {
            let run = 1 + self.random.below(rest.len());
            let (first, left) = rest.split_at(run);
            rest = left;
            if depth < deepest && self.random.chance(nests) {
                inside.extend(self.and(first.to_vec(), depth + 1, deepest));
            } else {
                inside.extend(first.concat());
            }
        }
        [words("( and"), inside, words(")")].concat()
    }
}

// ---------------------------------------------------------------------------------------------
// Numbers

/// As few digits as can be, or with zeros that change nothing.
pub fn ticks(random: &mut Random, ticks: i64) -> String {
    let whole = with_zeros(random, ticks / 1_000, 6);
    let fraction = format!("{:03}", ticks % 1_000);
    let short = fraction.trim_end_matches('0').len();
    let digits = random.pick(&[short, short, short.max(1), 3]);
    match digits {
        0 => whole,
        _ => format!("{whole}.{}", &fraction[..digits]),
    }
}

fn with_zeros(random: &mut Random, number: i64, most: usize) -> String {
    let digits = number.to_string().len();
    let width = match random.below(20) {
        0 => most,
        1 => digits + random.below(most - digits + 1),
        _ => digits,
    };
    format!("{number:0width$}")
}

// ---------------------------------------------------------------------------------------------
// Spacing

#[derive(Clone, Copy, Debug, PartialEq, Eq)]
pub enum Spacing {
    /// Blanks only where two words meet.
    Tight,
    /// One space between all.
    Plain,
    /// Any number of any blanks.
    Loose,
    /// One sign a line, where that may be.
    Lines,
}

impl Spacing {
    pub fn some(random: &mut Random) -> Spacing {
        random.pick(&[
            Spacing::Tight,
            Spacing::Plain,
            Spacing::Loose,
            Spacing::Lines,
        ])
    }
}

impl Spelled {
    pub fn texts(&self, random: &mut Random, spacing: Spacing) -> (Vec<u8>, Vec<u8>) {
        let actions = spaced(random, &self.actions, spacing, "\n");
        let lines = self.plan.iter();
        let in_a_line = if spacing == Spacing::Lines {
            Spacing::Plain
        } else {
            spacing
        };
        let lines: Vec<String> = lines
            .map(|line| spaced(random, line, in_a_line, "\t"))
            .collect();
        (actions.into_bytes(), lines.join("\n").into_bytes())
    }
}

/// The third blank, beside spaces and tabs, is a line end only in an action text.
fn spaced(random: &mut Random, words: &[String], spacing: Spacing, third: &str) -> String {
    let mut text = String::new();
    for (number, word) in words.iter().enumerate() {
        let parted = number > 0 && is_word(word) && is_word(&words[number - 1]);
        text += &match spacing {
            Spacing::Tight if parted => random.pick(&[" ", "\t", third]).to_string(),
            Spacing::Tight => String::new(),
            Spacing::Loose => blanks(random, usize::from(parted), third),
            _ if number == 0 => String::new(),
            Spacing::Plain => " ".to_string(),
            Spacing::Lines => third.to_string(),
        };
        text += word;
    }
    if spacing == Spacing::Loose {
        text += &blanks(random, 0, third);
    }
    text
}

fn blanks(random: &mut Random, least: usize, third: &str) -> String {
    let count = least + random.pick(&[0, 0, 0, 1, 1, 3]);
    (0..count)
        .map(|_| random.pick(&[" ", " ", "\t", third]))
        .collect()
}

/// Only between two of these a blank must be.
fn is_word(sign: &str) -> bool {
    !matches!(sign, "(" | ")" | "[" | "]" | ":")
}
