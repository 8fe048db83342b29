//! Which sign of a text is the first that cannot stand there, by the rules of a grammar alone:
//! Earley's sets of rules that may have been begun. What stands in none of them ends the text.

use std::collections::{BTreeMap, BTreeSet};

use reference::pddl::names::is_name;
use reference::pddl::numbers::{ticks, whole_number};

/// Rules by their heads; a symbol in angle brackets is a head, all others are signs.
#[derive(Default)]
pub struct Grammar {
    rules: BTreeMap<String, Vec<Vec<String>>>,
}

/// A rule passed up to a dot, begun where so many signs had been passed.
#[derive(Clone, Copy, PartialEq, Eq, PartialOrd, Ord)]
struct Begun<'a> {
    head: &'a str,
    body: &'a [String],
    dot: usize,
    from: usize,
}

impl<'a> Begun<'a> {
    fn next(&self) -> Option<&'a String> {
        self.body.get(self.dot)
    }

    fn passed(self) -> Begun<'a> {
        let dot = self.dot + 1;
        Begun { dot, ..self }
    }
}

impl Grammar {
    /// One rule a line, its symbols parted by spaces.
    pub fn of(rules: &str) -> Grammar {
        let mut grammar = Grammar::default();
        for rule in rules.lines().filter(|line| !line.is_empty()) {
            let (head, body) = rule.split_once(" ->").expect("a rule");
            let body = body.split_whitespace().map(str::to_string).collect();
            let bodies = grammar.rules.entry(head.to_string()).or_default();
            bodies.push(body);
        }
        grammar
    }

    /// How many signs stand where they are; none if the text is one that the start generates.
    pub fn first_fault(&self, start: &str, signs: &[Vec<u8>]) -> Option<usize> {
        let mut sets = vec![self.rules_of(start, 0)];
        for (number, sign) in signs.iter().enumerate() {
            let begun = self.closed(&mut sets, number);
            let passing = begun.filter(|b| b.next().is_some_and(|symbol| is_sign(symbol, sign)));
            let passed: Vec<Begun> = passing.map(Begun::passed).collect();
            if passed.is_empty() {
                return Some(number);
            }
            sets.push(passed);
        }
        let mut begun = self.closed(&mut sets, signs.len());
        let whole = begun.any(|b| b.head == start && b.from == 0 && b.next().is_none());
        (!whole).then_some(signs.len())
    }

    fn rules_of<'a>(&'a self, head: &'a str, from: usize) -> Vec<Begun<'a>> {
        let begin = |body: &'a Vec<String>| Begun {
            head,
            body,
            dot: 0,
            from,
        };
        self.rules[head].iter().map(begin).collect()
    }

    /// All that the rules of one set lead to at the same place.
    fn closed<'a, 's>(
        &'a self,
        sets: &'s mut [Vec<Begun<'a>>],
        here: usize,
    ) -> impl Iterator<Item = Begun<'a>> + 's {
        let mut known: BTreeSet<Begun> = sets[here].iter().copied().collect();
        let mut number = 0;
        while number < sets[here].len() {
            let begun = sets[here][number];
            number += 1;
            let led_to = match begun.next() {
                None => {
                    let waiting = sets[begun.from].iter();
                    let waiting = waiting.filter(|b| b.next().is_some_and(|s| s == begun.head));
                    waiting.map(|b| b.passed()).collect()
                }
                Some(symbol) if self.rules.contains_key(symbol) => {
                    // What may be empty is passed at once.
                    let mut led_to = self.rules_of(symbol, here);
                    if self.rules[symbol].iter().any(Vec::is_empty) {
                        led_to.push(begun.passed());
                    }
                    led_to
                }
                Some(_) => Vec::new(),
            };
            for begun in led_to {
                if known.insert(begun) {
                    sets[here].push(begun);
                }
            }
        }
        sets[here].iter().copied()
    }
}

/// N, W and T stand for many words, every other symbol for itself.
fn is_sign(symbol: &str, sign: &[u8]) -> bool {
    match symbol {
        "N" => is_name(sign),
        "W" => whole_number(sign).is_some(),
        "T" => ticks(sign).is_some(),
        "line-end" => sign == b"\n",
        _ => symbol.as_bytes() == sign,
    }
}
