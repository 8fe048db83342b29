//! The text of the actions: any number of actions, then what holds at first, then the goal.

use std::collections::BTreeSet;

use super::names::{Kind, Names};
use super::numbers::{ticks, whole_number};
use super::reading::{keyword, Reading};
use super::words::{Sign, Text};
use crate::refusal::{Refusal, Verdict};

/// How deep (and ..) may stand in each other; the outermost is 1.
const DEEPEST: usize = 16;

/// What an action text says. Facts and levels go by their numbers.
pub struct Actions<'a> {
    pub names: Names<'a>,
    /// By the numbers of their names.
    pub actions: Vec<Action>,
    pub facts: Vec<u16>,
    pub levels: Vec<i64>,
    pub goals: Vec<Value>,
}

#[derive(Default)]
pub struct Action {
    pub duration: i64,
    pub conditions: Vec<(When, Value)>,
    pub effects: Vec<(Point, Value)>,
    pub uses: Vec<(Point, Change)>,
}

#[derive(Clone, Copy)]
pub enum When {
    At(Point),
    OverAll,
}

#[derive(Clone, Copy)]
pub enum Point {
    Start,
    End,
}

/// A fact, under `not` with the value 0.
#[derive(Clone, Copy)]
pub struct Value {
    pub fact: usize,
    pub value: u16,
}

/// A decrease has an amount below 0.
#[derive(Clone, Copy)]
pub struct Change {
    pub level: usize,
    pub amount: i64,
}

/// What stands under `at start` or `at end` in an effect.
enum Done {
    Set(Value),
    Changed(Change),
}

pub fn read_actions(text: &[u8]) -> Result<Actions<'_>, Refusal> {
    let reader = Reader {
        reading: Reading::begin(text, Text::Actions)?,
        names: Names::default(),
        in_init: BTreeSet::new(),
    };
    reader.whole_text()
}

struct Reader<'a> {
    reading: Reading<'a>,
    names: Names<'a>,
    /// The facts and levels that init has given so far.
    in_init: BTreeSet<(Kind, usize)>,
}

type Read<T> = Result<T, Refusal>;

// ---------------------------------------------------------------------------------------------
// The parts of the text

impl<'a> Reader<'a> {
    fn whole_text(mut self) -> Read<Actions<'a>> {
        let mut actions = Vec::new();
        self.open()?;
        while self.another_action()? {
            actions.push(self.action()?);
            self.open()?;
        }
        let (facts, levels) = self.init()?;
        let goals = self.goal()?;
        self.reading.expect(Sign::End)?;
        Ok(Actions {
            facts: from_0(self.names.count(Kind::Fact), facts),
            levels: from_0(self.names.count(Kind::Level), levels),
            names: self.names,
            actions,
            goals,
        })
    }

    fn another_action(&mut self) -> Read<bool> {
        let words = [(":durative-action", true), (":init", false)];
        self.reading.one_of(&words)
    }

    /// From its name on, with the closing bracket.
    fn action(&mut self) -> Read<Action> {
        let names = &mut self.names;
        self.reading
            .word(|word| names.say_once(word, Kind::Action))?;
        self.reading.keyword(":duration")?;
        let mut action = Action {
            duration: self.duration()?,
            ..Action::default()
        };
        self.reading.keyword(":condition")?;
        action.conditions = self.items(Reader::condition)?;
        self.reading.keyword(":effect")?;
        for (point, done) in self.items(Reader::effect)? {
            match done {
                Done::Set(value) => action.effects.push((point, value)),
                Done::Changed(change) => action.uses.push((point, change)),
            }
        }
        self.close()?;
        Ok(action)
    }

    fn duration(&mut self) -> Read<i64> {
        self.open()?;
        self.reading.keyword("=")?;
        self.reading.keyword("?duration")?;
        let duration = self.reading.word(ticks)?;
        self.close()?;
        Ok(duration)
    }

    /// The facts that hold at first, and the levels with what they then are; each named once.
    fn init(&mut self) -> Read<(GivenFacts, GivenLevels)> {
        let (mut facts, mut levels) = (Vec::new(), Vec::new());
        while !self.closes() {
            self.open()?;
            if self.reading.pass_if(keyword("=")) {
                self.open()?;
                let level = self.named_in_init(Kind::Level)?;
                self.close()?;
                levels.push((level, self.reading.word(whole_number)?));
            } else {
                facts.push((self.named_in_init(Kind::Fact)?, 1));
            }
            self.close()?;
        }
        self.close()?;
        Ok((facts, levels))
    }

    fn named_in_init(&mut self, kind: Kind) -> Read<usize> {
        let (names, in_init) = (&mut self.names, &mut self.in_init);
        self.reading.word(|word| {
            let number = names.say(word, kind)?;
            in_init.insert((kind, number)).then_some(number)
        })
    }

    fn goal(&mut self) -> Read<Vec<Value>> {
        self.open()?;
        self.reading.keyword(":goal")?;
        let goals = self.items(Reader::value)?;
        self.close()?;
        Ok(goals)
    }
}

/// Numbers, each with what it was given.
type GivenFacts = Vec<(usize, u16)>;
type GivenLevels = Vec<(usize, i64)>;

/// So many, of which those that are not given are 0.
fn from_0<T: Clone + Default>(count: usize, given: Vec<(usize, T)>) -> Vec<T> {
    let mut all = vec![T::default(); count];
    for (number, value) in given {
        all[number] = value;
    }
    all
}

// ---------------------------------------------------------------------------------------------
// One item or (and ..) of any number

impl<'a> Reader<'a> {
    /// C, E or G. An item is read from after its opening bracket to before its closing one.
    fn items<T>(&mut self, item: fn(&mut Reader<'a>) -> Read<T>) -> Read<Vec<T>> {
        let mut items = Vec::new();
        self.items_at(1, item, &mut items)?;
        Ok(items)
    }

    /// The depth is that of an (and ..) that begins here.
    fn items_at<T>(
        &mut self,
        depth: usize,
        item: fn(&mut Reader<'a>) -> Read<T>,
        items: &mut Vec<T>,
    ) -> Verdict {
        self.open()?;
        if self.reading.is_ahead(keyword("and")) && depth > DEEPEST {
            return Err(self.reading.refusal(19));
        }
        if self.reading.pass_if(keyword("and")) {
            while !self.closes() {
                self.items_at(depth + 1, item, items)?;
            }
        } else {
            items.push(item(self)?);
        }
        self.close()
    }

    fn condition(&mut self) -> Read<(When, Value)> {
        let at = self.reading.one_of(&[("at", true), ("over", false)])?;
        let when = if at {
            When::At(self.start_or_end()?)
        } else {
            self.reading.keyword("all")?;
            When::OverAll
        };
        self.open()?;
        let value = self.value()?;
        self.close()?;
        Ok((when, value))
    }

    fn effect(&mut self) -> Read<(Point, Done)> {
        self.reading.keyword("at")?;
        let point = self.start_or_end()?;
        self.open()?;
        let done = if self.reading.pass_if(keyword("increase")) {
            Done::Changed(self.change(1)?)
        } else if self.reading.pass_if(keyword("decrease")) {
            Done::Changed(self.change(-1)?)
        } else {
            Done::Set(self.value()?)
        };
        self.close()?;
        Ok((point, done))
    }

    fn start_or_end(&mut self) -> Read<Point> {
        let words = [("start", Point::Start), ("end", Point::End)];
        self.reading.one_of(&words)
    }

    /// Of `(N)` and `(not (N))` what stands in the outer brackets.
    fn value(&mut self) -> Read<Value> {
        if !self.reading.pass_if(keyword("not")) {
            let fact = self.named(Kind::Fact)?;
            return Ok(Value { fact, value: 1 });
        }
        self.open()?;
        let fact = self.named(Kind::Fact)?;
        self.close()?;
        Ok(Value { fact, value: 0 })
    }

    /// `(N) W` after `increase` or `decrease`.
    fn change(&mut self, sign: i64) -> Read<Change> {
        self.open()?;
        let level = self.named(Kind::Level)?;
        self.close()?;
        let amount = sign * self.reading.word(whole_number)?;
        Ok(Change { level, amount })
    }

    fn named(&mut self, kind: Kind) -> Read<usize> {
        let names = &mut self.names;
        self.reading.word(|word| names.say(word, kind))
    }

    fn open(&mut self) -> Verdict {
        self.reading.bracket(b'(')
    }

    fn close(&mut self) -> Verdict {
        self.reading.bracket(b')')
    }

    fn closes(&self) -> bool {
        self.reading.is_ahead(Sign::Bracket(b')'))
    }
}
