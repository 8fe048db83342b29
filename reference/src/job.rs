//! A job: the records it holds, and the layout of its file.

/// The latest edition that is taken; those before it are too.
pub const LATEST_EDITION: u16 = 3;

/// Everything "a table each" is in the tables' order:
/// facts, levels, steps, conditions, effects, uses, goals, from edition 2 on timed facts and from
/// edition 3 on needs.
pub const TABLES: usize = 9;
pub const WIDTHS: [usize; TABLES] = [1, 12, 10, 14, 10, 12, 8, 8, 12];
pub const HIGHEST: [usize; TABLES] = [256, 16, 64, 512, 512, 256, 32, 64, 128];

pub const EDITION_AT: usize = 0;
pub const SERIAL_AT: usize = 2;
/// Where the header counts each table; goals are counted before conditions.
pub const COUNTS_AT: [usize; TABLES] = [4, 6, 8, 12, 14, 16, 10, TENTH_AT, 52];
/// The tenth number is 0 in edition 1 and counts the timed facts from edition 2 on.
pub const TENTH_AT: usize = 18;
/// Where the header has the offset of each table.
pub const OFFSETS_AT: [usize; TABLES] = [20, 24, 28, 32, 36, 40, 44, 48, 56];
/// Edition 3 adds a number that must be 0, between the count of the needs and their offset.
pub const ADDED_ZERO_AT: usize = 54;

/// The header of every edition is at least as long as that of edition 1.
pub const SHORTEST_HEADER: usize = header_length(1);

pub const NO_DEADLINE: u32 = 4_294_967_295;

/// The tables that a file of an edition has, each with an offset in the header.
pub const fn tables_of(edition: u16) -> usize {
    match edition {
        1 => 7,
        2 => 8,
        _ => 9,
    }
}

/// The header ends with the offset of the last table.
pub const fn header_length(edition: u16) -> usize {
    OFFSETS_AT[tables_of(edition) - 1] + 4
}

/// A job. Numbers may be out of range, so that broken jobs can be written down too.
#[derive(Clone, Debug, PartialEq, Eq)]
pub struct Job {
    pub edition: u16,
    pub serial: u16,
    pub facts: Vec<u16>,
    pub levels: Vec<Level>,
    pub steps: Vec<Step>,
    pub conditions: Vec<Condition>,
    pub effects: Vec<Effect>,
    pub uses: Vec<Use>,
    pub goals: Vec<Goal>,
    pub timed: Vec<TimedFact>,
    pub needs: Vec<Need>,
}

#[derive(Clone, Copy, Debug, PartialEq, Eq)]
pub struct Level {
    pub initial: i64,
    pub least: i64,
    pub most: i64,
}

#[derive(Clone, Copy, Debug, PartialEq, Eq)]
pub struct Step {
    pub start: i64,
    pub length: i64,
    pub fixed: u16,
}

#[derive(Clone, Copy, Debug, PartialEq, Eq)]
pub struct Condition {
    pub step: usize,
    pub fact: usize,
    pub from: i64,
    pub to: i64,
    pub wanted: u16,
}

#[derive(Clone, Copy, Debug, PartialEq, Eq)]
pub struct Effect {
    pub step: usize,
    pub fact: usize,
    pub at: i64,
    pub value: u16,
}

#[derive(Clone, Copy, Debug, PartialEq, Eq)]
pub struct Use {
    pub step: usize,
    pub level: usize,
    pub at: i64,
    pub amount: i64,
}

#[derive(Clone, Copy, Debug, PartialEq, Eq)]
pub struct Goal {
    pub fact: usize,
    pub value: u16,
    pub deadline: Option<i64>,
}

/// A fact that changes by the clock.
#[derive(Clone, Copy, Debug, PartialEq, Eq)]
pub struct TimedFact {
    pub fact: usize,
    pub tick: i64,
    pub value: u16,
}

/// What a step needs of a level without taking any of it.
#[derive(Clone, Copy, Debug, PartialEq, Eq)]
pub struct Need {
    pub step: usize,
    pub level: usize,
    pub at: i64,
    pub least: i64,
}

impl Step {
    pub fn is_fixed(&self) -> bool {
        self.fixed == 1
    }
}

impl Effect {
    /// An effect opposes what wants, or sets, the other value of its fact.
    pub fn opposes(&self, fact: usize, value: u16) -> bool {
        self.fact == fact && self.value != value
    }

    pub fn gives(&self, fact: usize, value: u16) -> bool {
        self.fact == fact && self.value == value
    }
}

impl TimedFact {
    /// A timed fact opposes as an effect does.
    pub fn opposes(&self, fact: usize, value: u16) -> bool {
        self.fact == fact && self.value != value
    }
}

// ---------------------------------------------------------------------------------------------
// Writing a job down

/// A job of edition 1 with nothing in it.
impl Default for Job {
    fn default() -> Job {
        Job {
            edition: 1,
            serial: 0,
            facts: Vec::new(),
            levels: Vec::new(),
            steps: Vec::new(),
            conditions: Vec::new(),
            effects: Vec::new(),
            uses: Vec::new(),
            goals: Vec::new(),
            timed: Vec::new(),
            needs: Vec::new(),
        }
    }
}

impl Job {
    pub fn with_facts(initial: &[u16]) -> Job {
        Job {
            facts: initial.to_vec(),
            ..Job::default()
        }
    }

    pub fn serial(mut self) -> Job {
        self.serial = 1;
        self
    }

    pub fn level(mut self, initial: i64, least: i64, most: i64) -> Job {
        self.levels.push(Level {
            initial,
            least,
            most,
        });
        self
    }

    pub fn step(mut self, start: i64, length: i64) -> Job {
        self.steps.push(Step {
            start,
            length,
            fixed: 0,
        });
        self
    }

    pub fn fixed_step(mut self, start: i64, length: i64) -> Job {
        self.steps.push(Step {
            start,
            length,
            fixed: 1,
        });
        self
    }

    pub fn condition(mut self, step: usize, fact: usize, from: i64, to: i64, wanted: u16) -> Job {
        self.conditions.push(Condition {
            step,
            fact,
            from,
            to,
            wanted,
        });
        self
    }

    pub fn effect(mut self, step: usize, fact: usize, at: i64, value: u16) -> Job {
        self.effects.push(Effect {
            step,
            fact,
            at,
            value,
        });
        self
    }

    pub fn uses(mut self, step: usize, level: usize, at: i64, amount: i64) -> Job {
        self.uses.push(Use {
            step,
            level,
            at,
            amount,
        });
        self
    }

    pub fn goal(mut self, fact: usize, value: u16) -> Job {
        self.goals.push(Goal {
            fact,
            value,
            deadline: None,
        });
        self
    }

    pub fn goal_by(mut self, fact: usize, value: u16, deadline: i64) -> Job {
        self.goals.push(Goal {
            fact,
            value,
            deadline: Some(deadline),
        });
        self
    }

    pub fn edition(mut self, edition: u16) -> Job {
        self.edition = edition;
        self
    }

    /// A timed fact makes it a job of edition 2 at least.
    pub fn timed(mut self, fact: usize, tick: i64, value: u16) -> Job {
        self.timed.push(TimedFact { fact, tick, value });
        let edition = self.edition.max(2);
        self.edition(edition)
    }

    /// A need makes it a job of edition 3.
    pub fn need(mut self, step: usize, level: usize, at: i64, least: i64) -> Job {
        self.needs.push(Need {
            step,
            level,
            at,
            least,
        });
        self.edition(3)
    }

    pub fn written_starts(&self) -> Vec<i64> {
        self.steps.iter().map(|step| step.start).collect()
    }

    pub fn counts(&self) -> [usize; TABLES] {
        [
            self.facts.len(),
            self.levels.len(),
            self.steps.len(),
            self.conditions.len(),
            self.effects.len(),
            self.uses.len(),
            self.goals.len(),
            self.timed.len(),
            self.needs.len(),
        ]
    }
}
