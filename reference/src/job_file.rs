//! The job file: a job's records as bytes, and back.

use crate::bytes::{i32_at, put_i32, put_u16, put_u32, u16_at, u32_at};
use crate::job::{
    header_length, tables_of, Condition, Effect, Goal, Job, Level, Need, Step, TimedFact, Use,
    COUNTS_AT, EDITION_AT, NO_DEADLINE, OFFSETS_AT, SERIAL_AT, TABLES, WIDTHS,
};

/// The offsets of the tables, which follow the header without gaps, and the file's length.
pub fn layout(edition: u16, counts: [usize; TABLES]) -> ([usize; TABLES], usize) {
    let mut offsets = [0; TABLES];
    let mut end = header_length(edition);
    for table in 0..TABLES {
        offsets[table] = end;
        end += counts[table] * WIDTHS[table];
    }
    (offsets, end)
}

// ---------------------------------------------------------------------------------------------
// Writing

impl Job {
    pub fn to_file(&self) -> Vec<u8> {
        let mut file = self.header();
        self.put_facts_levels_and_steps(&mut file);
        self.put_points(&mut file);
        self.put_goals(&mut file);
        if tables_of(self.edition) > 7 {
            self.put_timed_facts(&mut file);
        }
        if tables_of(self.edition) > 8 {
            self.put_needs(&mut file);
        }
        file
    }

    fn header(&self) -> Vec<u8> {
        let mut file = Vec::new();
        put_u16(&mut file, self.edition);
        put_u16(&mut file, self.serial);
        put_u16(&mut file, self.facts.len());
        put_u16(&mut file, self.levels.len());
        put_u16(&mut file, self.steps.len());
        put_u16(&mut file, self.goals.len());
        put_u16(&mut file, self.conditions.len());
        put_u16(&mut file, self.effects.len());
        put_u16(&mut file, self.uses.len());
        put_u16(&mut file, self.timed.len());
        let (offsets, _) = layout(self.edition, self.counts());
        let (offsets, offset_of_needs) = (&offsets[..8], offsets[8]);
        for &offset in offsets.iter().take(tables_of(self.edition)) {
            put_u32(&mut file, offset);
        }
        if tables_of(self.edition) > 8 {
            put_u16(&mut file, self.needs.len());
            put_u16(&mut file, 0);
            put_u32(&mut file, offset_of_needs);
        }
        file
    }

    fn put_facts_levels_and_steps(&self, file: &mut Vec<u8>) {
        for &initial in &self.facts {
            file.push(u8::try_from(initial).expect("a fact fits a byte"));
        }
        for level in &self.levels {
            put_i32(file, level.initial);
            put_i32(file, level.least);
            put_i32(file, level.most);
        }
        for step in &self.steps {
            put_u32(file, step.start);
            put_u32(file, step.length);
            put_u16(file, step.fixed);
        }
    }

    /// Conditions, effects and uses: what lies at points of steps.
    fn put_points(&self, file: &mut Vec<u8>) {
        for condition in &self.conditions {
            put_u16(file, condition.step);
            put_u16(file, condition.fact);
            put_u32(file, condition.from);
            put_u32(file, condition.to);
            put_u16(file, condition.wanted);
        }
        for effect in &self.effects {
            put_u16(file, effect.step);
            put_u16(file, effect.fact);
            put_u32(file, effect.at);
            put_u16(file, effect.value);
        }
        for used in &self.uses {
            put_u16(file, used.step);
            put_u16(file, used.level);
            put_u32(file, used.at);
            put_i32(file, used.amount);
        }
    }

    fn put_goals(&self, file: &mut Vec<u8>) {
        for goal in &self.goals {
            put_u16(file, goal.fact);
            put_u16(file, goal.value);
            put_u32(file, goal.deadline.unwrap_or(i64::from(NO_DEADLINE)));
        }
    }

    fn put_timed_facts(&self, file: &mut Vec<u8>) {
        for timed in &self.timed {
            put_u16(file, timed.fact);
            put_u32(file, timed.tick);
            put_u16(file, timed.value);
        }
    }

    fn put_needs(&self, file: &mut Vec<u8>) {
        for need in &self.needs {
            put_u16(file, need.step);
            put_u16(file, need.level);
            put_u32(file, need.at);
            put_i32(file, need.least);
        }
    }
}

// ---------------------------------------------------------------------------------------------
// Reading

pub fn edition_in(file: &[u8]) -> u16 {
    u16_at(file, EDITION_AT)
}

/// Of a table that the file's edition does not have there are none.
pub fn counts_in(file: &[u8]) -> [usize; TABLES] {
    let tables = tables_of(edition_in(file));
    std::array::from_fn(|table| match table < tables {
        true => usize::from(u16_at(file, COUNTS_AT[table])),
        false => 0,
    })
}

/// One a table of the file's edition.
pub fn offsets_in(file: &[u8]) -> impl Iterator<Item = usize> + '_ {
    let tables = OFFSETS_AT.into_iter().take(tables_of(edition_in(file)));
    tables.map(|at| u32_at(file, at) as usize)
}

/// The records of a file whose layout holds, in range or not.
pub fn records_in(file: &[u8]) -> Job {
    let records = Records::of(file);
    Job {
        edition: edition_in(file),
        serial: u16_at(file, SERIAL_AT),
        facts: records.read(0, |fact| u16::from(fact[0])),
        levels: records.read(1, level),
        steps: records.read(2, step),
        conditions: records.read(3, condition),
        effects: records.read(4, effect),
        uses: records.read(5, used),
        goals: records.read(6, goal),
        timed: records.read(7, timed_fact),
        needs: records.read(8, need),
    }
}

struct Records<'a> {
    file: &'a [u8],
    counts: [usize; TABLES],
    offsets: [usize; TABLES],
}

impl Records<'_> {
    fn of(file: &[u8]) -> Records<'_> {
        let counts = counts_in(file);
        let (offsets, _) = layout(edition_in(file), counts);
        Records {
            file,
            counts,
            offsets,
        }
    }

    /// All records of a table, each from its own bytes.
    fn read<R>(&self, table: usize, record: impl Fn(&[u8]) -> R) -> Vec<R> {
        let bytes = &self.file[self.offsets[table]..];
        let records = bytes.chunks(WIDTHS[table]).take(self.counts[table]);
        records.map(record).collect()
    }
}

fn name(record: &[u8], at: usize) -> usize {
    usize::from(u16_at(record, at))
}

fn ticks(record: &[u8], at: usize) -> i64 {
    i64::from(u32_at(record, at))
}

fn amount(record: &[u8], at: usize) -> i64 {
    i64::from(i32_at(record, at))
}

fn level(record: &[u8]) -> Level {
    Level {
        initial: amount(record, 0),
        least: amount(record, 4),
        most: amount(record, 8),
    }
}

fn step(record: &[u8]) -> Step {
    Step {
        start: ticks(record, 0),
        length: ticks(record, 4),
        fixed: u16_at(record, 8),
    }
}

fn condition(record: &[u8]) -> Condition {
    Condition {
        step: name(record, 0),
        fact: name(record, 2),
        from: ticks(record, 4),
        to: ticks(record, 8),
        wanted: u16_at(record, 12),
    }
}

fn effect(record: &[u8]) -> Effect {
    Effect {
        step: name(record, 0),
        fact: name(record, 2),
        at: ticks(record, 4),
        value: u16_at(record, 8),
    }
}

fn used(record: &[u8]) -> Use {
    Use {
        step: name(record, 0),
        level: name(record, 2),
        at: ticks(record, 4),
        amount: amount(record, 8),
    }
}

fn goal(record: &[u8]) -> Goal {
    let deadline = u32_at(record, 4);
    Goal {
        fact: name(record, 0),
        value: u16_at(record, 2),
        deadline: (deadline != NO_DEADLINE).then_some(i64::from(deadline)),
    }
}

fn timed_fact(record: &[u8]) -> TimedFact {
    TimedFact {
        fact: name(record, 0),
        tick: ticks(record, 2),
        value: u16_at(record, 6),
    }
}

fn need(record: &[u8]) -> Need {
    Need {
        step: name(record, 0),
        level: name(record, 2),
        at: ticks(record, 4),
        least: amount(record, 8),
    }
}
