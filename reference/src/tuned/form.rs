//! Refusals 1 to 6. What passes is read from the file's own bytes wherever it is wanted.

use crate::bytes::{i32_at, u16_at, u32_at};
use crate::job::{
    header_length, ADDED_ZERO_AT, HIGHEST, LATEST_EDITION, NO_DEADLINE, SERIAL_AT, SHORTEST_HEADER,
    TABLES, TENTH_AT, WIDTHS,
};
use crate::job_file::{counts_in, edition_in, layout, offsets_in};
use crate::refusal::{refuse_at, refuse_if, Refusal, Verdict};

pub const STEPS: usize = HIGHEST[2];

/// The tables of a job whose records are all in range.
pub struct Form<'a> {
    pub facts: &'a [u8],
    pub levels: &'a [[u8; WIDTHS[1]]],
    pub steps: Steps,
    pub conditions: &'a [[u8; WIDTHS[3]]],
    pub effects: &'a [[u8; WIDTHS[4]]],
    pub uses: &'a [[u8; WIDTHS[5]]],
    pub goals: &'a [[u8; WIDTHS[6]]],
    pub timed: &'a [[u8; WIDTHS[7]]],
    pub needs: &'a [[u8; WIDTHS[8]]],
}

pub struct Steps {
    pub count: usize,
    pub starts: [i32; STEPS],
    pub lengths: [i32; STEPS],
    /// One bit a step.
    pub fixed: u64,
}

impl Form<'_> {
    pub fn read(file: &[u8]) -> Result<Form<'_>, Refusal> {
        let [facts, levels, steps, conditions, effects, uses, goals, timed, needs] = tables(file)?;
        refuse_at(6, facts.iter().position(|&initial| initial > 1))?;
        let levels = levels.as_chunks().0;
        refuse_at(6, levels.iter().position(level_breaks))?;
        let form = Form {
            facts,
            levels,
            steps: Steps::read(steps)?,
            conditions: conditions.as_chunks().0,
            effects: effects.as_chunks().0,
            uses: uses.as_chunks().0,
            goals: goals.as_chunks().0,
            timed: timed.as_chunks().0,
            needs: needs.as_chunks().0,
        };
        form.check_records()?;
        Ok(form)
    }

    fn check_records(&self) -> Verdict {
        let (facts, levels) = (self.facts.len(), self.levels.len());
        let condition = |c: &_| self.condition_breaks(c, facts);
        refuse_at(6, self.conditions.iter().position(condition))?;
        let effect = |e: &[u8; 10]| self.point_breaks(e, facts) || u16_at(e, 8) > 1;
        refuse_at(6, self.effects.iter().position(effect))?;
        let used = |u: &[u8; 12]| self.point_breaks(u, levels) || amount_breaks(i32_at(u, 8));
        refuse_at(6, self.uses.iter().position(used))?;
        let goal = |g: &_| goal_breaks(g, facts);
        refuse_at(6, self.goals.iter().position(goal))?;
        let timed = |t: &_| timed_fact_breaks(t, facts);
        refuse_at(6, self.timed.iter().position(timed))?;
        let need = |n: &[u8; 12]| self.point_breaks(n, levels) || least_breaks(i32_at(n, 8));
        refuse_at(6, self.needs.iter().position(need))
    }

    fn condition_breaks(&self, condition: &[u8; 14], facts: usize) -> bool {
        let (from, to) = (u32_at(condition, 4), u32_at(condition, 8));
        let (step, fact) = names(condition);
        !(fact < facts && from <= to && self.steps.has(step, to) && u16_at(condition, 12) <= 1)
    }

    /// What effects, uses and needs have in common: step, fact or level, point.
    fn point_breaks(&self, record: &[u8], counted: usize) -> bool {
        let (step, name) = names(record);
        !(name < counted && self.steps.has(step, u32_at(record, 4)))
    }
}

/// Refusals 1 to 5, and the bytes of each table.
fn tables(file: &[u8]) -> Result<[&[u8]; TABLES], Refusal> {
    refuse_if(1, file.len() < SHORTEST_HEADER)?;
    let edition = edition_in(file);
    refuse_if(2, edition == 0 || edition > LATEST_EDITION)?;
    refuse_if(1, file.len() < header_length(edition))?;
    let tenth_breaks = edition == 1 && u16_at(file, TENTH_AT) != 0;
    let zero_breaks = edition == 3 && u16_at(file, ADDED_ZERO_AT) != 0;
    refuse_if(
        3,
        u16_at(file, SERIAL_AT) > 1 || tenth_breaks || zero_breaks,
    )?;
    let counts = counts_in(file);
    refuse_if(4, (0..TABLES).any(|table| counts[table] > HIGHEST[table]))?;
    let (offsets, end) = layout(edition, counts);
    let mut written = offsets_in(file).zip(offsets);
    refuse_if(
        5,
        file.len() != end || written.any(|(at, offset)| at != offset),
    )?;
    Ok(std::array::from_fn(|table| {
        &file[offsets[table]..][..counts[table] * WIDTHS[table]]
    }))
}

/// The step, and the fact or level.
fn names(record: &[u8]) -> (usize, usize) {
    (
        usize::from(u16_at(record, 0)),
        usize::from(u16_at(record, 2)),
    )
}

fn level_breaks(level: &[u8; 12]) -> bool {
    let (initial, least, most) = (i32_at(level, 0), i32_at(level, 4), i32_at(level, 8));
    least < -1_000_000_000 || initial < least || most < initial || 1_000_000_000 < most
}

fn amount_breaks(amount: i32) -> bool {
    amount == 0 || !(-1_000_000..=1_000_000).contains(&amount)
}

fn least_breaks(least: i32) -> bool {
    !(-1_000_000_000..=1_000_000_000).contains(&least)
}

fn goal_breaks(goal: &[u8; 8], facts: usize) -> bool {
    let deadline = u32_at(goal, 4);
    usize::from(u16_at(goal, 0)) >= facts
        || u16_at(goal, 2) > 1
        || (deadline > 1_100_000 && deadline != NO_DEADLINE)
}

fn timed_fact_breaks(timed: &[u8; 8], facts: usize) -> bool {
    let (fact, tick, value) = (u16_at(timed, 0), u32_at(timed, 2), u16_at(timed, 6));
    usize::from(fact) >= facts || tick > 1_100_000 || value > 1
}

impl Steps {
    fn read(table: &[u8]) -> Result<Steps, Refusal> {
        let records = table.as_chunks::<10>().0;
        let mut steps = Steps {
            count: records.len(),
            starts: [0; STEPS],
            lengths: [0; STEPS],
            fixed: 0,
        };
        for (number, step) in records.iter().enumerate() {
            let (start, length, fixed) = (u32_at(step, 0), u32_at(step, 4), u16_at(step, 8));
            let breaks = start > 1_000_000 || length > 100_000 || fixed > 1;
            refuse_at(6, breaks.then_some(number))?;
            steps.starts[number] = start as i32;
            steps.lengths[number] = length as i32;
            steps.fixed |= u64::from(fixed) << number;
        }
        Ok(steps)
    }

    /// Whether there is such a step, and such a point of it.
    fn has(&self, step: usize, at: u32) -> bool {
        step < self.count && at <= self.lengths[step] as u32
    }

    pub fn is_fixed(&self, step: usize) -> bool {
        self.fixed >> step & 1 == 1
    }
}
