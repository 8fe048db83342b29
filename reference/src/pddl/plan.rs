//! The text of the plan: lines `T: (N) [T]`, each on a line to itself.

use super::names::is_name;
use super::numbers::ticks;
use super::reading::Reading;
use super::words::{Sign, Text};
use crate::refusal::Refusal;

pub struct PlanLine<'a> {
    pub line: usize,
    pub start: i64,
    pub name: &'a [u8],
    pub duration: i64,
}

/// The plan's lines without the blank ones, which only count.
pub fn read_plan(text: &[u8]) -> Result<Vec<PlanLine<'_>>, Refusal> {
    let mut reading = Reading::begin(text, Text::Plan)?;
    let mut lines = Vec::new();
    while !reading.is_ahead(Sign::End) {
        if reading.pass_if(Sign::LineEnd) {
            continue;
        }
        lines.push(plan_line(&mut reading)?);
        if !reading.is_ahead(Sign::End) {
            reading.expect(Sign::LineEnd)?;
        }
    }
    Ok(lines)
}

/// Any name can stand here; whether it is an action's is asked once both texts are read.
fn plan_line<'a>(reading: &mut Reading<'a>) -> Result<PlanLine<'a>, Refusal> {
    let line = reading.line();
    let start = reading.word(ticks)?;
    reading.bracket(b':')?;
    reading.bracket(b'(')?;
    let name = reading.word(|word| is_name(word).then_some(word))?;
    reading.bracket(b')')?;
    reading.bracket(b'[')?;
    let duration = reading.word(ticks)?;
    reading.bracket(b']')?;
    Ok(PlanLine {
        line,
        start,
        name,
        duration,
    })
}
