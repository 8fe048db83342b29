//! Jobs from PDDL text, request c) of document 02: the text of the actions and the text of the plan
//! become a job of edition 1, or the one refusal.

pub mod actions;
pub mod job;
pub mod names;
pub mod numbers;
pub mod plan;
pub mod reading;
pub mod words;

use crate::refusal::{number_and_place, refuse_if, Refusal};
use crate::timing::check_job;
use actions::read_actions;
use job::{job_of, steps_of};
use plan::read_plan;

/// What comes back; a refusal's length is 0.
#[derive(Clone, Copy, Debug, PartialEq, Eq)]
pub struct FromPddl {
    pub number: u16,
    pub place: u16,
    pub length: usize,
}

/// Refusals 18 to 20, then 4, 6, 7, 10 to 13 and 15. A refusal changes no byte, and bytes past the
/// job's end stay.
pub fn jobs_from_pddl(actions: &[u8], plan: &[u8], buffer: &mut [u8]) -> FromPddl {
    let written = write_job(actions, plan, buffer);
    let (number, place) = number_and_place(&written);
    let length = written.unwrap_or(0);
    FromPddl {
        number,
        place,
        length,
    }
}

fn write_job(actions: &[u8], plan: &[u8], buffer: &mut [u8]) -> Result<usize, Refusal> {
    let file = job_from_texts(actions, plan)?;
    refuse_if(15, buffer.len() < file.len())?;
    buffer[..file.len()].copy_from_slice(&file);
    Ok(file.len())
}

/// The job file of two texts, whatever the buffer.
pub fn job_from_texts(actions: &[u8], plan: &[u8]) -> Result<Vec<u8>, Refusal> {
    let actions = read_actions(actions)?;
    let plan = read_plan(plan)?;
    let steps = steps_of(&actions, &plan)?;
    let file = job_of(&actions, &steps)?.to_file();
    check_job(&file)?;
    Ok(file)
}
