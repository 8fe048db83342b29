//! The words of each refusal, and what the job's own bytes add to them.

use crate::job::{Job, TABLES};
use crate::job_file::records_in;
use crate::refusal::Refusal;
use crate::well_formed::in_range;

/// Whatever the job: the words of a refusal by its number and place.
pub fn words(refusal: Refusal) -> String {
    let k = refusal.place;
    match refusal.number {
        1 => "the file is shorter than its header".to_string(),
        2 => "the edition is none of 1 to 3".to_string(),
        3 => "the serial mark is above 1, or a number that is to be 0 is not".to_string(),
        4 => "more records than a job can have".to_string(),
        5 => "an offset or the file's length disagrees with the tables".to_string(),
        6 => format!("record {k} breaks its ranges"),
        7 => format!(
            "step {k} is against itself: it sets a fact both ways or uses a level twice at one \
             tick, or opposes its own condition"
        ),
        8 => "the list has not one start for each step".to_string(),
        9 => format!("step {k} is fixed and must keep its start"),
        10 => format!("effect {k} opposes another step's at one tick"),
        11 => format!("condition {k} fails"),
        12 => format!("level {k} passes a bound"),
        13 => format!("goal {k} fails or comes late"),
        15 => "the buffer is too short".to_string(),
        16 => "not an order file, or a broken one".to_string(),
        17 => format!("timed fact {k} opposes another at one tick"),
        21 => format!("need {k} is not met"),
        number => panic!("refusal {number} has no words"),
    }
}

/// The words of a refusal of texts, whose lines count from 1. Their job is not at hand, so that
/// nothing is added from it.
pub fn words_of_a_text(refusal: Refusal) -> String {
    let line = usize::from(refusal.place) + 1;
    match refusal.number {
        18 => format!("line {line}: the text is too long or cannot go on so"),
        19 => format!("line {line}: an (and ..) is deeper than 16"),
        20 => format!("line {line}: no action has this name and duration"),
        _ => words(refusal),
    }
}

/// What the refused job's bytes say at the place, to follow the words.
pub fn details(refusal: Refusal, file: &[u8]) -> String {
    // Up to 5 the tables are not where they should be.
    if refusal.number < 6 {
        return String::new();
    }
    let job = records_in(file);
    let k = usize::from(refusal.place);
    match refusal.number {
        6 => format!(", table of {}", refused_table(&job)),
        9 => format!(" of {}", job.steps[k].start),
        10 => {
            let effect = job.effects[k];
            let (step, fact, value) = (effect.step, effect.fact, effect.value);
            format!(": step {step} sets fact {fact} to {value}")
        }
        11 => {
            let condition = job.conditions[k];
            let (step, fact, wanted) = (condition.step, condition.fact, condition.wanted);
            format!(": step {step} wants fact {fact} as {wanted}")
        }
        13 => format!(
            ": it wants fact {} as {}",
            job.goals[k].fact, job.goals[k].value
        ),
        17 => format!(
            ": it sets fact {} to {}",
            job.timed[k].fact, job.timed[k].value
        ),
        21 => format!(
            ": step {} needs level {}",
            job.needs[k].step, job.needs[k].level
        ),
        _ => String::new(),
    }
}

// ---------------------------------------------------------------------------------------------
// The table of refusal 6

const NAMES: [&str; TABLES] = [
    "facts",
    "levels",
    "steps",
    "conditions",
    "effects",
    "uses",
    "goals",
    "timed facts",
    "needs",
];

/// The first table with which the job has a record out of its ranges. A record's ranges come from
/// tables before its own, so that those after it can be left out.
fn refused_table(job: &Job) -> &'static str {
    let breaks = |&last: &usize| in_range(&up_to(job, last).to_file()).is_err();
    let table = (0..TABLES).find(breaks);
    NAMES[table.expect("a record out of its ranges")]
}

/// The job without the tables after the last.
fn up_to(job: &Job, last: usize) -> Job {
    let mut job = job.clone();
    let kept = |table: usize, count: usize| if table <= last { count } else { 0 };
    job.levels.truncate(kept(1, job.levels.len()));
    job.steps.truncate(kept(2, job.steps.len()));
    job.conditions.truncate(kept(3, job.conditions.len()));
    job.effects.truncate(kept(4, job.effects.len()));
    job.uses.truncate(kept(5, job.uses.len()));
    job.goals.truncate(kept(6, job.goals.len()));
    job.timed.truncate(kept(7, job.timed.len()));
    job.needs.truncate(kept(8, job.needs.len()));
    job
}
