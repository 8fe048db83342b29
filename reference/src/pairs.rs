//! Refusal 7's search for a fact set both ways, by itself: where it ends, and how many pairs of
//! effects it compared.

use crate::job::{Effect, Job};
use crate::refusal::{Refusal, NOWHERE};
use crate::well_formed::in_range;

/// What the search returns. Accepted, the place is the step of the first pair found, or nowhere
/// where none is; a refusal's count is 0.
#[derive(Clone, Copy, Debug, PartialEq, Eq)]
pub struct Searched {
    pub number: u16,
    pub place: u16,
    pub compared: usize,
}

/// Refusals 1 to 6. The rest of refusal 7 and refusal 17 play no part.
pub fn search(file: &[u8]) -> Searched {
    match in_range(file) {
        Ok(job) => searched(&job),
        Err(Refusal { number, place }) => Searched {
            number,
            place,
            compared: 0,
        },
    }
}

fn searched(job: &Job) -> Searched {
    let (found, compared) = first_pair(job);
    Searched {
        number: 0,
        place: found.map_or(NOWHERE, |step| step as u16),
        compared,
    }
}

/// Step by step, through all pairs of a step's effects by the lower, then the higher. The step of
/// the first pair found, and how many were compared: those up to and with it, or all if none is.
fn first_pair(job: &Job) -> (Option<usize>, usize) {
    let mut compared = 0;
    for step in 0..job.steps.len() {
        let effects = effects_of(job, step);
        for (number, lower) in effects.iter().enumerate() {
            for higher in &effects[number + 1..] {
                compared += 1;
                if set_a_fact_both_ways(lower, higher) {
                    return (Some(step), compared);
                }
            }
        }
    }
    (None, compared)
}

/// By their numbers.
fn effects_of(job: &Job, step: usize) -> Vec<Effect> {
    let effects = job.effects.iter().copied();
    effects.filter(|effect| effect.step == step).collect()
}

/// Two effects of one step are at one tick if they are as far from its start.
fn set_a_fact_both_ways(lower: &Effect, higher: &Effect) -> bool {
    lower.fact == higher.fact && lower.at == higher.at && lower.value != higher.value
}
