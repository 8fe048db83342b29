//! Jobs for measuring speed. The sound ones: every table grows with the steps, up to its highest
//! count.

use crate::job::{Job, HIGHEST};
use crate::make::pairs::one_step_with;
use crate::make::sound::{sound_job, Shape};
use crate::random::Random;

/// How the records of a job meet each other.
#[derive(Clone, Copy, Debug, PartialEq, Eq)]
pub enum Spread {
    /// Two effects a fact, so few records meet.
    ManyFacts,
    EightFacts,
    /// All records on one fact and one level, so all meet.
    OneFact,
}

pub const SPREADS: [Spread; 3] = [Spread::ManyFacts, Spread::EightFacts, Spread::OneFact];

impl Spread {
    pub fn name(self) -> &'static str {
        match self {
            Spread::ManyFacts => "many facts",
            Spread::EightFacts => "eight facts",
            Spread::OneFact => "one fact",
        }
    }

    fn facts(self, steps: usize) -> usize {
        match self {
            Spread::ManyFacts => steps * HIGHEST[0] / HIGHEST[2],
            Spread::EightFacts => 8,
            Spread::OneFact => 1,
        }
    }

    fn levels(self, steps: usize) -> usize {
        match self {
            Spread::OneFact => 1,
            _ => steps * HIGHEST[1] / HIGHEST[2],
        }
    }
}

/// A job with this many steps, 4 to 64, and the other tables as full as those of 64 steps are.
pub fn bench_job(spread: Spread, steps: usize) -> Job {
    sound_job(&mut Random::seeded(steps as u64), &shape(spread, steps))
}

/// The jobs of edition 2: as large as jobs can be, with 64 timed facts spread over the facts, or
/// all on one fact.
pub const TIMED_SPREADS: [Spread; 2] = [Spread::ManyFacts, Spread::OneFact];

pub fn timed_bench_job(spread: Spread) -> Job {
    let steps = HIGHEST[2];
    let shape = shape(spread, steps).with_most_timed_facts();
    sound_job(&mut Random::seeded(steps as u64), &shape)
}

/// The jobs of edition 3: the same with 128 needs as well.
pub fn needs_bench_job(spread: Spread) -> Job {
    let steps = HIGHEST[2];
    let shape = shape(spread, steps).with_most_needs();
    sound_job(&mut Random::seeded(steps as u64), &shape)
}

/// Jobs to search for a fact set both ways: as large as a job can be; all effects in one step, so
/// that no job has more pairs; and the same with the first pair both ways.
pub fn searched_bench_jobs() -> [(&'static str, Job); 3] {
    let (steps, effects) = (HIGHEST[2], HIGHEST[4]);
    [
        ("64 steps, none found", bench_job(Spread::ManyFacts, steps)),
        ("one step, none found", one_step_with(effects, &[])),
        (
            "one step, the first found",
            one_step_with(effects, &[(0, 1)]),
        ),
    ]
}

fn shape(spread: Spread, steps: usize) -> Shape {
    let share = |table: usize| steps * HIGHEST[table] / HIGHEST[2];
    Shape {
        edition: 1,
        serial: false,
        facts: spread.facts(steps),
        levels: spread.levels(steps),
        steps,
        conditions: share(3),
        effects: share(4),
        uses: share(5),
        goals: share(6),
        timed: 0,
        needs: 0,
        last_start: 900_000,
        longest: 10_000,
        fixed_percent: 5,
        tied_percent: 0,
    }
}
