//! Demand 3 by brute force: every choice that obeys a written order file is sound and ends as the
//! job's own timing does.

use crate::job::{Job, LATEST_EDITION};
use crate::loosen::{loosen, order_file_of};
use crate::make::sound::{small_sound_job, sound_job, Shape};
use crate::order_file::{read, OrderFile};
use crate::random::Random;
use crate::timing::{end_state, first_moved_fixed_step, sound, EndState};

/// What was tried, none of it failing.
#[derive(Debug, Default)]
pub struct Tried {
    pub jobs: usize,
    pub choices: usize,
    pub farthest_from_written: i64,
}

impl Tried {
    fn plus(self, other: Tried) -> Tried {
        Tried {
            jobs: self.jobs + other.jobs,
            choices: self.choices + other.choices,
            farthest_from_written: self.farthest_from_written.max(other.farthest_from_written),
        }
    }
}

/// Tries at least so many choices over made jobs of each edition that is taken; a broken promise
/// comes back in words.
pub fn brute(choices: usize, seed: u64) -> Result<Tried, String> {
    let editions = 1..=LATEST_EDITION;
    let tried = editions.map(|edition| brute_of(edition, choices, seed));
    tried.reduce(|a, b| Ok(a?.plus(b?))).expect("an edition")
}

/// Over made jobs of one edition.
pub fn brute_of(edition: u16, choices: usize, seed: u64) -> Result<Tried, String> {
    let mut random = Random::seeded(seed);
    let mut tried = Tried::default();
    while tried.choices < choices {
        if random.chance(30) {
            let shape = Shape::tiny(&mut random).in_edition(&mut random, edition);
            let job = sound_job(&mut random, &shape);
            Trial::of(&job)?.choices_nearby(&mut tried)?;
            tried.jobs += 1;
        } else {
            let job = small_sound_job(&mut random, edition);
            try_anywhere(&job, &mut random, &mut tried)?;
        }
    }
    Ok(tried)
}

/// Choices for one sound job, however large.
pub fn try_anywhere(job: &Job, random: &mut Random, tried: &mut Tried) -> Result<(), String> {
    Trial::of(job)?.choices_anywhere(random, tried)?;
    tried.jobs += 1;
    Ok(())
}

/// A job, the file that loosening wrote for it, and the state it is to end with.
struct Trial<'a> {
    job: &'a Job,
    file: OrderFile,
    end: EndState,
}

impl Trial<'_> {
    /// What is promised of the file itself.
    fn of(job: &Job) -> Result<Trial<'_>, String> {
        let written = job.written_starts();
        let trial = Trial {
            job,
            file: written_file(job)?,
            end: end_state(job, &written),
        };
        let earliest = trial.file.earliest_times();
        trial.demand(
            trial.file.obeyed_by(&written),
            "the written starts obey",
            &written,
        )?;
        trial.demand(
            trial.file.obeyed_by(&earliest),
            "the earliest times obey",
            &earliest,
        )?;
        trial.demand(
            trial.file.rounds <= job.steps.len(),
            "rounds at most the steps",
            &written,
        )?;
        trial.demand_of_choice(&written)?;
        trial.demand_of_choice(&earliest)?;
        Ok(trial)
    }

    /// What is promised of every choice that obeys.
    fn demand_of_choice(&self, starts: &[i64]) -> Result<(), String> {
        let earliest = self.file.earliest_times();
        self.demand(
            earliest
                .iter()
                .zip(starts)
                .all(|(least, start)| least <= start),
            "no start before the earliest time",
            starts,
        )?;
        self.demand(
            first_moved_fixed_step(self.job, starts).is_none(),
            "fixed steps stay",
            starts,
        )?;
        let verdict = sound(self.job, starts);
        self.demand(verdict.is_ok(), "an obeying choice is sound", starts)?;
        let end = end_state(self.job, starts);
        self.demand(end == self.end, "one end state", starts)
    }

    fn demand(&self, holds: bool, what: &str, starts: &[i64]) -> Result<(), String> {
        if holds {
            return Ok(());
        }
        Err(format!(
            "broken: {what}\n{:?}\n{:?}\n{starts:?}",
            self.job, self.file
        ))
    }

    /// Every list of starts up to a little past the written ones, and past what the clock does near
    /// them.
    fn choices_nearby(&self, tried: &mut Tried) -> Result<(), String> {
        let last_written = self.job.written_starts().into_iter().max().unwrap_or(0);
        let last_timed = self.job.timed.iter().map(|timed| timed.tick).max();
        let last = last_written.max(last_timed.unwrap_or(0)) + 4;
        let mut starts = vec![0; self.job.steps.len()];
        loop {
            if self.file.obeyed_by(&starts) {
                self.demand_of_choice(&starts)?;
                self.count(&starts, tried);
            }
            let Some(step) = starts.iter().position(|&start| start < last) else {
                return Ok(());
            };
            starts[..step].fill(0);
            starts[step] += 1;
        }
    }

    fn choices_anywhere(&self, random: &mut Random, tried: &mut Tried) -> Result<(), String> {
        for _ in 0..60 {
            let starts = obeying_choice(random, &self.file);
            self.demand(self.file.obeyed_by(&starts), "the choice obeys", &starts)?;
            self.demand_of_choice(&starts)?;
            self.count(&starts, tried);
        }
        Ok(())
    }

    fn count(&self, starts: &[i64], tried: &mut Tried) {
        tried.choices += 1;
        for (start, written) in starts.iter().zip(self.job.written_starts()) {
            let far = (start - written).abs();
            tried.farthest_from_written = tried.farthest_from_written.max(far);
        }
    }
}

/// The file as its bytes say, written into a buffer with room to spare.
fn written_file(job: &Job) -> Result<OrderFile, String> {
    let file = job.to_file();
    let mut buffer = vec![165; 40_000];
    let answer = loosen(&file, &mut buffer);
    match read(&buffer[..answer.length]) {
        Ok(written) if Ok(&written) == order_file_of(&file).as_ref() => Ok(written),
        other => Err(format!("broken: the file reads back\n{job:?}\n{other:?}")),
    }
}

/// A choice that obeys: steps are placed one by one, in any order, each anywhere that its window
/// and the steps already placed leave to it.
pub fn obeying_choice(random: &mut Random, file: &OrderFile) -> Vec<i64> {
    let steps = file.windows.len();
    let gaps = all_gaps(file);
    let reach = random.pick(&[0, 1, 3, 20, 300, 5_000, 2_000_000]);
    let mut places = vec![None; steps];
    places.push(Some(0));
    let mut waiting: Vec<usize> = (0..steps).collect();
    random.shuffle(&mut waiting);
    for step in waiting {
        let placed = || (0..=steps).filter_map(|other| Some((other, places[other]?)));
        let least = placed()
            .filter_map(|(other, start)| Some(start + gaps[other][step]?))
            .max()
            .expect("the beginning of time is placed");
        let most = placed()
            .filter_map(|(other, start)| Some(start - gaps[step][other]?))
            .min();
        let most = most.unwrap_or(i64::MAX).min(least + reach);
        places[step] = Some(match random.below(4) {
            0 => least,
            1 => most,
            _ => random.between(least, most),
        });
    }
    places.into_iter().take(steps).flatten().collect()
}

/// The largest gap from each step to each other along any way of orders and windows. The last row
/// and column stand for the beginning of time, to which windows tie the steps.
fn all_gaps(file: &OrderFile) -> Vec<Vec<Option<i64>>> {
    let beginning = file.windows.len();
    let mut gaps = vec![vec![None; beginning + 1]; beginning + 1];
    for order in &file.orders {
        gaps[order.first][order.second] = Some(order.gap);
    }
    for (step, window) in file.windows.iter().enumerate() {
        gaps[beginning][step] = Some(window.limit);
        gaps[step][beginning] = window.latest.map(|latest| -latest);
    }
    for between in 0..=beginning {
        for from in 0..=beginning {
            for to in 0..=beginning {
                if let (Some(one), Some(other)) = (gaps[from][between], gaps[between][to]) {
                    gaps[from][to] = gaps[from][to].max(Some(one + other));
                }
            }
        }
    }
    gaps
}
