//! Mistaken searches for a fact that a step sets both ways: the jobs made by hand tell each of
//! them from the right one, and so do made jobs.

use std::cmp::Reverse;

use reference::job::{Effect, Job};
use reference::make::crowded::crowded_job;
use reference::make::pairs::{large_pairs, small_pairs};
use reference::pairs::search;
use reference::random::Random;
use reference::well_formed::in_range;

const NONE: usize = 65_535;

/// A step, a lower effect and a higher one.
type Pair = (usize, usize, usize);

/// The place and the count.
type Found = (usize, usize);

type Mistake = (&'static str, fn(&Job) -> Found);

/// Any two effects, of one step or not, by the lower; the step is that of the lower.
fn any_two(job: &Job) -> Vec<Pair> {
    let numbers = 0..job.effects.len();
    let two = numbers.flat_map(|lower| (lower + 1..job.effects.len()).map(move |h| (lower, h)));
    two.map(|(lower, higher)| (job.effects[lower].step, lower, higher))
        .collect()
}

fn of_one_step(job: &Job) -> Vec<Pair> {
    let mut pairs = any_two(job);
    pairs.retain(|&(step, _, higher)| job.effects[higher].step == step);
    pairs.sort();
    pairs
}

fn sorted_by<K: Ord>(job: &Job, key: impl Fn(&Pair) -> K) -> Vec<Pair> {
    let mut pairs = of_one_step(job);
    pairs.sort_by_key(key);
    pairs
}

fn only(job: &Job, counts: impl Fn(&Effect, &Effect) -> bool) -> Vec<Pair> {
    let mut pairs = of_one_step(job);
    pairs.retain(|&(_, lower, higher)| counts(&job.effects[lower], &job.effects[higher]));
    pairs
}

fn both_ways(a: &Effect, b: &Effect) -> bool {
    a.fact == b.fact && a.at == b.at && a.value != b.value
}

/// Where the search ends that compares these pairs and finds what is both ways.
fn end(job: &Job, pairs: Vec<Pair>, is_found: impl Fn(&Effect, &Effect) -> bool) -> Found {
    let found = |&(_, lower, higher): &Pair| is_found(&job.effects[lower], &job.effects[higher]);
    match pairs.iter().position(found) {
        Some(first) => (pairs[first].0, first + 1),
        None => (NONE, pairs.len()),
    }
}

fn right(job: &Job) -> Found {
    end(job, of_one_step(job), both_ways)
}

fn comparing(job: &Job, pairs: Vec<Pair>) -> Found {
    end(job, pairs, both_ways)
}

fn finding(job: &Job, is_found: impl Fn(&Effect, &Effect) -> bool) -> Found {
    end(job, of_one_step(job), is_found)
}

fn tick(job: &Job, effect: &Effect) -> i64 {
    job.steps[effect.step].start + effect.at
}

/// Which pairs are compared, and in which order.
fn mistaken_pairs() -> Vec<Mistake> {
    vec![
        ("by the higher, then the lower", |job| {
            comparing(job, sorted_by(job, |&(step, l, h)| (step, h, l)))
        }),
        ("by the effects, not the steps", |job| {
            comparing(job, sorted_by(job, |&(_, l, h)| (l, h)))
        }),
        ("from the last step down", |job| {
            comparing(job, sorted_by(job, |&(step, l, h)| (Reverse(step), l, h)))
        }),
        ("from the last higher down", |job| {
            comparing(job, sorted_by(job, |&(step, l, h)| (step, l, Reverse(h))))
        }),
        ("from the last lower down", |job| {
            comparing(job, sorted_by(job, |&(step, l, h)| (step, Reverse(l), h)))
        }),
        ("effects of different steps", |job| {
            comparing(job, any_two(job))
        }),
        ("each pair from both sides", |job| {
            let pairs = of_one_step(job).into_iter();
            let both = pairs.flat_map(|(step, l, h)| [(step, l, h), (step, h, l)]);
            let mut both: Vec<Pair> = both.collect();
            both.sort();
            comparing(job, both)
        }),
        ("an effect with itself", |job| {
            let mut pairs = of_one_step(job);
            let effects = job.effects.iter().enumerate();
            pairs.extend(effects.map(|(number, effect)| (effect.step, number, number)));
            pairs.sort();
            comparing(job, pairs)
        }),
        ("neighbours in the table", |job| {
            let mut pairs = of_one_step(job);
            pairs.retain(|&(_, l, h)| h == l + 1);
            comparing(job, pairs)
        }),
        ("pairs on one fact", |job| {
            comparing(job, only(job, |a, b| a.fact == b.fact))
        }),
        ("pairs at one tick", |job| {
            comparing(job, only(job, |a, b| a.at == b.at))
        }),
        ("pairs of different values", |job| {
            comparing(job, only(job, |a, b| a.value != b.value))
        }),
        ("without the last step", |job| {
            let mut pairs = of_one_step(job);
            pairs.retain(|&(step, _, _)| step + 1 < job.steps.len());
            comparing(job, pairs)
        }),
        ("the first step with effects only", |job| {
            let mut pairs = of_one_step(job);
            let first = job.effects.iter().map(|effect| effect.step).min();
            pairs.retain(|&(step, _, _)| Some(step) == first);
            comparing(job, pairs)
        }),
        ("without the last effect", |job| {
            let mut pairs = of_one_step(job);
            pairs.retain(|&(_, _, h)| h + 1 < job.effects.len());
            comparing(job, pairs)
        }),
    ]
}

/// What is taken for both ways.
fn mistaken_finds() -> Vec<Mistake> {
    vec![
        ("at any tick", |job| {
            finding(job, |a, b| a.fact == b.fact && a.value != b.value)
        }),
        ("on any fact", |job| {
            finding(job, |a, b| a.at == b.at && a.value != b.value)
        }),
        ("with any value", |job| {
            finding(job, |a, b| a.fact == b.fact && a.at == b.at)
        }),
        ("ticks by their lowest 8 bits", |job| {
            finding(job, |a, b| {
                a.fact == b.fact && a.at % 256 == b.at % 256 && a.value != b.value
            })
        }),
        ("ticks by their lowest 16 bits", |job| {
            finding(job, |a, b| {
                a.fact == b.fact && a.at % 65_536 == b.at % 65_536 && a.value != b.value
            })
        }),
        ("1, then 0", |job| {
            finding(job, |a, b| both_ways(a, b) && a.value == 1)
        }),
        ("0, then 1", |job| {
            finding(job, |a, b| both_ways(a, b) && a.value == 0)
        }),
        ("by the clock, of different steps too", |job| {
            end(job, any_two(job), |a, b| {
                a.fact == b.fact && tick(job, a) == tick(job, b) && a.value != b.value
            })
        }),
    ]
}

/// What is returned.
fn mistaken_counts() -> Vec<Mistake> {
    vec![
        ("all pairs, found or not", |job| {
            (right(job).0, of_one_step(job).len())
        }),
        ("to the end of the step", |job| {
            let (found, _) = right(job);
            let pairs = of_one_step(job).into_iter();
            (found, pairs.filter(|&(step, _, _)| step <= found).count())
        }),
        ("the step's own pairs", |job| {
            let (found, compared) = right(job);
            let before = of_one_step(job).into_iter();
            let before = before.filter(|&(step, _, _)| found != NONE && step < found);
            (found, compared - before.count())
        }),
        ("without the pair found", |job| match right(job) {
            (NONE, compared) => (NONE, compared),
            (found, compared) => (found, compared - 1),
        }),
        ("one more where none is found", |job| match right(job) {
            (NONE, compared) => (NONE, compared + 1),
            found => found,
        }),
        ("none where none is found", |job| match right(job) {
            (NONE, _) => (NONE, 0),
            found => found,
        }),
        ("in a u16", |job| {
            let (found, compared) = right(job);
            (found, compared % 65_536)
        }),
        ("at most what a u16 holds", |job| {
            let (found, compared) = right(job);
            (found, compared.min(65_535))
        }),
        ("step 0 where none is found", |job| match right(job) {
            (NONE, compared) => (0, compared),
            found => found,
        }),
        ("the lower effect for the step", |job| {
            let pairs = of_one_step(job);
            let (found, compared) = right(job);
            match found {
                NONE => (NONE, compared),
                _ => (pairs[compared - 1].1, compared),
            }
        }),
    ]
}

fn searched(job: &Job) -> Found {
    let answer = search(&job.to_file());
    assert_eq!(answer.number, 0);
    (usize::from(answer.place), answer.compared)
}

fn by_hand() -> Vec<Job> {
    let jobs = [small_pairs(), large_pairs()].concat().into_iter();
    jobs.filter(|job| in_range(&job.to_file()).is_ok())
        .collect()
}

fn mistakes() -> Vec<Mistake> {
    [mistaken_pairs(), mistaken_finds(), mistaken_counts()].concat()
}

#[test]
fn jobs_by_hand_tell_each_mistake() {
    let jobs = by_hand();
    for job in &jobs {
        assert_eq!(searched(job), right(job), "{job:?}");
    }
    for (mistake, mistaken) in mistakes() {
        let told = jobs.iter().filter(|job| mistaken(job) != searched(job));
        assert!(told.count() > 0, "no job tells: {mistake}");
    }
}

/// But those which only a long step or a full job shows.
#[test]
fn made_jobs_tell_each_mistake() {
    let rare = [
        "ticks by their lowest 16 bits",
        "in a u16",
        "at most what a u16 holds",
    ];
    let mut random = Random::seeded(12);
    let jobs: Vec<Job> = (0..500).map(|_| crowded_job(&mut random, 1)).collect();
    for (mistake, mistaken) in mistakes() {
        let told = jobs.iter().filter(|job| mistaken(job) != searched(job));
        let told = told.count();
        assert!(told >= 10 || rare.contains(&mistake), "{told}: {mistake}");
    }
}
