//! Jobs for the search of a pair of effects: where it ends, and which pairs it counts.

use crate::job::{Effect, Job, HIGHEST};

/// So many steps at one start, and three facts.
fn steps(count: usize) -> Job {
    let job = Job::with_facts(&[0, 0, 0]);
    (0..count).fold(job, |job, _| job.step(5, 9))
}

/// One step with so many effects on one fact, each at its own tick; but the higher of each of
/// these pairs sets it the other way at the tick of the lower.
pub fn one_step_with(effects: usize, pairs: &[(usize, usize)]) -> Job {
    let job = Job::with_facts(&[0]).step(0, effects as i64);
    let mut job = (0..effects).fold(job, |job, number| {
        job.effect(0, 0, number as i64, (number % 2) as u16)
    });
    for &(lower, higher) in pairs {
        job.effects[higher] = other_way(job.effects[lower]);
    }
    job
}

fn other_way(effect: Effect) -> Effect {
    Effect {
        value: 1 - effect.value,
        ..effect
    }
}

// ---------------------------------------------------------------------------------------------
// None is found

/// No effects, or one a step.
pub fn without_pairs() -> Vec<Job> {
    vec![
        Job::default(),
        steps(1),
        steps(1).effect(0, 0, 2, 1),
        steps(3)
            .effect(0, 0, 2, 1)
            .effect(1, 0, 2, 0)
            .effect(2, 0, 2, 1),
    ]
}

/// Three effects of one step: on three facts, at three ticks, all equal.
pub fn three_in_peace() -> Vec<Job> {
    vec![
        steps(1)
            .effect(0, 0, 2, 1)
            .effect(0, 1, 2, 0)
            .effect(0, 2, 2, 1),
        steps(1)
            .effect(0, 0, 2, 1)
            .effect(0, 0, 3, 0)
            .effect(0, 0, 4, 1),
        steps(1)
            .effect(0, 0, 2, 1)
            .effect(0, 0, 2, 1)
            .effect(0, 0, 2, 1),
    ]
}

/// Two effects of one step that differ in one thing too many or too few: the tick, also by what
/// its lowest 8 or 16 bits do not tell, the fact, the value.
pub fn nearly_both_ways() -> Vec<Job> {
    let long = || Job::with_facts(&[0]).step(0, 100_000);
    vec![
        steps(1).effect(0, 0, 2, 1).effect(0, 0, 3, 0),
        steps(1).effect(0, 0, 3, 1).effect(0, 0, 2, 0),
        long().effect(0, 0, 1, 1).effect(0, 0, 257, 0),
        long().effect(0, 0, 1, 1).effect(0, 0, 65_537, 0),
        steps(1).effect(0, 0, 2, 1).effect(0, 1, 2, 0),
        steps(1).effect(0, 0, 2, 1).effect(0, 0, 2, 1),
        steps(1).effect(0, 0, 2, 0).effect(0, 0, 2, 0),
    ]
}

/// Two steps that set a fact both ways at one tick: as far from equal starts, or at a tick that
/// they reach from different ones; and with two effects each.
pub fn of_two_steps() -> Vec<Job> {
    vec![
        steps(2).effect(0, 0, 2, 1).effect(1, 0, 2, 0),
        steps(1).step(7, 9).effect(0, 0, 4, 1).effect(1, 0, 2, 0),
        steps(2)
            .effect(0, 0, 2, 1)
            .effect(1, 0, 2, 0)
            .effect(0, 1, 3, 0)
            .effect(1, 1, 3, 1),
    ]
}

// ---------------------------------------------------------------------------------------------
// One is found

/// Two effects both ways in either order, and at either end of the step.
pub fn both_ways() -> Vec<Job> {
    vec![
        steps(1).effect(0, 0, 2, 1).effect(0, 0, 2, 0),
        steps(1).effect(0, 0, 2, 0).effect(0, 0, 2, 1),
        steps(1).effect(0, 2, 0, 1).effect(0, 2, 0, 0),
        steps(1).effect(0, 2, 9, 1).effect(0, 2, 9, 0),
    ]
}

/// Each pair of five effects in turn, from the first to the last.
pub fn each_pair_of_five() -> Vec<Job> {
    let pairs = (0..5).flat_map(|lower| (lower + 1..5).map(move |higher| (lower, higher)));
    pairs.map(|pair| one_step_with(5, &[pair])).collect()
}

/// Two pairs of five effects: the lower effect decides, and only then the higher.
pub fn two_pairs_of_five() -> Vec<Job> {
    let two = [
        [(0, 4), (1, 2)],
        [(0, 3), (1, 2)],
        [(1, 4), (2, 3)],
        [(0, 1), (3, 4)],
        [(0, 4), (2, 3)],
        [(1, 3), (2, 4)],
    ];
    two.map(|pairs| one_step_with(5, &pairs)).to_vec()
}

/// More than two effects at one tick, by their values.
pub fn several_at_one_tick() -> Vec<Job> {
    let values: [&[u16]; 6] = [
        &[1, 1, 0],
        &[1, 0, 0],
        &[1, 0, 1],
        &[0, 0, 0, 1],
        &[1, 1, 0, 0],
        &[0, 0, 0, 0],
    ];
    let job = |values: &[u16]| {
        let values = values.iter();
        values.fold(steps(1), |job, &value| job.effect(0, 1, 4, value))
    };
    values.map(job).to_vec()
}

// ---------------------------------------------------------------------------------------------
// Several steps

/// Step 0 has three pairs, step 1 one effect, step 2 three pairs, of which each in turn is found
/// and then none; only then the pair of step 3 counts.
pub fn in_a_later_step() -> Vec<Job> {
    let job = |middle: (i64, u16), last: (i64, u16)| {
        steps(4)
            .effect(0, 0, 2, 1)
            .effect(0, 1, 2, 0)
            .effect(0, 0, 3, 0)
            .effect(1, 0, 2, 0)
            .effect(2, 0, 2, 1)
            .effect(2, 0, middle.0, middle.1)
            .effect(2, 0, last.0, last.1)
            .effect(3, 0, 2, 1)
            .effect(3, 0, 2, 1)
    };
    vec![
        job((2, 0), (4, 1)),
        job((3, 0), (2, 0)),
        job((3, 0), (3, 1)),
        job((3, 0), (4, 1)),
    ]
}

/// The lower step ends the search, though the effects of the higher come first in their table.
pub fn in_two_steps() -> Vec<Job> {
    let two = |one: usize, other: usize| {
        steps(3)
            .effect(one, 0, 2, 1)
            .effect(one, 0, 2, 0)
            .effect(other, 1, 3, 0)
            .effect(other, 1, 3, 1)
    };
    vec![
        two(0, 1),
        two(2, 1),
        two(2, 0),
        two(2, 1)
            .effect(0, 0, 2, 1)
            .effect(0, 1, 3, 0)
            .effect(0, 2, 3, 0),
        two(2, 1).effect(1, 0, 0, 1).effect(0, 0, 0, 1),
    ]
}

/// Three effects each of three steps, in turn in their table: none is found, then one of each
/// step; and the same with the steps from the last to the first.
pub fn in_turn_in_the_table() -> Vec<Job> {
    let peaceful = |step: fn(usize) -> usize| {
        (0..9).fold(steps(3), |job, number| {
            job.effect(step(number), number % 2, number as i64, 1)
        })
    };
    let up = |lower: usize, higher: usize| {
        let mut job = peaceful(|number| number % 3);
        job.effects[higher] = other_way(job.effects[lower]);
        job
    };
    let down = |lower: usize, higher: usize| {
        let mut job = peaceful(|number| 2 - number % 3);
        job.effects[higher] = other_way(job.effects[lower]);
        job
    };
    vec![
        peaceful(|number| number % 3),
        up(0, 6),
        up(4, 7),
        up(2, 5),
        down(0, 6),
        down(4, 7),
        down(2, 5),
    ]
}

// ---------------------------------------------------------------------------------------------
// Beside other faults

/// Refusal 7 for another reason in step 0, and a pair in step 1 or none.
pub fn beside_the_rest_of_7() -> Vec<Job> {
    let twice = || {
        steps(2)
            .level(0, -9, 9)
            .uses(0, 0, 2, 1)
            .uses(0, 0, 2, 1)
            .effect(0, 0, 2, 1)
            .effect(0, 1, 2, 0)
    };
    let opposing = || {
        steps(2)
            .condition(0, 0, 1, 3, 0)
            .effect(0, 0, 2, 1)
            .effect(0, 1, 2, 0)
    };
    vec![
        twice(),
        twice().effect(1, 0, 2, 1).effect(1, 0, 2, 0),
        opposing(),
        opposing().effect(1, 0, 2, 1).effect(1, 0, 2, 0),
    ]
}

/// What the clock sets makes no pair: against an effect, and against itself, where step 1 sets a
/// fact both ways too or does not.
pub fn beside_timed_facts() -> Vec<Job> {
    let clock = || steps(2).timed(0, 7, 1).timed(0, 7, 0);
    vec![
        steps(1).effect(0, 0, 2, 1).timed(0, 7, 0),
        clock(),
        clock().effect(0, 0, 2, 1).effect(0, 1, 2, 0),
        clock().effect(1, 0, 2, 1).effect(1, 0, 2, 0),
        clock().effect(1, 0, 2, 1).effect(1, 0, 2, 1),
    ]
}

/// What a step needs makes no pair, met or not, where it sets a fact both ways too or does not.
pub fn beside_needs() -> Vec<Job> {
    let needing = |least| {
        steps(2)
            .level(1, 0, 1)
            .need(1, 0, 2, least)
            .need(1, 0, 2, 1)
    };
    vec![
        needing(1),
        needing(2),
        needing(2).effect(1, 0, 2, 1).effect(1, 0, 2, 1),
        needing(2).effect(1, 0, 2, 1).effect(1, 0, 2, 0),
        needing(1).effect(0, 0, 2, 1).effect(1, 0, 2, 0),
    ]
}

/// A pair beside a record that breaks its range, table by table: refusal 6 comes first.
pub fn beside_a_broken_record() -> Vec<Job> {
    let pair = || steps(2).effect(1, 0, 2, 1).effect(1, 0, 2, 0);
    let mut fact = pair();
    fact.facts[2] = 2;
    vec![
        fact,
        pair().level(0, 1, 2),
        pair().step(5, 100_001),
        pair().condition(0, 0, 0, 10, 1),
        pair().effect(0, 0, 10, 1),
        pair().effect(2, 0, 0, 1),
        pair().level(0, 0, 2).uses(0, 0, 0, 0),
        pair().goal(3, 1),
    ]
}

// ---------------------------------------------------------------------------------------------
// The highest counts

/// 64 steps of eight effects: none is found, the last pair of all, the first of the last step.
pub fn all_steps() -> Vec<Job> {
    let steps = HIGHEST[2];
    let mut job = Job::with_facts(&[0]);
    job = (0..steps).fold(job, |job, step| job.step(step as i64, 7));
    job = (0..HIGHEST[4]).fold(job, |job, number| {
        job.effect(number % steps, 0, (number / steps) as i64, 1)
    });
    let both_ways = |lower: usize, higher: usize| {
        let mut job = job.clone();
        job.effects[higher] = other_way(job.effects[lower]);
        job
    };
    vec![job.clone(), both_ways(447, 511), both_ways(63, 127)]
}

/// 512 effects of one step: none is found, the last pair, the first, the last of the lowest, the
/// first of the next; then the pairs around the number that a u16 no longer holds.
pub fn all_effects_in_one_step() -> Vec<Job> {
    let pairs = [
        (510, 511),
        (0, 1),
        (0, 511),
        (1, 2),
        (150, 210),
        (150, 211),
        (150, 212),
    ];
    let mut jobs = vec![one_step_with(HIGHEST[4], &[])];
    jobs.extend(pairs.map(|pair| one_step_with(HIGHEST[4], &[pair])));
    jobs
}

/// 513 effects, of which the first two set a fact both ways: refusal 4.
pub fn one_effect_too_many() -> Job {
    one_step_with(HIGHEST[4] + 1, &[(0, 1)])
}

/// All that are small, of edition 1.
pub fn small_pairs() -> Vec<Job> {
    [
        without_pairs(),
        three_in_peace(),
        nearly_both_ways(),
        of_two_steps(),
        both_ways(),
        each_pair_of_five(),
        two_pairs_of_five(),
        several_at_one_tick(),
        in_a_later_step(),
        in_two_steps(),
        in_turn_in_the_table(),
        beside_the_rest_of_7(),
        beside_a_broken_record(),
    ]
    .concat()
}

/// Those with as many effects as there can be.
pub fn large_pairs() -> Vec<Job> {
    [all_steps(), all_effects_in_one_step()].concat()
}

/// A small job for damage: two effects set a fact both ways, and a third, of another step, is one
/// byte from being a pair with them.
pub fn for_damage(edition: u16) -> Job {
    let job = Job::with_facts(&[0, 1])
        .step(5, 4)
        .step(7, 3)
        .effect(1, 0, 2, 1)
        .effect(0, 0, 2, 0)
        .effect(1, 0, 2, 0);
    match edition {
        1 => job,
        _ => job.timed(0, 9, 1).edition(edition),
    }
}
