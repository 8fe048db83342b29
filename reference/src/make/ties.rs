//! Sound jobs in which several effects give a value at one tick, each named for what a mistaken
//! version would miss. A condition's tie goes first to its own step, then to the lower effect, then
//! to a timed fact; a goal's to the lower effect, then to a timed fact.

use crate::job::{Job, HIGHEST};

// ---------------------------------------------------------------------------------------------
// Conditions

/// The lower effect, not the lower step.
pub fn tie_goes_to_the_lower_effect() -> Job {
    Job::with_facts(&[0])
        .step(3, 2)
        .step(1, 4)
        .step(9, 1)
        .condition(2, 0, 0, 1, 1)
        .effect(1, 0, 4, 1)
        .effect(0, 0, 2, 1)
        .goal_by(0, 1, 8)
}

/// Step 0 gives the fact at its end, tick 10; step 1, in which it is wanted from 5 on, gives it at
/// that tick too.
fn of_a_step_and_another() -> Job {
    Job::with_facts(&[0])
        .step(0, 10)
        .step(8, 9)
        .condition(1, 0, 5, 9, 1)
}

/// The other step's effect has the lower number, and would be ordered 6 ticks before: a round more.
pub fn own_step_beats_a_lower_number() -> Job {
    of_a_step_and_another()
        .effect(0, 0, 10, 1)
        .effect(1, 0, 2, 1)
}

pub fn own_step_with_the_lower_number() -> Job {
    of_a_step_and_another()
        .effect(1, 0, 2, 1)
        .effect(0, 0, 10, 1)
}

/// Of two effects of the own step the lower, though another step's is lower than both.
pub fn lower_of_two_effects_of_the_own_step() -> Job {
    of_a_step_and_another()
        .effect(0, 0, 10, 1)
        .effect(1, 0, 2, 1)
        .effect(1, 0, 2, 1)
}

pub fn another_step_between_two_effects_of_the_own() -> Job {
    of_a_step_and_another()
        .effect(1, 0, 2, 1)
        .effect(0, 0, 10, 1)
        .effect(1, 0, 2, 1)
}

/// The same with the own step's number lower than the other's.
pub fn two_effects_of_the_own_lower_step() -> Job {
    Job::with_facts(&[0, 0])
        .step(8, 9)
        .step(0, 10)
        .condition(0, 0, 5, 9, 1)
        .effect(1, 0, 10, 1)
        .effect(0, 1, 2, 1)
        .effect(0, 0, 2, 1)
        .effect(0, 0, 2, 1)
}

/// The own step's effect has the highest number of three, and its step lies between the others.
pub fn own_step_after_two_others() -> Job {
    Job::with_facts(&[0])
        .step(2, 8)
        .step(8, 9)
        .step(0, 10)
        .condition(1, 0, 4, 4, 1)
        .effect(2, 0, 10, 1)
        .effect(0, 0, 8, 1)
        .effect(1, 0, 2, 1)
}

/// One tie for three conditions: two of them have an effect of their own step in it.
pub fn each_condition_has_its_own() -> Job {
    Job::with_facts(&[0])
        .step(5, 20)
        .step(8, 9)
        .step(12, 2)
        .condition(2, 0, 0, 2, 1)
        .condition(1, 0, 3, 3, 1)
        .condition(0, 0, 8, 20, 1)
        .effect(1, 0, 2, 1)
        .effect(0, 0, 5, 1)
}

/// What the own step sets at that tick is another fact.
pub fn own_step_sets_another_fact() -> Job {
    Job::with_facts(&[0, 0])
        .step(0, 10)
        .step(8, 9)
        .step(4, 6)
        .condition(1, 0, 5, 9, 1)
        .effect(0, 0, 10, 1)
        .effect(1, 1, 2, 1)
        .effect(2, 0, 6, 1)
}

/// A third step is a tick earlier, so there is no tie, whatever the numbers.
pub fn third_step_before_the_tie() -> Job {
    of_a_step_and_another()
        .step(4, 5)
        .effect(1, 0, 2, 1)
        .effect(0, 0, 10, 1)
        .effect(2, 0, 5, 1)
}

/// The own step gives it too, but only at the condition's first tick.
pub fn own_step_at_the_first_tick() -> Job {
    of_a_step_and_another()
        .effect(1, 0, 5, 1)
        .effect(0, 0, 10, 1)
}

/// The tie lies at the condition's first tick, and does not support it.
pub fn tie_at_the_first_tick() -> Job {
    of_a_step_and_another()
        .step(5, 8)
        .effect(1, 0, 5, 1)
        .effect(2, 0, 8, 1)
        .effect(0, 0, 10, 1)
}

/// An earlier tie, before an opposing effect, does not support.
pub fn tie_after_an_opposing_effect() -> Job {
    Job::with_facts(&[1])
        .step(0, 12)
        .step(1, 20)
        .step(7, 2)
        .condition(1, 0, 14, 20, 1)
        .effect(1, 0, 3, 1)
        .effect(0, 0, 4, 1)
        .effect(2, 0, 2, 0)
        .effect(0, 0, 10, 1)
        .effect(1, 0, 9, 1)
}

/// The initial state, though the own step gives the value too.
pub fn initial_state_before_the_own_step() -> Job {
    Job::with_facts(&[1])
        .step(0, 10)
        .step(8, 9)
        .condition(1, 0, 5, 9, 1)
        .effect(0, 0, 10, 1)
        .effect(1, 0, 2, 1)
}

/// Everything of the value 0.
pub fn own_step_gives_zero() -> Job {
    Job::with_facts(&[1])
        .step(0, 10)
        .step(8, 9)
        .condition(1, 0, 5, 9, 0)
        .effect(0, 0, 10, 0)
        .effect(1, 0, 2, 0)
        .goal_by(0, 0, 10)
}

pub fn own_step_is_fixed() -> Job {
    let mut job = own_step_beats_a_lower_number();
    job.steps[1].fixed = 1;
    job
}

/// The other step is fixed: ordered after it, the own step could not start before 6.
pub fn other_step_of_the_tie_is_fixed() -> Job {
    let mut job = own_step_beats_a_lower_number();
    job.steps[0].fixed = 1;
    job
}

/// In each of the steps there is a condition on what it gives itself.
pub fn each_step_supports_itself() -> Job {
    let mut job = Job::with_facts(&[0]);
    for step in 0..5 {
        job = job
            .step(10 - step, 20)
            .condition(step as usize, 0, 2 + step, 20, 1)
    }
    for step in [3, 1, 4, 0, 2] {
        job = job.effect(step as usize, 0, step, 1);
    }
    job
}

// ---------------------------------------------------------------------------------------------
// Goals

/// Goals keep the lower effect, though goal 0 has the number of the other step.
pub fn goals_keep_the_lower_effect() -> Job {
    Job::with_facts(&[0])
        .step(3, 2)
        .step(1, 4)
        .effect(1, 0, 4, 1)
        .effect(0, 0, 2, 1)
        .goal_by(0, 1, 8)
        .goal_by(0, 1, 9)
}

/// The condition's own step is not the goal's.
pub fn goal_and_condition_of_one_tie() -> Job {
    own_step_beats_a_lower_number().goal_by(0, 1, 12)
}

// ---------------------------------------------------------------------------------------------
// Beside the clock

/// The own step comes before a lower number and the clock.
pub fn own_step_beside_another_and_the_clock() -> Job {
    own_step_beats_a_lower_number().timed(0, 10, 1)
}

/// The other step's effect comes before the clock, for a condition of step 0 too.
pub fn another_step_beside_the_clock() -> Job {
    Job::with_facts(&[0])
        .step(14, 3)
        .step(0, 10)
        .condition(0, 0, 0, 3, 1)
        .effect(1, 0, 10, 1)
        .timed(0, 10, 1)
        .timed(0, 10, 1)
}

/// The own effect is tied with the clock, and another step gives the value later.
pub fn own_step_beside_the_clock_and_another_later() -> Job {
    Job::with_facts(&[0])
        .step(0, 11)
        .step(8, 9)
        .condition(1, 0, 5, 9, 1)
        .effect(0, 0, 11, 1)
        .effect(1, 0, 2, 1)
        .timed(0, 10, 1)
}

/// The clock is a tick earlier, so there is no tie.
pub fn clock_before_the_tie() -> Job {
    own_step_beats_a_lower_number().timed(0, 9, 1)
}

/// The tie follows what the clock takes away.
pub fn tie_after_an_opposing_timed_fact() -> Job {
    own_step_beats_a_lower_number()
        .timed(0, 2, 1)
        .timed(0, 9, 0)
        .timed(0, 10, 1)
}

/// The clock is of no step, so no condition and no goal has it as its own.
pub fn goal_of_a_step_beside_the_clock() -> Job {
    Job::with_facts(&[0])
        .step(3, 2)
        .effect(0, 0, 2, 1)
        .timed(0, 5, 1)
        .goal_by(0, 1, 8)
}

pub fn goals_of_two_steps_beside_the_clock() -> Job {
    goals_keep_the_lower_effect().timed(0, 5, 1)
}

/// Of a tie of the clock alone the lower, for a condition of step 0 too.
pub fn tie_of_the_clock_alone() -> Job {
    Job::with_facts(&[0])
        .step(9, 1)
        .condition(0, 0, 0, 1, 1)
        .effect(0, 0, 1, 1)
        .timed(0, 5, 1)
        .timed(0, 5, 1)
        .goal_by(0, 1, 5)
}

// ---------------------------------------------------------------------------------------------
// As many as there can be

/// 512 effects give one fact at tick 100, one after another by all steps. Each step has eight
/// conditions on it, and there are 32 goals.
pub fn every_step_in_one_tie() -> Job {
    one_tie(|number| (number * 29 + 7) % 64, |number| number % 64)
}

/// The same given by 32 of the steps, and wanted by the others.
pub fn no_own_step_in_one_tie() -> Job {
    one_tie(|number| 63 - 2 * (number % 32), |number| 2 * (number % 32))
}

/// The clock gives it at that tick too, 64 times.
pub fn every_step_and_the_clock_in_one_tie() -> Job {
    beside_the_clock(every_step_in_one_tie())
}

pub fn no_own_step_and_the_clock_in_one_tie() -> Job {
    beside_the_clock(no_own_step_in_one_tie())
}

fn beside_the_clock(job: Job) -> Job {
    (0..HIGHEST[7]).fold(job, |job, _| job.timed(0, 100, 1))
}

/// The step of each effect, and of each condition.
fn one_tie(giving: impl Fn(usize) -> usize, wanting: impl Fn(usize) -> usize) -> Job {
    let [_, _, steps, conditions, effects, _, goals, ..] = HIGHEST;
    let mut job = Job::with_facts(&[0]);
    for step in 0..steps as i64 {
        job = job.step(100 - step, 200);
    }
    for number in 0..conditions {
        let step = wanting(number);
        let from = (step + 1 + number / steps) as i64;
        job = job.condition(step, 0, from, 200, 1);
    }
    for number in 0..effects {
        let step = giving(number);
        job = job.effect(step, 0, step as i64, 1);
    }
    (0..goals).fold(job, |job, goal| job.goal_by(0, 1, 100 + goal as i64))
}

// ---------------------------------------------------------------------------------------------

/// All small ones of edition 1, with their names.
pub fn ties() -> Vec<(&'static str, Job)> {
    by_name![
        tie_goes_to_the_lower_effect,
        own_step_beats_a_lower_number,
        own_step_with_the_lower_number,
        lower_of_two_effects_of_the_own_step,
        another_step_between_two_effects_of_the_own,
        two_effects_of_the_own_lower_step,
        own_step_after_two_others,
        each_condition_has_its_own,
        own_step_sets_another_fact,
        third_step_before_the_tie,
        own_step_at_the_first_tick,
        tie_at_the_first_tick,
        tie_after_an_opposing_effect,
        initial_state_before_the_own_step,
        own_step_gives_zero,
        own_step_is_fixed,
        other_step_of_the_tie_is_fixed,
        each_step_supports_itself,
        goals_keep_the_lower_effect,
        goal_and_condition_of_one_tie,
    ]
}

/// All small ones of edition 2.
pub fn timed_ties() -> Vec<(&'static str, Job)> {
    by_name![
        own_step_beside_another_and_the_clock,
        another_step_beside_the_clock,
        own_step_beside_the_clock_and_another_later,
        clock_before_the_tie,
        tie_after_an_opposing_timed_fact,
        goal_of_a_step_beside_the_clock,
        goals_of_two_steps_beside_the_clock,
        tie_of_the_clock_alone,
    ]
}

/// Those with 512 effects in one tie, of edition 1.
pub fn largest_ties() -> Vec<(&'static str, Job)> {
    by_name![every_step_in_one_tie, no_own_step_in_one_tie]
}

/// And of edition 2.
pub fn largest_timed_ties() -> Vec<(&'static str, Job)> {
    by_name![
        every_step_and_the_clock_in_one_tie,
        no_own_step_and_the_clock_in_one_tie,
    ]
}
