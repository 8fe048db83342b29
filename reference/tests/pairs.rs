//! The search for a fact that a step sets both ways: where it ends, and how many pairs it
//! compared.

use reference::job::{Effect, Job};
use reference::made::made_case_of;
use reference::make::crowded::crowded_job;
use reference::make::pairs::{
    all_effects_in_one_step, all_steps, beside_a_broken_record, beside_the_rest_of_7,
    beside_timed_facts, both_ways, each_pair_of_five, in_a_later_step, in_turn_in_the_table,
    in_two_steps, nearly_both_ways, of_two_steps, one_effect_too_many, several_at_one_tick,
    three_in_peace, two_pairs_of_five, without_pairs,
};
use reference::make::{checking_order, own_conflicts, timed_edges};
use reference::pairs::{search, Searched};
use reference::random::Random;
use reference::refusal::number_and_place;
use reference::well_formed::well_formed;

const NONE: u16 = 65_535;

/// The number, the place and the count.
fn searched(file: &[u8]) -> (u16, u16, usize) {
    let Searched {
        number,
        place,
        compared,
    } = search(file);
    (number, place, compared)
}

/// The place and the count of jobs that are in range.
fn found(jobs: Vec<Job>) -> Vec<(u16, usize)> {
    let found = |job: &Job| match searched(&job.to_file()) {
        (0, place, compared) => (place, compared),
        refused => panic!("{refused:?} of {job:?}"),
    };
    jobs.iter().map(found).collect()
}

fn none_found(compared: &[usize]) -> Vec<(u16, usize)> {
    compared.iter().map(|&count| (NONE, count)).collect()
}

fn found_in_step_0(compared: &[usize]) -> Vec<(u16, usize)> {
    compared.iter().map(|&count| (0, count)).collect()
}

// ---------------------------------------------------------------------------------------------
// By hand

#[test]
fn none_is_found() {
    assert_eq!(found(without_pairs()), none_found(&[0; 4]));
    assert_eq!(found(three_in_peace()), none_found(&[3; 3]));
    assert_eq!(found(nearly_both_ways()), none_found(&[1; 7]));
    assert_eq!(found(of_two_steps()), none_found(&[0, 0, 2]));
}

#[test]
fn the_search_ends_with_the_first_pair_found() {
    assert_eq!(found(both_ways()), found_in_step_0(&[1; 4]));
    let each = [1, 2, 3, 4, 5, 6, 7, 8, 9, 10];
    assert_eq!(found(each_pair_of_five()), found_in_step_0(&each));
    let two = [4, 3, 7, 1, 4, 6];
    assert_eq!(found(two_pairs_of_five()), found_in_step_0(&two));
    let mut several = found_in_step_0(&[2, 1, 1, 3, 2]);
    several.push((NONE, 6));
    assert_eq!(found(several_at_one_tick()), several);
}

#[test]
fn steps_go_from_0_up_and_their_counts_add_up() {
    assert_eq!(
        found(in_a_later_step()),
        [(2, 4), (2, 5), (2, 6), (NONE, 7)]
    );
    assert_eq!(
        found(in_two_steps()),
        [(0, 1), (1, 1), (0, 1), (1, 4), (1, 1)]
    );
    assert_eq!(
        found(in_turn_in_the_table()),
        [(NONE, 9), (0, 2), (1, 6), (2, 7), (2, 8), (1, 6), (0, 1)]
    );
}

#[test]
fn other_conflicts_play_no_part() {
    assert_eq!(
        found(beside_the_rest_of_7()),
        [(NONE, 1), (1, 2), (NONE, 1), (1, 2)]
    );
    assert_eq!(
        found(beside_timed_facts()),
        [(NONE, 0), (NONE, 0), (NONE, 1), (1, 1), (NONE, 1)]
    );
    let refused = |job: &Job| number_and_place(&well_formed(&job.to_file()));
    let numbers: Vec<(u16, u16)> = beside_timed_facts().iter().map(refused).collect();
    assert_eq!(numbers, [(0, NONE), (17, 0), (17, 0), (7, 1), (17, 0)]);
}

#[test]
fn steps_against_themselves() {
    let mut both_ways = found_in_step_0(&[1, 1]);
    both_ways.extend(none_found(&[1, 1, 1, 0]));
    both_ways.push((0, 4));
    assert_eq!(found(own_conflicts::setting_both_ways()), both_ways);
    let without = [
        own_conflicts::using_twice(),
        own_conflicts::opposing_the_own_condition(),
        own_conflicts::opposing_a_condition_of_one_tick(),
        own_conflicts::not_opposing_the_own_condition(),
    ]
    .concat();
    let count = without.len();
    assert_eq!(found(without), none_found(&vec![0; count]));
    // The step that sets a fact both ways has no pair before it.
    assert_eq!(
        found(own_conflicts::lowest_step_across_the_parts()),
        [(1, 1), (1, 1), (2, 1), (2, 1), (3, 1), (3, 1)]
    );
    assert_eq!(
        found(own_conflicts::lower_step_named_by_later_records()),
        [(1, 1), (NONE, 0), (NONE, 0)]
    );
}

#[test]
fn timed_facts_both_ways_are_not_searched() {
    let jobs = [
        timed_edges::timed_facts_both_ways(),
        timed_edges::lowest_of_several_pairs(),
    ]
    .concat();
    assert_eq!(found(jobs), none_found(&[0; 11]));
}

#[test]
fn as_many_pairs_as_there_can_be() {
    assert_eq!(
        found(all_steps()),
        [(NONE, 1_792), (63, 1_792), (63, 1_765)]
    );
    let mut crowded = none_found(&[130_816]);
    let compared = [130_816, 1, 511, 512, 65_535, 65_536, 65_537];
    crowded.extend(found_in_step_0(&compared));
    assert_eq!(found(all_effects_in_one_step()), crowded);
}

#[test]
fn what_1_to_6_refuse_is_not_searched() {
    for edition in [1, 2, 3] {
        let files = checking_order::one_of_each(edition);
        let answers: Vec<_> = files.iter().map(|file| searched(file)).collect();
        let nowhere = [1, 2, 3, 4, 5].map(|number| (number, NONE, 0));
        assert_eq!(answers[..5], nowhere);
        // What 7 and 17 refuse is searched.
        assert_eq!(answers[5..7], [(6, 1, 0), (0, 1, 1)]);
        let seventeen = vec![(0, NONE, 0); answers.len() - 7];
        assert_eq!(answers[7..], seventeen);
    }
}

#[test]
fn a_broken_record_comes_before_a_pair() {
    let places = [2, 0, 2, 0, 2, 2, 0, 0];
    let jobs = beside_a_broken_record();
    let answers: Vec<_> = jobs.iter().map(|job| searched(&job.to_file())).collect();
    assert_eq!(answers, places.map(|place| (6, place, 0)));
    let many = one_effect_too_many().to_file();
    assert_eq!(searched(&many), (4, NONE, 0));
}

// ---------------------------------------------------------------------------------------------
// Made jobs

/// Every two effects of one step, sorted as they are to be compared, whatever order they are
/// found in.
fn all_pairs(effects: &[Effect]) -> Vec<(usize, usize, usize)> {
    let numbers = 0..effects.len();
    let two = numbers.flat_map(|higher| (0..higher).map(move |lower| (lower, higher)));
    let of_one_step = two.filter(|&(lower, higher)| effects[lower].step == effects[higher].step);
    let mut pairs: Vec<_> = of_one_step
        .map(|(lower, higher)| (effects[lower].step, lower, higher))
        .collect();
    pairs.sort();
    pairs
}

fn is_both_ways(effects: &[Effect], lower: usize, higher: usize) -> bool {
    let (one, other) = (effects[lower], effects[higher]);
    one.opposes(other.fact, other.value) && one.at == other.at
}

/// By all pairs at once: the lowest step with a pair both ways, and how many come up to it.
fn expected(job: &Job) -> (u16, usize) {
    let pairs = all_pairs(&job.effects);
    let both_ways =
        |&(_, lower, higher): &(usize, usize, usize)| is_both_ways(&job.effects, lower, higher);
    let steps = pairs.iter().filter(|pair| both_ways(pair));
    let lowest = steps.map(|&(step, _, _)| step).min();
    match pairs.iter().position(both_ways) {
        Some(first) => (lowest.expect("a step") as u16, first + 1),
        None => (NONE, pairs.len()),
    }
}

#[test]
fn made_jobs_are_searched_as_all_pairs_say() {
    let mut random = Random::seeded(7);
    for edition in [1, 2, 3] {
        for _ in 0..5_000 {
            let job = crowded_job(&mut random, edition);
            assert_eq!(found(vec![job.clone()])[0], expected(&job), "{job:?}");
        }
    }
}

/// A pair found is what refusal 7 refuses, at that step or below it for another reason.
#[test]
fn a_pair_found_is_refused_by_7() {
    let mut random = Random::seeded(8);
    for _ in 0..5_000 {
        let job = crowded_job(&mut random, 1);
        let verdict = number_and_place(&well_formed(&job.to_file()));
        match found(vec![job.clone()])[0] {
            (NONE, _) if job.uses.is_empty() => assert_eq!(verdict, (0, NONE), "{job:?}"),
            (NONE, _) => assert_eq!(verdict, (7, job.uses[0].step as u16), "{job:?}"),
            (step, _) => {
                assert_eq!(verdict.0, 7);
                let twice = job.uses.iter().map(|used| used.step as u16);
                assert_eq!(verdict.1, twice.fold(step, u16::min), "{job:?}");
            }
        }
    }
}

#[derive(Debug, Default)]
struct Seen {
    refused: usize,
    without_pairs: usize,
    none: usize,
    first: usize,
    early: usize,
    late: usize,
    past_step_0: usize,
}

impl Seen {
    fn look(&mut self, file: &[u8]) {
        let count = match searched(file) {
            (0, NONE, 0) => &mut self.without_pairs,
            (0, NONE, _) => &mut self.none,
            (0, _, 1) => &mut self.first,
            (0, _, 2..10) => &mut self.early,
            (0, _, _) => &mut self.late,
            _ => &mut self.refused,
        };
        *count += 1;
        let past_step_0 = matches!(searched(file), (0, place, _) if (1..NONE).contains(&place));
        self.past_step_0 += usize::from(past_step_0);
    }
}

#[test]
fn made_cases_end_early_late_and_not_at_all() {
    for edition in [1, 2, 3] {
        let mut random = Random::seeded(9);
        let mut seen = Seen::default();
        for _ in 0..4_000 {
            let case = made_case_of(edition, &mut random, 'p');
            seen.look(&case.fields[0]);
        }
        let counts = [
            seen.refused,
            seen.without_pairs,
            seen.none,
            seen.first,
            seen.early,
            seen.late,
            seen.past_step_0,
        ];
        assert!(counts.iter().all(|&count| count >= 200), "{seen:?}");
    }
}
