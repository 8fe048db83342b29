//! Each refusal has its sentence: what the edges say, and that made cases leave none out.

use std::collections::BTreeMap;

use reference::cases::{answer, COMMANDS};
use reference::job::Job;
use reference::made::made_case_of;
use reference::make::near_miss::{near_miss, nearly_missed};
use reference::make::{checking_order, damage, edges, own_conflicts, ranges, timings};
use reference::random::Random;
use reference::refusal::number_and_place;
use reference::timing::{check_job, check_timing};
use reference::well_formed::well_formed;

const GOOD: (u16, u16) = (0, 65_535);

fn well_formedness(file: &[u8]) -> (u16, u16) {
    number_and_place(&well_formed(file))
}

fn all_well_formedness(jobs: Vec<Job>) -> Vec<(u16, u16)> {
    let jobs = jobs.iter();
    jobs.map(|job| well_formedness(&job.to_file())).collect()
}

fn checked(jobs: Vec<Job>) -> Vec<(u16, u16)> {
    let jobs = jobs.iter();
    jobs.map(|job| number_and_place(&check_job(&job.to_file())))
        .collect()
}

// ---------------------------------------------------------------------------------------------
// 1 to 5

#[test]
fn refusals_1_to_5_name_no_record() {
    let file = damage::full_job().to_file();
    assert_eq!(well_formedness(&file), GOOD);
    let short = damage::too_short(&file);
    assert!(short[..49]
        .iter()
        .all(|file| well_formedness(file) == (1, 65_535)));
    assert_eq!(well_formedness(&short[49]), (2, 65_535));
    for file in damage::wrong_editions(&file) {
        assert_eq!(well_formedness(&file), (2, 65_535));
    }
    let marks = damage::wrong_marks(&file);
    assert_eq!(well_formedness(&marks[0]), GOOD);
    assert_eq!(well_formedness(&marks[1]), GOOD);
    assert!(marks[2..]
        .iter()
        .all(|file| well_formedness(file) == (3, 65_535)));
    for file in [damage::wrong_offsets(&file), damage::wrong_lengths(&file)].concat() {
        assert_eq!(well_formedness(&file), (5, 65_535));
    }
}

#[test]
fn counts_at_their_highest_and_one_above() {
    for (edition, tables) in [(1, 7), (2, 8), (3, 9)] {
        let at = all_well_formedness(damage::counts_at_highest(edition));
        assert_eq!(at, vec![GOOD; tables]);
        let above = all_well_formedness(damage::counts_one_above(edition));
        assert_eq!(above, vec![(4, 65_535); tables]);
    }
}

#[test]
fn one_of_each_comes_in_checking_order() {
    let numbers = |edition| -> Vec<u16> {
        let files = checking_order::one_of_each(edition);
        let verdicts = files.iter().map(|file| well_formedness(file));
        verdicts.map(|(number, _)| number).collect()
    };
    assert_eq!(numbers(1), [1, 2, 3, 4, 5, 6, 7]);
    assert_eq!(numbers(2), [1, 2, 3, 4, 5, 6, 7, 17]);
    assert_eq!(numbers(3), [1, 2, 3, 4, 5, 6, 7, 17]);
}

#[test]
fn of_two_refusals_the_one_checked_first_decides() {
    let numbers = checking_order::numbers_in_checking_order;
    assert_eq!(numbers(1), [2, 3, 3, 4, 4, 5, 6, 7, 11]);
    assert_eq!(numbers(2), [2, 3, 4, 4, 4, 5, 5, 6, 6, 7, 17, 11]);
    let of_edition_3 = [2, 3, 3, 4, 4, 4, 4, 5, 5, 5, 6, 6, 6, 7, 17, 11, 12, 21, 13];
    assert_eq!(numbers(3), of_edition_3);
    for edition in [1, 2, 3] {
        let numbers = numbers(edition);
        let mut expected = Vec::new();
        for (count, &number) in numbers.iter().enumerate() {
            expected.extend(&numbers[..count]);
            expected.extend([1, number.min(5), number]);
        }
        let files = checking_order::pairs_of_refusals(edition);
        let verdicts = files.iter().map(|file| check_job(file));
        let found: Vec<u16> = verdicts.map(|v| number_and_place(&v).0).collect();
        assert_eq!(found, expected);
    }
}

// ---------------------------------------------------------------------------------------------
// 6 and 7

#[test]
fn ranges_end_where_the_paper_says() {
    let job = damage::full_job();
    let level = |initial, least, most| job.clone().level(initial, least, most);
    let far = 1_000_000_000;
    let good = [
        level(far, -far, far),
        level(-far, -far, far),
        job.clone().step(1_000_000, 100_000),
        job.clone().condition(0, 2, 5, 5, 0),
        job.clone().effect(0, 2, 5, 0),
        job.clone().uses(2, 1, 4, 1_000_000),
        job.clone().uses(2, 1, 4, -1_000_000),
        job.clone().goal_by(2, 1, 1_100_000),
        job.clone().goal_by(2, 1, 4_294_967_295),
    ];
    assert_eq!(all_well_formedness(good.to_vec()), [GOOD; 9]);
    let broken = [
        (level(far + 1, -far, far + 1), 2),
        (level(0, -far - 1, far), 2),
        (level(0, 1, 2), 2),
        (level(3, 1, 2), 2),
        (job.clone().step(1_000_001, 0), 3),
        (job.clone().step(0, 100_001), 3),
        (job.clone().condition(3, 0, 0, 0, 0), 3),
        (job.clone().condition(0, 3, 0, 0, 0), 3),
        (job.clone().condition(0, 0, 2, 1, 0), 3),
        (job.clone().condition(0, 0, 5, 6, 0), 3),
        (job.clone().condition(0, 0, 0, 0, 2), 3),
        (job.clone().effect(3, 0, 0, 0), 2),
        (job.clone().effect(0, 3, 0, 0), 2),
        (job.clone().effect(0, 0, 6, 0), 2),
        (job.clone().effect(0, 0, 0, 2), 2),
        (job.clone().uses(3, 0, 0, 1), 3),
        (job.clone().uses(0, 2, 0, 1), 3),
        (job.clone().uses(0, 0, 6, 1), 3),
        (job.clone().uses(0, 0, 0, 0), 3),
        (job.clone().uses(0, 0, 0, 1_000_001), 3),
        (job.clone().uses(0, 0, 0, -1_000_001), 3),
        (job.clone().goal(3, 0), 2),
        (job.clone().goal(0, 2), 2),
        (job.clone().goal_by(0, 0, 1_100_001), 2),
        (job.clone().goal_by(0, 0, 4_294_967_294), 2),
    ];
    for (job, place) in broken {
        assert_eq!(well_formedness(&job.to_file()), (6, place), "{job:?}");
    }
}

#[test]
fn the_earlier_table_is_the_place_of_two_broken_records() {
    let found = all_well_formedness(ranges::two_broken_records(1));
    let places: Vec<u16> = found.iter().map(|&(_, place)| place).collect();
    // The first table's records are 7 and 8, the second's 6 and 7, and so on.
    assert_eq!(places[..10], [7, 7, 8, 7, 8, 6, 7, 8, 6, 7]);
    assert!(found.iter().all(|&(number, _)| number == 6));
    let mut job = damage::full_job();
    job.goals[0].value = 2;
    job.uses[2].amount = 0;
    assert_eq!(well_formedness(&job.to_file()), (6, 2));
    job.steps[2].fixed = 2;
    job.steps[1].fixed = 2;
    assert_eq!(well_formedness(&job.to_file()), (6, 1));
}

#[test]
fn steps_against_themselves() {
    let refused = (7, 0);
    assert_eq!(
        all_well_formedness(own_conflicts::setting_both_ways()),
        [refused, refused, GOOD, GOOD, GOOD, GOOD, refused]
    );
    assert_eq!(
        all_well_formedness(own_conflicts::using_twice()),
        [refused, refused, GOOD, GOOD, GOOD, refused]
    );
    assert_eq!(
        all_well_formedness(own_conflicts::opposing_the_own_condition()),
        [GOOD, refused, refused, GOOD, GOOD]
    );
    assert_eq!(
        all_well_formedness(own_conflicts::opposing_a_condition_of_one_tick()),
        [GOOD; 5]
    );
    assert_eq!(
        all_well_formedness(own_conflicts::not_opposing_the_own_condition()),
        [GOOD; 3]
    );
    assert_eq!(
        all_well_formedness(own_conflicts::lowest_step_across_the_parts()),
        [(7, 1); 6]
    );
    assert_eq!(
        all_well_formedness(own_conflicts::lower_step_named_by_later_records()),
        [(7, 1); 3]
    );
}

// ---------------------------------------------------------------------------------------------
// 8 to 13

#[test]
fn conditions_fail_at_their_edges() {
    let fails = (11, 0);
    assert_eq!(
        checked(edges::effect_at_the_first_tick_of_a_condition()),
        [fails, fails, GOOD, GOOD]
    );
    assert_eq!(
        checked(edges::another_step_opposes_a_condition()),
        [fails, fails, fails, fails, fails, GOOD, GOOD]
    );
    assert_eq!(
        checked(edges::the_own_step_opposes_a_condition()),
        [GOOD, GOOD, GOOD, fails, fails, fails]
    );
    assert_eq!(
        checked(edges::a_value_lost_in_between()),
        [fails, GOOD, fails, GOOD, fails]
    );
    assert_eq!(
        checked(edges::a_long_condition()),
        [fails, fails, fails, fails, GOOD]
    );
}

#[test]
fn levels_pass_their_bounds() {
    let passes = (12, 0);
    assert_eq!(
        checked(edges::rises_and_falls_at_one_tick()),
        [passes, GOOD, passes, passes]
    );
    assert_eq!(
        checked(edges::sums_of_one_tick()),
        [GOOD, passes, passes, GOOD, passes, passes]
    );
    let passes = (12, 1);
    assert_eq!(
        checked(edges::levels_at_their_bounds()),
        [GOOD, passes, passes, GOOD, passes, passes, GOOD, passes]
    );
}

#[test]
fn goals_fail_at_their_edges() {
    let fails = (13, 0);
    assert_eq!(
        checked(edges::deadlines_around_the_effect()),
        [fails, fails, GOOD, GOOD, GOOD]
    );
    let late = (13, 1);
    assert_eq!(
        checked(edges::goal_lost_and_regained()),
        [late, late, late, late, late, GOOD, GOOD]
    );
    assert_eq!(
        checked(edges::goals_that_fail()),
        [fails, fails, GOOD, fails, (13, 1)]
    );
}

#[test]
fn effects_meet() {
    let expected = [GOOD, (10, 1), GOOD, GOOD, GOOD];
    assert_eq!(checked(edges::meeting_effects()), expected);
}

#[test]
fn places_are_the_lowest_and_numbers_come_in_order() {
    let places = [(10, 1), (11, 1), (12, 1), (13, 1), (13, 1)];
    assert_eq!(checked(edges::lowest_places()), places);
    let numbers: Vec<u16> = checked(edges::lower_number_first())
        .into_iter()
        .map(|(number, _)| number)
        .collect();
    assert_eq!(numbers, [10, 11, 12, 10, 11, 10]);
}

#[test]
fn starts_past_counting_do_not_begin_again() {
    let verdicts: Vec<(u16, u16)> = timings::telling_timings()
        .iter()
        .map(|(job, starts)| number_and_place(&check_timing(&job.to_file(), starts)))
        .collect();
    let small_job = [GOOD, GOOD, (11, 0), GOOD, (11, 0), (11, 0), GOOD];
    let lengths = [8, 8, 8, 8, 0, 8].map(|number| (number, 65_535));
    let fixed = [
        GOOD,
        (9, 0),
        (9, 2),
        (9, 0),
        (9, 2),
        (9, 2),
        (13, 0),
        GOOD,
        (9, 1),
    ];
    let past = [
        (11, 0),
        (11, 0),
        GOOD,
        (11, 0),
        GOOD,
        (10, 0),
        GOOD,
        (11, 0),
        (11, 0),
        GOOD,
        GOOD,
        (12, 0),
        (12, 0),
        (13, 0),
        GOOD,
        (13, 0),
        (13, 0),
    ];
    let written = [GOOD, (11, 0)];
    let expected = [&small_job[..], &lengths, &fixed, &past, &written].concat();
    assert_eq!(verdicts, expected);
}

// ---------------------------------------------------------------------------------------------
// Made cases

#[test]
fn near_misses_are_refused_with_their_number() {
    let mut random = Random::seeded(3);
    for edition in [1, 2, 3] {
        for number in nearly_missed(edition) {
            for _ in 0..100 {
                let job = near_miss(&mut random, edition, number);
                assert_eq!(job.edition, edition);
                assert_eq!(checked(vec![job])[0].0, number);
            }
        }
    }
}

/// How often each number comes in made cases of a command: 4,000, or as many as it takes for these
/// numbers to come, which some do once in thousands.
fn numbers_of(edition: u16, command: char, wanted: &[u16]) -> BTreeMap<u16, usize> {
    let mut random = Random::seeded(9);
    let mut counts = BTreeMap::new();
    for made in 0..40_000 {
        if made >= 4_000 && wanted.iter().all(|number| counts.contains_key(number)) {
            break;
        }
        let case = made_case_of(edition, &mut random, command);
        let line = answer(&case).expect("a made case is answered");
        let number = line.split(' ').nth(1).and_then(|word| word.parse().ok());
        *counts.entry(number.expect("a number")).or_default() += 1;
    }
    counts
}

#[test]
fn made_cases_leave_no_refusal_out() {
    for (edition, command) in COMMANDS.chars().flat_map(|c| [(1, c), (2, c), (3, c)]) {
        let mut numbers: Vec<u16> = match command {
            'w' => (0..=7).collect(),
            'c' => (0..=7).chain(10..=13).collect(),
            't' => (0..=13).filter(|&number| number != 1).collect(),
            'l' => (0..=7).chain(10..=13).chain([15]).collect(),
            'p' => (0..=6).collect(),
            'f' => vec![0, 4, 6, 7, 10, 11, 12, 13, 15, 18, 19, 20],
            _ => vec![0, 16],
        };
        if edition > 1 && "wctl".contains(command) {
            numbers.push(17);
        }
        if edition > 2 && "ctl".contains(command) {
            numbers.push(21);
        }
        let counts = numbers_of(edition, command, &numbers);
        // A timing's file is never cut, but now and then takes another edition with a longer header.
        let by_chance = |number| command == 't' && number == 1;
        let found = counts.keys().copied().filter(|&number| !by_chance(number));
        let found: Vec<u16> = found.collect();
        assert_eq!(found, numbers, "{edition} {command} {counts:?}");
    }
}
