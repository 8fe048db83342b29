//! Made texts: what is put into words is read as it was meant, and every refusal occurs.

use std::collections::BTreeMap;

use super::*;
use reference::make::pddl::damage::disturb;
use reference::make::pddl::nudges::{some_nudge, NUDGED};
use reference::make::pddl::sound::sound_supply;
use reference::make::pddl::spelling::{spell, Spacing, Spelled};
use reference::make::pddl::supplied::Supplied;
use reference::make::pddl::{some_supply, some_texts, texts_of};
use reference::pddl::job_from_texts;
use reference::random::Random;
use reference::refusal::{number_and_place, Refusal};

/// What a supply's texts must be answered.
fn meant(supplied: &Supplied) -> Result<Vec<u8>, Refusal> {
    supplied.checked().map(|job| job.to_file())
}

#[test]
fn a_spelled_supply_gives_the_job_that_was_meant() {
    let mut random = Random::seeded(20);
    for _ in 0..1_000 {
        let supplied = sound_supply(&mut random);
        let (actions, plan) = texts_of(&mut random, &supplied);
        let file = job_from_texts(&actions, &plan);
        assert!(file.is_ok(), "{}", String::from_utf8_lossy(&actions));
        assert_eq!(file, meant(&supplied));
    }
}

#[test]
fn a_nudged_supply_is_refused_as_its_job_is() {
    let mut random = Random::seeded(21);
    for number in NUDGED {
        for _ in 0..40 {
            let supplied = some_nudge(&mut random, number);
            let (actions, plan) = texts_of(&mut random, &supplied);
            let refusal = job_from_texts(&actions, &plan).unwrap_err();
            assert_eq!(refusal.number, number);
            assert_eq!(meant(&supplied), Err(refusal));
        }
    }
}

#[test]
fn spacing_and_nesting_mean_nothing() {
    let mut random = Random::seeded(22);
    for _ in 0..300 {
        let supplied = some_supply(&mut random);
        let one = texts_of(&mut random, &supplied);
        let other = texts_of(&mut random, &supplied);
        let of = |(actions, plan): (Vec<u8>, Vec<u8>)| job_from_texts(&actions, &plan);
        assert_eq!(of(one), of(other));
    }
}

fn some_spelled(random: &mut Random) -> Spelled {
    let supplied = sound_supply(random);
    spell(random, &supplied)
}

/// The answer to an action text with each sign on a line to itself, and its end on the next.
fn by_lines(signs: &[String]) -> (u16, usize) {
    let lines = signs.iter().map(|sign| format!("{sign}\n"));
    let (number, line) = of_actions(lines.collect::<String>());
    (number, usize::from(line))
}

/// What has been passed begins some generated text: cut anywhere, only its end is at fault.
#[test]
fn a_text_that_is_cut_is_refused_at_its_end() {
    let mut random = Random::seeded(23);
    for _ in 0..40 {
        let signs = some_spelled(&mut random).actions;
        for passed in 0..signs.len() {
            assert_eq!(by_lines(&signs[..passed]), (18, passed));
        }
    }
}

#[test]
fn a_plan_that_is_cut_inside_a_line_is_refused_at_its_end() {
    let mut random = Random::seeded(24);
    for _ in 0..300 {
        let spelled = some_spelled(&mut random);
        let (actions, plan) = spelled.texts(&mut random, Spacing::Plain);
        let line_ends = |text: &[u8]| text.iter().filter(|&&byte| byte == b'\n').count();
        let spaces = (0..plan.len()).filter(|&at| plan[at] == b' ');
        for cut in spaces.map(|at| &plan[..at]) {
            assert_eq!(answer(&actions, cut), (18, line_ends(cut) as u16));
        }
    }
}

/// A disturbed text has its fault no earlier than where it was disturbed. Up to its fault it can
/// be continued, and whatever follows the fault changes nothing.
#[test]
fn a_fault_lies_at_the_first_sign_that_cannot_stand_there() {
    let mut random = Random::seeded(25);
    let mut faults = 0;
    for _ in 0..1_000 {
        let whole = some_spelled(&mut random).actions;
        let mut signs = whole.clone();
        disturb(&mut random, &mut signs);
        let same = whole.iter().zip(&signs).take_while(|(a, b)| a == b);
        let same = same.count();
        let (number, at) = by_lines(&signs);
        if number != 18 && number != 19 {
            continue;
        }
        faults += 1;
        assert!(at >= same, "{signs:?}");
        // Unless it is a whole text already, only its end is at fault.
        let (cut_number, cut_at) = by_lines(&signs[..at]);
        assert!(
            (18, at) == (cut_number, cut_at) || cut_number < 18,
            "{signs:?}"
        );
        if at < signs.len() {
            assert_eq!(by_lines(&signs[..=at]), (number, at));
            signs.truncate(at + 1);
            signs.extend(whole);
            assert_eq!(by_lines(&signs), (number, at));
        }
    }
    assert!(faults > 700, "{faults}");
}

/// How often each number is the answer to made texts.
fn answered(count: usize, seed: u64) -> BTreeMap<u16, usize> {
    let mut random = Random::seeded(seed);
    let mut numbers = BTreeMap::new();
    for _ in 0..count {
        let texts = some_texts(&mut random);
        let mut buffer = vec![FILLING; texts.room];
        let answer = jobs_from_pddl(&texts.actions, &texts.plan, &mut buffer);
        *numbers.entry(answer.number).or_insert(0) += 1;
        let file = job_from_texts(&texts.actions, &texts.plan);
        match file {
            Ok(file) if answer.number == 0 => assert_eq!(buffer[..answer.length], file),
            Ok(file) => assert!(answer.number == 15 && file.len() > texts.room),
            Err(_) => {
                let verdict = (answer.number, answer.place);
                assert_eq!(verdict, number_and_place(&file));
            }
        }
        assert!(buffer[answer.length..].iter().all(|&byte| byte == FILLING));
    }
    numbers
}

#[test]
fn every_answer_is_given_often() {
    let numbers = answered(1_500, 26);
    let expected = [0, 4, 6, 7, 10, 11, 12, 13, 15, 18, 19, 20];
    assert!(numbers.keys().eq(&expected), "{numbers:?}");
    assert!(numbers.values().all(|&count| count >= 20), "{numbers:?}");
}
