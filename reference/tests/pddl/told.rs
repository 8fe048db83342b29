//! The texts made by hand are answered as the request says.

use super::*;
use reference::make::pddl::by_hand::{
    action_texts, all, jobs, lengths, names, plans, told_alone, Told,
};
use reference::make::pddl::damage::each_byte;
use reference::make::pddl::highest::{highest_texts, last_records_at_fault, LONGEST_JOB};
use reference::pddl::job_from_texts;

fn assert_told(texts: Vec<Told>) {
    for told in texts {
        let found = answer(&told.actions, &told.plan);
        let text = String::from_utf8_lossy(&told.actions);
        let plan = String::from_utf8_lossy(&told.plan);
        assert_eq!(found, told.answer, "{text:.500}\n{plan:.500}");
    }
}

#[test]
fn action_texts_by_hand() {
    assert_told(action_texts::all());
}

#[test]
fn names_and_numbers_by_hand() {
    assert_told(names::all());
}

#[test]
fn plans_by_hand() {
    assert_told(plans::all());
}

#[test]
fn lengths_by_hand() {
    assert_told(lengths::all());
}

#[test]
fn jobs_by_hand() {
    assert_told(jobs::all());
}

#[test]
fn texts_of_a_job_with_every_table_full() {
    let Told { actions, plan, .. } = highest_texts();
    let job = job_from_texts(&actions, &plan).unwrap();
    assert_eq!(job.len(), LONGEST_JOB);
    assert_told(last_records_at_fault());
}

#[test]
fn every_answer_is_told_of_some_text() {
    let texts = all();
    for number in [0, 4, 6, 7, 10, 11, 12, 13, 18, 19, 20] {
        assert!(texts.iter().any(|told| told.answer.0 == number), "{number}");
    }
}

/// Any length is over 65,535, not only the next.
#[test]
fn a_text_may_be_far_over_its_length() {
    let text = format!("(:init)(:goal(and)){}", " ".repeat(200_000));
    assert_told(vec![told_alone(text, (18, 0))]);
    assert_eq!(answer("(:init)(:goal(and))", "\n".repeat(200_000)), (18, 0));
}

#[test]
fn refusal_15_is_the_last() {
    let of = |actions: &str, plan: &str| {
        let answer = jobs_from_pddl(actions.as_bytes(), plan.as_bytes(), &mut []);
        (answer.number, answer.place, answer.length)
    };
    assert_eq!(of("(:init)(:goal(and))", ""), (15, 65_535, 0));
    assert_eq!(of("(:init)(:goal(f))", ""), (13, 0, 0));
    assert_eq!(of("(:init)(:goal(f))", "0:(f)[5]"), (20, 0, 0));
    assert_eq!(of("(:init)(:goal(f))", "0"), (18, 0, 0));
}

/// A byte changed or put in anywhere is either read or refused at its own line or a later one.
#[test]
fn a_changed_byte_is_refused_no_earlier_than_it_stands() {
    let text = "(:durative-action a :duration\n(= ?duration 5) :condition\n(at start (f))\n\
                :effect (and (at end\n(not (f)))))\n(:init (f)\n(= (l) 5))\n(:goal (not\n(f)))\n";
    let plan = "0: (a) [5]";
    assert_eq!(answer(text, plan), GOOD);
    for (at, changed) in each_byte(text.as_bytes()) {
        let line = text[..at].matches('\n').count() as u16;
        let (number, place) = answer(changed, plan);
        assert!(number != 18 || place >= line, "{at}");
    }
}
