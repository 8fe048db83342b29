//! The stored cases of jobs from PDDL text.

use crate::cases::{Case, LONGEST_FIELD};
use crate::make::pddl::by_hand::{all, told, told_alone, Told, GOOD};
use crate::make::pddl::damage::each_byte;
use crate::make::pddl::highest::{highest_texts, last_records_at_fault, LONGEST_JOB};
use crate::make::pddl::nudges::NUDGED;
use crate::pddl::job_from_texts;
use crate::stored::made_of;

/// The texts made by hand; a small pair damaged at each byte and cut at each length; buffers around
/// a job's length; made ones.
pub fn cases() -> Vec<Case> {
    let mut cases = Vec::new();
    for texts in [all(), last_records_at_fault()].concat() {
        cases.push(case(&texts, LONGEST_JOB));
    }
    cases.extend(damaged(&small_texts()));
    cases.extend(cut_short(&small_texts()));
    for texts in good_texts() {
        cases.extend(into_buffers_around(&texts));
    }
    for texts in one_of_each_refusal() {
        cases.push(case(&texts, 0));
        cases.push(case(&texts, LONGEST_FIELD));
    }
    cases.push(case(&highest_texts(), LONGEST_JOB));
    cases.push(case(&highest_texts(), LONGEST_JOB - 1));
    cases.extend(made_of(1, 'f', 500));
    cases
}

fn case(texts: &Told, room: usize) -> Case {
    Case::from_texts(texts.actions.clone(), texts.plan.clone(), room)
}

// ---------------------------------------------------------------------------------------------
// Damage

/// Each kind of item, in few bytes.
fn small_texts() -> Told {
    let text = "(:durative-action a :duration(= ?duration 0.5)\n\
                :condition(and(at start(f))(over all(not(g))))\n\
                :effect(and(at end(not(f)))(and(at start(decrease(l)2)))(at end(increase(m)3))))\n\
                (:init(f)(= (l)2))\n\
                (:goal(and(not(f))))";
    told(text, "1.5: (a) [0.5]\n", GOOD)
}

/// Either text with each of its bytes changed and taken out, and with one put in before it.
fn damaged(texts: &Told) -> Vec<Case> {
    let Told { actions, plan, .. } = texts;
    let changed = |text| each_byte(text).into_iter().map(|(_, changed)| changed);
    let in_actions = changed(actions).map(|text| Case::from_texts(text, plan.clone(), LONGEST_JOB));
    let in_plan = changed(plan).map(|text| Case::from_texts(actions.clone(), text, LONGEST_JOB));
    in_actions.chain(in_plan).collect()
}

fn cut_short(texts: &Told) -> Vec<Case> {
    let Told { actions, plan, .. } = texts;
    let cut = |text: &Vec<u8>| {
        let text = text.clone();
        (0..text.len()).map(move |length| text[..length].to_vec())
    };
    let in_actions = cut(actions).map(|text| Case::from_texts(text, plan.clone(), LONGEST_JOB));
    let in_plan = cut(plan).map(|text| Case::from_texts(actions.clone(), text, LONGEST_JOB));
    in_actions.chain(in_plan).collect()
}

// ---------------------------------------------------------------------------------------------
// Buffers

/// Those of the shortest job, the small ones and the sample.
fn good_texts() -> Vec<Told> {
    let sample = told(
        include_bytes!("../../samples/deck-overnight.actions"),
        include_bytes!("../../samples/deck-overnight.plan"),
        GOOD,
    );
    let shortest = told_alone("(:init)(:goal(and))", GOOD);
    vec![shortest, small_texts(), sample]
}

/// Of just the job's length, shorter by a byte, a header and all, and longer by a byte, a record
/// and more than a number of a few bits tells.
fn into_buffers_around(texts: &Told) -> Vec<Case> {
    let job = job_from_texts(&texts.actions, &texts.plan);
    let length = job.expect("the texts are good").len();
    let shorter = [length - 1, length - 48, 0];
    let longer = [length + 1, length + 12, length + 256, LONGEST_FIELD];
    let rooms = [&[length], &shorter[..], &longer].concat();
    rooms.iter().map(|&room| case(texts, room)).collect()
}

/// A refused pair says so even to no buffer, and leaves the longest as it was.
fn one_of_each_refusal() -> Vec<Told> {
    let texts = all();
    let first = |number: &u16| {
        let refused = texts.iter().find(|told| told.answer.0 == *number);
        refused.expect("each is told of some text").clone()
    };
    [18, 19, 20].iter().chain(&NUDGED).map(first).collect()
}
