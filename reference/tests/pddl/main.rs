//! Jobs from PDDL text: each sentence of request c) and each reading of it.

mod earley;
mod grammar;
mod job;
mod made;
mod numbers;
mod sample;
mod spacing;
mod told;

use reference::job::Job;
use reference::job_file::records_in;
use reference::make::pddl::by_hand::{action, actions, GOOD};
use reference::pddl::jobs_from_pddl;

/// Longer than any job of edition 1, which has at most 16,752 bytes.
const ROOM: usize = 17_000;

const FILLING: u8 = 165;

/// Number and place. Accepted, the bytes past the job stay; refused, all do.
fn answer(actions: impl AsRef<[u8]>, plan: impl AsRef<[u8]>) -> (u16, u16) {
    let mut buffer = vec![FILLING; ROOM];
    let answer = jobs_from_pddl(actions.as_ref(), plan.as_ref(), &mut buffer);
    assert_eq!(answer.number == 0, answer.length > 0);
    assert!(buffer[answer.length..].iter().all(|&byte| byte == FILLING));
    (answer.number, answer.place)
}

/// The records of an accepted job.
fn job(actions: impl AsRef<[u8]>, plan: impl AsRef<[u8]>) -> Job {
    let mut buffer = vec![FILLING; ROOM];
    let answer = jobs_from_pddl(actions.as_ref(), plan.as_ref(), &mut buffer);
    assert_eq!((answer.number, answer.place), GOOD);
    records_in(&buffer[..answer.length])
}

/// What the action text by itself is answered; the empty plan has no fault.
fn of_actions(text: impl AsRef<[u8]>) -> (u16, u16) {
    answer(text, "")
}
