//! Job files a person can run, drawn from the garage. Ticks are minutes.

use crate::job::Job;
use crate::make::highest::{highest_job, highest_needs_job, highest_timed_job, longest_sheet};
use crate::make::telling::small_job;

pub fn sample(name: &str) -> Option<Job> {
    match name {
        "paper" => Some(small_job()),
        "deck-resigned" => Some(deck_resigned()),
        "fixed-restart" => Some(fixed_restart()),
        "handsets" => Some(handsets()),
        "refused" => Some(refused()),
        "serial-mark" => Some(handsets().serial()),
        "serial-mark-refused" => Some(refused().serial()),
        "longest" => Some(highest_job(1, 256)),
        "barriers" => Some(barriers()),
        "longest-timed" => Some(highest_timed_job(1, 256)),
        "longest-sheet" => Some(longest_sheet()),
        "calibration" => Some(calibration()),
        "longest-needs" => Some(highest_needs_job(1, 256)),
        _ => None,
    }
}

/// Those with a stored file and sheet.
pub fn stored_samples() -> Vec<&'static str> {
    let timed = ["longest", "barriers", "longest-timed", "longest-sheet"];
    let needs = ["calibration", "longest-needs"];
    [&SAMPLES[..], &timed, &needs].concat()
}

/// Those of edition 1 made by hand.
pub const SAMPLES: [&str; 7] = [
    "paper",
    "deck-resigned",
    "fixed-restart",
    "handsets",
    "refused",
    "serial-mark",
    "serial-mark-refused",
];

/// A deck gets new signs at night and is open again by six, minute 360.
///
/// Facts: 0 deck open, 1 signs lit, 2 old panels hang, 3 new panels hang, 4 signs tested.
/// Level 0: fitters at hand. Steps: 0 close the deck, 1 switch the signs off, 2 take the old
/// panels down, 3 hang the new ones, 4 switch the signs on, 5 test them, 6 open the deck.
pub fn deck_resigned() -> Job {
    Job::with_facts(&[1, 1, 1, 0, 0])
        .level(2, 0, 2)
        .step(0, 10)
        .step(15, 2)
        .step(20, 60)
        .step(85, 90)
        .step(180, 2)
        .step(190, 15)
        .step(210, 10)
        .condition(1, 0, 0, 2, 0)
        .condition(2, 1, 0, 60, 0)
        .condition(3, 1, 0, 90, 0)
        .condition(3, 2, 0, 0, 0)
        .condition(4, 3, 0, 0, 1)
        .condition(5, 1, 0, 15, 1)
        .condition(5, 0, 0, 15, 0)
        .condition(6, 4, 0, 0, 1)
        .effect(0, 0, 10, 0)
        .effect(1, 1, 2, 0)
        .effect(2, 2, 60, 0)
        .effect(3, 3, 90, 1)
        .effect(4, 1, 2, 1)
        .effect(5, 4, 15, 1)
        .effect(6, 0, 10, 1)
        .uses(2, 0, 0, -2)
        .uses(2, 0, 60, 2)
        .uses(3, 0, 0, -2)
        .uses(3, 0, 90, 2)
        .goal_by(0, 1, 360)
        .goal(1, 1)
}

/// The controller restarts at minute 120, come what may; the loops are calibrated after it.
///
/// Facts: 0 controller up, 1 settings saved, 2 to 4 loops calibrated on decks A, B and C.
/// Steps: 0 save the settings, 1 restart, 2 to 4 calibrate a deck's loops.
pub fn fixed_restart() -> Job {
    Job::with_facts(&[1, 0, 0, 0, 0])
        .step(100, 6)
        .fixed_step(120, 8)
        .step(130, 25)
        .step(156, 20)
        .step(130, 30)
        .condition(0, 0, 0, 6, 1)
        .condition(1, 1, 0, 0, 1)
        .condition(2, 0, 0, 25, 1)
        .condition(3, 0, 0, 20, 1)
        .condition(3, 2, 0, 0, 1)
        .condition(4, 0, 0, 30, 1)
        .effect(0, 1, 6, 1)
        .effect(1, 0, 0, 0)
        .effect(1, 0, 8, 1)
        .effect(2, 2, 25, 1)
        .effect(3, 3, 20, 1)
        .effect(4, 4, 30, 1)
        .goal_by(2, 1, 180)
        .goal_by(3, 1, 200)
        .goal(4, 1)
}

/// Three rounds through the decks and two handsets: each round takes one and brings it back.
///
/// Level 0: handsets in the rack. A handset that comes back at one tick goes out at the next.
pub fn handsets() -> Job {
    rounds_with_handsets(31)
}

/// The same with the third round leaving at the very tick at which a handset comes back.
pub fn refused() -> Job {
    rounds_with_handsets(30)
}

/// The barrier goes down at minute 60 and up again at minute 480, by the clock. Panels come in
/// while it is up, are hung while it is down, and the tools go out after that, by minute 540.
///
/// Facts: 0 barrier up, 1 panels in, 2 panels hung, 3 tools out. Steps: 0 bring the panels in,
/// 1 hang them, 2 take the tools out.
pub fn barriers() -> Job {
    Job::with_facts(&[1, 0, 0, 0])
        .step(20, 30)
        .step(90, 120)
        .step(500, 15)
        .condition(0, 0, 0, 30, 1)
        .condition(1, 1, 0, 0, 1)
        .condition(1, 0, 0, 120, 0)
        .condition(2, 0, 0, 15, 1)
        .condition(2, 2, 0, 0, 1)
        .effect(0, 1, 30, 1)
        .effect(1, 2, 120, 1)
        .effect(2, 3, 15, 1)
        .goal_by(3, 1, 540)
        .goal(0, 1)
        .timed(0, 60, 0)
        .timed(0, 480, 1)
}

/// Calibration needs two handsets on the shelf, at its beginning and at its end, though it takes none.
/// One round brings its handset back before it, the other takes one after it.
///
/// Level 0: handsets on the shelf. Steps: 0 a round, 1 calibrate, 2 another round.
pub fn calibration() -> Job {
    Job::default()
        .level(2, 0, 2)
        .step(0, 30)
        .step(35, 20)
        .step(56, 25)
        .uses(0, 0, 0, -1)
        .uses(0, 0, 30, 1)
        .uses(2, 0, 0, -1)
        .uses(2, 0, 25, 1)
        .need(1, 0, 0, 2)
        .need(1, 0, 20, 2)
}

fn rounds_with_handsets(third: i64) -> Job {
    Job::default()
        .level(2, 0, 2)
        .step(0, 30)
        .step(10, 30)
        .step(third, 20)
        .uses(0, 0, 0, -1)
        .uses(0, 0, 30, 1)
        .uses(1, 0, 0, -1)
        .uses(1, 0, 30, 1)
        .uses(2, 0, 0, -1)
        .uses(2, 0, 20, 1)
}
