//! A share of the brute force of demand 3; the program tries more.

use reference::brute::brute_of;

fn obeying_choices_are_sound_and_end_alike(edition: u16) {
    let tried = brute_of(edition, 200_000, 11).unwrap_or_else(|broken| panic!("{broken}"));
    assert!(tried.jobs > 500);
    assert!(tried.farthest_from_written > 1_000_000);
}

#[test]
fn of_jobs_of_edition_1() {
    obeying_choices_are_sound_and_end_alike(1);
}

#[test]
fn of_jobs_of_edition_2() {
    obeying_choices_are_sound_and_end_alike(2);
}

#[test]
fn of_jobs_of_edition_3() {
    obeying_choices_are_sound_and_end_alike(3);
}
