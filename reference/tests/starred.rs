//! The starred cases of the paper, with their whole answers.

use reference::job::Job;
use reference::loosen::{loosen, order_file_of};
use reference::make::marked::{steps_that_overlap_by_one, steps_that_touch};
use reference::make::telling::small_job;
use reference::order_file::Link;
use reference::show::show;

fn shown(job: &Job) -> String {
    show(&job.to_file())
}

fn links(job: &Job) -> Vec<Link> {
    order_file_of(&job.to_file())
        .expect("an accepted job")
        .links
}

fn small_job_with_step_1_at(start: i64) -> Job {
    let mut job = small_job();
    job.steps[1].start = start;
    job
}

#[test]
fn the_small_job() {
    let sheet = "\
steps 2 rounds 2
step 0 earliest 0 latest none
step 1 earliest 6 latest none
order 0 1 6
";
    assert_eq!(shown(&small_job()), sheet);
    assert_eq!(links(&small_job()), [Link::Effect(0)]);
    assert_eq!(shown(&small_job_with_step_1_at(16)), sheet);
    assert_eq!(shown(&small_job_with_step_1_at(15)), "refused 11 place 0\n");
}

#[test]
fn the_small_job_byte_by_byte() {
    let mut buffer = [165; 64];
    let answer = loosen(&small_job().to_file(), &mut buffer);
    assert_eq!(
        (answer.number, answer.place, answer.length),
        (0, 65_535, 58)
    );
    let header = [
        1, 0, 2, 0, 1, 0, 1, 0, 2, 0, 0, 0, 24, 0, 0, 0, 48, 0, 0, 0, 56, 0, 0, 0,
    ];
    let windows = [
        0, 0, 0, 0, 255, 255, 255, 255, 0, 0, 0, 0, 0, 0, 0, 0, 255, 255, 255, 255, 6, 0, 0, 0,
    ];
    assert_eq!(buffer[..24], header);
    assert_eq!(buffer[24..48], windows);
    assert_eq!(buffer[48..56], [0, 0, 1, 0, 6, 0, 0, 0]);
    assert_eq!(buffer[56..], [0, 0, 165, 165, 165, 165, 165, 165]);
}

#[test]
fn a_buffer_one_byte_short_stays_as_it_was() {
    let mut buffer = [165; 57];
    let answer = loosen(&small_job().to_file(), &mut buffer);
    assert_eq!(
        (answer.number, answer.place, answer.length),
        (15, 65_535, 0)
    );
    assert_eq!(buffer, [165; 57]);
}

#[test]
fn no_steps_and_no_goals() {
    assert_eq!(shown(&Job::default()), "steps 0 rounds 0\n");
}

#[test]
fn step_0_fixed() {
    let mut job = small_job();
    job.steps[0].fixed = 1;
    let sheet = "\
steps 2 rounds 2
step 0 earliest 10 latest 10
step 1 earliest 16 latest none
order 0 1 6
";
    assert_eq!(shown(&job), sheet);
}

#[test]
fn a_goal_with_a_deadline() {
    let sheet = "\
steps 2 rounds 2
step 0 earliest 0 latest 10
step 1 earliest 6 latest none
order 0 1 6
";
    let in_time = small_job().goal_by(1, 1, 15);
    assert_eq!(shown(&in_time), sheet);
    assert_eq!(links(&in_time), [Link::Effect(0), Link::Effect(0)]);
    assert_eq!(
        shown(&small_job().goal_by(1, 1, 14)),
        "refused 13 place 0\n"
    );
}

#[test]
fn a_condition_from_8_after_an_effect_at_5() {
    let job = Job::with_facts(&[0])
        .step(10, 5)
        .step(20, 8)
        .condition(1, 0, 8, 8, 1)
        .effect(0, 0, 5, 1);
    let sheet = "\
steps 2 rounds 1
step 0 earliest 0 latest none
step 1 earliest 0 latest none
order 0 1 -2
";
    assert_eq!(shown(&job), sheet);
}

#[test]
fn a_rise_and_a_fall_at_one_tick() {
    let job = |most| {
        Job::default()
            .level(1, 0, most)
            .step(0, 0)
            .step(0, 0)
            .uses(0, 0, 0, -1)
            .uses(1, 0, 0, 1)
    };
    let sheet = "\
steps 2 rounds 1
step 0 earliest 0 latest none
step 1 earliest 0 latest none
";
    assert_eq!(shown(&job(1)), "refused 12 place 0\n");
    assert_eq!(shown(&job(2)), sheet);
}

#[test]
fn the_serial_mark() {
    let sheet = "\
serial mark ignored
steps 2 rounds 1
step 0 earliest 0 latest none
step 1 earliest 0 latest none
";
    assert_eq!(shown(&steps_that_touch()), sheet);
    assert_eq!(shown(&steps_that_overlap_by_one()), sheet);
}

#[test]
fn a_refusal_without_a_record() {
    assert_eq!(show(&[]), "refused 1 place 65535\n");
    assert_eq!(show(&[0; 100_000]), "refused 2 place 65535\n");
}
