//! The job that two texts become: its records and their numbers.

use super::*;

/// Everything at once; the expected records stand below, word by word.
const ACTIONS: &str = "
(:durative-action hang :duration (= ?duration 5)
 :condition (and (over all (dark)) (at start (not (hung))) (at end (dry)))
 :effect (and (at start (decrease (fitters) 2)) (at end (hung)) (at end (increase (fitters) 2))
              (at start (not (dry))) (at start (ladder-out)) (at end (not (ladder-out)))))
(:durative-action dry-up :duration (= ?duration 1.5)
 :condition (at start (dark))
 :effect (and (at end (dry)) (at end (decrease (cloths) 1))))
(:durative-action never :duration (= ?duration 999999.999)
 :condition (at end (unused))
 :effect (at start (increase (unused-level) 0)))
(:init (dry) (= (cloths) 40) (at-rest) (dark) (= (fitters) 3))
(:goal (and (hung) (not (ladder-out)) (and (dry) (and)) (not (wet))))
";

const PLAN: &str = "
0.25: (hang) [5.0]

3.25:(dry-up)[1.5]
";

/// Facts: dark, hung, dry, ladder-out, unused, at-rest, wet.
/// Levels: fitters, cloths, unused-level.
fn expected() -> Job {
    let most = 1_000_000_000;
    Job::with_facts(&[1, 0, 1, 0, 0, 1, 0])
        .level(3, 0, most)
        .level(40, 0, most)
        .level(0, 0, most)
        .step(250, 5_000)
        .step(3_250, 1_500)
        .condition(0, 0, 1, 4_999, 1)
        .condition(0, 1, 0, 0, 0)
        .condition(0, 2, 5_000, 5_000, 1)
        .condition(1, 0, 0, 0, 1)
        .effect(0, 1, 5_000, 1)
        .effect(0, 2, 0, 0)
        .effect(0, 3, 0, 1)
        .effect(0, 3, 5_000, 0)
        .effect(1, 2, 1_500, 1)
        .uses(0, 0, 0, -2)
        .uses(0, 0, 5_000, 2)
        .uses(1, 1, 1_500, -1)
        .goal(1, 1)
        .goal(3, 0)
        .goal(2, 1)
        .goal(6, 0)
}

#[test]
fn all_records_of_a_job() {
    let job = job(ACTIONS, PLAN);
    assert_eq!(job, expected());
    assert_eq!((job.edition, job.serial), (1, 0));
}

#[test]
fn the_job_s_bytes_and_its_length_come_back_and_bytes_past_it_stay() {
    let file = expected().to_file();
    for room in [0, 1, 300] {
        let mut buffer = vec![FILLING; file.len() + room];
        let answer = jobs_from_pddl(ACTIONS.as_bytes(), PLAN.as_bytes(), &mut buffer);
        assert_eq!((answer.number, answer.place), GOOD);
        assert_eq!(answer.length, file.len());
        assert_eq!(buffer[..file.len()], file);
        assert_eq!(buffer[file.len()..], vec![FILLING; room]);
    }
}

#[test]
fn a_buffer_shorter_than_the_job() {
    let length = expected().to_file().len();
    for short in [0, 1, 47, 48, length - 1] {
        let mut buffer = vec![FILLING; short];
        let answer = jobs_from_pddl(ACTIONS.as_bytes(), PLAN.as_bytes(), &mut buffer);
        assert_eq!(
            (answer.number, answer.place, answer.length),
            (15, 65_535, 0)
        );
        assert_eq!(buffer, vec![FILLING; short]);
    }
}

#[test]
fn the_smallest_job_is_a_header() {
    let mut buffer = [FILLING; 49];
    let answer = jobs_from_pddl(b"(:init)(:goal(and))", b"", &mut buffer);
    assert_eq!((answer.number, answer.length), (0, 48));
    assert_eq!(buffer[..48], Job::default().to_file());
    assert_eq!(buffer[48], FILLING);
}

#[test]
fn facts_and_levels_are_numbered_as_they_first_appear() {
    // Not as they last appear, as init lists them, or by name.
    let acts = [
        action(
            "a",
            "1",
            "(at start (z))",
            "(at end (increase (z-level) 1))",
        ),
        action("b", "2", "(at end (y))", "(at end (increase (b-level) 1))"),
    ];
    let text = actions(
        &[&acts[0], &acts[1]],
        "(= (a-level) 7) (= (b-level) 8) (= (z-level) 9) (x) (y) (z)",
        "(and (z) (w) (x))",
    )
    .replace("(w)", "(not (w))");
    let job = job(text, "0: (b) [2]");
    assert_eq!(job.facts, [1, 1, 1, 0]);
    let initial: Vec<i64> = job.levels.iter().map(|level| level.initial).collect();
    assert_eq!(initial, [9, 8, 7]);
    assert_eq!(job.conditions[0].fact, 1);
    assert_eq!(job.uses[0].level, 1);
    let goals: Vec<usize> = job.goals.iter().map(|goal| goal.fact).collect();
    assert_eq!(goals, [0, 3, 2]);
}

#[test]
fn facts_and_levels_not_listed_start_as_0() {
    let act = action(
        "a",
        "1",
        "(at start (not (f)))",
        "(at end (increase (l) 5))",
    );
    let job = job(actions(&[&act], "(g)", "(and)"), "0: (a) [1]");
    assert_eq!(job.facts, [0, 1]);
    assert_eq!(job.levels[0].initial, 0);
}

#[test]
fn records_go_by_step_then_as_in_the_action() {
    let one = "(and (at end (f)) (and (at start (g)) (over all (f))) (at start (f)))";
    let done =
        "(and (at end (f)) (at end (increase (l) 3)) (at start (f)) (at start (increase (l) 4)))";
    let acts = [
        action("a", "1", one, done),
        action("b", "2", "(over all (g))", "(at start (g))"),
    ];
    let text = actions(&[&acts[0], &acts[1]], "(f) (g)", "(and)");
    let job = job(text, "9: (b) [2]\n5: (a) [1]\n0: (b) [2]");
    let conditions = Job::default()
        .condition(0, 1, 1, 1_999, 1)
        .condition(1, 0, 1_000, 1_000, 1)
        .condition(1, 1, 0, 0, 1)
        .condition(1, 0, 1, 999, 1)
        .condition(1, 0, 0, 0, 1)
        .condition(2, 1, 1, 1_999, 1)
        .conditions;
    assert_eq!(job.conditions, conditions);
    let effects = Job::default()
        .effect(0, 1, 0, 1)
        .effect(1, 0, 1_000, 1)
        .effect(1, 0, 0, 1)
        .effect(2, 1, 0, 1)
        .effects;
    assert_eq!(job.effects, effects);
    let uses = Job::default().uses(1, 0, 1_000, 3).uses(1, 0, 0, 4).uses;
    assert_eq!(job.uses, uses);
}

#[test]
fn an_over_all_of_a_duration_under_2_ticks_gives_no_condition() {
    let text = |duration: &str| {
        let condition = "(and (at start (f)) (over all (g)) (at end (f)))";
        actions(
            &[&action("a", duration, condition, "(and)")],
            "(f) (g)",
            "(and)",
        )
    };
    let spans = |duration: &str| -> Vec<(usize, i64, i64)> {
        let job = job(text(duration), format!("0: (a) [{duration}]"));
        let spans = job.conditions.iter().map(|c| (c.fact, c.from, c.to));
        spans.collect()
    };
    assert_eq!(spans("0"), [(0, 0, 0), (0, 0, 0)]);
    assert_eq!(spans("0.001"), [(0, 0, 0), (0, 1, 1)]);
    assert_eq!(spans("0.002"), [(0, 0, 0), (1, 1, 1), (0, 2, 2)]);
    assert_eq!(spans("0.003"), [(0, 0, 0), (1, 1, 2), (0, 3, 3)]);
    // Nor can it fail: the fact is not there.
    let act = action("a", "0.001", "(over all (f))", "(and)");
    let text = actions(&[&act], "", "(and)");
    assert_eq!(answer(&text, "0: (a) [0.001]"), GOOD);
    assert_eq!(
        answer(text.replace("0.001", "0.002"), "0: (a) [0.002]"),
        (11, 0)
    );
    // Its fact counts all the same.
    assert_eq!(job(&text, "0: (a) [0.001]").facts, [0]);
}

#[test]
fn goals_go_as_written_however_they_are_nested() {
    let goal = "(and (a) (and (not (b)) (and (c))) (not (d)) (a))";
    let job = job(actions(&[], "(c) (a)", goal), "");
    let goals: Vec<(usize, u16)> = job.goals.iter().map(|g| (g.fact, g.value)).collect();
    // c and a stand in init, before the goal.
    assert_eq!(goals, [(1, 1), (2, 0), (0, 1), (3, 0), (1, 1)]);
    assert!(job.goals.iter().all(|goal| goal.deadline.is_none()));
}
