//! The stored cases are those that this program writes, and a damaged file of cases is told.

use std::fs;
use std::path::PathBuf;

use reference::cases::{answers, cases_file, Case, COMMANDS};
use reference::make::order_files::plain_file;
use reference::make::pairs::in_a_later_step;
use reference::make::pddl::highest::LONGEST_JOB;
use reference::make::telling::small_job;
use reference::stored::{stored, stored_cases, SERVED};

fn replay() -> PathBuf {
    PathBuf::from(env!("CARGO_MANIFEST_DIR")).join("../crates/replay")
}

#[test]
fn writing_them_again_gives_the_same_bytes() {
    let again = stored(SERVED);
    let cases = fs::read(replay().join("data/cases")).expect("the stored cases");
    let stdout = fs::read(replay().join("stdout")).expect("the expected lines");
    assert!(cases == again.cases, "other cases are stored");
    assert!(
        stdout == again.stdout.as_bytes(),
        "other lines are expected"
    );
}

#[test]
fn all_commands_together_stay_small() {
    let all = stored(COMMANDS);
    assert!(all.cases.len() < 9_000_000);
    // A program that the gate runs may print no more.
    assert!(all.stdout.len() < 1 << 20);
    let cases: usize = COMMANDS.chars().map(|c| stored_cases(c).len()).sum();
    assert_eq!(all.stdout.lines().count(), cases);
    assert!(!all.stdout.contains("bad cases"));
}

fn texts(actions: &str, room: usize) -> Case {
    Case::from_texts(actions.into(), b" \n".to_vec(), room)
}

#[test]
fn stored_texts_are_given_every_answer() {
    let stdout = stored("f").stdout;
    let numbers = stdout.lines().filter_map(|line| line.split(' ').nth(1));
    let mut numbers: Vec<u16> = numbers.filter_map(|number| number.parse().ok()).collect();
    numbers.sort();
    numbers.dedup();
    assert_eq!(numbers, [0, 4, 6, 7, 10, 11, 12, 13, 15, 18, 19, 20]);
    let longest = format!("f 0 65535 {LONGEST_JOB} ");
    assert!(stdout.lines().any(|line| line.starts_with(&longest)));
}

#[test]
fn lines_of_each_command() {
    let job = small_job().to_file();
    let orders = plain_file().to_file();
    let cases = [
        Case::job('w', job.clone()),
        Case::job('c', job.clone()),
        Case::timing(job.clone(), &[10, 15]),
        Case::timing_and_further(job.clone(), &[10, 20], 0),
        Case::timing_and_further(job.clone(), &[10, 20], 256),
        Case::header(orders.clone()),
        Case::header(vec![]),
        Case::record(orders.clone(), 1, 3),
        Case::record(orders.clone(), 0, 0),
        Case::record(orders.clone(), 2, 1),
        Case::record(orders.clone(), 2, 4),
        Case::record(orders.clone(), 3, 4),
        Case::alike(orders.clone(), orders.clone()),
        Case::alike(orders, vec![]),
        Case::loosening(job.clone(), 3),
        Case::loosening(job.clone(), 0),
        Case::loosening(job.clone(), 67),
        Case::job('p', job),
        Case::job('p', in_a_later_step()[0].to_file()),
        Case::job('p', vec![]),
        texts("(:init(f))(:goal(f))", 67),
        texts("(:init(f))(:goal(f))", 56),
        texts("(:init)(:goal(f))", 57),
        texts("(:init)\n\n(f)", 0),
    ];
    let lines = "\
w 0 65535
c 0 65535
t 11 0
t 0 65535
t 8 65535
h 0 65535 1 4 5 4 3 24 72 112
h 16 0 0 0 0 0 0 0 0 0
r 0 65535 2 0 -99
r 0 65535 0 4294967295 0
r 0 65535 65535
r 16 0 0
r 16 0 0 0 0
a 0 65535 1
a 16 1 0
l 15 65535 0 - 3
l 15 65535 0 - 0
l 0 65535 58 01.02.01.01.02...18...30...38...\
....ffffffff....\
....ffffffff06...\
..01.06...\
.. 9
p 0 65535 0
p 0 2 4
p 1 65535 0
f 0 65535 57 01...01.....01.........30...\
31...31...31...31...31...31...\
01\
..01.ffffffff 10
f 15 65535 0 - 56
f 13 0 0 - 57
f 18 2 0 - 0
";
    assert_eq!(answers(&cases_file(&cases)), lines);
}

#[test]
fn a_damaged_file_of_cases_ends_with_a_line() {
    let job = small_job().to_file();
    let good = cases_file(&[Case::job('w', job.clone())]);
    assert_eq!(answers(&[]), "");
    let then = |more: &[u8]| answers(&[&good[..], more].concat());
    let bad = "w 0 65535\nbad cases\n";
    assert_eq!(then(&[]), "w 0 65535\n");
    assert_eq!(then(b"x"), bad);
    assert_eq!(then(b"w"), bad);
    assert_eq!(then(b"w\x01\x00\x00"), bad);
    assert_eq!(then(b"w\x02\x00\x00\x00!"), bad);
    assert_eq!(then(b"w\x00\x00\x00\x00"), "w 0 65535\nw 1 65535\n");
    let longest = cases_file(&[Case::job('w', vec![0; 65_536])]);
    assert_eq!(then(&longest), "w 0 65535\nw 2 65535\n");
    let too_long = cases_file(&[Case::job('w', vec![0; 65_537])]);
    assert_eq!(then(&too_long), bad);
    assert_eq!(
        then(&cases_file(&[Case::loosening(job.clone(), 65_537)])),
        bad
    );
    let too_many_starts = Case::timing_and_further(job.clone(), &[10, 20], 65_537);
    assert_eq!(then(&cases_file(&[too_many_starts])), bad);
    let odd_starts = Case {
        command: 't',
        fields: vec![job.clone(), vec![0; 7], vec![0; 4]],
    };
    assert_eq!(then(&cases_file(&[odd_starts])), bad);
    let odd_number = Case {
        command: 'l',
        fields: vec![job, vec![0; 3]],
    };
    assert_eq!(then(&cases_file(&[odd_number])), bad);
    let too_much_room = texts("(:init)(:goal(and))", 65_537);
    assert_eq!(then(&cases_file(&[too_much_room])), bad);
    let no_room = Case {
        command: 'f',
        fields: vec![vec![], vec![], vec![]],
    };
    assert_eq!(then(&cases_file(&[no_room])), bad);
}
