//! The command line `jobs`: its lines, its words on standard error, its status and its files.

use std::fs;
use std::io::{self, Read, Write};
use std::path::PathBuf;
use std::process::{self, Command};

use reference::bytes::u32_at;
use reference::cases::{answer, Case};
use reference::command::words::words;
use reference::command::{run, Streams};
use reference::job::Job;
use reference::loosen::order_file_of;
use reference::made::made_case;
use reference::make::damage::{full_job, full_job_of};
use reference::make::order_files::{alike_files, broken_files, plain_file, unlike_files};
use reference::make::telling::small_job;
use reference::make::{checking_order, edges, need_edges, own_conflicts, ranges};
use reference::order_file::{Link, OrderFile};
use reference::random::Random;
use reference::refusal::Refusal;
use reference::samples::sample;
use reference::show::show;

const ACTIONS: &str = "(:durative-action a :duration (= ?duration 5)\n:condition (at start (f))\n\
                       :effect (at end (not (f))))\n(:init (f))\n(:goal (not (f)))\n";
const PLAN: &str = "1: (a) [5]\n";

/// What a run printed, what it said on standard error, and its status.
#[derive(Debug, PartialEq, Eq)]
struct Ran {
    printed: String,
    said: String,
    status: u8,
}

fn ran(status: u8, printed: &str, said: &str) -> Ran {
    Ran {
        printed: printed.to_string(),
        said: said.to_string(),
        status,
    }
}

/// What a run prints need not be text.
fn jobs_in_bytes(arguments: &[&str], mut input: impl Read) -> (Vec<u8>, String, u8) {
    let arguments: Vec<&[u8]> = arguments.iter().map(|word| word.as_bytes()).collect();
    let (mut output, mut errors) = (Vec::new(), Vec::new());
    let streams = Streams {
        input: &mut input,
        output: &mut output,
        errors: &mut errors,
    };
    let status = run(&arguments, streams);
    (output, String::from_utf8(errors).unwrap(), status)
}

fn jobs_with(input: impl AsRef<[u8]>, arguments: &[&str]) -> Ran {
    let (printed, said, status) = jobs_in_bytes(arguments, input.as_ref());
    let printed = String::from_utf8(printed).unwrap();
    Ran {
        printed,
        said,
        status,
    }
}

fn jobs(arguments: &[&str]) -> Ran {
    jobs_with("", arguments)
}

/// The number and the words with which a job on standard input is refused.
fn refused_words(job: impl AsRef<[u8]>, arguments: &[&str]) -> (u16, String) {
    let ran = jobs_with(job, arguments);
    assert_eq!(ran.status, 1);
    let number = ran.printed.split(' ').nth(1).unwrap().parse().unwrap();
    let said = ran.said.strip_prefix("standard input: ").unwrap();
    (number, said.strip_suffix('\n').unwrap().to_string())
}

fn checked(job: &Job) -> (u16, String) {
    refused_words(job.to_file(), &["check", "-"])
}

fn told(number: u16, words: &str) -> (u16, String) {
    (number, words.to_string())
}

/// A folder of a test's own, gone with the test.
struct Folder(PathBuf);

impl Folder {
    fn named(name: &str) -> Folder {
        let own = format!("reference-command-{}-{name}", process::id());
        let folder = std::env::temp_dir().join(own);
        fs::create_dir(&folder).unwrap();
        Folder(folder)
    }

    fn path(&self, name: &str) -> String {
        self.0.join(name).to_str().unwrap().to_string()
    }

    fn with(&self, name: &str, bytes: impl AsRef<[u8]>) -> String {
        fs::write(self.path(name), bytes).unwrap();
        self.path(name)
    }

    fn bytes(&self, name: &str) -> Vec<u8> {
        fs::read(self.path(name)).unwrap()
    }

    /// Everything in the folder, in order.
    fn names(&self) -> Vec<String> {
        let entries = fs::read_dir(&self.0).unwrap();
        let mut names: Vec<String> = entries
            .map(|entry| entry.unwrap().file_name().into_string().unwrap())
            .collect();
        names.sort();
        names
    }
}

impl Drop for Folder {
    fn drop(&mut self) {
        let _ = fs::remove_dir_all(&self.0);
    }
}

// ---------------------------------------------------------------------------------------------
// The words of refusals

#[test]
fn a_refused_file_is_told_in_the_words_of_its_number() {
    let files = checking_order::one_of_each(3);
    let found: Vec<_> = files
        .iter()
        .map(|f| refused_words(f, &["check", "-"]))
        .collect();
    let against_itself =
        "step 1 is against itself: it sets a fact both ways or uses a level twice \
                          at one tick, or opposes its own condition";
    let expected = [
        told(1, "the file is shorter than its header"),
        told(2, "the edition is none of 1 to 3"),
        told(
            3,
            "the serial mark is above 1, or a number that is to be 0 is not",
        ),
        told(4, "more records than a job can have"),
        told(
            5,
            "an offset or the file's length disagrees with the tables",
        ),
        told(6, "record 1 breaks its ranges, table of steps"),
        told(7, against_itself),
        told(
            17,
            "timed fact 1 opposes another at one tick: it sets fact 1 to 1",
        ),
    ];
    assert_eq!(found, expected);
}

const TABLES: [&str; 9] = [
    "facts",
    "levels",
    "steps",
    "conditions",
    "effects",
    "uses",
    "goals",
    "timed facts",
    "needs",
];

#[test]
fn a_broken_record_is_told_with_its_own_table() {
    let job = full_job_of(3);
    let mut with_fact = job.clone();
    with_fact.facts.push(2);
    let broken = [
        (with_fact, 3),
        (job.clone().level(0, 1, 2), 2),
        (job.clone().step(1_000_001, 0), 3),
        (job.clone().condition(0, 0, 2, 1, 0), 3),
        (job.clone().effect(0, 0, 6, 0), 2),
        (job.clone().uses(0, 0, 0, 0), 3),
        (job.clone().goal(0, 2), 2),
        (job.clone().timed(0, 1_100_001, 0), 3),
        (job.clone().need(0, 2, 0, 0), 3),
    ];
    for ((job, record), table) in broken.into_iter().zip(TABLES) {
        let words = format!("record {record} breaks its ranges, table of {table}");
        assert_eq!(checked(&job), (6, words));
    }
}

/// Records 9 and 10 of the first table, 8 and 9 of the second and so on are broken, any two at once.
#[test]
fn of_two_broken_tables_the_earlier_is_told() {
    let spots: Vec<(usize, usize)> = (0..9).flat_map(|t| [(t, 9 - t), (t, 10 - t)]).collect();
    let mut expected = Vec::new();
    for number in 0..spots.len() {
        expected.extend(spots[..number].iter().map(|&(table, record)| {
            let table = TABLES[table];
            told(
                6,
                &format!("record {record} breaks its ranges, table of {table}"),
            )
        }));
    }
    let jobs = ranges::two_broken_records(3);
    let found: Vec<_> = jobs.iter().map(checked).collect();
    assert_eq!(found, expected);
}

/// A step shortened below its records is good itself: the first table that counts on it is told.
#[test]
fn a_record_broken_by_its_step_is_not_told_as_the_step() {
    let mut job = full_job();
    job.steps[0].length = 4;
    let words = "record 2 breaks its ranges, table of conditions";
    assert_eq!(checked(&job), told(6, words));
}

#[test]
fn details_come_from_the_record_at_the_place() {
    let places = edges::lowest_places();
    let found: Vec<_> = places.iter().map(checked).collect();
    let expected = [
        told(
            10,
            "effect 1 opposes another step's at one tick: step 1 sets fact 0 to 1",
        ),
        told(11, "condition 1 fails: step 1 wants fact 1 as 1"),
        told(12, "level 1 passes a bound"),
        told(13, "goal 1 fails or comes late: it wants fact 1 as 1"),
        told(13, "goal 1 fails or comes late: it wants fact 2 as 1"),
    ];
    assert_eq!(found, expected);
    let unmet = need_edges::lowest_unmet();
    let found: Vec<_> = unmet.iter().map(checked).collect();
    let places = [(1, 0, 0), (1, 1, 1), (2, 1, 1), (0, 0, 1), (0, 1, 0)];
    let expected = places.map(|(need, step, level)| {
        let words = format!("need {need} is not met: step {step} needs level {level}");
        (21, words)
    });
    assert_eq!(found, expected);
}

#[test]
fn a_fixed_step_is_told_with_its_written_start_not_the_given_one() {
    let job = Job::default().step(7, 1).fixed_step(30, 4).to_file();
    let found = refused_words(&job, &["check", "-", "--starts", "7,31"]);
    let words = "step 1 is fixed and must keep its start of 30";
    assert_eq!(found, told(9, words));
    let sound = jobs_with(&job, &["check", "-", "--starts", "999999999,30"]);
    assert_eq!(sound, ran(0, "sound\n", ""));
}

#[test]
fn words_without_a_job() {
    let of = |number| words(Refusal::at(number, 0));
    assert_eq!(of(8), "the list has not one start for each step");
    assert_eq!(of(15), "the buffer is too short");
    assert_eq!(of(16), "not an order file, or a broken one");
    assert_eq!(of(6), "record 0 breaks its ranges");
    assert_eq!(of(9), "step 0 is fixed and must keep its start");
    assert_eq!(of(21), "need 0 is not met");
}

#[test]
fn every_command_on_a_job_tells_its_refusal() {
    let folder = Folder::named("every-command");
    let job = folder.with("job", sample("refused").unwrap().to_file());
    let orders = folder.path("orders");
    let said = format!("{job}: level 0 passes a bound\n");
    let expected = ran(1, "refused 12 place 0\n", &said);
    assert_eq!(jobs(&["check", &job]), expected);
    assert_eq!(jobs(&["check", &job, "--starts", "0,10,30"]), expected);
    assert_eq!(jobs(&["loosen", &job, &orders]), expected);
    assert_eq!(jobs(&["loosen", &job, "-"]), expected);
    assert_eq!(jobs(&["show", &job]), expected);
    assert_eq!(folder.names(), ["job"]);
}

// ---------------------------------------------------------------------------------------------
// Wrong usage and help

const HELP: &str = "\
jobs check JOB                 is the job sound at its written starts?
jobs check JOB --starts LIST   is it sound with these starts, as 0,6,20?
jobs loosen JOB ORDERS         write the job's order file, and say what was written
jobs show JOB                  print the job's sheet
jobs read ORDERS               print an order file: header, windows, orders, links
jobs alike ORDERS ORDERS       do two order files say the same?
jobs pairs JOB                 how many pairs of effects the self-check compares
jobs pddl ACTIONS PLAN JOB     make a job of a supplier's two texts
jobs help [COMMAND]            print this, or the lines of a command

A name of - is standard input or output. Exit status: 0 accepted, sound or alike; 1 refused,
unsound or different; 2 wrong usage, or a file that cannot be read or written.
";

const COMMANDS: [&str; 8] = [
    "check", "loosen", "show", "read", "alike", "pairs", "pddl", "help",
];

fn lines_of(command: &str) -> String {
    let start = format!("jobs {command} ");
    let lines = HELP.lines().filter(|line| line.starts_with(&start));
    lines.map(|line| format!("{line}\n")).collect()
}

fn wrong(command: &str) -> Ran {
    ran(2, "", &format!("usage:\n{}", lines_of(command)))
}

#[test]
fn help_is_all_lines_or_those_of_one_command() {
    assert_eq!(jobs(&["help"]), ran(0, HELP, ""));
    for command in COMMANDS {
        assert_eq!(jobs(&["help", command]), ran(0, &lines_of(command), ""));
    }
    assert_eq!(lines_of("check").lines().count(), 2);
}

#[test]
fn no_command_and_an_unknown_one_show_everything() {
    let all = ran(2, "", &format!("usage:\n{HELP}"));
    for arguments in [&[][..], &["chek"], &["", "x"], &["--help"], &["CHECK", "x"]] {
        assert_eq!(jobs(arguments), all);
    }
    assert_eq!(jobs(&["help", "chek"]), all);
    assert_eq!(jobs(&["help", ""]), all);
}

#[test]
fn too_few_and_too_many_arguments() {
    let names = ["a", "b", "c", "d"];
    let takes = [1, 2, 1, 1, 2, 1, 3, 0];
    for (command, takes) in COMMANDS.into_iter().zip(takes) {
        for count in (0..=4).filter(|&count| count != takes) {
            let arguments = [&[command], &names[..count]].concat();
            if command != "help" || count > 1 {
                assert_eq!(jobs(&arguments), wrong(command), "{arguments:?}");
            }
        }
    }
}

#[test]
fn starts_stand_after_the_job_and_nowhere_else() {
    for arguments in [
        &["check", "job", "--starts"][..],
        &["check", "--starts", "0"],
        &["check", "--starts", "0", "job"],
        &["check", "job", "--start", "0"],
        &["check", "job", "--starts=0"],
        &["check", "job", "--starts", "0", "1"],
    ] {
        assert_eq!(jobs(arguments), wrong("check"), "{arguments:?}");
    }
}

#[test]
fn names_that_clash() {
    assert_eq!(jobs(&["alike", "-", "-"]), wrong("alike"));
    assert_eq!(jobs(&["loosen", "job", "job"]), wrong("loosen"));
    assert_eq!(jobs(&["pddl", "-", "-", "job"]), wrong("pddl"));
    assert_eq!(jobs(&["pddl", "-", "-", "-"]), wrong("pddl"));
    assert_eq!(jobs(&["pddl", "text", "plan", "text"]), wrong("pddl"));
    assert_eq!(jobs(&["pddl", "text", "plan", "plan"]), wrong("pddl"));
}

#[test]
fn lists_that_are_none() {
    let none = "--starts: whole numbers of one to nine digits, with commas between them\n";
    for list in [
        ",",
        "1,",
        ",1",
        "1,,2",
        " 1",
        "1 ",
        "1, 2",
        "+1",
        "-1",
        "1.0",
        "x",
        "1,x",
        "0x1",
        "1234567890",
        "0000000001",
        "1\n",
        "１",
        "1;2",
    ] {
        // There is no such file: the list is read before it.
        let found = jobs(&["check", "no such job", "--starts", list]);
        assert_eq!(found, ran(2, "", none), "{list:?}");
    }
}

#[test]
fn lists_that_are_lists() {
    let of_small_job = |list: &str| {
        let ran = jobs_with(small_job().to_file(), &["check", "-", "--starts", list]);
        ran.printed
    };
    assert_eq!(of_small_job("10,20"), "sound\n");
    assert_eq!(of_small_job("000000010,000000016"), "sound\n");
    assert_eq!(of_small_job("0,999999999"), "sound\n");
    assert_eq!(of_small_job("10,15"), "refused 11 place 0\n");
    for list in ["", "0", "10,20,30", &vec!["0"; 70_000].join(",")] {
        assert_eq!(of_small_job(list), "refused 8 place 65535\n");
    }
    let empty = Job::default().to_file();
    let found = jobs_with(&empty, &["check", "-", "--starts", ""]);
    assert_eq!(found, ran(0, "sound\n", ""));
}

// ---------------------------------------------------------------------------------------------
// Sheets, order files and pairs

#[test]
fn a_sheet_is_what_show_prints() {
    for name in ["paper", "serial-mark", "longest-sheet", "calibration"] {
        let job = sample(name).unwrap().to_file();
        assert_eq!(jobs_with(&job, &["show", "-"]), ran(0, &show(&job), ""));
    }
}

#[test]
fn links_of_each_kind_are_read_as_text() {
    let mut file = plain_file();
    let numbered = [Link::Timed(0), Link::Timed(63), Link::InitialState];
    file.links.extend(numbered);
    let text = "\
steps 4 orders 5 links 7 rounds 3
step 0 limit 0 latest none earliest 0
step 1 limit 10 latest 40 earliest 12
step 2 limit 0 latest 90 earliest 20
step 3 limit 7 latest 7 earliest 7
order 0 1 6
order 0 3 -2
order 1 2 8
order 2 0 -99
order 3 1 5
link 0 effect 0
link 1 initial state
link 2 effect 511
link 3 effect 3
link 4 timed fact 0
link 5 timed fact 63
link 6 initial state
";
    assert_eq!(jobs_with(file.to_file(), &["read", "-"]), ran(0, text, ""));
    let nothing = OrderFile::default().to_file();
    let text = "steps 0 orders 0 links 0 rounds 0\n";
    assert_eq!(jobs_with(nothing, &["read", "-"]), ran(0, text, ""));
}

#[test]
fn a_broken_order_file_is_not_read() {
    let words = "standard input: not an order file, or a broken one\n";
    for (clause, file) in broken_files() {
        let found = jobs_with(file, &["read", "-"]);
        assert_eq!(found, ran(1, "refused 16 place 0\n", words), "{clause}");
    }
}

#[test]
fn a_different_file_is_no_fault() {
    let folder = Folder::named("alike");
    let plain = folder.with("plain", plain_file().to_file());
    for file in alike_files() {
        let found = jobs_with(file.to_file(), &["alike", &plain, "-"]);
        assert_eq!(found, ran(0, "alike\n", ""));
    }
    for file in unlike_files() {
        let found = jobs_with(file.to_file(), &["alike", "-", &plain]);
        assert_eq!(found, ran(1, "different\n", ""));
    }
}

#[test]
fn the_broken_one_of_two_files_is_named() {
    let folder = Folder::named("broken");
    let good = folder.with("good", plain_file().to_file());
    let broken = folder.with("broken", "no order file");
    let refused = |place: usize, name: &str| {
        let said = format!("{name}: not an order file, or a broken one\n");
        ran(1, &format!("refused 16 place {place}\n"), &said)
    };
    assert_eq!(jobs(&["alike", &broken, &good]), refused(0, &broken));
    assert_eq!(jobs(&["alike", &good, &broken]), refused(1, &broken));
    assert_eq!(jobs(&["alike", &broken, &broken]), refused(0, &broken));
    assert_eq!(jobs(&["alike", &good, "-"]), refused(1, "standard input"));
}

#[test]
fn pairs_found_and_not_found() {
    let of = |job: &Job| jobs_with(job.to_file(), &["pairs", "-"]);
    let both_ways = own_conflicts::lower_step_named_by_later_records();
    let found = ran(
        1,
        "pairs compared 1, step 1 sets a fact both ways\n",
        "standard input: step 1 sets a fact both ways at one tick\n",
    );
    assert_eq!(of(&both_ways[0]), found);
    assert_eq!(of(&both_ways[1]), ran(0, "pairs compared 0\n", ""));
    let words = "standard input: record 3 breaks its ranges, table of steps\n";
    let broken = full_job().step(0, 100_001);
    assert_eq!(of(&broken), ran(1, "refused 6 place 3\n", words));
}

// ---------------------------------------------------------------------------------------------
// Texts

#[test]
fn texts_become_a_job() {
    let folder = Folder::named("texts");
    let actions = folder.with("actions", ACTIONS);
    let plan = folder.with("plan", PLAN);
    let job = folder.path("job");
    let found = jobs(&["pddl", &actions, &plan, &job]);
    assert_eq!(found, ran(0, "a job of 91 bytes\n", ""));
    assert_eq!(jobs(&["check", &job]), ran(0, "sound\n", ""));
    let (bytes, said, status) = jobs_in_bytes(&["pddl", &actions, "-", "-"], PLAN.as_bytes());
    assert_eq!((bytes, said.as_str(), status), (folder.bytes("job"), "", 0));
    assert_eq!(folder.names(), ["actions", "job", "plan"]);
}

#[test]
fn the_text_with_the_fault_is_named_with_its_line() {
    let folder = Folder::named("faults");
    let deep = format!("(:init)\n\n(:goal {}", "(and ".repeat(17));
    let late = "999999: (a) [5]";
    let cannot = "the text is too long or cannot go on so";
    let cases = [
        ("x", PLAN, 18, 0, "actions", format!("line 1: {cannot}")),
        (
            ACTIONS,
            "\n1: (a) 5]",
            18,
            1,
            "plan",
            format!("line 2: {cannot}"),
        ),
        ("x", "x", 18, 0, "actions", format!("line 1: {cannot}")),
        (
            &deep,
            "x",
            19,
            2,
            "actions",
            "line 3: an (and ..) is deeper than 16".into(),
        ),
        (
            ACTIONS,
            "\n\n1: (b) [5]",
            20,
            2,
            "plan",
            "line 3: no action has this name and duration".into(),
        ),
        (
            ACTIONS,
            "1: (a) [6]",
            20,
            0,
            "plan",
            "line 1: no action has this name and duration".into(),
        ),
        (
            ACTIONS,
            late,
            6,
            0,
            "plan",
            "record 0 breaks its ranges".into(),
        ),
        (
            ACTIONS,
            "",
            13,
            0,
            "plan",
            "goal 0 fails or comes late".into(),
        ),
        (
            ACTIONS,
            "1: (a) [5]\n8: (a) [5]",
            11,
            1,
            "plan",
            "condition 1 fails".into(),
        ),
    ];
    for (actions, plan, number, place, name, words) in cases {
        let actions = folder.with("actions", actions);
        let plan = folder.with("plan", plan);
        let printed = format!("refused {number} place {place}\n");
        let said = format!("{}: {words}\n", folder.path(name));
        let found = jobs(&["pddl", &actions, &plan, &folder.path("job")]);
        assert_eq!(found, ran(1, &printed, &said));
    }
    assert_eq!(folder.names(), ["actions", "plan"]);
}

// ---------------------------------------------------------------------------------------------
// Made cases

/// Number and place as a run prints them.
fn verdict(ran: &Ran) -> String {
    match ran.printed.strip_prefix("refused ") {
        Some(rest) => rest.trim().replace(" place ", " "),
        None => "0 65535".to_string(),
    }
}

fn ran_case(case: &Case, folder: &Folder) -> Ran {
    let field = |number: usize| &case.fields[number];
    match case.command {
        'c' => jobs_with(field(0), &["check", "-"]),
        't' => {
            let starts = field(1).chunks(4).map(|start| u32_at(start, 0).to_string());
            let starts: Vec<String> = starts.collect();
            jobs_with(field(0), &["check", "-", "--starts", &starts.join(",")])
        }
        'h' => jobs_with(field(0), &["read", "-"]),
        'a' => {
            let second = folder.with("second", field(1));
            jobs_with(field(0), &["alike", "-", &second])
        }
        _ => {
            let plan = folder.with("plan", field(1));
            let job = folder.path("job");
            jobs_with(field(0), &["pddl", "-", &plan, &job])
        }
    }
}

/// Starts of ten digits and further starts of 0 are not asked for here.
fn can_be_run(case: &Case) -> bool {
    let small = |start: &[u8]| u32_at(start, 0) <= 999_999_999;
    case.command != 't' || (case.fields[1].chunks(4).all(small) && u32_at(&case.fields[2], 0) == 0)
}

/// Whatever the number, there are words for it, and refused is what the second program refuses.
#[test]
fn made_cases_are_answered_alike_by_command_and_by_function() {
    let folder = Folder::named("made");
    let mut random = Random::seeded(5);
    for command in "cthaf".chars().cycle().take(4_000) {
        let case = made_case(&mut random, command);
        let line = answer(&case).unwrap();
        let expected: Vec<&str> = line.split(' ').skip(1).take(2).collect();
        // The room for a job is the caller's.
        if expected[0] == "15" || !can_be_run(&case) {
            continue;
        }
        let ran = ran_case(&case, &folder);
        assert_eq!(verdict(&ran), expected.join(" "), "{case:?}");
        assert_eq!(ran.said.lines().count(), usize::from(expected[0] != "0"));
    }
}

// ---------------------------------------------------------------------------------------------
// Files

#[test]
fn an_old_file_is_replaced_whole_or_stays() {
    let folder = Folder::named("replaced");
    let job = folder.with("job", small_job().to_file());
    let refused = folder.with("refused", "no job");
    let orders = folder.with("orders", [7; 500]);
    assert_eq!(jobs(&["loosen", &refused, &orders]).status, 1);
    assert_eq!(folder.bytes("orders"), [7; 500]);
    let line = "an order file of 58 bytes: 2 steps, 1 orders, 1 links\n";
    assert_eq!(jobs(&["loosen", &job, &orders]), ran(0, line, ""));
    let expected = order_file_of(&small_job().to_file()).unwrap().to_file();
    assert_eq!(folder.bytes("orders"), expected);
    let (bytes, said, status) = jobs_in_bytes(&["loosen", &job, "-"], io::empty());
    assert_eq!((bytes, said.as_str(), status), (expected, "", 0));
    assert_eq!(folder.names(), ["job", "orders", "refused"]);
}

#[test]
fn what_is_no_regular_file_is_not_replaced() {
    let folder = Folder::named("irregular");
    let job = folder.with("job", small_job().to_file());
    let pipe = folder.path("pipe");
    let made = Command::new("mkfifo").arg(&pipe).status().unwrap();
    assert!(made.success());
    let said = format!("{pipe}: not a regular file\n");
    assert_eq!(jobs(&["loosen", &job, &pipe]), ran(2, "", &said));
    assert!(!fs::metadata(&pipe).unwrap().is_file());
    let inner = folder.path("inner");
    fs::create_dir(&inner).unwrap();
    let said = format!("{inner}: Is a directory\n");
    assert_eq!(jobs(&["loosen", &job, &inner]), ran(2, "", &said));
    assert_eq!(folder.names(), ["inner", "job", "pipe"]);
}

#[test]
fn the_system_s_words_come_without_its_number() {
    let folder = Folder::named("words");
    let job = folder.with("job", small_job().to_file());
    let missing = folder.path("missing");
    let nowhere = folder.path("missing/orders");
    let no_such = |name: &str| ran(2, "", &format!("{name}: No such file or directory\n"));
    for command in ["check", "show", "read", "pairs"] {
        assert_eq!(jobs(&[command, &missing]), no_such(&missing));
    }
    assert_eq!(jobs(&["loosen", &job, &nowhere]), no_such(&nowhere));
    assert_eq!(jobs(&["loosen", &job, ""]), no_such(""));
    let own = folder.path("");
    let said = format!("{own}: Is a directory\n");
    assert_eq!(jobs(&["check", &own]), ran(2, "", &said));
    assert_eq!(folder.names(), ["job"]);
}

/// A broken file does not end the run before the next is read, a missing one does.
#[test]
fn inputs_are_read_in_their_order() {
    let folder = Folder::named("order");
    let broken = folder.with("broken", "x");
    let [one, other] = ["one", "other"].map(|name| folder.path(name));
    let no_such = |name: &str| ran(2, "", &format!("{name}: No such file or directory\n"));
    assert_eq!(jobs(&["alike", &one, &other]), no_such(&one));
    assert_eq!(jobs(&["alike", &broken, &other]), no_such(&other));
    assert_eq!(jobs(&["pddl", &one, &other, "x"]), no_such(&one));
    assert_eq!(jobs(&["pddl", &broken, &other, "x"]), no_such(&other));
    assert_eq!(
        jobs(&["loosen", &one, &folder.path("no/orders")]),
        no_such(&one)
    );
}

/// Zeros without end, counted.
struct Endless(u64);

impl Read for Endless {
    fn read(&mut self, buffer: &mut [u8]) -> io::Result<usize> {
        buffer.fill(0);
        self.0 += buffer.len() as u64;
        Ok(buffer.len())
    }
}

#[test]
fn an_endless_input_ends_a_byte_past_the_longest() {
    let folder = Folder::named("endless");
    let plan = folder.with("plan", PLAN);
    let job = folder.path("job");
    let refused = [
        (&["check", "-"][..], 18_813, "refused 2 place 65535\n"),
        (
            &["read", "-"],
            24 + 12 * 64 + 8 * 4_032 + 2 * 544 + 1,
            "refused 16 place 0\n",
        ),
        (&["pddl", "-", &plan, &job], 65_536, "refused 18 place 0\n"),
    ];
    for (arguments, read, printed) in refused {
        let mut endless = Endless(0);
        let (found, _, status) = jobs_in_bytes(arguments, &mut endless);
        assert_eq!((found, status), (printed.into(), 1));
        assert_eq!(endless.0, read);
    }
}

#[test]
fn a_byte_past_the_longest_job_is_seen() {
    let longest = sample("longest-needs").unwrap().to_file();
    assert_eq!(jobs_with(&longest, &["check", "-"]).printed, "sound\n");
    for more in [1, 1_000] {
        let longer = [&longest[..], &vec![0; more]].concat();
        let found = jobs_with(longer, &["check", "-"]);
        assert_eq!(found.printed, "refused 5 place 65535\n");
    }
}

/// Where nobody reads on.
struct Closed;

impl Write for Closed {
    fn write(&mut self, _: &[u8]) -> io::Result<usize> {
        Err(io::Error::from_raw_os_error(32))
    }

    fn flush(&mut self) -> io::Result<()> {
        Ok(())
    }
}

#[test]
fn what_cannot_be_printed_is_an_error_and_not_a_refusal() {
    for arguments in [
        ["check", "-"],
        ["show", "-"],
        ["pairs", "-"],
        ["help", "check"],
    ] {
        let arguments = arguments.map(str::as_bytes);
        let mut errors = Vec::new();
        let streams = Streams {
            input: &mut io::empty(),
            output: &mut Closed,
            errors: &mut errors,
        };
        assert_eq!(run(&arguments, streams), 2);
        assert_eq!(errors, b"standard output: Broken pipe\n");
    }
}

#[test]
fn a_closed_standard_error_changes_no_status() {
    for (arguments, status) in [(&["check", "-"][..], 1), (&["chek"], 2), (&["help"], 0)] {
        let arguments: Vec<&[u8]> = arguments.iter().map(|word| word.as_bytes()).collect();
        let streams = Streams {
            input: &mut io::empty(),
            output: &mut Vec::new(),
            errors: &mut Closed,
        };
        assert_eq!(run(&arguments, streams), status);
    }
}
