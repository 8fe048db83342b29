//! The serial mark is read as if it were 0: it changes no answer, and adds one line to what is shown
//! of an accepted job. Versions that make more of it are told by what is stored.

use reference::cases::{answers, cases_file, Asked, Case};
use reference::job::{Job, SERIAL_AT};
use reference::loosen::order_file_of;
use reference::made::made_case_of;
use reference::make::damage::{full_job_of, patched, wrong_marks};
use reference::make::marked::{marked_and_refused, marked_telling_jobs, marked_timings};
use reference::make::sound::small_sound_job;
use reference::order_file::{Order, OrderFile};
use reference::random::Random;
use reference::refusal::{number_and_place, refuse_at, Refusal};
use reference::samples::{sample, stored_samples};
use reference::show::show;
use reference::stored::{length_for, stored_cases};
use reference::timing::{check_job, check_timing};
use reference::tuned;
use reference::well_formed::well_formed;

const LINE: &str = "serial mark ignored\n";

fn with_mark(file: &[u8], mark: u16) -> Vec<u8> {
    patched(file, SERIAL_AT, &mark.to_le_bytes())
}

/// A file may end before its mark.
fn mark_of(file: &[u8]) -> Option<u16> {
    let bytes = file.get(SERIAL_AT..SERIAL_AT + 2)?;
    Some(u16::from_le_bytes([bytes[0], bytes[1]]))
}

fn has_mark(file: &[u8]) -> bool {
    mark_of(file) == Some(1)
}

// ---------------------------------------------------------------------------------------------
// With the mark and without it

/// All that is answered of a job file, by the tuned loosening too.
fn said_of(file: &[u8], starts: &[u32]) -> (String, (u16, u16), Vec<u8>) {
    let length = length_for(file);
    let job = |command| Case::job(command, file.to_vec());
    let loosening = |length| Case::loosening(file.to_vec(), length);
    let timing = Case::timing(file.to_vec(), starts);
    let cases = [
        job('w'),
        job('c'),
        job('p'),
        timing,
        loosening(length),
        loosening(length - 1),
    ];
    let mut buffer = vec![165; length];
    tuned::partialize(file, &mut buffer);
    (answers(&cases_file(&cases)), tuned::check(file), buffer)
}

/// Whether the job is accepted.
fn agrees_with_and_without(file: &[u8], starts: &[u32]) -> bool {
    let [without, with] = [0, 1].map(|mark| with_mark(file, mark));
    assert_eq!(said_of(&with, starts), said_of(&without, starts));
    let accepted = check_job(&without).is_ok();
    let line = if accepted { LINE } else { "" };
    assert_eq!(show(&with), format!("{line}{}", show(&without)));
    assert!(!show(&without).contains("mark"));
    accepted
}

/// The job file and the starts of a case, if the file has a mark.
fn marked_part(case: &Case) -> Option<(&[u8], Vec<u32>)> {
    let starts = match case.asked()? {
        Asked::Timing(_, starts) => starts,
        _ => vec![0],
    };
    let file = case.fields[0].as_slice();
    mark_of(file).map(|_| (file, starts))
}

#[test]
fn made_files_are_answered_alike_with_the_mark_and_without() {
    for edition in [1, 2, 3] {
        let mut random = Random::seeded(40);
        let mut counts = [0; 2];
        for command in ['w', 'c', 't', 'l', 'p'] {
            for _ in 0..600 {
                let case = made_case_of(edition, &mut random, command);
                if let Some((file, starts)) = marked_part(&case) {
                    counts[usize::from(agrees_with_and_without(file, &starts))] += 1;
                }
            }
        }
        assert!(counts.iter().all(|&count| count > 1_000), "{counts:?}");
    }
}

#[test]
fn stored_files_are_answered_alike_with_the_mark_and_without() {
    for case in stored_cases('c').iter().chain(&stored_cases('t')) {
        if let Some((file, starts)) = marked_part(case) {
            agrees_with_and_without(file, &starts);
        }
    }
}

// ---------------------------------------------------------------------------------------------
// By hand

#[test]
fn nothing_but_points_orders_marked_steps() {
    for (name, job) in marked_telling_jobs() {
        let file = order_file_of(&job.to_file()).expect("a telling job is sound");
        let orders = file.orders.iter().map(|o| (o.first, o.second, o.gap));
        let expected = match name {
            "marked_small_job" => vec![(0, 1, 6)],
            "support_asks_for_less_than_the_length" => vec![(0, 1, 0)],
            "overlapping_steps_and_a_need" => vec![(0, 1, 2)],
            _ => vec![],
        };
        assert_eq!(orders.collect::<Vec<_>>(), expected, "{name}");
    }
}

#[test]
fn marked_jobs_are_refused_for_all_else() {
    let verdicts = marked_and_refused().into_iter().map(|job| {
        let file = job.to_file();
        let (number, place) = number_and_place(&check_job(&file));
        assert_eq!(show(&file), format!("refused {number} place {place}\n"));
        number
    });
    assert_eq!(verdicts.collect::<Vec<_>>(), [6, 7, 17, 10, 11, 12, 21, 13]);
}

#[test]
fn marked_steps_may_start_anywhere() {
    let timings = marked_timings();
    let verdicts = timings
        .iter()
        .map(|(job, starts)| number_and_place(&check_timing(&job.to_file(), starts)).0);
    let mut expected = vec![0; timings.len()];
    *expected.last_mut().expect("a timing") = 9;
    assert_eq!(verdicts.collect::<Vec<_>>(), expected);
}

#[test]
fn marks_above_1_are_refused() {
    for edition in [1, 2, 3] {
        let files = wrong_marks(&full_job_of(edition).to_file());
        let shown: Vec<String> = files.iter().map(|file| show(file)).collect();
        assert_eq!(shown[1], format!("{LINE}{}", shown[0]));
        assert!(shown[2..6]
            .iter()
            .all(|text| text == "refused 3 place 65535\n"));
    }
}

#[test]
fn made_marked_jobs_have_steps_that_overlap_and_steps_apart() {
    for edition in [1, 2, 3] {
        let mut random = Random::seeded(41);
        let mut counts = [0; 2];
        for _ in 0..3_000 {
            let job = small_sound_job(&mut random, edition);
            if job.serial == 1 && job.steps.len() > 1 {
                let overlapping = first_overlapping(&job, &job.written_starts());
                counts[usize::from(overlapping.is_some())] += 1;
            }
        }
        assert!(counts.iter().all(|&count| count > 50), "{counts:?}");
    }
}

// ---------------------------------------------------------------------------------------------
// Mistakes in the answers

type Answer = Result<OrderFile, Refusal>;

type Mistake = (&'static str, fn(&[u8]) -> Answer);

fn ends_in_time(job: &Job, starts: &[i64], first: usize, second: usize) -> bool {
    starts[first] + job.steps[first].length <= starts[second]
}

fn first_overlapping(job: &Job, starts: &[i64]) -> Option<usize> {
    let apart = |a, b| ends_in_time(job, starts, a, b) || ends_in_time(job, starts, b, a);
    let steps = 0..job.steps.len();
    steps
        .clone()
        .find(|&a| steps.clone().any(|b| a != b && !apart(a, b)))
}

fn refusing_overlaps(file: &[u8]) -> Answer {
    let written = order_file_of(file)?;
    let job = well_formed(file)?;
    if has_mark(file) {
        refuse_at(14, first_overlapping(&job, &job.written_starts()))?;
    }
    Ok(written)
}

/// Orders are only added: that they are more is enough to be told.
fn ordering_by_lengths(file: &[u8]) -> Answer {
    let mut written = order_file_of(file)?;
    let job = well_formed(file)?;
    let starts = job.written_starts();
    for first in 0..job.steps.len() {
        for second in (0..job.steps.len()).filter(|&second| second != first) {
            let gap = job.steps[first].length;
            let mut orders = written.orders.iter();
            let stands = orders.any(|o| (o.first, o.second) == (first, second) && o.gap >= gap);
            if has_mark(file) && ends_in_time(&job, &starts, first, second) && !stands {
                written.orders.push(Order { first, second, gap });
            }
        }
    }
    Ok(written)
}

fn refusing_the_mark(file: &[u8]) -> Answer {
    match order_file_of(file) {
        Err(refusal) if refusal.number < 3 => Err(refusal),
        _ if has_mark(file) => Err(Refusal::nowhere(3)),
        answer => answer,
    }
}

/// What the job is answered with this mark instead of its own.
fn answered_with(file: &[u8], mark: fn(u16) -> u16) -> Answer {
    match mark_of(file) {
        Some(own) => order_file_of(&with_mark(file, mark(own))),
        None => order_file_of(file),
    }
}

const ORDERING: Mistake = ("the fifth rule still orders", ordering_by_lengths);

/// Those that the job check tells too.
const MISTAKES: [Mistake; 6] = [
    ("14 is still given", refusing_overlaps),
    ("a mark of 1 is refused", refusing_the_mark),
    ("2 is taken", |file| {
        answered_with(file, |mark| if mark == 2 { 1 } else { mark })
    }),
    ("all marks are taken", |file| answered_with(file, |_| 0)),
    ("the low byte is the mark", |file| {
        answered_with(file, |mark| mark & 255)
    }),
    ("the high byte is no mark", |file| {
        answered_with(file, |mark| mark >> 8)
    }),
];

/// The small files of the stored cases of a command, with the right answers.
fn stored_files(command: char) -> Vec<(Vec<u8>, Answer)> {
    let files = stored_cases(command)
        .into_iter()
        .map(|mut case| case.fields.swap_remove(0));
    let files = files.filter(|file| file.len() < 1_000);
    files
        .map(|file| (file.clone(), order_file_of(&file)))
        .collect()
}

#[test]
fn each_mistaken_answer_is_told_by_a_stored_file() {
    let checked = stored_files('c');
    for (mistake, answer) in MISTAKES {
        let told = |(file, right): &(Vec<u8>, Answer)| answer(file).err() != right.clone().err();
        assert!(checked.iter().any(told), "no check tells: {mistake}");
    }
    let loosened = stored_files('l');
    for (mistake, answer) in MISTAKES.into_iter().chain([ORDERING]) {
        let told = |(file, right): &(Vec<u8>, Answer)| answer(file) != *right;
        assert!(loosened.iter().any(told), "no loosening tells: {mistake}");
    }
}

#[test]
fn refusal_14_of_a_timing_is_told_by_a_stored_case() {
    let told = |case: &Case| match case.asked() {
        Some(Asked::Timing(file, starts)) if has_mark(file) => {
            let accepted = check_timing(file, &starts).is_ok();
            let starts: Vec<i64> = starts.into_iter().map(i64::from).collect();
            accepted && first_overlapping(&well_formed(file).unwrap(), &starts).is_some()
        }
        _ => false,
    };
    assert!(stored_cases('t').iter().any(told));
}

// ---------------------------------------------------------------------------------------------
// Mistakes in what is shown

/// From the job file and what is shown of it without the mark.
type Shown = fn(&[u8], String) -> String;

fn mistakes_in_what_is_shown() -> Vec<(&'static str, Shown)> {
    vec![
        ("no line", |_, text| text),
        ("before a refusal too", |file, text| match has_mark(file) {
            true => format!("{LINE}{text}"),
            false => text,
        }),
        ("without the mark too", |file, text| match check_job(file) {
            Ok(()) => format!("{LINE}{text}"),
            Err(_) => text,
        }),
        ("after the first line", |file, text| {
            match check_job(file).is_ok() && has_mark(file) {
                true => text.replacen('\n', &format!("\n{LINE}"), 1),
                false => text,
            }
        }),
        ("at the end", |file, text| {
            match check_job(file).is_ok() && has_mark(file) {
                true => format!("{text}{LINE}"),
                false => text,
            }
        }),
    ]
}

/// The samples are what `show` is run on.
#[test]
fn each_mistake_in_what_is_shown_is_told_by_a_sample() {
    let files = stored_samples()
        .into_iter()
        .filter_map(sample)
        .map(|job| job.to_file());
    let files: Vec<Vec<u8>> = files.filter(|file| file.len() < 1_000).collect();
    for (mistake, shown) in mistakes_in_what_is_shown() {
        let told = |file: &Vec<u8>| shown(file, show(&with_mark(file, 0))) != show(file);
        assert!(files.iter().any(told), "no sample tells: {mistake}");
    }
}
