//! The refusals of edition 2: its header and table byte by byte, 17, and what timed facts add to
//! 10, 11 and 13.

use reference::job::Job;
use reference::make::telling::empty_job;
use reference::make::{damage, ranges, timed_edges, timed_timings};
use reference::refusal::number_and_place;
use reference::timing::{check_job, check_timing};
use reference::well_formed::well_formed;

const GOOD: (u16, u16) = (0, 65_535);

fn well_formedness(file: &[u8]) -> (u16, u16) {
    number_and_place(&well_formed(file))
}

fn all_are(files: &[Vec<u8>], number: u16) {
    for file in files {
        assert_eq!(well_formedness(file), (number, 65_535));
    }
}

fn checked(jobs: Vec<Job>) -> Vec<(u16, u16)> {
    let jobs = jobs.iter();
    jobs.map(|job| number_and_place(&check_job(&job.to_file())))
        .collect()
}

// ---------------------------------------------------------------------------------------------
// 1 to 5

#[test]
fn the_bytes_of_edition_2() {
    let file = Job::with_facts(&[1])
        .timed(0, 1_100_000, 0)
        .timed(0, 258, 1)
        .to_file();
    let counts = [2, 0, 0, 0, 1, 0, 0, 0, 0, 0, 0, 0, 0, 0, 0, 0, 0, 0, 2, 0];
    assert_eq!(file[..20], counts);
    assert_eq!(file[20..24], [52, 0, 0, 0]);
    for table in 1..8 {
        let at = 20 + 4 * table;
        assert_eq!(file[at..at + 4], [53, 0, 0, 0]);
    }
    assert_eq!(file[52], 1);
    assert_eq!(file[53..61], [0, 0, 0xE0, 0xC8, 0x10, 0, 0, 0]);
    assert_eq!(file[61..], [0, 0, 2, 1, 0, 0, 1, 0]);
    let read = well_formed(&file).map(|job| job.to_file());
    assert_eq!(read, Ok(file));
}

#[test]
fn what_is_written_reads_back() {
    let job = damage::full_job_of(2);
    assert_eq!(well_formed(&job.to_file()), Ok(job));
    let job = damage::full_job_of(1);
    assert_eq!(well_formed(&job.to_file()), Ok(job));
}

#[test]
fn shorter_than_the_edition_s_header_is_1_again() {
    let file = damage::full_job_of(2).to_file();
    let short = damage::too_short(&file);
    assert_eq!(short.len(), 54);
    all_are(&short[..53], 1);
    all_are(&short[53..], 2);
    // An edition that is not taken comes before that.
    let mut later = file[..51].to_vec();
    later[0] = 4;
    assert_eq!(well_formedness(&later), (2, 65_535));
    assert_eq!(well_formedness(&later[..47]), (1, 65_535));
    // An empty job of edition 1 that says 2 lacks four bytes, and then its offsets disagree.
    let mut says_2 = empty_job().to_file();
    says_2[0] = 2;
    for number in [1, 1, 1, 1, 5, 5] {
        assert_eq!(well_formedness(&says_2), (number, 65_535));
        says_2.push(0);
    }
}

#[test]
fn editions_1_and_2_are_taken() {
    let file = damage::full_job_of(2).to_file();
    assert_eq!(well_formedness(&file), GOOD);
    assert_eq!(well_formedness(&damage::full_job().to_file()), GOOD);
    all_are(&damage::wrong_editions(&file), 2);
    // Said to be of edition 1, the tenth number must be 0; without timed facts the offsets differ.
    all_are(&damage::other_editions(&file), 3);
    // Said to be of edition 3, an empty one is too short.
    let empty = empty_job().edition(2).to_file();
    let says = damage::other_editions(&empty);
    all_are(&says[..1], 5);
    all_are(&says[1..], 1);
    // Said to be of edition 2, the offsets differ; without records there is no eighth.
    all_are(&damage::other_editions(&damage::full_job().to_file()), 5);
    all_are(&damage::other_editions(&empty_job().to_file()), 1);
}

#[test]
fn the_tenth_number_is_a_count_in_edition_2_only() {
    let marks = damage::wrong_marks(&damage::full_job_of(2).to_file());
    assert_eq!(marks.len(), 6);
    assert_eq!(well_formedness(&marks[0]), GOOD);
    assert_eq!(well_formedness(&marks[1]), GOOD);
    all_are(&marks[2..], 3);
    let of_edition_1 = damage::wrong_marks(&damage::full_job().to_file());
    assert_eq!(of_edition_1.len(), 9);
    all_are(&of_edition_1[2..], 3);
    // 64 and 65 timed facts, in their table and only in the header.
    let at_highest = damage::counts_at_highest(2);
    assert_eq!(at_highest[7].timed.len(), 64);
    assert_eq!(checked(at_highest)[7], GOOD);
    assert_eq!(checked(damage::counts_one_above(2))[7], (4, 65_535));
    let mut file = damage::full_job_of(2).to_file();
    for (count, number) in [(2, 5), (3, 0), (4, 5), (64, 5), (65, 4), (255, 4)] {
        file[18] = count;
        assert_eq!(well_formedness(&file), (number, 65_535));
    }
    (file[18], file[19]) = (3, 1);
    assert_eq!(well_formedness(&file), (4, 65_535));
    all_are(&damage::effects_and_timed_facts_past_counting(&file), 4);
}

#[test]
fn the_eighth_offset_is_looked_at() {
    let file = damage::full_job_of(2).to_file();
    all_are(&damage::wrong_offsets(&file), 5);
    all_are(&damage::wrong_lengths(&file), 5);
    for at in 48..52 {
        for change in [1, 128, 255] {
            let mut wrong = file.clone();
            wrong[at] ^= change;
            assert_eq!(well_formedness(&wrong), (5, 65_535));
        }
    }
    // A table without records has its offset too.
    let empty = empty_job().edition(2).to_file();
    assert_eq!(well_formedness(&empty), GOOD);
    all_are(&damage::wrong_offsets(&empty)[..48], 5);
}

// ---------------------------------------------------------------------------------------------
// 6

#[test]
fn timed_facts_end_where_the_paper_says() {
    let job = damage::full_job_of(2);
    let timed = |fact, tick, value| job.clone().timed(fact, tick, value).to_file();
    for good in [timed(2, 0, 1), timed(2, 1_100_000, 0)] {
        assert_eq!(well_formedness(&good), GOOD);
    }
    let highest = i64::from(u32::MAX);
    for broken in [
        timed(3, 0, 1),
        timed(65_535, 0, 1),
        timed(2, 1_100_001, 1),
        timed(2, highest, 1),
        timed(2, 0, 2),
        timed(2, 0, 256),
    ] {
        assert_eq!(well_formedness(&broken), (6, 3));
    }
}

#[test]
fn timed_facts_come_after_the_goals() {
    let mut job = damage::full_job_of(2);
    job.timed[2].value = 2;
    job.timed[1].fact = 3;
    assert_eq!(well_formedness(&job.to_file()), (6, 1));
    job.goals[0].value = 2;
    assert_eq!(well_formedness(&job.to_file()), (6, 0));
    let found = ranges::two_broken_records(2);
    let found: Vec<(u16, u16)> = found
        .iter()
        .map(|job| well_formedness(&job.to_file()))
        .collect();
    // The first table's records are 8 and 9, the second's 7 and 8, the last one's 1 and 2.
    assert_eq!(found.len(), 120);
    assert_eq!(found[..6], [8, 8, 9, 8, 9, 7].map(|place| (6, place)));
    assert_eq!(found[119], (6, 1));
    assert_eq!(found[118], (6, 3));
}

// ---------------------------------------------------------------------------------------------
// 17, 10, 11 and 13

#[test]
fn two_timed_facts_both_ways() {
    let refused = (17, 0);
    assert_eq!(
        checked(timed_edges::timed_facts_both_ways()),
        [refused, refused, GOOD, GOOD, GOOD, refused, refused, GOOD]
    );
    // The higher of the first pair would be 2, 4 and 3; the first by time in the second job 2.
    assert_eq!(
        checked(timed_edges::lowest_of_several_pairs()),
        [(17, 1); 3]
    );
}

#[test]
fn both_ways_comes_after_7_and_before_8() {
    let more = checked(timed_edges::both_ways_and_more());
    assert_eq!(more[..3], [(6, 0), (6, 2), (7, 0)]);
    assert_eq!(more[3..], [(17, 0); 5]);
    let timings = timings();
    assert_eq!(timings[..5], [(17, 0); 5]);
}

#[test]
fn effects_meet_the_clock() {
    assert_eq!(
        checked(timed_edges::timed_fact_around_an_effect()),
        [GOOD, (10, 1), GOOD, GOOD]
    );
    assert_eq!(
        checked(timed_edges::lowest_effect_that_meets()),
        [(10, 1); 3]
    );
}

#[test]
fn the_clock_fails_conditions() {
    let fails = (11, 0);
    assert_eq!(
        checked(timed_edges::the_clock_opposes_a_condition()),
        [fails, fails, fails, fails, fails, GOOD, GOOD]
    );
    assert_eq!(
        checked(timed_edges::the_clock_gives_what_is_wanted()),
        [GOOD, GOOD, fails, fails]
    );
    assert_eq!(
        checked(timed_edges::a_value_lost_by_the_clock()),
        [GOOD, fails, fails, GOOD, fails, GOOD, fails, GOOD]
    );
    assert_eq!(
        checked(timed_edges::at_the_last_tick()),
        [GOOD, fails, fails, GOOD]
    );
}

#[test]
fn the_clock_fails_goals() {
    let fails = (13, 0);
    assert_eq!(
        checked(timed_edges::deadlines_around_a_timed_fact()),
        [fails, fails, GOOD, GOOD, GOOD]
    );
    let late = (13, 1);
    assert_eq!(
        checked(timed_edges::goal_lost_and_regained_by_the_clock()),
        [late, late, late, late, late, GOOD, GOOD]
    );
    assert_eq!(
        checked(timed_edges::goals_after_all_steps()),
        [fails, GOOD, fails, fails, GOOD, fails]
    );
}

// ---------------------------------------------------------------------------------------------
// Timings

fn timings() -> Vec<(u16, u16)> {
    let timings = timed_timings::timed_timings();
    let verdicts = timings
        .iter()
        .map(|(job, starts)| check_timing(&job.to_file(), starts));
    verdicts.map(|verdict| number_and_place(&verdict)).collect()
}

#[test]
fn timings_around_the_clock() {
    let length = (8, 65_535);
    let fails = (11, 0);
    let timings = timings();
    assert_eq!(timings[5..10], [GOOD, length, length, GOOD, length]);
    let around = [
        GOOD,
        (10, 1),
        GOOD,
        GOOD,
        GOOD,
        fails,
        fails,
        (10, 0),
        GOOD,
        fails,
    ];
    assert_eq!(timings[10..20], around);
    let past = [
        GOOD,
        GOOD,
        GOOD,
        (13, 0),
        GOOD,
        (13, 0),
        fails,
        GOOD,
        fails,
        GOOD,
    ];
    assert_eq!(timings[20..], past);
}
