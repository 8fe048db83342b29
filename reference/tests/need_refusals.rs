//! The refusals of edition 3: its header and table byte by byte, and 21.

use reference::job::Job;
use reference::make::telling::empty_job;
use reference::make::{damage, need_edges, need_timings, ranges};
use reference::refusal::number_and_place;
use reference::timing::{check_job, check_timing};
use reference::well_formed::well_formed;

const GOOD: (u16, u16) = (0, 65_535);

fn unmet(need: u16) -> (u16, u16) {
    (21, need)
}

fn well_formedness(file: &[u8]) -> (u16, u16) {
    number_and_place(&well_formed(file))
}

fn all_are(files: &[Vec<u8>], number: u16) {
    for file in files {
        assert_eq!(well_formedness(file), (number, 65_535));
    }
}

fn checked(jobs: Vec<Job>) -> Vec<(u16, u16)> {
    let jobs = jobs.iter();
    jobs.map(|job| number_and_place(&check_job(&job.to_file())))
        .collect()
}

// ---------------------------------------------------------------------------------------------
// 1 to 5

#[test]
fn the_bytes_of_edition_3() {
    let file = Job::with_facts(&[1])
        .level(2, 0, 3)
        .step(7, 300)
        .timed(0, 258, 1)
        .need(0, 0, 258, -2)
        .need(0, 0, 300, 1_000_000_000)
        .to_file();
    let counts = [3, 0, 0, 0, 1, 0, 1, 0, 1, 0, 0, 0, 0, 0, 0, 0, 0, 0, 1, 0];
    assert_eq!(file[..20], counts);
    for (table, offset) in [60, 61, 73, 83, 83, 83, 83, 83].into_iter().enumerate() {
        let at = 20 + 4 * table;
        assert_eq!(file[at..at + 4], [offset, 0, 0, 0]);
    }
    assert_eq!(file[52..60], [2, 0, 0, 0, 91, 0, 0, 0]);
    assert_eq!(file[83..91], [0, 0, 2, 1, 0, 0, 1, 0]);
    let first = [0, 0, 0, 0, 2, 1, 0, 0, 0xFE, 0xFF, 0xFF, 0xFF];
    assert_eq!(file[91..103], first);
    let second = [0, 0, 0, 0, 44, 1, 0, 0, 0x00, 0xCA, 0x9A, 0x3B];
    assert_eq!(file[103..], second);
    let read = well_formed(&file).map(|job| job.to_file());
    assert_eq!(read, Ok(file));
    let job = damage::full_job_of(3);
    assert_eq!(well_formed(&job.to_file()), Ok(job));
}

#[test]
fn shorter_than_the_edition_s_header_is_1_again() {
    let file = damage::full_job_of(3).to_file();
    let short = damage::too_short(&file);
    assert_eq!(short.len(), 62);
    all_are(&short[..61], 1);
    all_are(&short[61..], 2);
    // Said to be of an edition before it, the 48 or 52 bytes are a header.
    for (edition, header, number) in [(1, 48, 3), (2, 52, 5)] {
        let mut before = file[..60].to_vec();
        before[0] = edition;
        for length in 40..60 {
            let number = if length < header { 1 } else { number };
            assert_eq!(well_formedness(&before[..length]), (number, 65_535));
        }
    }
    // An empty job of edition 2 that says 3 lacks eight bytes, and then its offsets disagree.
    let mut says_3 = empty_job().edition(2).to_file();
    says_3[0] = 3;
    for number in [1, 1, 1, 1, 1, 1, 1, 1, 5, 5] {
        assert_eq!(well_formedness(&says_3), (number, 65_535));
        says_3.push(0);
    }
}

#[test]
fn editions_1_to_3_are_taken() {
    for edition in 1..=3 {
        let file = damage::full_job_of(edition).to_file();
        assert_eq!(well_formedness(&file), GOOD);
        all_are(&damage::wrong_editions(&file), 2);
        assert_eq!(damage::other_editions(&file).len(), 2);
    }
}

#[test]
fn the_added_zero_is_looked_at_in_edition_3_only() {
    let marks = damage::wrong_marks(&damage::full_job_of(3).to_file());
    assert_eq!(marks.len(), 9);
    assert_eq!(well_formedness(&marks[0]), GOOD);
    assert_eq!(well_formedness(&marks[1]), GOOD);
    all_are(&marks[2..], 3);
    // Before, these bytes are facts or a level, and a count of needs is not looked for.
    let file = damage::full_job_of(2).to_file();
    assert_eq!(file[52..56], [1, 0, 1, 2]);
    assert_eq!(well_formedness(&file), GOOD);
    for job in damage::levels_where_edition_3_counts() {
        let file = job.to_file();
        assert_eq!(file[52..56], [255; 4]);
        assert_eq!(well_formedness(&file), GOOD);
    }
}

#[test]
fn needs_are_counted_up_to_128() {
    let at_highest = damage::counts_at_highest(3);
    assert_eq!(at_highest[8].needs.len(), 128);
    assert_eq!(checked(at_highest)[8], GOOD);
    assert_eq!(checked(damage::counts_one_above(3))[8], (4, 65_535));
    let mut file = damage::full_job_of(3).to_file();
    for (count, number) in [(2, 5), (3, 0), (4, 5), (128, 5), (129, 4), (255, 4)] {
        file[52] = count;
        assert_eq!(well_formedness(&file), (number, 65_535));
    }
    (file[52], file[53]) = (3, 1);
    assert_eq!(well_formedness(&file), (4, 65_535));
    all_are(&damage::uses_and_needs_past_counting(&file), 4);
    // The added zero comes before the count.
    file[54] = 1;
    assert_eq!(well_formedness(&file), (3, 65_535));
}

#[test]
fn the_offset_of_the_needs_is_looked_at() {
    let file = damage::full_job_of(3).to_file();
    let offsets = damage::wrong_offsets(&file);
    assert_eq!(offsets.len(), 9 * 6 + 8);
    all_are(&offsets, 5);
    all_are(&damage::wrong_lengths(&file), 5);
    for at in 56..60 {
        for change in [1, 128, 255] {
            let mut wrong = file.clone();
            wrong[at] ^= change;
            assert_eq!(well_formedness(&wrong), (5, 65_535));
        }
    }
    // A table without records has its offset too.
    let empty = empty_job().edition(3).to_file();
    assert_eq!(well_formedness(&empty), GOOD);
    all_are(&damage::wrong_offsets(&empty)[..54], 5);
}

// ---------------------------------------------------------------------------------------------
// 6

#[test]
fn needs_end_where_the_paper_says() {
    let job = damage::full_job_of(3);
    let need = |step, level, at, least| job.clone().need(step, level, at, least).to_file();
    let far = 1_000_000_000;
    for good in [
        need(0, 0, 5, far),
        need(0, 1, 0, -far),
        need(2, 1, 4, 0),
        need(1, 0, 6, 6),
    ] {
        assert_eq!(well_formedness(&good), GOOD);
    }
    for broken in [
        need(3, 0, 0, 0),
        need(65_535, 0, 0, 0),
        need(0, 2, 0, 0),
        need(0, 65_535, 0, 0),
        need(0, 0, 6, 0),
        need(2, 0, 5, 0),
        need(0, 0, i64::from(u32::MAX), 0),
        need(0, 0, 0, far + 1),
        need(0, 0, 0, -far - 1),
        need(0, 0, 0, i64::from(i32::MIN)),
        need(0, 0, 0, i64::from(i32::MAX)),
    ] {
        assert_eq!(well_formedness(&broken), (6, 3));
    }
    assert_eq!(ranges::needs(&job).len(), 20);
}

#[test]
fn needs_come_after_the_timed_facts() {
    let mut job = damage::full_job_of(3);
    job.needs[1].at = 5;
    assert_eq!(well_formedness(&job.to_file()), (6, 1));
    job.timed[2].value = 2;
    assert_eq!(well_formedness(&job.to_file()), (6, 2));
    job.timed[2].value = 0;
    job.needs[0].least = 1_000_000_001;
    assert_eq!(well_formedness(&job.to_file()), (6, 0));
    let jobs = ranges::two_broken_records(3);
    let places = jobs.iter().map(|job| well_formedness(&job.to_file()));
    // The first table's records are 9 and 10, the last's 1 and 2.
    assert_eq!(places.clone().next(), Some((6, 9)));
    assert_eq!(places.clone().next_back(), Some((6, 1)));
    assert!(places.into_iter().all(|(number, _)| number == 6));
}

// ---------------------------------------------------------------------------------------------
// 21

#[test]
fn needs_are_met_by_what_is_left() {
    let not = unmet(0);
    assert_eq!(
        checked(need_edges::leasts_around_the_level()),
        [GOOD, GOOD, GOOD, GOOD, not]
    );
    assert_eq!(
        checked(need_edges::falls_of_another()),
        [not, not, GOOD, GOOD, GOOD, GOOD]
    );
    assert_eq!(
        checked(need_edges::rises_of_another()),
        [GOOD, not, not, not, GOOD, GOOD]
    );
    assert_eq!(
        checked(need_edges::falls_of_the_own_step()),
        [not, GOOD, GOOD, GOOD, not]
    );
    assert_eq!(
        checked(need_edges::rises_of_the_own_step()),
        [GOOD, not, not, not, GOOD]
    );
    assert_eq!(
        checked(need_edges::several_at_the_tick()),
        [GOOD, not, GOOD, not, GOOD, not, GOOD, not, GOOD, not]
    );
    assert_eq!(
        checked(need_edges::after_earlier_uses()),
        [GOOD, not, GOOD, not, GOOD, GOOD]
    );
    let second = unmet(1);
    assert_eq!(
        checked(need_edges::two_levels()),
        [not, second, not, second]
    );
    assert_eq!(
        checked(need_edges::first_and_last_ticks()),
        [GOOD, not, GOOD, not]
    );
}

#[test]
fn leasts_past_the_bounds_of_the_level() {
    let not = unmet(0);
    assert_eq!(
        checked(need_edges::leasts_past_the_bounds()),
        [GOOD, not, GOOD, not, not, GOOD, not, GOOD, not, GOOD]
    );
    assert_eq!(checked(need_edges::millions_at_one_tick()), [GOOD, not]);
}

#[test]
fn the_lowest_unmet_need_is_the_place() {
    let places = [1, 1, 2, 0, 0].map(unmet);
    assert_eq!(checked(need_edges::lowest_unmet()), places);
    let places = [127, 1].map(unmet);
    assert_eq!(checked(need_edges::last_of_128_needs()), places);
    let places = [0, 64, 127].map(unmet);
    assert_eq!(
        checked(need_edges::one_of_128_at_the_tick_of_all_uses()),
        places
    );
}

#[test]
fn unmet_needs_come_after_12_and_before_13() {
    let not = unmet(1);
    let expected = [
        not,
        (6, 2),
        (7, 0),
        (17, 0),
        (10, 0),
        (11, 0),
        (12, 0),
        (12, 0),
        not,
        not,
        (10, 0),
    ];
    assert_eq!(checked(need_edges::unmet_and_more()), expected);
    let expected = [
        GOOD,
        (7, 0),
        (17, 0),
        (10, 0),
        (11, 0),
        (12, 0),
        GOOD,
        (13, 0),
    ];
    assert_eq!(checked(need_edges::met_and_refused()), expected);
}

#[test]
fn timings_around_needs() {
    let timings = need_timings::need_timings();
    let timings = timings.iter();
    let verdicts: Vec<(u16, u16)> = timings
        .map(|(job, starts)| number_and_place(&check_timing(&job.to_file(), starts)))
        .collect();
    let not = unmet(0);
    let fall = [GOOD, GOOD, not, not, not, GOOD];
    let rise = [GOOD, GOOD, not, not, GOOD, not, not, not, GOOD];
    let last = unmet(1);
    let calibration = [GOOD, GOOD, not, last, last, GOOD, GOOD, last];
    let written = [GOOD, not];
    let beside = [
        (13, 0),
        GOOD,
        last,
        last,
        last,
        (9, 1),
        (8, 65_535),
        (8, 65_535),
        (12, 0),
        (12, 0),
        last,
        (13, 1),
    ];
    let past = [GOOD, GOOD, not, GOOD, GOOD, GOOD, not, GOOD];
    let expected = [&fall[..], &rise, &calibration, &written, &beside, &past].concat();
    assert_eq!(verdicts, expected);
}
