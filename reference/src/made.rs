//! Made cases, one by one, as they come from a seed.

use crate::cases::Case;
use crate::job::{Job, LATEST_EDITION};
use crate::loosen::order_file_of;
use crate::make::crowded::crowded_job;
use crate::make::near_miss::{near_miss, nearly_missed};
use crate::make::order_files::{broken_files, slightly_changed, some_good_file};
use crate::make::own_conflicts::some_own_conflict;
use crate::make::pddl::{some_texts, Texts};
use crate::make::scribbled::scribbled_job;
use crate::make::sound::{small_sound_job, some_sound_job};
use crate::make::timings::some_starts;
use crate::make::{damage, order_files, ranges};
use crate::random::Random;

/// A made case of a command, of any edition that is taken.
pub fn made_case(random: &mut Random, command: char) -> Case {
    let edition = some_edition(random);
    made_case_of(edition, random, command)
}

/// The latest as often as all those before it.
pub fn some_edition(random: &mut Random) -> u16 {
    let mut edition = LATEST_EDITION;
    while edition > 1 && random.chance(50) {
        edition -= 1;
    }
    edition
}

pub fn made_case_of(edition: u16, random: &mut Random, command: char) -> Case {
    match command {
        'w' => Case::job('w', file_for_well_formedness(random, edition)),
        'c' => Case::job('c', file_for_the_job_check(random, edition)),
        't' => timing_case(random, edition),
        'h' => Case::header(some_order_file(random, edition)),
        'r' => record_case(random, edition),
        'a' => alike_case(random, edition),
        'l' => loosening_case(random, edition),
        'p' => Case::job('p', file_for_the_search(random, edition)),
        'f' => texts_case(random),
        _ => panic!("there is no command {command}"),
    }
}

fn one_of<T>(random: &mut Random, mut items: Vec<T>) -> T {
    let number = random.below(items.len());
    items.swap_remove(number)
}

// ---------------------------------------------------------------------------------------------
// Jobs

fn file_for_well_formedness(random: &mut Random, edition: u16) -> Vec<u8> {
    match random.below(100) {
        0..15 => small_sound_job(random, edition).to_file(),
        15..30 => scribbled_job(random, edition).to_file(),
        30..50 => some_own_conflict(random, edition).to_file(),
        _ => damaged_file(random, edition),
    }
}

fn file_for_the_job_check(random: &mut Random, edition: u16) -> Vec<u8> {
    match random.below(100) {
        0..30 => some_sound_job(random, edition).to_file(),
        30..70 => some_near_miss(random, edition).to_file(),
        70..85 => scribbled_job(random, edition).to_file(),
        85..92 => some_own_conflict(random, edition).to_file(),
        _ => damaged_file(random, edition),
    }
}

/// Damage mostly leaves a crowded job in range.
fn file_for_the_search(random: &mut Random, edition: u16) -> Vec<u8> {
    match random.below(100) {
        0..65 => crowded_job(random, edition).to_file(),
        65..75 => some_own_conflict(random, edition).to_file(),
        75..80 => scribbled_job(random, edition).to_file(),
        80..90 => {
            let file = crowded_job(random, edition).to_file();
            damage::some_byte(random, edition, &file)
        }
        _ => damaged_file(random, edition),
    }
}

fn some_near_miss(random: &mut Random, edition: u16) -> Job {
    let number = random.pick(&nearly_missed(edition));
    near_miss(random, edition, number)
}

/// A file damaged in one of the ways of refusals 1 to 6, or no file at all.
fn damaged_file(random: &mut Random, edition: u16) -> Vec<u8> {
    let job = small_sound_job(random, edition);
    let file = job.to_file();
    match random.below(10) {
        0..4 => damage::some_byte(random, edition, &file),
        4..6 => one_of(random, ranges::ranges(&job)).to_file(),
        6..8 => damage::two_faults(random, &file),
        8 => one_of(random, damage::layouts(&file)),
        _ => damage::garbage(random, edition),
    }
}

fn timing_case(random: &mut Random, edition: u16) -> Case {
    let job = match random.below(100) {
        0..75 => some_sound_job(random, edition),
        75..90 => scribbled_job(random, edition),
        _ => some_near_miss(random, edition),
    };
    let starts = some_starts(random, &job);
    if random.chance(4) {
        return Case::timing(damage::some_byte(random, edition, &job.to_file()), &starts);
    }
    Case::timing(job.to_file(), &starts)
}

/// A buffer of just the length, a byte too short, or with room that must stay as it was.
fn loosening_case(random: &mut Random, edition: u16) -> Case {
    let file = match random.below(100) {
        0..80 => some_sound_job(random, edition).to_file(),
        _ => file_for_the_job_check(random, edition),
    };
    let length = match order_file_of(&file) {
        Ok(written) => written.to_file().len(),
        Err(_) => random.below(30),
    };
    let length = match random.below(10) {
        0 if random.chance(50) => length.saturating_sub(1),
        0 => random.below(length + 1),
        1..4 => length + 1 + random.below(9),
        _ => length,
    };
    Case::loosening(file, length)
}

// ---------------------------------------------------------------------------------------------
// Order files

fn some_order_file(random: &mut Random, edition: u16) -> Vec<u8> {
    match random.below(10) {
        0..6 => some_good_file(random, edition).to_file(),
        6..9 => order_files::damaged_file(random, edition),
        _ => one_of(random, broken_files()).1,
    }
}

/// Mostly a record that is there, else the one past the last, or none that could be.
fn record_case(random: &mut Random, edition: u16) -> Case {
    if random.chance(15) {
        let file = some_order_file(random, edition);
        let table = random.pick(&[0, 1, 2, 3, 256, u32::MAX]);
        let number = random.pick(&[0, 1, 65_536, u32::MAX]);
        return Case::record(file, table, number);
    }
    let file = some_good_file(random, edition);
    let counts = [file.windows.len(), file.orders.len(), file.links.len()];
    let table = random.below(3);
    let number = match counts[table] {
        0 => 0,
        count if random.chance(15) => count,
        count => random.below(count),
    };
    Case::record(file.to_file(), table as u32, number as u32)
}

fn alike_case(random: &mut Random, edition: u16) -> Case {
    let file = some_good_file(random, edition);
    let (a, b) = match random.below(10) {
        0..6 => (file.to_file(), slightly_changed(random, &file).to_file()),
        6 => (file.to_file(), some_order_file(random, edition)),
        7 => (some_order_file(random, edition), file.to_file()),
        8 => (
            some_order_file(random, edition),
            some_order_file(random, edition),
        ),
        _ => (file.to_file(), file.to_file()),
    };
    Case::alike(a, b)
}

// ---------------------------------------------------------------------------------------------
// Texts

fn texts_case(random: &mut Random) -> Case {
    let Texts {
        actions,
        plan,
        room,
    } = some_texts(random);
    Case::from_texts(actions, plan, room)
}
