//! The sample jobs and their sheets are those that this program makes.

use reference::samples::{sample, stored_samples};
use reference::show::show;
use std::fs;
use std::path::PathBuf;

fn stored(name: &str) -> PathBuf {
    PathBuf::from(env!("CARGO_MANIFEST_DIR"))
        .join("../samples")
        .join(name)
}

#[test]
fn samples_are_current() {
    for name in stored_samples() {
        let job = fs::read(stored(&format!("{name}.job"))).unwrap();
        let sheet = fs::read_to_string(stored(&format!("{name}.sheet"))).unwrap();
        assert_eq!(job, sample(name).unwrap().to_file(), "{name}.job");
        assert_eq!(sheet, show(&job), "{name}.sheet");
    }
}

fn shown(name: &str) -> String {
    show(&sample(name).expect("a sample").to_file())
}

#[test]
fn the_barrier_limits_every_step() {
    let sheet = "\
steps 3 rounds 1
step 0 earliest 0 latest 29
step 1 earliest 61 latest 359
step 2 earliest 481 latest 525
order 0 1 31
order 1 2 121
";
    assert_eq!(shown("barriers"), sheet);
}

#[test]
fn calibration_stays_between_the_rounds() {
    let sheet = "\
steps 3 rounds 3
step 0 earliest 0 latest none
step 1 earliest 31 latest none
step 2 earliest 52 latest none
order 0 1 31
order 0 2 31
order 1 2 21
";
    assert_eq!(shown("calibration"), sheet);
    // The second round leaves at the very tick at which the calibration ends.
    let mut unmet = sample("calibration").expect("a sample");
    unmet.steps[2].start = 55;
    assert_eq!(show(&unmet.to_file()), "refused 21 place 1\n");
}

#[test]
fn the_longest_jobs_and_the_longest_sheet() {
    let longest = sample("longest-timed").expect("a sample").to_file();
    assert_eq!(longest.len(), 17_268);
    let longest = sample("longest-needs").expect("a sample").to_file();
    assert_eq!(longest.len(), 18_812);
    let sheet = shown("longest-sheet");
    let window = "earliest 1000000 latest 1099999";
    assert_eq!(sheet.matches(window).count(), 64);
    assert_eq!(sheet.matches(" -99999\n").count(), 4_032);
}
