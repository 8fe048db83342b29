//! The sample texts, their job and its sheet.

use std::fs;
use std::path::PathBuf;

use reference::pddl::job_from_texts;
use reference::show::show;

use super::*;

fn stored(ending: &str) -> Vec<u8> {
    let folder = PathBuf::from(env!("CARGO_MANIFEST_DIR")).join("../samples");
    fs::read(folder.join(format!("deck-overnight.{ending}"))).unwrap()
}

#[test]
fn the_sample_is_what_its_texts_become() {
    let job = job_from_texts(&stored("actions"), &stored("plan")).unwrap();
    assert_eq!(job, stored("job"));
    assert_eq!(show(&job).into_bytes(), stored("sheet"));
}

/// Facts in their order: deck-open, deck-empty, controller-up, settings-saved, signs-lit,
/// new-panels-up, loops-calibrated, signs-tested. Levels: fitters, handsets.
#[test]
fn the_sample_s_numbers() {
    let job = job(stored("actions"), stored("plan"));
    assert_eq!(job.facts, [1, 0, 1, 0, 1, 0, 0, 0]);
    let initial: Vec<i64> = job.levels.iter().map(|level| level.initial).collect();
    assert_eq!(initial, [3, 2]);
    assert_eq!(job.steps.len(), 10);
    let goals: Vec<(usize, u16)> = job.goals.iter().map(|g| (g.fact, g.value)).collect();
    assert_eq!(goals, [(0, 1), (4, 1), (7, 1), (6, 1), (1, 0)]);
}
