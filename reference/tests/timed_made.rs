//! What made jobs of edition 2 have in them: everything that the clock can do to a job.

use reference::job::{Effect, Job};
use reference::loosen::order_file_of;
use reference::make::sound::small_sound_job;
use reference::order_file::{Link, OrderFile};
use reference::random::Random;

#[derive(Debug, Default)]
struct Seen {
    without_timed_facts: usize,
    without_steps: usize,
    conditions_of_the_clock: usize,
    goals_of_the_clock: usize,
    due_goals_of_the_clock: usize,
    ties_of_a_linked_effect: usize,
    ties_of_a_linked_timed_fact: usize,
    raised_limits: usize,
    lowered_latest_starts: usize,
    fixed_beside_the_clock: usize,
    serial: usize,
    late_timed_facts: usize,
}

impl Seen {
    fn look(&mut self, job: &Job, file: &OrderFile) {
        self.without_timed_facts += usize::from(job.timed.is_empty());
        self.without_steps += usize::from(job.steps.is_empty() && !job.timed.is_empty());
        self.serial += usize::from(job.serial == 1 && !job.timed.is_empty());
        self.late_timed_facts += job.timed.iter().filter(|t| t.tick > 1_000_000).count();
        let (conditions, goals) = file.links.split_at(job.conditions.len());
        let of_the_clock = |link: &&Link| matches!(link, Link::Timed(_));
        self.conditions_of_the_clock += conditions.iter().filter(of_the_clock).count();
        self.goals_of_the_clock += goals.iter().filter(of_the_clock).count();
        let due = job.goals.iter().zip(goals);
        let due = due.filter(|(goal, link)| goal.deadline.is_some() && of_the_clock(link));
        self.due_goals_of_the_clock += due.count();
        self.look_at_ties(job, file);
        self.look_at_windows(job, file);
    }

    fn look_at_ties(&mut self, job: &Job, file: &OrderFile) {
        let starts = job.written_starts();
        for link in &file.links {
            let ties = |fact, tick, value| {
                let timed = job.timed.iter();
                timed
                    .filter(|t| (t.fact, t.tick, t.value) == (fact, tick, value))
                    .count()
            };
            match *link {
                Link::Effect(number) => {
                    let effect @ Effect { fact, value, .. } = job.effects[number];
                    let tied = ties(fact, effect.tick(&starts), value) > 0;
                    self.ties_of_a_linked_effect += usize::from(tied);
                }
                Link::Timed(number) => {
                    let timed = job.timed[number];
                    let tied = ties(timed.fact, timed.tick, timed.value) > 1;
                    self.ties_of_a_linked_timed_fact += usize::from(tied);
                }
                Link::InitialState => {}
            }
        }
    }

    fn look_at_windows(&mut self, job: &Job, file: &OrderFile) {
        let no_deadlines = job.goals.iter().all(|goal| goal.deadline.is_none());
        for (step, window) in job.steps.iter().zip(&file.windows) {
            if step.is_fixed() {
                self.fixed_beside_the_clock += usize::from(!job.timed.is_empty());
                continue;
            }
            self.raised_limits += usize::from(window.limit > 0);
            self.lowered_latest_starts += usize::from(no_deadlines && window.latest.is_some());
        }
    }

    fn all(&self) -> [usize; 12] {
        [
            self.without_timed_facts,
            self.without_steps,
            self.conditions_of_the_clock,
            self.goals_of_the_clock,
            self.due_goals_of_the_clock,
            self.ties_of_a_linked_effect,
            self.ties_of_a_linked_timed_fact,
            self.raised_limits,
            self.lowered_latest_starts,
            self.fixed_beside_the_clock,
            self.serial,
            self.late_timed_facts,
        ]
    }
}

#[test]
fn made_jobs_have_everything_that_the_clock_can_do() {
    let mut random = Random::seeded(21);
    let mut seen = Seen::default();
    for _ in 0..5_000 {
        let job = small_sound_job(&mut random, 2);
        let file = order_file_of(&job.to_file()).expect("a made job is sound");
        seen.look(&job, &file);
    }
    assert!(seen.all().into_iter().all(|count| count > 50), "{seen:?}");
}

/// Without timed facts the edition makes no difference but in the header.
#[test]
fn without_timed_facts_the_order_files_are_those_of_edition_1() {
    let mut random = Random::seeded(22);
    for _ in 0..2_000 {
        let job = small_sound_job(&mut random, 1);
        let of_edition_1 = order_file_of(&job.to_file());
        assert!(of_edition_1.is_ok());
        let job = job.edition(2);
        assert_eq!(order_file_of(&job.to_file()), of_edition_1);
    }
}
