//! What made jobs of edition 3 have in them: everything that a need can do to a job.

use reference::job::{Job, Need, Use};
use reference::loosen::order_file_of;
use reference::make::sound::small_sound_job;
use reference::order_file::OrderFile;
use reference::random::Random;
use reference::timing::left_for;

#[derive(Debug, Default)]
struct Seen {
    without_needs: usize,
    without_uses: usize,
    beside_timed_facts: usize,
    serial: usize,
    of_a_fixed_step: usize,
    just_met: usize,
    falls_of_others_at_the_tick: usize,
    rises_of_others_at_the_tick: usize,
    own_falls_at_the_tick: usize,
    own_rises_at_the_tick: usize,
    own_uses_before: usize,
    orders_of_needs_alone: usize,
    gaps_raised_by_needs: usize,
    earliest_times_raised_by_needs: usize,
}

impl Seen {
    fn look(&mut self, job: &Job, file: &OrderFile) {
        self.without_needs += usize::from(job.needs.is_empty());
        for need in &job.needs {
            self.without_uses += usize::from(job.uses.iter().all(|u| u.level != need.level));
            self.beside_timed_facts += usize::from(!job.timed.is_empty());
            self.serial += usize::from(job.serial == 1);
            self.of_a_fixed_step += usize::from(job.steps[need.step].is_fixed());
            self.look_at_uses(job, need);
        }
        self.look_at_orders(job, file);
    }

    fn look_at_uses(&mut self, job: &Job, need: &Need) {
        let starts = job.written_starts();
        let tick = need.tick(&starts);
        let uses = || job.uses.iter().filter(|u| u.level == need.level);
        let now = |which: &dyn Fn(&Use) -> bool| {
            let now = uses().filter(|u| u.tick(&starts) == tick);
            now.filter(|u| which(u)).count()
        };
        let own = |used: &Use| used.step == need.step;
        self.just_met += usize::from(left_for(job, &starts, need) == need.least);
        self.falls_of_others_at_the_tick += now(&|u| !own(u) && u.amount < 0);
        self.rises_of_others_at_the_tick += now(&|u| !own(u) && u.amount > 0);
        self.own_falls_at_the_tick += now(&|u| own(u) && u.amount < 0);
        self.own_rises_at_the_tick += now(&|u| own(u) && u.amount > 0);
        self.own_uses_before += uses().filter(|u| own(u) && u.tick(&starts) < tick).count();
    }

    fn look_at_orders(&mut self, job: &Job, file: &OrderFile) {
        let without = Job {
            needs: vec![],
            ..job.clone()
        };
        let without = order_file_of(&without.to_file()).expect("needs only refuse");
        for order in &file.orders {
            let mut orders = without.orders.iter();
            let steps = (order.first, order.second);
            match orders.find(|other| (other.first, other.second) == steps) {
                None => self.orders_of_needs_alone += 1,
                Some(other) => self.gaps_raised_by_needs += usize::from(other.gap < order.gap),
            }
        }
        let raised = file.earliest_times() != without.earliest_times();
        self.earliest_times_raised_by_needs += usize::from(raised);
    }

    fn all(&self) -> [usize; 14] {
        [
            self.without_needs,
            self.without_uses,
            self.beside_timed_facts,
            self.serial,
            self.of_a_fixed_step,
            self.just_met,
            self.falls_of_others_at_the_tick,
            self.rises_of_others_at_the_tick,
            self.own_falls_at_the_tick,
            self.own_rises_at_the_tick,
            self.own_uses_before,
            self.orders_of_needs_alone,
            self.gaps_raised_by_needs,
            self.earliest_times_raised_by_needs,
        ]
    }
}

#[test]
fn made_jobs_have_everything_that_needs_can_do() {
    let mut random = Random::seeded(21);
    let mut seen = Seen::default();
    for _ in 0..5_000 {
        let job = small_sound_job(&mut random, 3);
        let file = order_file_of(&job.to_file()).expect("a made job is sound");
        seen.look(&job, &file);
    }
    assert!(seen.all().into_iter().all(|count| count > 100), "{seen:?}");
}

/// Without needs the edition makes no difference but in the header.
#[test]
fn without_needs_the_order_files_are_those_of_the_editions_before() {
    let mut random = Random::seeded(22);
    for edition in [1, 2] {
        for _ in 0..2_000 {
            let job = small_sound_job(&mut random, edition);
            let before = order_file_of(&job.to_file());
            assert!(before.is_ok());
            let job = job.edition(3);
            assert_eq!(order_file_of(&job.to_file()), before);
        }
    }
}
