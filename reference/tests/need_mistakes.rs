//! Mistaken versions of what edition 3 adds, each told from the right one by some stored job.

use std::collections::BTreeMap;

use reference::bytes::u16_at;
use reference::job::{Job, Need, Use};
use reference::job_file::edition_in;
use reference::loosen::order_file_of;
use reference::make::damage::patched;
use reference::make::near_miss::near_miss;
use reference::make::scribbled::scribbled_job;
use reference::make::sound::some_sound_job;
use reference::orders::orders_of;
use reference::random::Random;
use reference::refusal::number_and_place;
use reference::stored::stored_cases;
use reference::timing::check_job;
use reference::well_formed::well_formed;

// ---------------------------------------------------------------------------------------------
// The rules

/// A need and a use, with their ticks.
struct Two {
    need: Need,
    used: Use,
    need_tick: i64,
    use_tick: i64,
}

impl Two {
    fn of(job: &Job, need: &Need, used: &Use) -> Two {
        let starts = job.written_starts();
        Two {
            need: *need,
            used: *used,
            need_tick: need.tick(&starts),
            use_tick: used.tick(&starts),
        }
    }

    fn of_one_level(&self) -> bool {
        self.need.level == self.used.level
    }

    fn of_one_step(&self) -> bool {
        self.need.step == self.used.step
    }

    fn is_fall(&self) -> bool {
        self.used.amount < 0
    }

    fn earlier(&self) -> bool {
        self.use_tick < self.need_tick
    }

    fn now(&self) -> bool {
        self.use_tick == self.need_tick
    }
}

/// A number and a place.
type Refused = (u16, u16);

/// The orders of a job, or why it is refused.
type Answer = Result<BTreeMap<(usize, usize), i64>, Refused>;

/// Each is about a use of the need's level.
#[derive(Clone, Copy)]
struct Rules {
    /// Whether the use counts in what the need finds.
    counts: fn(&Two) -> bool,
    /// Whether the two are ordered, and then as they lie.
    orders: fn(&Two) -> bool,
    /// Of two points, the first before the second.
    gap: fn(i64, i64) -> i64,
    /// What a job is refused with, if these needs are unmet and all else is refused so.
    refused: fn(&Job, &[usize], Option<Refused>) -> Option<Refused>,
}

const RIGHT: Rules = Rules {
    counts: |two| two.earlier() || (two.now() && !two.of_one_step() && two.is_fall()),
    orders: |two| !two.of_one_step() && !two.now(),
    gap: |first, second| first - second + 1,
    refused: |_, unmet, rest| before(&[13], refusal(21, unmet.first()), rest),
};

fn refusal(number: u16, place: Option<&usize>) -> Option<Refused> {
    place.map(|&place| (number, place as u16))
}

/// A refusal that comes only before these of the rest.
fn before(later: &[u16], refused: Option<Refused>, rest: Option<Refused>) -> Option<Refused> {
    match rest {
        Some((number, _)) if !later.contains(&number) => rest,
        _ => refused.or(rest),
    }
}

impl Rules {
    /// What a well-formed job is answered.
    fn answer(&self, job: &Job) -> Answer {
        let without = Job {
            needs: vec![],
            ..job.clone()
        };
        let rest = check_job(&without.to_file());
        let rest = rest.err().map(|refusal| (refusal.number, refusal.place));
        let unmet = (0..job.needs.len()).filter(|&number| self.unmet(job, &job.needs[number]));
        match (self.refused)(job, &unmet.collect::<Vec<_>>(), rest) {
            Some(refused) => Err(refused),
            None => Ok(self.with_orders_of_needs(job, &without)),
        }
    }

    fn unmet(&self, job: &Job, need: &Need) -> bool {
        let pairs = pairs_of(job, need);
        let counted = pairs.iter().filter(|two| (self.counts)(two));
        let changes: i64 = counted.map(|two| two.used.amount).sum();
        job.levels[need.level].initial + changes < need.least
    }

    fn with_orders_of_needs(&self, job: &Job, without: &Job) -> BTreeMap<(usize, usize), i64> {
        let orders = orders_of(without).orders.into_iter();
        let mut gaps: BTreeMap<_, _> = orders.map(|o| ((o.first, o.second), o.gap)).collect();
        let pairs = job.needs.iter().flat_map(|need| pairs_of(job, need));
        for two in pairs.filter(|two| (self.orders)(two)) {
            let (need, used) = ((two.need.step, two.need.at), (two.used.step, two.used.at));
            let (first, second) = match two.earlier() {
                true => (used, need),
                false => (need, used),
            };
            let gap = (self.gap)(first.1, second.1);
            let largest = gaps.entry((first.0, second.0)).or_insert(gap);
            *largest = gap.max(*largest);
        }
        gaps
    }
}

/// A need with each use of its level.
fn pairs_of(job: &Job, need: &Need) -> Vec<Two> {
    let uses = job.uses.iter().map(|used| Two::of(job, need, used));
    uses.filter(Two::of_one_level).collect()
}

/// What the second program says.
fn right_answer(job: &Job) -> Answer {
    match order_file_of(&job.to_file()) {
        Err(refusal) => Err((refusal.number, refusal.place)),
        Ok(file) => {
            let orders = file.orders.iter();
            Ok(orders.map(|o| ((o.first, o.second), o.gap)).collect())
        }
    }
}

// ---------------------------------------------------------------------------------------------
// Mistakes

type Mistake = (&'static str, Rules);

fn about_what_counts() -> Vec<Mistake> {
    let counts = |counts| Rules { counts, ..RIGHT };
    vec![
        (
            "own falls of the tick count",
            counts(|two| two.earlier() || (two.now() && two.is_fall())),
        ),
        (
            "own rises of the tick count",
            counts(|two| {
                let own_rise = two.of_one_step() && !two.is_fall();
                (RIGHT.counts)(two) || (two.now() && own_rise)
            }),
        ),
        (
            "others' rises of the tick count",
            counts(|two| two.earlier() || (two.now() && !two.of_one_step())),
        ),
        (
            "others' falls of the tick do not count",
            counts(|two| two.earlier()),
        ),
        (
            "all uses of the tick count",
            counts(|two| two.earlier() || two.now()),
        ),
        (
            "own uses of earlier ticks do not count",
            counts(|two| !two.of_one_step() && (RIGHT.counts)(two)),
        ),
        (
            "only falls of earlier ticks count",
            counts(|two| two.is_fall() && (RIGHT.counts)(two)),
        ),
    ]
}

fn about_orders() -> Vec<Mistake> {
    let orders = |orders| Rules { orders, ..RIGHT };
    let gap = |gap| Rules { gap, ..RIGHT };
    vec![
        ("ordered at one tick", orders(|two| !two.of_one_step())),
        ("ordered with the own step", orders(|two| !two.now())),
        (
            "only needs before uses are ordered",
            orders(|two| (RIGHT.orders)(two) && !two.earlier()),
        ),
        (
            "only uses before needs are ordered",
            orders(|two| (RIGHT.orders)(two) && two.earlier()),
        ),
        (
            "only falls are ordered",
            orders(|two| (RIGHT.orders)(two) && two.is_fall()),
        ),
        (
            "only rises are ordered",
            orders(|two| (RIGHT.orders)(two) && !two.is_fall()),
        ),
        ("nothing is ordered", orders(|_| false)),
        ("not strictly", gap(|first, second| first - second)),
        (
            "gaps not under 0",
            gap(|first, second| (first - second + 1).max(0)),
        ),
        (
            "the other way round",
            gap(|first, second| second - first + 1),
        ),
    ]
}

/// The lowest level that passes a bound or leaves a need unmet.
fn as_a_fall(job: &Job, unmet: &[usize], rest: Option<Refused>) -> Option<Refused> {
    let levels = unmet.iter().map(|&number| job.needs[number].level);
    let refused = refusal(12, levels.min().as_ref());
    match rest {
        Some((12, _)) => rest.min(refused.or(rest)),
        _ => before(&[13], refused, rest),
    }
}

fn about_when_it_is_refused() -> Vec<Mistake> {
    let refused = |refused| Rules { refused, ..RIGHT };
    vec![
        ("a fall under 12", refused(as_a_fall)),
        (
            "before 12",
            refused(|_, unmet, rest| before(&[12, 13], refusal(21, unmet.first()), rest)),
        ),
        (
            "before 11",
            refused(|_, unmet, rest| before(&[11, 12, 13], refusal(21, unmet.first()), rest)),
        ),
        (
            "after 13",
            refused(|_, unmet, rest| before(&[], refusal(21, unmet.first()), rest)),
        ),
        ("never", refused(|_, _, rest| rest)),
    ]
}

fn about_the_place() -> Vec<Mistake> {
    let refused = |refused| Rules { refused, ..RIGHT };
    vec![
        (
            "the highest unmet need",
            refused(|_, unmet, rest| before(&[13], refusal(21, unmet.last()), rest)),
        ),
        (
            "the first unmet need by tick",
            refused(|job, unmet, rest| {
                let starts = job.written_starts();
                let first = unmet
                    .iter()
                    .min_by_key(|&&number| job.needs[number].tick(&starts));
                before(&[13], refusal(21, first), rest)
            }),
        ),
        (
            "the level of the unmet need",
            refused(|job, unmet, rest| {
                let level = unmet.first().map(|&number| job.needs[number].level);
                before(&[13], refusal(21, level.as_ref()), rest)
            }),
        ),
    ]
}

/// Those that the job check tells.
fn mistaken_checks() -> Vec<Mistake> {
    [
        about_what_counts(),
        about_when_it_is_refused(),
        about_the_place(),
    ]
    .concat()
}

fn mistakes() -> Vec<Mistake> {
    [mistaken_checks(), about_orders()].concat()
}

/// How many of these jobs the rules answer otherwise.
fn told_by(rules: Rules, jobs: &[(Job, Answer)]) -> usize {
    let told = jobs
        .iter()
        .filter(|(job, right)| rules.answer(job) != *right);
    told.count()
}

fn with_answers(jobs: impl IntoIterator<Item = Job>) -> Vec<(Job, Answer)> {
    let jobs = jobs.into_iter();
    jobs.map(|job| (job.clone(), right_answer(&job))).collect()
}

/// The small well-formed jobs of edition 3 in the stored cases of a command.
fn stored_jobs(command: char) -> Vec<Job> {
    let cases = stored_cases(command).into_iter();
    let jobs = cases.filter_map(|case| well_formed(&case.fields[0]).ok());
    jobs.filter(|job| job.edition == 3 && job.steps.len() < 20)
        .collect()
}

#[test]
fn each_mistake_is_told_by_stored_jobs() {
    for (command, mistakes) in [('c', mistaken_checks()), ('l', mistakes())] {
        let jobs = with_answers(stored_jobs(command));
        assert_eq!(told_by(RIGHT, &jobs), 0);
        for (mistake, rules) in mistakes {
            let told = told_by(rules, &jobs);
            assert!(told > 0, "{command}: no job tells: {mistake}");
        }
    }
}

/// Sound jobs, near misses, and scribbled jobs with several faults.
#[test]
fn made_jobs_tell_each_mistake() {
    let mut random = Random::seeded(13);
    let mut jobs: Vec<Job> = (0..3_000).map(|_| some_sound_job(&mut random, 3)).collect();
    jobs.extend((0..1_000).map(|_| near_miss(&mut random, 3, 21)));
    let scribbled = (0..10_000).map(|_| scribbled_job(&mut random, 3));
    jobs.extend(scribbled.filter(|job| well_formed(&job.to_file()).is_ok()));
    let jobs = with_answers(jobs);
    assert_eq!(told_by(RIGHT, &jobs), 0);
    for (mistake, rules) in mistakes() {
        let told = told_by(rules, &jobs);
        assert!(told >= 30, "{told}: {mistake}");
    }
}

// ---------------------------------------------------------------------------------------------
// The header

/// The number that a mistaken reading of a file gives.
type Reading = fn(&[u8]) -> u16;

fn number(file: &[u8]) -> u16 {
    number_and_place(&well_formed(file)).0
}

/// A number at a place of the file, if it is so long, and of this edition.
fn number_at(file: &[u8], edition: u16, at: usize) -> Option<u16> {
    let there = file.len() >= at + 2 && file.len() >= 48 && edition_in(file) == edition;
    there.then(|| u16_at(file, at))
}

/// Refused with this number, unless a lower one comes first.
fn refused_first(file: &[u8], refused: u16) -> u16 {
    match number(file) {
        first @ 1.. if first < refused => first,
        _ => refused,
    }
}

fn readings_of_the_added_zero() -> Vec<(&'static str, Reading)> {
    vec![
        ("also in edition 2", |file| match number_at(file, 2, 54) {
            Some(1..) => refused_first(file, 3),
            _ => number(file),
        }),
        ("also in edition 1", |file| match number_at(file, 1, 54) {
            Some(1..) => refused_first(file, 3),
            _ => number(file),
        }),
        ("never", |file| match number_at(file, 3, 54) {
            Some(1..) => number(&patched(file, 54, &[0, 0])),
            _ => number(file),
        }),
        ("only its low byte", |file| match number_at(file, 3, 54) {
            Some(1..) => number(&patched(file, 55, &[0])),
            _ => number(file),
        }),
    ]
}

fn readings_of_the_count() -> Vec<(&'static str, Reading)> {
    vec![
        ("also in edition 2", |file| match number_at(file, 2, 52) {
            Some(129..) => refused_first(file, 4),
            _ => number(file),
        }),
        ("127 at most", |file| match number_at(file, 3, 52) {
            Some(128..) => refused_first(file, 4),
            _ => number(file),
        }),
        ("only its low byte", |file| match number_at(file, 3, 52) {
            Some(1..) => number(&patched(file, 53, &[0])),
            _ => number(file),
        }),
    ]
}

fn readings_of_the_rest() -> Vec<(&'static str, Reading)> {
    vec![
        ("a header of 52 bytes", |file| match number(file) {
            1 if file.len() >= 52 => 5,
            number => number,
        }),
        ("a header of 59 bytes", |file| match number(file) {
            1 if file.len() == 59 => 5,
            number => number,
        }),
        ("editions 1 and 2 only", |file| {
            match file.len() >= 48 && edition_in(file) == 3 {
                true => 2,
                false => number(file),
            }
        }),
    ]
}

#[test]
fn each_mistaken_reading_is_told_by_a_stored_job() {
    let cases = stored_cases('w');
    let readings = [
        readings_of_the_added_zero(),
        readings_of_the_count(),
        readings_of_the_rest(),
    ];
    for (mistake, reading) in readings.concat() {
        let mut files = cases.iter().map(|case| &case.fields[0]);
        let told = files.any(|file| reading(file) != number(file));
        assert!(told, "no file tells: {mistake}");
    }
}
