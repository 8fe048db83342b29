//! What goes through both programs: mostly made on the spot and small, some from a pool of
//! jobs and files that each tell something, a few as large as they can be.

use reference::bytes::u16_at;
use reference::job::{Job, LATEST_EDITION};
use reference::made::some_edition;
use reference::make::bench_jobs::{
    bench_job, needs_bench_job, timed_bench_job, SPREADS, TIMED_SPREADS,
};
use reference::make::crowded::crowded_job;
use reference::make::edges::edges;
use reference::make::highest::{chain_of_all_steps, every_pair_ordered_both_ways};
use reference::make::marked::{marked_and_refused, marked_telling_jobs, marked_timings};
use reference::make::near_miss::{near_miss, nearly_missed};
use reference::make::need_edges::need_edges;
use reference::make::need_telling::{largest_needs, need_telling_jobs};
use reference::make::need_timings::need_timings;
use reference::make::order_files::{
    alike_files, broken_files, each_byte, files_at_the_limits, files_with_timed_links,
    highest_file, some_file, too_many_orders, unlike_files,
};
use reference::make::own_conflicts::{own_conflicts, some_own_conflict};
use reference::make::pairs::{beside_needs, beside_timed_facts, large_pairs, small_pairs};
use reference::make::pddl::by_hand::{all, Told};
use reference::make::pddl::damage as texts_damage;
use reference::make::pddl::highest::{highest_texts, last_records_at_fault, LONGEST_JOB};
use reference::make::pddl::{some_texts, Texts};
use reference::make::scribbled::scribbled_job;
use reference::make::sound::some_sound_job;
use reference::make::telling::telling_jobs;
use reference::make::ties::{largest_ties, largest_timed_ties};
use reference::make::timed_edges::timed_edges;
use reference::make::timed_telling::timed_telling_jobs;
use reference::make::timed_timings::timed_timings;
use reference::make::timings::{some_starts, telling_timings};
use reference::make::{checking_order, damage, ranges};
use reference::order_file::OrderFile;
use reference::random::Random;

const NEAR_MISSES: usize = 200;

const MADE_TEXTS: usize = 2_000;

/// Texts with more bytes take long to go through.
const SMALL_TEXTS: usize = 1_000;

/// A job file, and starts to check it with.
type Timed = (Vec<u8>, Vec<u32>);

/// Made once, because making them takes long.
pub struct Pool {
    jobs: Vec<Timed>,
    large: Vec<Timed>,
    files: Vec<Vec<u8>>,
    texts: Vec<Texts>,
    large_texts: Vec<Texts>,
}

impl Pool {
    pub fn new(seed: u64) -> Pool {
        let mut random = Random::seeded(!seed);
        let mut pool = Pool {
            jobs: Vec::new(),
            large: Vec::new(),
            files: Vec::new(),
            texts: Vec::new(),
            large_texts: Vec::new(),
        };
        for edition in 1..=LATEST_EDITION {
            pool.add_edition(&mut random, edition);
        }
        pool.add_marked(&mut random);
        pool.add_texts(&mut random);
        pool
    }

    fn add_marked(&mut self, random: &mut Random) {
        let sound = marked_telling_jobs().into_iter().map(|(_, job)| job);
        let jobs = sound.chain(marked_and_refused());
        self.jobs.extend(jobs.map(|job| timed(random, &job)));
        let timings = marked_timings().into_iter();
        self.jobs
            .extend(timings.map(|(job, starts)| (job.to_file(), starts)));
    }

    fn add_texts(&mut self, random: &mut Random) {
        let by_hand = [all(), last_records_at_fault(), vec![highest_texts()]].concat();
        let mut texts: Vec<Texts> = by_hand.into_iter().map(into_longest).collect();
        texts.extend((0..MADE_TEXTS).map(|_| some_texts(random)));
        let small = |texts: &Texts| texts.actions.len() + texts.plan.len() <= SMALL_TEXTS;
        (self.texts, self.large_texts) = texts.into_iter().partition(small);
    }

    /// What the jobs of an edition add, and the order files that they make possible.
    fn add_edition(&mut self, random: &mut Random, edition: u16) {
        let mut jobs = by_hand(edition);
        jobs.extend(ranges::ranges(&damage::full_job_of(edition)));
        for number in nearly_missed(edition) {
            jobs.extend((0..NEAR_MISSES).map(|_| near_miss(random, edition, number)));
        }
        self.jobs.extend(jobs.iter().map(|job| timed(random, job)));
        let damaged = damaged(edition).into_iter();
        self.jobs
            .extend(damaged.map(|file| (file, vec![10, 20, 30])));
        let timings = match edition {
            1 => telling_timings(),
            2 => timed_timings(),
            _ => need_timings(),
        };
        let timings = timings.into_iter();
        self.jobs
            .extend(timings.map(|(job, starts)| (job.to_file(), starts)));
        let large = large(edition);
        self.large
            .extend(large.iter().map(|job| timed(random, job)));
        self.files.extend(order_files(edition));
    }
}

fn by_hand(edition: u16) -> Vec<Job> {
    let (telling, more) = match edition {
        1 => (
            telling_jobs(),
            [edges(), own_conflicts(), small_pairs()].concat(),
        ),
        2 => (
            timed_telling_jobs(),
            [timed_edges(), beside_timed_facts()].concat(),
        ),
        _ => (need_telling_jobs(), [need_edges(), beside_needs()].concat()),
    };
    let telling = telling.into_iter().map(|(_, job)| job);
    telling.chain(more).collect()
}

fn large(edition: u16) -> Vec<Job> {
    let (mut large, more) = match edition {
        1 => (large_without_the_clock(), largest_ties()),
        2 => (
            TIMED_SPREADS.map(timed_bench_job).to_vec(),
            largest_timed_ties(),
        ),
        _ => (TIMED_SPREADS.map(needs_bench_job).to_vec(), largest_needs()),
    };
    large.extend(more.into_iter().map(|(_, job)| job));
    large
}

fn large_without_the_clock() -> Vec<Job> {
    let mut large = SPREADS.map(|spread| bench_job(spread, 64)).to_vec();
    large.extend([chain_of_all_steps(), every_pair_ordered_both_ways()]);
    large.extend(large_pairs());
    large
}

/// With a buffer that takes any job.
fn into_longest(told: Told) -> Texts {
    Texts {
        actions: told.actions,
        plan: told.plan,
        room: LONGEST_JOB,
    }
}

fn timed(random: &mut Random, job: &Job) -> Timed {
    (job.to_file(), some_starts(random, job))
}

fn damaged(edition: u16) -> Vec<Vec<u8>> {
    let file = damage::full_job_of(edition).to_file();
    [
        damage::too_short(&file),
        damage::layouts(&file),
        damage::each_byte(&file),
        checking_order::one_of_each(edition),
    ]
    .concat()
}

/// Edition 3 makes no others possible than edition 2.
fn order_files(edition: u16) -> Vec<Vec<u8>> {
    match edition {
        1 => order_files_without_the_clock(),
        2 => {
            let linked = files_with_timed_links();
            linked.iter().map(OrderFile::to_file).collect()
        }
        _ => vec![],
    }
}

fn order_files_without_the_clock() -> Vec<Vec<u8>> {
    let good = [files_at_the_limits(), alike_files(), unlike_files()].concat();
    let mut files: Vec<Vec<u8>> = good.iter().map(OrderFile::to_file).collect();
    files.extend(broken_files().into_iter().map(|(_, file)| file));
    files.extend(
        [
            each_byte(),
            too_many_orders(),
            vec![highest_file().to_file()],
        ]
        .concat(),
    );
    files
}

pub struct Source<'a> {
    pool: &'a Pool,
    random: Random,
    /// Starts for the job that was drawn last.
    starts: Vec<u32>,
}

impl Source<'_> {
    pub fn new(pool: &Pool, seed: u64) -> Source<'_> {
        Source {
            pool,
            random: Random::seeded(seed),
            starts: Vec::new(),
        }
    }

    pub fn job(&mut self) -> Vec<u8> {
        let random = &mut self.random;
        let (job, starts) = match random.below(20_000) {
            0 => one_of(random, &self.pool.large),
            1..3_000 => one_of(random, &self.pool.jobs),
            3_000..10_000 => made(random, scribbled_job),
            10_000..12_000 => made(random, some_own_conflict),
            12_000..14_000 => made(random, crowded_job),
            _ => made(random, some_sound_job),
        };
        self.starts = starts;
        match random.below(10) {
            0 if !job.is_empty() => damage::some_byte(random, LATEST_EDITION, &job),
            _ => job,
        }
    }

    /// Starts that go with the job, mostly.
    pub fn starts(&self) -> Vec<u32> {
        self.starts.clone()
    }

    /// How much longer than the order file the buffer is.
    pub fn slack(&mut self) -> isize {
        let more = self.random.below(40) as isize;
        self.random.pick(&[0, 0, -1, 1, more, -more, isize::MIN])
    }

    pub fn list_length(&mut self, needed: usize) -> usize {
        let some = self.random.below(12);
        self.random
            .pick(&[needed, needed, needed - 1, needed + 1, some, 0])
    }

    /// The file that was written, or another; damaged now and then.
    pub fn order_file(&mut self, written: Option<Vec<u8>>) -> Vec<u8> {
        let random = &mut self.random;
        let file = match written {
            Some(file) if random.chance(70) => file,
            _ if random.chance(50) => some_file(random, LATEST_EDITION).to_file(),
            _ => one_of(random, &self.pool.files),
        };
        match random.below(5) {
            0 if !file.is_empty() => changed(random, file),
            _ => file,
        }
    }

    /// A record of the file, mostly one that is there.
    pub fn record(&mut self, file: &[u8]) -> (u32, u32) {
        let random = &mut self.random;
        let table = random.pick(&[0, 0, 1, 1, 2, 2, 3, u32::MAX]);
        let count = match table {
            0..3 if file.len() >= 24 => u32::from(u16_at(file, 2 + 2 * table as usize)),
            _ => 0,
        };
        let inside = random.below(count.max(1) as usize) as u32;
        (
            table,
            random.pick(&[inside, inside, inside, inside, count, u32::MAX]),
        )
    }

    /// A file to compare with this one: the same, or nearly, or any.
    pub fn other_file(&mut self, file: &[u8]) -> Vec<u8> {
        match self.random.below(4) {
            0 => file.to_vec(),
            1 | 2 if !file.is_empty() => changed(&mut self.random, file.to_vec()),
            _ => self.order_file(None),
        }
    }

    /// A pair of texts, one of them damaged now and then.
    pub fn texts(&mut self) -> Texts {
        let random = &mut self.random;
        let mut texts = match random.below(1_000) {
            0 => one_of(random, &self.pool.large_texts),
            1..5 => some_texts(random),
            _ => one_of(random, &self.pool.texts),
        };
        match random.below(10) {
            0..3 => texts.actions = texts_damage::some_byte(random, texts.actions),
            3 => texts.plan = texts_damage::some_byte(random, texts.plan),
            _ => {}
        }
        texts
    }
}

fn one_of<T: Clone>(random: &mut Random, items: &[T]) -> T {
    items[random.below(items.len())].clone()
}

/// Of the latest edition as often as of those before it.
fn made(random: &mut Random, make: impl Fn(&mut Random, u16) -> Job) -> Timed {
    let edition = some_edition(random);
    let job = make(random, edition);
    timed(random, &job)
}

/// One byte changed, or the end cut or grown.
fn changed(random: &mut Random, mut file: Vec<u8>) -> Vec<u8> {
    match random.below(10) {
        0 => file.push(0),
        1 => file.truncate(random.below(file.len())),
        _ => {
            let at = random.below(file.len());
            file[at] = random.pick(&[0, 1, 255, file[at] ^ 1, file[at].wrapping_add(1)]);
        }
    }
    file
}
