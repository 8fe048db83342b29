//! `compare N SEED`: made jobs, starts, order files, texts and damaged bytes go through the static
//! library and through the second program, N calls of each. `compare CASES`: a file of cases does. Every
//! answer and every lent byte must agree, and every refusal must have occurred, none where it is not
//! given, as must searches that find a pair and that find none.

mod both;
mod source;
mod tally;

use std::process::ExitCode;
use std::{env, fs, thread};

use both::Both;
use reference::cases::{cases_in, Asked, Case};
use source::{Pool, Source};
use tally::Tally;

/// The cases are the same for the same seed, so the threads are as many on every machine.
const THREADS: u64 = 2;

fn main() -> ExitCode {
    let arguments: Vec<String> = env::args().skip(1).collect();
    let numbers: Vec<u64> = arguments.iter().flat_map(|text| text.parse()).collect();
    let compared = match (&arguments[..], &numbers[..]) {
        ([_, _], &[calls, seed]) => compare_made(calls, seed),
        ([path], _) => compare_stored(path),
        _ => Err("compare N SEED, or compare CASES\n".to_string()),
    };
    match compared {
        Ok(report) => {
            print!("{report}");
            ExitCode::SUCCESS
        }
        Err(difference) => {
            eprint!("{difference}");
            ExitCode::FAILURE
        }
    }
}

fn compare_stored(path: &str) -> Result<String, String> {
    let file = fs::read(path).map_err(|error| format!("{path}: {error}\n"))?;
    let mut both = Both::default();
    for case in cases_in(&file).ok_or("bad cases\n")? {
        compare_case(&mut both, &case)?;
    }
    whole(&both.tally)
}

/// The form check by itself is no function of the library.
fn compare_case(both: &mut Both, case: &Case) -> Result<(), String> {
    match case.asked().ok_or("bad cases\n")? {
        Asked::WellFormed(_) => Ok(()),
        Asked::Check(job) => both.check(job),
        Asked::Timing(job, starts) => both.check_schedule(job, &starts),
        Asked::Header(file) => both.header(file, 8),
        Asked::Record(file, table, number) => both.record(file, table, number, 3),
        Asked::Alike(a, b) => both.alike(a, b),
        Asked::Loosening(job, length) => both.partialize_into(job, length),
        Asked::Pairs(job) => both.pairs(job),
        Asked::FromTexts(actions, plan, room) => both.texts(actions, plan, room),
    }
}

fn compare_made(calls: u64, seed: u64) -> Result<String, String> {
    let pool = Pool::new(seed);
    let tallies = thread::scope(|scope| {
        let threads: Vec<_> = (0..THREADS)
            .map(|thread| {
                let source = Source::new(&pool, THREADS * seed + thread);
                scope.spawn(|| share(source, calls.div_ceil(THREADS)))
            })
            .collect();
        let joined = threads
            .into_iter()
            .map(|thread| thread.join().expect("no panic"));
        joined.collect::<Result<Vec<Tally>, String>>()
    })?;
    whole(&tallies.into_iter().fold(Tally::default(), Tally::plus))
}

/// The report, if all that must occur did, and nothing else.
fn whole(tally: &Tally) -> Result<String, String> {
    match tally.fault() {
        Some(fault) => Err(format!("{}{fault}\n", tally.report())),
        None => Ok(tally.report()),
    }
}

/// From each job come a few calls, from its order file a few more, and with them goes a pair of texts.
fn share(mut source: Source, calls: u64) -> Result<Tally, String> {
    let mut both = Both::default();
    while both.tally.calls() < calls {
        let job = source.job();
        both.check(&job)?;
        both.pairs(&job)?;
        both.check_schedule(&job, &source.starts())?;
        let written = both.partialize(&job, source.slack())?;
        let file = source.order_file(written);
        both.header(&file, source.list_length(8))?;
        let (table, number) = source.record(&file);
        both.record(&file, table, number, source.list_length(3))?;
        let other = source.other_file(&file);
        both.alike(&file, &other)?;
        both.alike(&other, &file)?;
        let texts = source.texts();
        both.texts(&texts.actions, &texts.plan, texts.room)?;
    }
    Ok(both.tally)
}
