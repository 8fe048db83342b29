//! `bench`: the static library beside the tuned loosening in Rust, on the same jobs in one process:
//! `cargo run --profile speed -p callers --bin bench`

mod linear;
mod measure;

use std::hint::black_box;
use std::panic::{catch_unwind, set_hook, take_hook};
use std::process::ExitCode;

use callers::Packed;
use measure::{alone, in_turn, Nanoseconds};
use reference::job::Job;
use reference::make::bench_jobs::{
    bench_job, needs_bench_job, searched_bench_jobs, timed_bench_job, Spread, SPREADS,
    TIMED_SPREADS,
};
use reference::make::telling::small_job;
use reference::make::ties::every_step_in_one_tie;
use reference::order_file::MOST_ORDERS;
use reference::pairs::search;
use reference::tuned;

/// Longer than any order file.
const BUFFER: usize = 8 * MOST_ORDERS + 4_096;

fn main() -> ExitCode {
    if checks_overflow() {
        eprintln!("measure with --profile speed: this build checks every sum for overflow");
        return ExitCode::FAILURE;
    }
    print_all();
    ExitCode::SUCCESS
}

/// A build that tests every sum would make the tuned loosening look slow.
fn checks_overflow() -> bool {
    set_hook(Box::new(|_| {}));
    let checks = catch_unwind(|| black_box(i32::MAX) + black_box(1)).is_err();
    let _ = take_hook();
    checks
}

fn print_all() {
    println!("nanoseconds a call, medians; the buffers are cleared before each batch\n");
    println!("{:20}{:>30}{:>30}", "", "loosening", "job check");
    let columns = format!("{:>10}{:>10}{:>10}", "library", "tuned", "ratio");
    println!("{:20}{columns}{columns}", "");
    print_row("small", measure(&small_job()));
    let grown = SPREADS.map(measure_and_print);
    for spread in TIMED_SPREADS {
        let name = format!("timed, {}", spread.name());
        print_row(&name, measure(&timed_bench_job(spread)));
    }
    print_row("one tie", measure(&every_step_in_one_tie()));
    for spread in TIMED_SPREADS {
        let name = format!("needs, {}", spread.name());
        print_row(&name, measure(&needs_bench_job(spread)));
    }
    println!("\nthe search for a fact set both ways by itself, and the job check");
    println!("{:30}{:>10}{:>10}{:>10}", "", "pairs", "search", "check");
    for (name, job) in searched_bench_jobs() {
        print_search(name, &job);
    }
    println!("\ncost of 64 steps over cost of 8, all tables in proportion");
    for (spread, [at_8, at_64]) in SPREADS.iter().zip(&grown) {
        print_growth(spread.name(), at_8, at_64);
    }
    println!("\nearliest times by lp_solve, as a process");
    for spread in SPREADS {
        println!(
            "{:20}{}",
            spread.name(),
            linear::compare(&bench_job(spread, 64))
        );
    }
}

/// Loosening, then the job check.
type Row = [Nanoseconds; 2];

fn measure_and_print(spread: Spread) -> [Row; 2] {
    [8, 64].map(|steps| {
        let row = measure(&bench_job(spread, steps));
        print_row(&format!("{}, {steps} steps", spread.name()), row);
        row
    })
}

fn measure(job: &Job) -> Row {
    let job = job.to_file();
    let (mut one, mut other) = (vec![0; BUFFER], vec![0; BUFFER]);
    let library = callers::partialize(&job, &mut one);
    assert_eq!(library, packed(tuned::partialize(&job, &mut other)));
    assert_eq!(one, other, "both write the same file");
    let loosening = in_turn(
        &mut one,
        |out| {
            black_box(callers::partialize(black_box(&job), out));
        },
        |out| {
            black_box(tuned::partialize(black_box(&job), out));
        },
    );
    let check = in_turn(
        &mut [],
        |_| {
            black_box(callers::check(black_box(&job)));
        },
        |_| {
            black_box(tuned::check(black_box(&job)));
        },
    );
    [loosening, check]
}

fn packed((number, place, length): (u16, u16, usize)) -> Packed {
    Packed((length as u64) << 32 | u64::from(number) << 16 | u64::from(place))
}

fn print_row(name: &str, row: Row) {
    let columns = row.map(|Nanoseconds { library, tuned }| {
        format!("{library:>10.0}{tuned:>10.0}{:>10.2}", library / tuned)
    });
    println!("{name:20}{}{}", columns[0], columns[1]);
}

/// The library alone: how many pairs it compares, the time of that, the time of the job check.
fn print_search(name: &str, job: &Job) {
    let job = job.to_file();
    let expected = search(&job);
    let numbers = (expected.number, expected.place, expected.compared);
    assert_eq!(callers::pairs(&job), packed(numbers));
    let pairs = alone(|| {
        black_box(callers::pairs(black_box(&job)));
    });
    let check = alone(|| {
        black_box(callers::check(black_box(&job)));
    });
    let compared = expected.compared;
    println!("{name:30}{compared:>10}{pairs:>10.0}{check:>10.0}");
}

fn print_growth(name: &str, at_8: &Row, at_64: &Row) {
    let columns = [0, 1].map(|call| {
        let library = at_64[call].library / at_8[call].library;
        let tuned = at_64[call].tuned / at_8[call].tuned;
        format!("{library:>10.1}{tuned:>10.1}{:>10}", "")
    });
    println!("{name:20}{}{}", columns[0], columns[1].trim_end());
}
