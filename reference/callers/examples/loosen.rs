//! Prints the sheet of a job file, as the program `show` does:
//! `cargo run --example loosen -- ../samples/deck-resigned.job`

use std::io::{BufWriter, ErrorKind, Write};
use std::process::ExitCode;
use std::{env, fs, io};

use callers::{order_header, order_record, partialize, Answer};

/// The header, 64 windows, 4,032 orders and 544 links: no order file is longer.
const LONGEST: usize = 24 + 64 * 12 + 4_032 * 8 + 544 * 2;

fn main() -> ExitCode {
    let Some(job) = env::args().nth(1).and_then(|path| fs::read(path).ok()) else {
        eprintln!("which job file?");
        return ExitCode::FAILURE;
    };
    match print_sheet(&job, &mut BufWriter::new(io::stdout().lock())) {
        // Whoever reads has seen enough.
        Err(error) if error.kind() == ErrorKind::BrokenPipe => ExitCode::SUCCESS,
        Err(error) => {
            eprintln!("{error}");
            ExitCode::FAILURE
        }
        Ok(()) => ExitCode::SUCCESS,
    }
}

fn print_sheet(job: &[u8], out: &mut impl Write) -> io::Result<()> {
    let mut buffer = [0; LONGEST];
    match partialize(job, &mut buffer).answer() {
        Answer::Accepted(length) => {
            print_mark(job, out)?;
            print_file(&buffer[..length as usize], out)?;
        }
        Answer::Refused { number, place } => {
            writeln!(out, "refused {number} place {}", place.unwrap_or(u16::MAX))?;
        }
    }
    out.flush()
}

/// An accepted job's second number, its serial mark, is 0 or 1.
fn print_mark(job: &[u8], out: &mut impl Write) -> io::Result<()> {
    if job[2] == 1 {
        writeln!(out, "serial mark ignored")?;
    }
    Ok(())
}

fn print_file(file: &[u8], out: &mut impl Write) -> io::Result<()> {
    let mut header = [0; 8];
    order_header(file, &mut header);
    let [_, steps, orders, _, rounds, ..] = header;
    writeln!(out, "steps {steps} rounds {rounds}")?;
    for step in 0..steps {
        let [_, latest, earliest] = record(file, 0, step);
        match latest {
            u32::MAX => writeln!(out, "step {step} earliest {earliest} latest none")?,
            _ => writeln!(out, "step {step} earliest {earliest} latest {latest}")?,
        }
    }
    for number in 0..orders {
        let [first, second, gap] = record(file, 1, number);
        writeln!(out, "order {first} {second} {}", gap as i32)?;
    }
    Ok(())
}

fn record(file: &[u8], table: u32, number: u32) -> [u32; 3] {
    let mut list = [0; 3];
    order_record(file, table, number, &mut list);
    list
}
