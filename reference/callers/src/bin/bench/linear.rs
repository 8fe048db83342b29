//! The earliest times as a linear program: the least sum of starts under the orders and limits.

use std::io::{Error, ErrorKind, Write};
use std::process::{Command, Stdio};
use std::time::Instant;

use reference::job::Job;
use reference::order_file::{Order, OrderFile, Window};
use reference::orders::orders_of;

use crate::measure::median;

const RUNS: usize = 5;

/// How long the solver takes for the orders of a sound job, and whether it finds the same times.
pub fn compare(job: &Job) -> String {
    let file = orders_of(job);
    let program = linear_program(&file);
    let mut times = Vec::new();
    for _ in 0..RUNS {
        let begin = Instant::now();
        let solved = match solve(&program) {
            Ok(output) => starts_in(&output),
            Err(error) if error.kind() == ErrorKind::NotFound => {
                return "lp_solve is not installed".to_string();
            }
            Err(error) => return format!("lp_solve failed: {error}"),
        };
        times.push(begin.elapsed().as_nanos() as f64);
        if solved != file.earliest_times() {
            return format!("other earliest times: {solved:?}");
        }
    }
    let nanoseconds = median(times);
    format!("{nanoseconds:>10.0}  equal, {} orders", file.orders.len())
}

/// In the solver's own format. Starts are at least 0 without a word.
fn linear_program(file: &OrderFile) -> String {
    let steps = 0..file.windows.len();
    let sum: Vec<String> = steps.map(|step| format!("x{step}")).collect();
    let mut text = format!("min: {};\n", sum.join(" + "));
    for Order { first, second, gap } in &file.orders {
        text += &format!("x{second} - x{first} >= {gap};\n");
    }
    for (step, Window { limit, latest, .. }) in file.windows.iter().enumerate() {
        text += &format!("x{step} >= {limit};\n");
        if let Some(latest) = latest {
            text += &format!("x{step} <= {latest};\n");
        }
    }
    text
}

fn solve(program: &str) -> Result<String, Error> {
    let mut solver = Command::new("lp_solve")
        .stdin(Stdio::piped())
        .stdout(Stdio::piped())
        .spawn()?;
    let mut input = solver.stdin.take().expect("the pipe was asked for");
    input.write_all(program.as_bytes())?;
    drop(input);
    let output = solver.wait_with_output()?;
    Ok(String::from_utf8_lossy(&output.stdout).into_owned())
}

/// The lines `x0 17` and so on, as the solver prints them in the order of the steps.
fn starts_in(output: &str) -> Vec<i64> {
    let value = |line: &str| {
        let (_, value) = line.strip_prefix('x')?.split_once(' ')?;
        value.trim().parse::<f64>().ok()
    };
    output
        .lines()
        .flat_map(value)
        .map(|start| start as i64)
        .collect()
}
