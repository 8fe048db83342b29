//! The command line `jobs`: what it prints, what it says on standard error, the files it writes and
//! its exit status.

mod arguments;
mod files;
mod help;
mod read_text;
mod said;
pub mod words;

use std::io::{Read, Write};

use crate::loosen::order_file_of;
use crate::order_file;
use crate::pairs;
use crate::pddl::actions::read_actions;
use crate::pddl::job_from_texts;
use crate::refusal::{Refusal, NOWHERE};
use crate::show;
use crate::timing::{check_job, check_timing};
use arguments::{asked, Asked, Name};
use files::{put_whole, system_trouble, Inputs};
use read_text::text_of;
use said::{Said, Trouble};
use words::{details, words, words_of_a_text};

/// Standard input, output and error.
pub struct Streams<'a> {
    pub input: &'a mut dyn Read,
    pub output: &'a mut dyn Write,
    pub errors: &'a mut dyn Write,
}

/// Runs what the arguments ask for, and gives the exit status: 0 accepted, sound or alike; 1
/// refused, unsound or different; 2 wrong usage, or a file that cannot be read or written.
pub fn run(arguments: &[&[u8]], streams: Streams) -> u8 {
    let mut inputs = Inputs::of(streams.input);
    let said = asked(arguments).and_then(|asked| answer(&asked, &mut inputs));
    let (lines, status) = match said.and_then(|said| printed(said, streams.output)) {
        Ok(said) => (said.fault, said.status),
        Err(Trouble(lines)) => (lines, 2),
    };
    // Where standard error cannot be written there is nobody left to tell; the status stays.
    let _ = streams.errors.write_all(&lines);
    status
}

/// Only what could be printed is said.
fn printed(said: Said, output: &mut dyn Write) -> Result<Said, Trouble> {
    let written = output.write_all(&said.printed);
    match written.and_then(|()| output.flush()) {
        Ok(()) => Ok(said),
        Err(error) => Err(system_trouble(b"standard output", &error)),
    }
}

fn answer(asked: &Asked, inputs: &mut Inputs) -> Result<Said, Trouble> {
    match asked {
        Asked::Check(job) => check(*job, None, inputs),
        Asked::CheckStarts(job, starts) => check(*job, Some(starts), inputs),
        Asked::Loosen(job, orders) => loosen(*job, *orders, inputs),
        Asked::Show(job) => show(*job, inputs),
        Asked::Read(orders) => read(*orders, inputs),
        Asked::Alike(first, second) => alike(*first, *second, inputs),
        Asked::Pairs(job) => pairs(*job, inputs),
        Asked::Pddl(actions, plan, job) => pddl(*actions, *plan, *job, inputs),
        Asked::Help(lines) => Ok(Said::well(lines.as_str())),
    }
}

// ---------------------------------------------------------------------------------------------
// Jobs

/// At the written starts, or at a list of them.
fn check(job: Name, starts: Option<&[u32]>, inputs: &mut Inputs) -> Result<Said, Trouble> {
    let file = inputs.job(job)?;
    let verdict = match starts {
        Some(starts) => check_timing(&file, starts),
        None => check_job(&file),
    };
    Ok(match verdict {
        Ok(()) => Said::well("sound\n"),
        Err(refusal) => refused_job(job, &file, refusal),
    })
}

fn loosen(job: Name, orders: Name, inputs: &mut Inputs) -> Result<Said, Trouble> {
    let file = inputs.job(job)?;
    let contents = match order_file_of(&file) {
        Ok(contents) => contents,
        Err(refusal) => return Ok(refused_job(job, &file, refusal)),
    };
    let bytes = contents.to_file();
    let line = format!(
        "an order file of {} bytes: {} steps, {} orders, {} links\n",
        bytes.len(),
        contents.windows.len(),
        contents.orders.len(),
        contents.links.len()
    );
    put(orders, bytes, line)
}

fn show(job: Name, inputs: &mut Inputs) -> Result<Said, Trouble> {
    let file = inputs.job(job)?;
    Ok(match check_job(&file) {
        Ok(()) => Said::well(show::show(&file)),
        Err(refusal) => refused_job(job, &file, refusal),
    })
}

fn pairs(job: Name, inputs: &mut Inputs) -> Result<Said, Trouble> {
    let file = inputs.job(job)?;
    let searched = pairs::search(&file);
    let (number, place) = (searched.number, searched.place);
    if number != 0 {
        return Ok(refused_job(job, &file, Refusal { number, place }));
    }
    let line = format!("pairs compared {}", searched.compared);
    if place == NOWHERE {
        return Ok(Said::well(line + "\n"));
    }
    let found = format!("step {place} sets a fact both ways");
    let fault = format!("{found} at one tick");
    let line = format!("{line}, {found}\n");
    Ok(Said::ill(line, job.as_input(), &fault))
}

fn refused_job(job: Name, file: &[u8], refusal: Refusal) -> Said {
    let fault = words(refusal) + &details(refusal, file);
    Said::refused(refusal, job.as_input(), &fault)
}

/// Into a file, with a line that says so; to standard output the bytes alone.
fn put(name: Name, bytes: Vec<u8>, line: String) -> Result<Said, Trouble> {
    if name.is_standard() {
        return Ok(Said::well(bytes));
    }
    put_whole(name.0, &bytes)?;
    Ok(Said::well(line))
}

// ---------------------------------------------------------------------------------------------
// Order files

fn read(orders: Name, inputs: &mut Inputs) -> Result<Said, Trouble> {
    let file = inputs.orders(orders)?;
    Ok(match order_file::read(&file) {
        Ok(contents) => Said::well(text_of(&contents)),
        Err(refusal) => Said::refused(refusal, orders.as_input(), &words(refusal)),
    })
}

/// Both are read before either is looked at.
fn alike(first: Name, second: Name, inputs: &mut Inputs) -> Result<Said, Trouble> {
    let one = inputs.orders(first)?;
    let other = inputs.orders(second)?;
    Ok(match order_file::alike(&one, &other) {
        Ok(true) => Said::well("alike\n"),
        Ok(false) => Said::different(),
        Err(refusal) => {
            let broken = [first, second][usize::from(refusal.place)];
            Said::refused(refusal, broken.as_input(), &words(refusal))
        }
    })
}

// ---------------------------------------------------------------------------------------------
// Texts

fn pddl(actions: Name, plan: Name, job: Name, inputs: &mut Inputs) -> Result<Said, Trouble> {
    let action_text = inputs.text(actions)?;
    let plan_text = inputs.text(plan)?;
    match job_from_texts(&action_text, &plan_text) {
        Ok(file) => {
            let line = format!("a job of {} bytes\n", file.len());
            put(job, file, line)
        }
        Err(refusal) => {
            // The action text's first fault comes before the plan's.
            let faulty = match read_actions(&action_text) {
                Err(_) => actions,
                Ok(_) => plan,
            };
            let fault = words_of_a_text(refusal);
            Ok(Said::refused(refusal, faulty.as_input(), &fault))
        }
    }
}
