//! What the arguments ask for, or wrong usage.

use super::help::{help_of, whole_help, wrong_usage};
use super::said::Trouble;

/// A file's name as given; `-` is standard input or standard output.
#[derive(Clone, Copy, PartialEq, Eq)]
pub struct Name<'a>(pub &'a [u8]);

impl<'a> Name<'a> {
    pub fn is_standard(self) -> bool {
        self.0 == b"-"
    }

    /// What an input is called in a line on standard error.
    pub fn as_input(self) -> &'a [u8] {
        match self.is_standard() {
            true => b"standard input",
            false => self.0,
        }
    }
}

pub enum Asked<'a> {
    Check(Name<'a>),
    CheckStarts(Name<'a>, Vec<u32>),
    Loosen(Name<'a>, Name<'a>),
    Show(Name<'a>),
    Read(Name<'a>),
    Alike(Name<'a>, Name<'a>),
    Pairs(Name<'a>),
    Pddl(Name<'a>, Name<'a>, Name<'a>),
    /// These lines.
    Help(String),
}

/// Wrong usage shows the lines of the command, or all where there is none.
pub fn asked<'a>(arguments: &[&'a [u8]]) -> Result<Asked<'a>, Trouble> {
    match *arguments {
        [] => Err(wrong_usage(whole_help())),
        [b"help"] => Ok(Asked::Help(whole_help())),
        [b"help", command] => match help_of(command) {
            Some(lines) => Ok(Asked::Help(lines)),
            None => Err(wrong_usage(whole_help())),
        },
        [b"check", job, b"--starts", list] => Ok(Asked::CheckStarts(Name(job), starts(list)?)),
        [command, ref names @ ..] => {
            let asked = with_names(command, names).filter(|asked| !names_clash(asked));
            asked.ok_or_else(|| wrong_usage(help_of(command).unwrap_or_else(whole_help)))
        }
    }
}

/// A command with as many names as it takes.
fn with_names<'a>(command: &[u8], names: &[&'a [u8]]) -> Option<Asked<'a>> {
    match (command, names) {
        (b"check", &[job]) => Some(Asked::Check(Name(job))),
        (b"loosen", &[job, orders]) => Some(Asked::Loosen(Name(job), Name(orders))),
        (b"show", &[job]) => Some(Asked::Show(Name(job))),
        (b"read", &[orders]) => Some(Asked::Read(Name(orders))),
        (b"alike", &[first, second]) => Some(Asked::Alike(Name(first), Name(second))),
        (b"pairs", &[job]) => Some(Asked::Pairs(Name(job))),
        (b"pddl", &[actions, plan, job]) => Some(Asked::Pddl(Name(actions), Name(plan), Name(job))),
        _ => None,
    }
}

/// Standard input cannot be read twice, and an input is not written over.
fn names_clash(asked: &Asked) -> bool {
    let read_twice = |a: Name, b: Name| a.is_standard() && b.is_standard();
    let written_over = |input: Name, output: Name| input == output && !input.is_standard();
    match *asked {
        Asked::Loosen(job, orders) => written_over(job, orders),
        Asked::Alike(first, second) => read_twice(first, second),
        Asked::Pddl(actions, plan, job) => {
            read_twice(actions, plan) || written_over(actions, job) || written_over(plan, job)
        }
        _ => false,
    }
}

// ---------------------------------------------------------------------------------------------
// The list of starts

const NO_LIST: &str = "--starts: whole numbers of one to nine digits, with commas between them\n";

/// The empty argument is the empty list.
fn starts(list: &[u8]) -> Result<Vec<u32>, Trouble> {
    if list.is_empty() {
        return Ok(Vec::new());
    }
    let numbers = list.split(|&byte| byte == b',').map(whole_number);
    let numbers: Option<Vec<u32>> = numbers.collect();
    numbers.ok_or_else(|| Trouble(NO_LIST.into()))
}

fn whole_number(word: &[u8]) -> Option<u32> {
    if !(1..=9).contains(&word.len()) || !word.iter().all(u8::is_ascii_digit) {
        return None;
    }
    let digits = word.iter().map(|digit| u32::from(digit - b'0'));
    Some(digits.fold(0, |number, digit| 10 * number + digit))
}
