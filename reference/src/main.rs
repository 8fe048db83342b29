//! The second program's commands.

use std::ffi::OsString;
use std::io::{Read, Write};
use std::os::unix::ffi::OsStrExt;
use std::path::Path;
use std::process::ExitCode;
use std::{env, fs, io};

use reference::brute::brute;
use reference::cases::{answers, cases_file, COMMANDS};
use reference::command::{self, Streams};
use reference::made::made_case;
use reference::pddl::job_from_texts;
use reference::random::Random;
use reference::refusal::Refusal;
use reference::samples::sample;
use reference::show::show;
use reference::stored::{stored, SERVED};

const USAGE: &str = "\
reference cases DIR            write the stored cases and their lines into the folder of replay
reference answers FILE         print the lines expected of a file of cases
reference make N SEED KINDS FILE
                               write N made cases of the commands in KINDS, in turn
reference brute N SEED         try at least N choices that obey the order files of made jobs
reference show                 print what show prints of the job on standard input
reference pddl ACTIONS PLAN    write the job of two PDDL texts to standard output
reference jobs ARGUMENTS       behave as the command line jobs: see reference jobs help
reference sample NAME          write a sample job to standard output: paper, deck-resigned,
                               fixed-restart, handsets, refused, serial-mark,
                               serial-mark-refused, longest; of edition 2: barriers,
                               longest-timed, longest-sheet; of edition 3: calibration,
                               longest-needs";

fn main() -> ExitCode {
    let arguments: Vec<OsString> = env::args_os().skip(1).collect();
    if arguments.first().is_some_and(|command| command == "jobs") {
        return ExitCode::from(jobs(&arguments[1..]));
    }
    match run() {
        Ok(()) => ExitCode::SUCCESS,
        Err(error) => {
            eprintln!("{error}");
            ExitCode::FAILURE
        }
    }
}

fn run() -> io::Result<()> {
    let arguments: Vec<String> = env::args().skip(1).collect();
    let arguments: Vec<&str> = arguments.iter().map(String::as_str).collect();
    match arguments[..] {
        ["cases", folder] => write_stored(Path::new(folder)),
        ["answers", file] => print(&answers(&fs::read(file)?)),
        ["make", count, seed, kinds, file] => {
            let cases = make(number(count)? as usize, number(seed)?, kinds)?;
            fs::write(file, cases)
        }
        ["brute", choices, seed] => try_choices(number(choices)? as usize, number(seed)?),
        ["show"] => {
            let mut job = Vec::new();
            io::stdin().read_to_end(&mut job)?;
            print(&show(&job))
        }
        ["pddl", actions, plan] => {
            let job = job_from_texts(&fs::read(actions)?, &fs::read(plan)?).map_err(refused)?;
            io::stdout().write_all(&job)
        }
        ["sample", name] => {
            let job = sample(name).ok_or_else(|| io::Error::other("there is no such sample"))?;
            io::stdout().write_all(&job.to_file())
        }
        _ => Err(io::Error::other(USAGE)),
    }
}

/// The command line `jobs`, whose exit status is its own.
fn jobs(arguments: &[OsString]) -> u8 {
    let arguments: Vec<&[u8]> = arguments.iter().map(|word| word.as_bytes()).collect();
    let streams = Streams {
        input: &mut io::stdin().lock(),
        output: &mut io::stdout().lock(),
        errors: &mut io::stderr().lock(),
    };
    command::run(&arguments, streams)
}

fn print(text: &str) -> io::Result<()> {
    io::stdout().write_all(text.as_bytes())
}

fn refused(refusal: Refusal) -> io::Error {
    let Refusal { number, place } = refusal;
    io::Error::other(format!("refused {number} place {place}"))
}

fn number(argument: &str) -> io::Result<u64> {
    argument.parse().map_err(io::Error::other)
}

fn write_stored(folder: &Path) -> io::Result<()> {
    let stored = stored(SERVED);
    fs::create_dir_all(folder.join("data"))?;
    fs::write(folder.join("data/cases"), &stored.cases)?;
    fs::write(folder.join("stdout"), &stored.stdout)
}

fn make(count: usize, seed: u64, kinds: &str) -> io::Result<Vec<u8>> {
    if kinds.is_empty() || !kinds.chars().all(|kind| COMMANDS.contains(kind)) {
        return Err(io::Error::other(format!("the commands are {COMMANDS}")));
    }
    let mut random = Random::seeded(seed);
    let kinds = kinds.chars().cycle().take(count);
    let cases: Vec<_> = kinds.map(|kind| made_case(&mut random, kind)).collect();
    Ok(cases_file(&cases))
}

fn try_choices(choices: usize, seed: u64) -> io::Result<()> {
    let tried = brute(choices, seed).map_err(io::Error::other)?;
    print(&format!(
        "jobs {} choices {} farthest {} all sound\n",
        tried.jobs, tried.choices, tried.farthest_from_written
    ))
}
