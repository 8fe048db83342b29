//! The help lines, and what wrong usage says.

use super::said::Trouble;

/// A command, and a line about it.
const LINES: [(&str, &str); 9] = [
    (
        "check",
        "jobs check JOB                 is the job sound at its written starts?",
    ),
    (
        "check",
        "jobs check JOB --starts LIST   is it sound with these starts, as 0,6,20?",
    ),
    (
        "loosen",
        "jobs loosen JOB ORDERS         write the job's order file, and say what was written",
    ),
    (
        "show",
        "jobs show JOB                  print the job's sheet",
    ),
    (
        "read",
        "jobs read ORDERS               print an order file: header, windows, orders, links",
    ),
    (
        "alike",
        "jobs alike ORDERS ORDERS       do two order files say the same?",
    ),
    (
        "pairs",
        "jobs pairs JOB                 how many pairs of effects the self-check compares",
    ),
    (
        "pddl",
        "jobs pddl ACTIONS PLAN JOB     make a job of a supplier's two texts",
    ),
    (
        "help",
        "jobs help [COMMAND]            print this, or the lines of a command",
    ),
];

/// What holds of all commands.
const OF_ALL: &str = "
A name of - is standard input or output. Exit status: 0 accepted, sound or alike; 1 refused,
unsound or different; 2 wrong usage, or a file that cannot be read or written.
";

pub fn whole_help() -> String {
    lines(|_| true) + OF_ALL
}

/// The lines of a command, if there is one of this name.
pub fn help_of(command: &[u8]) -> Option<String> {
    let lines = lines(|name| name.as_bytes() == command);
    (!lines.is_empty()).then_some(lines)
}

fn lines(wanted: impl Fn(&str) -> bool) -> String {
    let lines = LINES.iter().filter(|(command, _)| wanted(command));
    lines.map(|(_, line)| format!("{line}\n")).collect()
}

/// Wrong usage, with the help lines that may mend it.
pub fn wrong_usage(help: String) -> Trouble {
    Trouble(format!("usage:\n{help}").into())
}
