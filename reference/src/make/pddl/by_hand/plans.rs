//! The grammar of the plan, and refusal 20.

use super::{action, actions, told, Told, GOOD};

pub fn all() -> Vec<Told> {
    [
        good_plans(),
        blank_lines(),
        two_things_on_a_line(),
        line_ends_inside_a_line(),
        ends_inside_a_line(),
        faulty_lines(),
        lines_that_name_no_action(),
        lines_with_another_duration(),
    ]
    .concat()
}

/// Of the actions a and b, which take 5 and 2.
fn plan(plan: impl AsRef<[u8]>, answer: (u16, u16)) -> Told {
    let a = action("a", "5", "(and)", "(and)");
    let b = action("b", "2", "(and)", "(and)");
    let text = actions(&[&a, &b], "(f) (= (l) 1)", "(and)");
    told(text, plan, answer)
}

/// Closed by line ends or the text's end.
pub fn good_plans() -> Vec<Told> {
    [
        "",
        "0: (a) [5]",
        "0: (a) [5]\n",
        "0: (a) [5]\n1: (b) [2]",
        "0: (a) [5]\n1: (b) [2]\n",
        "9: (a) [5]\n1: (b) [2]\n1: (a) [5]\n1: (a) [5]\n",
        "0:(a)[5]",
        " \t0 \t:\t( a )  [ 5\t]\t",
    ]
    .map(|text| plan(text, GOOD))
    .to_vec()
}

/// They stand, and count.
pub fn blank_lines() -> Vec<Told> {
    vec![
        plan("\n", GOOD),
        plan("\n\n", GOOD),
        plan(" \t", GOOD),
        plan(" \n\t\n ", GOOD),
        plan("\n0: (a) [5]\n\n1: (b) [2]\n\n", GOOD),
        plan("\n \n0: (a) [5]\n\n1: (c) [2]\n", (20, 4)),
        plan("\n \n0: (a) [5]\n\n1: c\n", (18, 4)),
    ]
}

pub fn two_things_on_a_line() -> Vec<Told> {
    vec![
        plan("0: (a) [5] 1: (b) [2]", (18, 0)),
        plan("0: (a) [5]\n1: (b) [2] 9: (a) [5]\n", (18, 1)),
        plan("0: (a) [5] x", (18, 0)),
        plan("0: (a) [5] ]", (18, 0)),
        plan("0: (a) [5] :", (18, 0)),
    ]
}

/// A line end that cannot stand there lies on the line that it would close.
pub fn line_ends_inside_a_line() -> Vec<Told> {
    let broken = [
        "0\n: (a) [5]",
        "0:\n(a) [5]",
        "0: (\na) [5]",
        "0: (a\n) [5]",
        "0: (a)\n[5]",
        "0: (a) [\n5]",
        "0: (a) [5\n]",
    ];
    let first = broken.map(|line| plan(line, (18, 0)));
    let later = broken.map(|line| plan(format!("\n9: (b) [2]\n{line}"), (18, 2)));
    first.into_iter().chain(later).collect()
}

pub fn ends_inside_a_line() -> Vec<Told> {
    let line = "0 : ( a ) [ 5 ]";
    let cuts = line.match_indices(' ').map(|(at, _)| &line[..at]);
    let texts = cuts.flat_map(|cut| {
        [
            plan(cut, (18, 0)),
            plan(format!("\n{line}\n{cut} \t"), (18, 2)),
            plan(format!("\n{line}\n{cut}\n"), (18, 2)),
        ]
    });
    texts.collect()
}

pub fn faulty_lines() -> Vec<Told> {
    let lines = [
        "(a) [5]",
        "0 (a) [5]",
        "0:: (a) [5]",
        "0: a [5]",
        "0: () [5]",
        "0: ((a)) [5]",
        "0: (a b) [5]",
        "0: (a ?x) [5]",
        "0: [a] [5]",
        "0: (a)",
        "0: (a) 5",
        "0: (a) (5)",
        "0: (a) []",
        "0: (a) [5 5]",
        "0: (a) [x]",
        "x: (a) [5]",
        ": (a) [5]",
        "a: (a) [5]",
        "0: (at) [5]",
        "0: (over) [5]",
        "0: (and) [5]",
        "0: (not) [5]",
        "0: (increase) [5]",
        "0: (decrease) [5]",
        "0: (5) [5]",
        "0: (a) [5].",
        "0:00: (a) [5]",
        "-1: (a) [5]",
    ];
    let first = lines.map(|line| plan(line, (18, 0)));
    let later = lines.map(|line| plan(format!("0: (a) [5]\n{line}\n"), (18, 1)));
    first.into_iter().chain(later).collect()
}

/// The names of facts and levels, and names of nothing.
pub fn lines_that_name_no_action() -> Vec<Told> {
    vec![
        plan("0: (c) [5]", (20, 0)),
        plan("0: (f) [5]", (20, 0)),
        plan("0: (l) [5]", (20, 0)),
        plan("0: (start) [5]", (20, 0)),
        plan("0: (a) [5]\n\n1: (c) [5]\n2: (c) [5]", (20, 2)),
    ]
}

/// At the first line with either fault.
pub fn lines_with_another_duration() -> Vec<Told> {
    vec![
        plan("0: (a) [2]", (20, 0)),
        plan("0: (a) [5]\n0: (b) [5]", (20, 1)),
        plan("0: (a) [5]\n0: (b) [2]\n0: (a) [4.999]", (20, 2)),
        plan("0: (a) [2]\n0: (c) [2]", (20, 0)),
        plan("0: (c) [2]\n0: (a) [2]", (20, 0)),
    ]
}
