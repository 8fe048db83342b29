//! A file of cases, and the line expected of each.
//!
//! A case is one command byte and its fields; a field is a u32 length and that many bytes.

use crate::bytes::{put_u32, u32_at};
use crate::loosen::loosen;
use crate::order_file::{alike, read_header, read_record, Link, Record, LINKS_TABLE, NONE};
use crate::pairs::search;
use crate::pddl::jobs_from_pddl;
use crate::refusal::{number_and_place, Refusal};
use crate::timing::{check_job, check_timing};
use crate::well_formed::well_formed;

/// The commands: well-formedness, job check, timing check, header, record, alike, loosening, pairs,
/// from texts.
pub const COMMANDS: &str = "wcthralpf";

pub const LONGEST_FIELD: usize = 65_536;

/// The most starts that a case adds to the list in its field.
pub const MOST_FURTHER: usize = 65_536;

/// What a buffer holds before something is written into it.
const FILLING: u8 = 165;

#[derive(Clone, Debug, PartialEq, Eq)]
pub struct Case {
    pub command: char,
    pub fields: Vec<Vec<u8>>,
}

impl Case {
    /// Commands `w`, `c` and `p`: a job.
    pub fn job(command: char, job: Vec<u8>) -> Case {
        let fields = vec![job];
        Case { command, fields }
    }

    pub fn timing(job: Vec<u8>, starts: &[u32]) -> Case {
        Case::timing_and_further(job, starts, 0)
    }

    /// A list too long for a field: so many starts of 0 follow those in the field.
    pub fn timing_and_further(job: Vec<u8>, starts: &[u32], further: usize) -> Case {
        let mut list = Vec::new();
        for &start in starts {
            put_u32(&mut list, start);
        }
        Case {
            command: 't',
            fields: vec![job, list, number_field(further as u32)],
        }
    }

    pub fn loosening(job: Vec<u8>, length: usize) -> Case {
        Case {
            command: 'l',
            fields: vec![job, number_field(length as u32)],
        }
    }

    pub fn header(file: Vec<u8>) -> Case {
        Case {
            command: 'h',
            fields: vec![file],
        }
    }

    pub fn record(file: Vec<u8>, table: u32, number: u32) -> Case {
        Case {
            command: 'r',
            fields: vec![file, number_field(table), number_field(number)],
        }
    }

    pub fn alike(a: Vec<u8>, b: Vec<u8>) -> Case {
        Case {
            command: 'a',
            fields: vec![a, b],
        }
    }

    pub fn from_texts(actions: Vec<u8>, plan: Vec<u8>, room: usize) -> Case {
        Case {
            command: 'f',
            fields: vec![actions, plan, number_field(room as u32)],
        }
    }
}

fn number_field(number: u32) -> Vec<u8> {
    number.to_le_bytes().to_vec()
}

// ---------------------------------------------------------------------------------------------
// The file

pub fn cases_file(cases: &[Case]) -> Vec<u8> {
    let mut file = Vec::new();
    for case in cases {
        file.push(case.command as u8);
        for field in &case.fields {
            put_u32(&mut file, field.len());
            file.extend(field);
        }
    }
    file
}

/// One line a case, until the end or `bad cases`.
pub fn answers(file: &[u8]) -> String {
    let mut lines = String::new();
    let mut rest = file;
    while !rest.is_empty() {
        match next_case(&mut rest).and_then(|case| answer(&case)) {
            Some(line) => lines += &format!("{line}\n"),
            None => return lines + "bad cases\n",
        }
    }
    lines
}

/// All cases of a file, or nothing where it is damaged.
pub fn cases_in(file: &[u8]) -> Option<Vec<Case>> {
    let mut cases = Vec::new();
    let mut rest = file;
    while !rest.is_empty() {
        cases.push(next_case(&mut rest)?);
    }
    Some(cases)
}

fn next_case(rest: &mut &[u8]) -> Option<Case> {
    let command = char::from(take(rest, 1)?[0]);
    let fields = (0..fields_of(command)?).map(|_| next_field(rest));
    let fields = fields.collect::<Option<_>>()?;
    Some(Case { command, fields })
}

fn fields_of(command: char) -> Option<usize> {
    match command {
        'w' | 'c' | 'h' | 'p' => Some(1),
        'l' | 'a' => Some(2),
        't' | 'r' | 'f' => Some(3),
        _ => None,
    }
}

fn next_field(rest: &mut &[u8]) -> Option<Vec<u8>> {
    let length = u32_at(take(rest, 4)?, 0) as usize;
    if length > LONGEST_FIELD {
        return None;
    }
    take(rest, length).map(<[u8]>::to_vec)
}

fn take<'a>(rest: &mut &'a [u8], length: usize) -> Option<&'a [u8]> {
    if rest.len() < length {
        return None;
    }
    let (taken, left) = rest.split_at(length);
    *rest = left;
    Some(taken)
}

// ---------------------------------------------------------------------------------------------
// What a case asks

pub enum Asked<'a> {
    WellFormed(&'a [u8]),
    Check(&'a [u8]),
    Timing(&'a [u8], Vec<u32>),
    Header(&'a [u8]),
    Record(&'a [u8], u32, u32),
    Alike(&'a [u8], &'a [u8]),
    Loosening(&'a [u8], usize),
    Pairs(&'a [u8]),
    FromTexts(&'a [u8], &'a [u8], usize),
}

impl Case {
    /// Nothing where a field does not have the length it must have.
    pub fn asked(&self) -> Option<Asked<'_>> {
        let field = |number: usize| self.fields[number].as_slice();
        Some(match self.command {
            'w' => Asked::WellFormed(field(0)),
            'c' => Asked::Check(field(0)),
            't' => {
                let mut starts = numbers_in(field(1))?;
                let further = number_up_to(MOST_FURTHER, field(2))?;
                starts.resize(starts.len() + further, 0);
                Asked::Timing(field(0), starts)
            }
            'h' => Asked::Header(field(0)),
            'r' => Asked::Record(field(0), number_in(field(1))?, number_in(field(2))?),
            'a' => Asked::Alike(field(0), field(1)),
            'l' => Asked::Loosening(field(0), number_up_to(LONGEST_FIELD, field(1))?),
            'p' => Asked::Pairs(field(0)),
            'f' => {
                let room = number_up_to(LONGEST_FIELD, field(2))?;
                Asked::FromTexts(field(0), field(1), room)
            }
            _ => return None,
        })
    }
}

fn number_in(field: &[u8]) -> Option<u32> {
    (field.len() == 4).then(|| u32_at(field, 0))
}

fn number_up_to(most: usize, field: &[u8]) -> Option<usize> {
    let number = number_in(field)? as usize;
    (number <= most).then_some(number)
}

fn numbers_in(field: &[u8]) -> Option<Vec<u32>> {
    let numbers = field.chunks(4);
    numbers.map(number_in).collect()
}

// ---------------------------------------------------------------------------------------------
// The lines

pub fn answer(case: &Case) -> Option<String> {
    Some(match case.asked()? {
        Asked::WellFormed(job) => verdict_line('w', &well_formed(job)),
        Asked::Check(job) => verdict_line('c', &check_job(job)),
        Asked::Timing(job, starts) => verdict_line('t', &check_timing(job, &starts)),
        Asked::Header(file) => header_line(file),
        Asked::Record(file, table, number) => record_line(file, table, number),
        Asked::Alike(a, b) => alike_line(a, b),
        Asked::Loosening(job, length) => loosening_line(job, length),
        Asked::Pairs(job) => pairs_line(job),
        Asked::FromTexts(actions, plan, room) => from_texts_line(actions, plan, room),
    })
}

fn verdict_line<T>(command: char, answer: &Result<T, Refusal>) -> String {
    let (number, place) = number_and_place(answer);
    format!("{command} {number} {place}")
}

fn header_line(file: &[u8]) -> String {
    let header = read_header(file);
    let numbers = header.unwrap_or([0; 8]).map(i64::from);
    with_numbers(verdict_line('h', &header), &numbers)
}

/// After a refusal as many zeros as that table's records have numbers.
fn record_line(file: &[u8], table: u32, number: u32) -> String {
    let record = read_record(file, table, number);
    let numbers = match record {
        Ok(Record::Window(window)) => {
            let latest = window.latest.unwrap_or(i64::from(NONE));
            vec![window.limit, latest, window.earliest]
        }
        Ok(Record::Order(order)) => vec![order.first as i64, order.second as i64, order.gap],
        Ok(Record::Link(link)) => vec![link_number(link)],
        Err(_) if table == LINKS_TABLE => vec![0],
        Err(_) => vec![0; 3],
    };
    with_numbers(verdict_line('r', &record), &numbers)
}

fn link_number(link: Link) -> i64 {
    i64::from(link.number())
}

fn alike_line(a: &[u8], b: &[u8]) -> String {
    let answer = alike(a, b);
    let yes = i64::from(answer.unwrap_or(false));
    with_numbers(verdict_line('a', &answer), &[yes])
}

fn loosening_line(job: &[u8], length: usize) -> String {
    let mut buffer = vec![FILLING; length];
    let answer = loosen(job, &mut buffer);
    let line = format!("l {} {} {}", answer.number, answer.place, answer.length);
    with_buffer(line, &buffer)
}

fn from_texts_line(actions: &[u8], plan: &[u8], room: usize) -> String {
    let mut buffer = vec![FILLING; room];
    let answer = jobs_from_pddl(actions, plan, &mut buffer);
    let line = format!("f {} {} {}", answer.number, answer.place, answer.length);
    with_buffer(line, &buffer)
}

/// The buffer is printed up to its last byte unlike the filling, in two digits a byte, a zero as a
/// point; how many follow is counted.
fn with_buffer(line: String, buffer: &[u8]) -> String {
    let last = buffer.iter().rposition(|&byte| byte != FILLING);
    let (front, rest) = buffer.split_at(last.map_or(0, |last| last + 1));
    let hex: String = front.iter().map(printed).collect();
    let hex = if hex.is_empty() { "-" } else { &hex };
    format!("{line} {hex} {}", rest.len())
}

fn printed(byte: &u8) -> String {
    match byte {
        0 => ".".to_string(),
        _ => format!("{byte:02x}"),
    }
}

fn pairs_line(job: &[u8]) -> String {
    let answer = search(job);
    format!("p {} {} {}", answer.number, answer.place, answer.compared)
}

fn with_numbers(mut line: String, numbers: &[i64]) -> String {
    for number in numbers {
        line += &format!(" {number}");
    }
    line
}
