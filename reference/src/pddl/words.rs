//! A text as words, brackets and, in a plan, line ends, each with its line.

/// Both texts have at most so many bytes.
pub const LONGEST_TEXT: usize = 65_535;

const LINE_END: u8 = 10;

#[derive(Clone, Copy, Debug, PartialEq, Eq)]
pub enum Sign<'a> {
    /// A longest run without blanks and brackets, whatever bytes it has.
    Word(&'a [u8]),
    /// One of `( ) [ ]`, or a plan's colon.
    Bracket(u8),
    /// Only in a plan; in an action text it is a blank like others.
    LineEnd,
    /// What follows the last byte.
    End,
}

/// A sign and its line, from 0.
#[derive(Clone, Copy, Debug, PartialEq, Eq)]
pub struct Placed<'a> {
    pub sign: Sign<'a>,
    pub line: usize,
}

#[derive(Clone, Copy, Debug, PartialEq, Eq)]
pub enum Text {
    Actions,
    Plan,
}

/// All signs of a text; the last is its end.
pub fn signs(text: &[u8], of: Text) -> Vec<Placed<'_>> {
    let mut signs = Vec::new();
    let mut line = 0;
    let mut rest = text;
    while let Some(&first) = rest.first() {
        let (passed, left) = rest.split_at(word_length(rest, of).max(1));
        let sign = sign_of(passed, of);
        signs.extend(sign.map(|sign| Placed { sign, line }));
        line += usize::from(first == LINE_END);
        rest = left;
    }
    let sign = Sign::End;
    signs.push(Placed { sign, line });
    signs
}

/// The length of the word in front, 0 where a blank or a bracket is.
fn word_length(text: &[u8], of: Text) -> usize {
    let in_a_word = |&&byte: &&u8| !is_blank(byte) && !is_bracket(byte, of);
    text.iter().take_while(in_a_word).count()
}

/// The sign that a word or a single byte is, if it is not a blank.
fn sign_of(passed: &[u8], of: Text) -> Option<Sign<'_>> {
    match passed[0] {
        LINE_END if of == Text::Plan => Some(Sign::LineEnd),
        byte if is_blank(byte) => None,
        byte if is_bracket(byte, of) => Some(Sign::Bracket(byte)),
        _ => Some(Sign::Word(passed)),
    }
}

fn is_blank(byte: u8) -> bool {
    matches!(byte, b' ' | b'\t' | LINE_END)
}

fn is_bracket(byte: u8, of: Text) -> bool {
    matches!(byte, b'(' | b')' | b'[' | b']') || (byte == b':' && of == Text::Plan)
}
