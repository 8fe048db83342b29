//! The numbers of the texts: W and T.

/// W has one to nine digits.
pub fn whole_number(word: &[u8]) -> Option<i64> {
    digits(word, 9)
}

/// T has one to six digits, then at will a point and one to three. A tick is a thousandth.
pub fn ticks(word: &[u8]) -> Option<i64> {
    match word.iter().position(|&byte| byte == b'.') {
        None => Some(1_000 * digits(word, 6)?),
        Some(point) => {
            let whole = digits(&word[..point], 6)?;
            Some(1_000 * whole + thousandths(&word[point + 1..])?)
        }
    }
}

fn thousandths(fraction: &[u8]) -> Option<i64> {
    let number = digits(fraction, 3)?;
    Some(match fraction.len() {
        1 => 100 * number,
        2 => 10 * number,
        _ => number,
    })
}

/// The number that one to so many digits write; zeros may lead.
fn digits(word: &[u8], most: usize) -> Option<i64> {
    if word.is_empty() || word.len() > most || !word.iter().all(u8::is_ascii_digit) {
        return None;
    }
    let value = |number, digit: &u8| 10 * number + i64::from(digit - b'0');
    Some(word.iter().fold(0, value))
}
