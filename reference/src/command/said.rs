//! What a run says: lines on standard output, a line on standard error, and its status.

use crate::refusal::Refusal;

/// What ends a run with status 2, as lines on standard error.
pub struct Trouble(pub Vec<u8>);

pub struct Said {
    pub printed: Vec<u8>,
    /// Empty, or a line for standard error.
    pub fault: Vec<u8>,
    pub status: u8,
}

impl Said {
    pub fn well(printed: impl Into<Vec<u8>>) -> Said {
        Said {
            printed: printed.into(),
            fault: Vec::new(),
            status: 0,
        }
    }

    /// Printed, and the words about the input of this name.
    pub fn ill(printed: String, name: &[u8], words: &str) -> Said {
        Said {
            printed: printed.into_bytes(),
            fault: line_about(name, words),
            status: 1,
        }
    }

    pub fn refused(refusal: Refusal, name: &[u8], words: &str) -> Said {
        let Refusal { number, place } = refusal;
        Said::ill(format!("refused {number} place {place}\n"), name, words)
    }

    /// Two good order files: nothing is at fault.
    pub fn different() -> Said {
        Said {
            printed: b"different\n".to_vec(),
            fault: Vec::new(),
            status: 1,
        }
    }
}

/// A name has any bytes.
pub fn line_about(name: &[u8], words: &str) -> Vec<u8> {
    [name, b": ", words.as_bytes(), b"\n"].concat()
}
