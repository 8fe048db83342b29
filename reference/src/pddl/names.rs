//! Names: what one is, and which have been said in an action text.

use std::collections::BTreeMap;

const LONGEST_NAME: usize = 31;

const NO_NAMES: [&str; 6] = ["at", "over", "and", "not", "increase", "decrease"];

/// N is a letter, then letters, digits, - or _, but not one of six words.
pub fn is_name(word: &[u8]) -> bool {
    let may_follow = |byte: &u8| byte.is_ascii_alphanumeric() || matches!(byte, b'-' | b'_');
    word.first().is_some_and(u8::is_ascii_alphabetic)
        && word.iter().all(may_follow)
        && word.len() <= LONGEST_NAME
        && !NO_NAMES.iter().any(|no_name| no_name.as_bytes() == word)
}

/// What a name can stand for.
#[derive(Clone, Copy, Debug, PartialEq, Eq, PartialOrd, Ord)]
pub enum Kind {
    Action,
    Fact,
    Level,
}

/// The names said so far, each with its kind and its number in it. The names of a kind are numbered
/// as they first appear.
#[derive(Default)]
pub struct Names<'a> {
    said: BTreeMap<&'a [u8], (Kind, usize)>,
    counts: [usize; 3],
}

impl<'a> Names<'a> {
    /// The number of a name that stands for this kind; none if the word is no name, or stands for
    /// another kind.
    pub fn say(&mut self, word: &'a [u8], kind: Kind) -> Option<usize> {
        if !is_name(word) {
            return None;
        }
        if !self.said.contains_key(word) {
            self.said.insert(word, (kind, self.count(kind)));
            self.counts[kind as usize] += 1;
        }
        self.number(word, kind)
    }

    /// The same for a name that must not have been said before.
    pub fn say_once(&mut self, word: &'a [u8], kind: Kind) -> Option<usize> {
        if self.said.contains_key(word) {
            return None;
        }
        self.say(word, kind)
    }

    /// The number of a name if it has been said of this kind.
    pub fn number(&self, name: &[u8], kind: Kind) -> Option<usize> {
        let &(said_as, number) = self.said.get(name)?;
        (said_as == kind).then_some(number)
    }

    pub fn count(&self, kind: Kind) -> usize {
        self.counts[kind as usize]
    }
}
