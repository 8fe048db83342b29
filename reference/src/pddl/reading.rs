//! Going through the signs of a text. Whatever cannot stand where it is ends the reading there.

use super::words::{signs, Placed, Sign, Text, LONGEST_TEXT};
use crate::refusal::{Refusal, Verdict};

pub struct Reading<'a> {
    signs: Vec<Placed<'a>>,
    passed: usize,
}

impl<'a> Reading<'a> {
    /// A text over its length is refused at line 0, whatever is in it.
    pub fn begin(text: &'a [u8], of: Text) -> Result<Reading<'a>, Refusal> {
        if text.len() > LONGEST_TEXT {
            return Err(Refusal::at(18, 0));
        }
        let signs = signs(text, of);
        Ok(Reading { signs, passed: 0 })
    }

    /// The next sign; at the text's end always the end.
    pub fn ahead(&self) -> Sign<'a> {
        self.signs[self.passed].sign
    }

    pub fn is_ahead(&self, sign: Sign) -> bool {
        self.ahead() == sign
    }

    /// The line of the next sign.
    pub fn line(&self) -> usize {
        self.signs[self.passed].line
    }

    /// The refusal of the next sign, which cannot stand there.
    pub fn refusal(&self, number: u16) -> Refusal {
        Refusal::at(number, self.line())
    }

    /// Nothing follows the end, so that it is never passed.
    fn pass(&mut self) {
        self.passed += usize::from(self.ahead() != Sign::End);
    }

    /// Passes this sign, if it is the next.
    pub fn pass_if(&mut self, sign: Sign) -> bool {
        let is_next = self.is_ahead(sign);
        if is_next {
            self.pass();
        }
        is_next
    }

    /// Passes this sign, which alone can stand here.
    pub fn expect(&mut self, sign: Sign) -> Verdict {
        if self.pass_if(sign) {
            Ok(())
        } else {
            Err(self.refusal(18))
        }
    }

    pub fn bracket(&mut self, bracket: u8) -> Verdict {
        self.expect(Sign::Bracket(bracket))
    }

    pub fn keyword(&mut self, word: &'static str) -> Verdict {
        self.expect(keyword(word))
    }

    /// Passes one of these words, which alone can stand here, and gives what it stands for.
    pub fn one_of<T: Copy>(&mut self, words: &[(&str, T)]) -> Result<T, Refusal> {
        self.word(|word| {
            let mut words = words.iter();
            let found = words.find(|(other, _)| other.as_bytes() == word);
            found.map(|&(_, stands_for)| stands_for)
        })
    }

    /// Passes a word that can stand here, which is one that is understood.
    pub fn word<T>(
        &mut self,
        understand: impl FnOnce(&'a [u8]) -> Option<T>,
    ) -> Result<T, Refusal> {
        let understood = match self.ahead() {
            Sign::Word(word) => understand(word),
            _ => None,
        };
        let understood = understood.ok_or_else(|| self.refusal(18))?;
        self.pass();
        Ok(understood)
    }
}

pub fn keyword(word: &'static str) -> Sign<'static> {
    Sign::Word(word.as_bytes())
}
