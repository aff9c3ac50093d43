//! Words and numbers of a line.

use crate::lock::name;
use std::fmt;
use std::str::Split;

/// Why a text is not a line.
#[derive(Clone, Copy, Debug, PartialEq, Eq)]
pub enum NotALine {
    /// It does not have the form of a line.
    Syntax,
    /// It would be one, but a number is 2^64 or more.
    Number,
}

impl fmt::Display for NotALine {
    fn fmt(&self, f: &mut fmt::Formatter<'_>) -> fmt::Result {
        f.write_str(match self {
            NotALine::Syntax => "syntax",
            NotALine::Number => "number",
        })
    }
}

impl std::error::Error for NotALine {}

/// A decimal below 2^64, without a sign or a leading zero.
pub fn decimal(word: &str) -> Result<u64, NotALine> {
    let is_decimal = !word.is_empty() && word.bytes().all(|b| b.is_ascii_digit());
    if !is_decimal || (word.len() > 1 && word.starts_with('0')) {
        return Err(NotALine::Syntax);
    }
    word.parse().map_err(|_| NotALine::Number)
}

/// The words of a line, one after the other.
pub(crate) struct Words<'a>(Split<'a, char>);

impl<'a> Words<'a> {
    pub(crate) fn of(line: &'a str) -> Words<'a> {
        Words(line.split(' '))
    }

    pub(crate) fn word(&mut self) -> Result<&'a str, NotALine> {
        self.0.next().ok_or(NotALine::Syntax)
    }

    /// The numbers that are the rest of the line: as many as are wanted. Of two faults the form comes first.
    pub(crate) fn numbers<const COUNT: usize>(mut self) -> Result<[u64; COUNT], NotALine> {
        let mut numbers = [0; COUNT];
        let mut is_too_large = false;
        for number in &mut numbers {
            match decimal(self.word()?) {
                Ok(read) => *number = read,
                Err(NotALine::Syntax) => return Err(NotALine::Syntax),
                Err(NotALine::Number) => is_too_large = true,
            }
        }
        self.end()?;
        if is_too_large {
            Err(NotALine::Number)
        } else {
            Ok(numbers)
        }
    }

    /// The next word as the name of a lock.
    pub(crate) fn lock(&mut self) -> Result<&'a str, NotALine> {
        name(self.word()?)
    }

    /// The next word, if there is one, as the name of a lock; nothing may follow it.
    pub(crate) fn last_lock(mut self) -> Result<Option<&'a str>, NotALine> {
        let lock = self.0.next().map(name).transpose()?;
        self.end().map(|()| lock)
    }

    fn end(mut self) -> Result<(), NotALine> {
        self.0.next().map_or(Ok(()), |_| Err(NotALine::Syntax))
    }
}

#[cfg(test)]
mod tests {
    use super::*;

    #[test]
    fn decimals() {
        assert_eq!(decimal("0"), Ok(0));
        assert_eq!(decimal("18446744073709551615"), Ok(u64::MAX));
        assert_eq!(decimal("18446744073709551616"), Err(NotALine::Number));
        for word in ["", "-1", "+1", "01", "00", "1 ", "x", "1.0", "١"] {
            assert_eq!(decimal(word), Err(NotALine::Syntax), "{word:?}");
        }
    }
}
