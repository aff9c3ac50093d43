//! Lines of a process, read as they come.

use std::io::{ErrorKind, Read};

/// How much is read of its lines at once, at first. No answer of the engine is longer.
pub const ROOM: usize = 64 << 10;

/// Why no answers are read any more.
#[derive(Debug)]
pub enum Unheard {
    /// Its output ended.
    Ended,
    /// It said a line without an end.
    Endless,
}

/// Room for answers, which grows up to a size, and how much of it was read.
pub(super) struct Answers {
    bytes: Vec<u8>,
    most_room: usize,
    have: usize,
}

impl Answers {
    /// Lines are shorter than `most_room`.
    pub(super) fn new(most_room: usize) -> Answers {
        Answers { bytes: vec![0; ROOM], most_room, have: 0 }
    }

    /// Forgets a line that is not whole.
    pub(super) fn clear(&mut self) {
        self.have = 0;
    }

    /// Reads the whole lines that are there.
    pub(super) fn read(&mut self, output: &mut impl Read) -> Result<String, Unheard> {
        if self.have == self.bytes.len() {
            if self.have >= self.most_room {
                return Err(Unheard::Endless);
            }
            self.bytes.resize(2 * self.have, 0);
        }
        match output.read(&mut self.bytes[self.have..]) {
            Ok(0) => return Err(Unheard::Ended),
            Ok(count) => self.have += count,
            Err(fault) if matches!(fault.kind(), ErrorKind::WouldBlock | ErrorKind::Interrupted) => {
                return Ok(String::new())
            }
            Err(_) => return Err(Unheard::Ended),
        }
        let end = self.bytes[..self.have].iter().rposition(|&b| b == b'\n').map_or(0, |i| i + 1);
        let lines = String::from_utf8_lossy(&self.bytes[..end]).into_owned();
        self.bytes.copy_within(end..self.have, 0);
        self.have -= end;
        Ok(lines)
    }
}

#[cfg(test)]
mod tests {
    use super::*;

    #[test]
    fn whole_lines() {
        let mut answers = Answers::new(ROOM);
        assert_eq!(answers.read(&mut "1 granted a 1\n2 gra".as_bytes()).unwrap(), "1 granted a 1\n");
        assert_eq!(answers.read(&mut "nted".as_bytes()).unwrap(), "");
        assert_eq!(answers.read(&mut " a 2\n".as_bytes()).unwrap(), "2 granted a 2\n");
        assert_eq!(answers.read(&mut "half".as_bytes()).unwrap(), "");
        answers.clear();
        assert_eq!(answers.read(&mut "\n".as_bytes()).unwrap(), "\n");
        assert!(matches!(answers.read(&mut "".as_bytes()), Err(Unheard::Ended)));
    }

    #[test]
    fn a_line_has_an_end_before_the_room_has() {
        let (mut answers, mut long) = (Answers::new(2 * ROOM), "a".repeat(3 * ROOM));
        long.push('\n');
        let mut rest = long.as_bytes();
        assert_eq!(answers.read(&mut rest).unwrap(), "");
        assert_eq!(answers.read(&mut rest).unwrap(), "");
        assert!(matches!(answers.read(&mut rest), Err(Unheard::Endless)));
    }
}
