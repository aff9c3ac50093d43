//! What a child says on standard error: lines for the log, which nobody else reads.

use std::io::{ErrorKind, Read};
use std::process::ChildStderr;

/// How much is read at once, and how often when the child has ended.
const ROOM: usize = 4096;
const LAST_READS: usize = 16;
/// A line that is longer is cut.
const LONGEST: usize = 1000;

/// Standard error of a child, which is never waited for.
pub struct Remarks {
    pipe: ChildStderr,
    /// The beginning of a line that has not ended yet.
    line: Vec<u8>,
}

impl Remarks {
    /// Of this pipe.
    pub fn new(pipe: ChildStderr) -> Remarks {
        Remarks { pipe, line: Vec::new() }
    }

    /// The end of the pipe that is read.
    pub fn pipe(&self) -> &ChildStderr {
        &self.pipe
    }

    /// Adds the whole lines that are there to `lines`. False if no more will come.
    pub fn read(&mut self, lines: &mut Vec<String>) -> bool {
        let mut bytes = [0; ROOM];
        match self.pipe.read(&mut bytes) {
            Ok(count) if count > 0 => {
                self.take(&bytes[..count], lines);
                true
            }
            Err(fault) if matches!(fault.kind(), ErrorKind::WouldBlock | ErrorKind::Interrupted) => true,
            _ => {
                self.end_line(lines);
                false
            }
        }
    }

    /// Adds what is left, when the child has ended: one of its own may have the pipe too, so its end does not have to come.
    pub fn read_last(mut self, lines: &mut Vec<String>) {
        let before = LAST_READS;
        (0..before).take_while(|_| self.read(lines)).for_each(drop);
        self.end_line(lines);
    }

    fn take(&mut self, bytes: &[u8], lines: &mut Vec<String>) {
        for byte in bytes {
            match byte {
                b'\n' => self.end_line(lines),
                _ if self.line.len() < LONGEST => self.line.push(*byte),
                _ => {}
            }
        }
    }

    fn end_line(&mut self, lines: &mut Vec<String>) {
        if !self.line.is_empty() {
            lines.push(plain(&String::from_utf8_lossy(&self.line)));
            self.line.clear();
        }
    }
}

/// The text with control characters written out, so that it stays one line of the log.
fn plain(text: &str) -> String {
    let mut plain = String::with_capacity(text.len());
    for it in text.chars() {
        match it.is_control() {
            true => plain.extend(it.escape_default()),
            false => plain.push(it),
        }
    }
    plain
}

#[cfg(test)]
mod tests {
    use super::*;
    use std::process::{Command, Stdio};
    use wozgirt_system::never_wait;

    fn said(script: &str) -> Vec<String> {
        let mut child = Command::new("sh").args(["-c", script]).stderr(Stdio::piped()).spawn().unwrap();
        let mut remarks = Remarks::new(child.stderr.take().unwrap());
        child.wait().unwrap();
        never_wait(remarks.pipe()).unwrap();
        let mut lines = Vec::new();
        assert!(remarks.read(&mut lines));
        remarks.read_last(&mut lines);
        lines
    }

    #[test]
    fn lines_and_what_is_left() {
        assert_eq!(said("printf 'one\\n\\ntwo\\tthree\\nlast' >&2"), ["one", "two\\tthree", "last"]);
    }

    #[test]
    fn a_long_line_is_cut_and_many_are_read() {
        let lines = said("printf '%05000d\\n' 7 >&2; for i in 1 2 3 4 5 6 7 8 9; do printf '%0900d\\n' $i; done >&2");
        assert_eq!((lines.len(), lines[0].len(), lines[9].len()), (10, LONGEST, 900));
    }

    #[test]
    fn an_end_that_does_not_come() {
        assert_eq!(said("sleep 5 & echo gone >&2"), ["gone"]);
    }
}
