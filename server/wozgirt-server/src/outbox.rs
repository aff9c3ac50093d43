//! Bytes that are on their way into a file that never waits.

use std::io::{self, ErrorKind, Write};

/// What is kept of the room for bytes when all are written.
const KEPT: usize = 16 << 10;
/// When this many bytes are written they are let go, even if more are not.
const MOST_WRITTEN: usize = 4 << 10;

/// Bytes that are to be written.
#[derive(Debug, Default)]
pub struct Outbox {
    bytes: Vec<u8>,
    written: usize,
}

impl Outbox {
    /// Where more is put.
    pub fn bytes(&mut self) -> &mut Vec<u8> {
        &mut self.bytes
    }

    /// How much is not written yet.
    pub fn len(&self) -> usize {
        self.bytes.len() - self.written
    }

    /// Whether all is written.
    pub fn is_empty(&self) -> bool {
        self.len() == 0
    }

    /// Forgets what is not written.
    pub fn clear(&mut self) {
        self.bytes.clear();
        self.written = 0;
    }

    /// Writes as much as is taken now: whether anything was.
    pub fn write_to(&mut self, file: &mut impl Write) -> io::Result<bool> {
        let before = self.written;
        while self.written < self.bytes.len() {
            match file.write(&self.bytes[self.written..]) {
                Ok(0) => return Err(ErrorKind::WriteZero.into()),
                Ok(count) => self.written += count,
                Err(fault) if fault.kind() == ErrorKind::Interrupted => {}
                Err(fault) if fault.kind() == ErrorKind::WouldBlock => break,
                Err(fault) => return Err(fault),
            }
        }
        let is_any = self.written > before;
        if self.is_empty() {
            self.clear();
            self.bytes.shrink_to(KEPT);
        } else if self.written > MOST_WRITTEN.min(self.bytes.len() / 2) {
            self.bytes.drain(..self.written);
            self.written = 0;
        }
        Ok(is_any)
    }
}

#[cfg(test)]
mod tests {
    use super::*;

    /// Takes this many bytes at once, and as many in all as it has room for.
    struct Narrow(Vec<u8>, usize, usize);

    impl Write for Narrow {
        fn write(&mut self, bytes: &[u8]) -> io::Result<usize> {
            let count = bytes.len().min(self.1).min(self.2 - self.0.len());
            if count == 0 {
                return Err(ErrorKind::WouldBlock.into());
            }
            self.0.extend_from_slice(&bytes[..count]);
            Ok(count)
        }

        fn flush(&mut self) -> io::Result<()> {
            Ok(())
        }
    }

    #[test]
    fn all_is_written_in_order() {
        let mut outbox = Outbox::default();
        let mut file = Narrow(Vec::new(), 3, 7);
        outbox.bytes().extend_from_slice(b"granted 0 1\n");
        assert!(outbox.write_to(&mut file).unwrap());
        assert_eq!((file.0.as_slice(), outbox.len()), (&b"granted"[..], 5));
        assert!(!outbox.write_to(&mut file).unwrap());
        outbox.bytes().extend_from_slice(b"pong\n");
        file.2 = 100;
        assert!(outbox.write_to(&mut file).unwrap());
        assert_eq!(file.0, b"granted 0 1\npong\n");
        assert!(outbox.is_empty());
    }
}
