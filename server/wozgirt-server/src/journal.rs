//! How large the engine's journal is.

use std::fs;
use std::path::Path;
use std::time::{Duration, Instant};

/// How long a size that was looked up may be shown, and how many times as long as the look took, since a folder may have many files.
const FRESH: Duration = Duration::from_secs(1);
const TIMES: u32 = 100;

/// The size of a journal as it was a short while ago.
#[derive(Debug)]
pub struct Journal {
    size: JournalSize,
    next_look: Instant,
}

impl Journal {
    /// Nothing is known of it.
    pub fn new(now: Instant) -> Journal {
        Journal { size: JournalSize::default(), next_look: now }
    }

    /// Looks it up if it is time.
    pub fn look(&mut self, path: &Path, now: Instant) {
        if self.next_look <= now {
            self.size = JournalSize::of(path);
            self.next_look = now + FRESH.max(now.elapsed() * TIMES);
        }
    }

    /// The size.
    pub fn size(&self) -> &JournalSize {
        &self.size
    }
}

/// Sizes of a journal, as far as they can be read.
#[derive(Debug, Default, PartialEq, Eq)]
pub struct JournalSize {
    /// Bytes of all its files.
    pub bytes: u64,
    /// How many segments there are.
    pub segments: u64,
    /// The name of the last one.
    pub last: String,
}

impl JournalSize {
    /// Of this folder, or of this one file.
    pub fn of(path: &Path) -> JournalSize {
        let mut size = JournalSize::default();
        let Ok(files) = fs::read_dir(path) else {
            size.bytes = fs::metadata(path).map_or(0, |data| data.len());
            return size;
        };
        for file in files.flatten() {
            let name = file.file_name().to_string_lossy().into_owned();
            if name.ends_with(".ring") {
                size.bytes += file.metadata().map_or(0, |data| data.len());
                size.segments += 1;
                size.last = size.last.max(name);
            }
        }
        size
    }
}

#[cfg(test)]
mod tests {
    use super::*;

    #[test]
    fn a_folder() {
        let folder = std::env::temp_dir().join(format!("wozgirt-journal-{}", std::process::id()));
        fs::create_dir(&folder).unwrap();
        fs::write(folder.join("0000000001.ring"), "12345").unwrap();
        fs::write(folder.join("0000000002.ring"), "678").unwrap();
        fs::write(folder.join("locks"), "deploy\n").unwrap();
        let size = JournalSize { bytes: 8, segments: 2, last: "0000000002.ring".into() };
        assert_eq!(JournalSize::of(&folder), size);
        assert_eq!(JournalSize::of(&folder.join("missing")), JournalSize::default());
        fs::remove_dir_all(folder).unwrap();
    }
}
