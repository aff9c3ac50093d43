//! flock(2), on files of one machine.

use crate::Peer;
use std::fs::{File, OpenOptions};

pub struct Flock(File);

impl Flock {
    pub fn open(folder: &str, l: usize) -> Flock {
        let path = format!("{folder}/file{l}");
        Flock(OpenOptions::new().read(true).write(true).create(true).truncate(false).open(path).unwrap())
    }
}

impl Peer for Flock {
    fn acquire(&mut self) -> u64 {
        self.0.lock().unwrap();
        0
    }

    fn release(&mut self) {
        self.0.unlock().unwrap();
    }
}
