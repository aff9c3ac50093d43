//! The record of grants (`--grants FILE`): a line for each grant and for each end of a hold. It is written before an answer about it
//! leaves; with syncs the lines of the block before are on the disk by then. What cannot be written holds nothing up: the log says so,
//! and the record, when it can be written again.

mod file;
mod syncing;

use crate::log::Event;
use file::{Block, Lost, RecordFile};
use std::fmt::Display;
use std::io::{self, Write};
use std::mem::{replace, take};
use std::os::unix::net::UnixStream;
use std::path::Path;
use std::thread;
use std::time::{Duration, Instant};
pub use syncing::Ticket;
use syncing::{Ask, Syncing};
use wozgirt_grants::{Line, Moment};

/// How long answers wait for the disk at most; and how often is looked at the end of the server.
const PATIENCE: Duration = Duration::from_secs(2);
const PAUSE: Duration = Duration::from_micros(100);

/// What is counted.
#[derive(Debug, Clone, Copy, Default, PartialEq, Eq)]
pub struct Sums {
    /// Lines that were written.
    pub written: u64,
    /// Lines that were not, or not for sure.
    pub lost: u64,
}

/// What the log is to say.
#[derive(Debug, PartialEq, Eq)]
pub enum News {
    /// Lines cannot be written, and why.
    Unwritten(String),
    /// They can again, and this many are missing.
    Written(u64),
}

impl News {
    /// The event for the log.
    pub fn event(&self) -> Event<'_> {
        match self {
            News::Unwritten(fault) => Event::GrantsUnwritten { fault },
            News::Written(lost) => Event::GrantsWritten { lost: *lost },
        }
    }
}

/// The record of grants.
pub struct Grants {
    file: RecordFile,
    /// The lines of this block, how many they are, and the moment that they have.
    text: Vec<u8>,
    lines: u64,
    at: Option<Moment>,
    syncing: Option<Syncing>,
    /// The last block that is to be synced, and since when the disk has not said so of one.
    asked: Ticket,
    waits_since: Option<Instant>,
    /// Whether the disk is not waited for, since that has taken too long.
    is_late: bool,
    /// Whether the log says that lines cannot be written.
    is_bad: bool,
    news: Vec<News>,
    sums: Sums,
}

impl Grants {
    /// Opens the file. `most_bytes`: one that would be longer gets another name. `server`: the name of one of several.
    pub fn open(
        path: &Path,
        most_bytes: u64,
        server: Option<String>,
        is_synced: bool,
        now: Instant,
    ) -> io::Result<Grants> {
        let file = RecordFile::open(path, most_bytes, server, now)?;
        let syncing = is_synced.then(|| Syncing::start(file.folder().to_owned())).transpose()?;
        let mut grants = Grants {
            file,
            text: Vec::new(),
            lines: 0,
            at: None,
            syncing,
            asked: 0,
            waits_since: None,
            is_late: false,
            is_bad: false,
            news: Vec::new(),
            sums: Sums::default(),
        };
        if let Some(lost) = grants.file.lost() {
            grants.note_fault(&"nothing can be written there", lost.lines);
        }
        Ok(grants)
    }

    /// Puts a line into this block.
    pub fn put(&mut self, line: &Line<'_>) {
        let at = *self.at.get_or_insert_with(Moment::now);
        let _ = writeln!(self.text, "{at} {line}"); // a list takes whatever is written
        self.lines += 1;
    }

    /// Writes the block, if there is one. An answer about it may leave as soon as [`Grants::done`] is the number that is returned: that of
    /// the block before, whose sync goes beside what the engine does meanwhile. Nothing is returned if that is done.
    pub fn write(&mut self, now: Instant) -> Option<Ticket> {
        let (lines, at) = (take(&mut self.lines), self.at.take()?);
        let lost = self.file.lost().map_or(0, |lost| lost.lines);
        let written = self.file.write(Block { text: &self.text, lines, at }, now);
        self.text.clear();
        if let Err(fault) = written {
            self.note_fault(&fault, lines);
            return None;
        }
        if self.file.lost().is_some() {
            self.sums.lost += lines;
            return None;
        }
        self.sums.written += lines;
        if !self.is_late && take(&mut self.is_bad) {
            self.news.push(News::Written(lost));
        }
        let (syncing, file) = (self.syncing.as_ref()?, self.file.file()?);
        self.asked += 1;
        self.waits_since.get_or_insert(now);
        syncing.ask(Ask { ticket: self.asked, file: file.clone(), lines: Lost { lines, since: at } });
        Some(self.asked - 1).filter(|before| *before > self.done())
    }

    fn note_fault(&mut self, fault: &dyn Display, lines: u64) {
        self.sums.lost += lines;
        if !replace(&mut self.is_bad, true) {
            self.news.push(News::Unwritten(fault.to_string()));
        }
    }

    /// If another program has moved the file, there is a new one.
    pub fn look(&mut self, now: Instant) {
        if let Err(fault) = self.file.look(now) {
            self.note_fault(&fault, 0);
        }
    }

    /// What rings when something is on the disk.
    pub fn bell(&self) -> Option<&UnixStream> {
        self.syncing.as_ref().map(Syncing::bell)
    }

    /// The bell rings: what was written is on the disk, or cannot be.
    pub fn hear(&mut self, now: Instant) {
        let Some(syncing) = &self.syncing else { return };
        syncing.hear();
        let faults: Vec<_> = syncing.faults().collect();
        self.waits_since = (syncing.done() < self.asked).then_some(now);
        self.is_late &= self.waits_since.is_some();
        for (fault, lost) in faults {
            self.file.lose(lost, now);
            self.note_fault(&fault, lost.lines);
        }
    }

    /// Answers about blocks up to this one may leave.
    pub fn done(&self) -> Ticket {
        match &self.syncing {
            Some(syncing) if !self.is_late => syncing.done(),
            _ => self.asked,
        }
    }

    /// When answers do not wait any more.
    pub fn patience(&self) -> Option<Instant> {
        self.waits_since.filter(|_| !self.is_late).map(|since| since + PATIENCE)
    }

    /// If the disk has kept answers waiting for too long, they leave.
    pub fn pass_time(&mut self, now: Instant) {
        if self.patience().is_some_and(|until| until <= now) {
            self.is_late = true;
            self.note_fault(&"the disk does not take them in time", 0);
        }
    }

    /// Waits for the disk, as the server ends.
    pub fn wait(&mut self, now: Instant) {
        let end = Instant::now() + PATIENCE;
        while self.done() < self.asked && Instant::now() < end {
            thread::sleep(PAUSE);
        }
        self.hear(now);
        if self.done() < self.asked {
            self.is_late = true;
        }
    }

    /// What the log is to say, once.
    pub fn news(&mut self) -> Vec<News> {
        take(&mut self.news)
    }

    /// What was counted.
    pub fn sums(&self) -> Sums {
        self.sums
    }

    /// Whether lines are written.
    pub fn is_well(&self) -> bool {
        !self.is_bad
    }
}

#[cfg(test)]
mod tests;
