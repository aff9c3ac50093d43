//! `wozgirt log`: the holds of each lock, their clients and their times. The journal says which holds there were, the record of grants
//! whose they were, and when.

mod joining;
mod journal;
mod record;
mod showing;
mod when;

pub use when::{moment, FORMS};

use crate::output::{complain, print};
use crate::words::Inquiry;
use joining::{check, join, Contradiction, Hold};
use journal::Journal;
use record::{Gap, Record};
use std::fmt;
use std::io;

/// Why that cannot be said.
#[derive(Debug)]
pub enum Unknown {
    /// The record cannot be read.
    Record(record::Unread),
    /// The journal cannot be read.
    Journal(journal::Unread),
    /// They contradict each other.
    Contradicted(Contradiction),
    /// Standard output cannot be written.
    Output(io::Error),
}

impl fmt::Display for Unknown {
    fn fmt(&self, f: &mut fmt::Formatter<'_>) -> fmt::Result {
        match self {
            Unknown::Record(fault) => fault.fmt(f),
            Unknown::Journal(fault) => fault.fmt(f),
            Unknown::Contradicted(contradiction) => contradiction.fmt(f),
            Unknown::Output(fault) => write!(f, "standard output: {fault}"),
        }
    }
}

impl std::error::Error for Unknown {}

/// Prints the holds that are asked for.
pub fn run(inquiry: &Inquiry) -> Result<(), Unknown> {
    let name = inquiry.name.as_deref();
    let mut record = Record::default();
    inquiry.records.iter().try_for_each(|path| record.read(path, name)).map_err(Unknown::Record)?;
    let journal = Journal::read(&inquiry.program, &inquiry.journal, name).map_err(Unknown::Journal)?;
    check(&record, &journal).map_err(Unknown::Contradicted)?;
    // a grant that came meanwhile may be in the journal
    let mut later = record.next();
    inquiry.records.iter().try_for_each(|path| later.read(path, name)).map_err(Unknown::Record)?;
    record.add_missing(later);
    for path in &record.others {
        complain(format_args!(
            "{}: it is not read: it does not begin as a file of the record, and may be compressed",
            path.display()
        ));
    }
    for path in &record.torn {
        complain(format_args!("{}: its last line has no end, and is left out", path.display()));
    }
    let (since, until) = (inquiry.since, inquiry.until);
    let mut gaps: Vec<Gap> = record.gaps.iter().filter(|gap| gap.was(since, until)).copied().collect();
    gaps.sort();
    let holds: Vec<Hold> = join(record, &journal).into_iter().filter(|hold| hold.was(since, until)).collect();
    let show = if inquiry.is_json { showing::for_programs } else { showing::for_people };
    print(&show(&holds, &gaps)).map_err(Unknown::Output)
}

impl Unknown {
    /// Which kind of fault it is.
    pub fn kind(&self) -> Kind {
        match self {
            Unknown::Record(record::Unread::Files(..) | record::Unread::None(..)) => Kind::Files,
            Unknown::Journal(journal::Unread::Files(..)) => Kind::Files,
            Unknown::Journal(journal::Unread::Program(..)) => Kind::Program,
            Unknown::Output(_) => Kind::Output,
            Unknown::Record(_) | Unknown::Journal(_) | Unknown::Contradicted(_) => Kind::Data,
        }
    }
}

/// A kind of fault, for the status of the program.
#[derive(Debug, Clone, Copy, PartialEq, Eq)]
pub enum Kind {
    /// A file cannot be read.
    Files,
    /// The journal's reader cannot be run.
    Program,
    /// What is read is wrong.
    Data,
    /// Standard output cannot be written.
    Output,
}
