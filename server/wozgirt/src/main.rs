//! The command `wozgirt`: a lock around another command, looks at the server, and who held what. See `--help`.

mod admin;
mod alone;
mod answers;
mod bench;
mod client;
mod connecting;
mod finding;
mod lock;
mod log;
mod options;
mod output;
mod parsing;
mod places;
mod session;
mod status;
mod table;
mod words;

use client::Fault;
use lock::{Ending, NotRun};
use output::{complain, print};
use parsing::{parse, Usual};
use std::env::{args_os, var_os};
use std::fmt;
use std::io;
use std::path::PathBuf;
use std::process::ExitCode;
use words::Words;
use wozgirt_words::OwnFolder;

const SOCKET: &str = "/run/wozgirt/lock.sock";
const OPERATORS: &str = "/run/wozgirt/operators.sock";
const JOURNAL: &str = "/var/lib/wozgirt/journal";
/// Standard output cannot be written; `flock(1)` has this status too.
const NOT_WRITTEN: u8 = 1;
// statuses as `sysexits.h` has them
const USAGE: u8 = 64;
const DATA: u8 = 65;
const NO_INPUT: u8 = 66;
const UNAVAILABLE: u8 = 69;
const SYSTEM: u8 = 71;
const LOST: u8 = 75;
const PROTOCOL: u8 = 76;

/// Why something else than a lock was not had.
#[derive(Debug)]
pub enum CannotDo {
    /// The server cannot be asked, or refuses.
    Server(Fault),
    /// The server refuses, and what that means.
    Refused(Fault, String),
    /// Standard output cannot be written.
    Output(io::Error),
}

impl fmt::Display for CannotDo {
    fn fmt(&self, f: &mut fmt::Formatter<'_>) -> fmt::Result {
        match self {
            CannotDo::Server(fault) => fault.fmt(f),
            CannotDo::Refused(fault, why) => write!(f, "{fault} ({why})"),
            CannotDo::Output(fault) => write!(f, "standard output: {fault}"),
        }
    }
}

impl std::error::Error for CannotDo {}

impl From<Fault> for CannotDo {
    fn from(fault: Fault) -> CannotDo {
        CannotDo::Server(fault)
    }
}

impl From<io::Error> for CannotDo {
    fn from(fault: io::Error) -> CannotDo {
        CannotDo::Output(fault)
    }
}

/// Where servers are if no word says it: where the environment says it, at a server that this user has started, or at the system's.
fn usual() -> Usual {
    let own = OwnFolder::of(|name| var_os(name)).filter(OwnFolder::is_used);
    let place = |name, of_own: fn(&OwnFolder) -> PathBuf, of_system: &str| {
        let of_own = own.as_ref().map(of_own);
        var_os(name).or(of_own.map(PathBuf::into_os_string)).unwrap_or_else(|| of_system.into())
    };
    Usual {
        socket: place("WOZGIRT_SOCKET", OwnFolder::socket, SOCKET),
        operators: place("WOZGIRT_OPERATORS", OwnFolder::operators, OPERATORS),
        journal: place("WOZGIRT_JOURNAL", OwnFolder::journal, JOURNAL),
        grants: var_os("WOZGIRT_GRANTS"),
    }
}

fn main() -> ExitCode {
    let status = match parse(args_os().skip(1), usual()) {
        Ok(Words::Lock(places, hold)) => match lock::run(&places, &hold) {
            Ok(Ending::Command(ended)) => lock::status(ended),
            Ok(Ending::Conflict) => hold.conflict_status,
            Ok(Ending::Unanswered(why)) => say(why, hold.conflict_status),
            Ok(Ending::Lost) => LOST,
            Ok(Ending::Signal(signal)) => 128 + signal.number() as u8,
            Err(fault) => say(&fault, status_of(&fault)),
        },
        Ok(Words::Status(look)) => done(status::run(&look)),
        Ok(Words::Admin(operators, order)) => done(admin::run(&operators, &order)),
        Ok(Words::Bench(place, load)) => match bench::run(&place, &load) {
            Ok(text) => done(print(&text).map_err(CannotDo::Output)),
            Err(wrong) => say(wrong, 1),
        },
        Ok(Words::Log(inquiry)) => match log::run(&inquiry) {
            Ok(()) => 0,
            Err(fault) => say(&fault, status_of_inquiry(&fault)),
        },
        Ok(Words::Help) => done(print(&options::help()).map_err(CannotDo::Output)),
        Ok(Words::Version) => {
            done(print(concat!("wozgirt ", env!("CARGO_PKG_VERSION"), "\n")).map_err(CannotDo::Output))
        }
        Err(fault) => say(format_args!("{fault}\nTry --help."), USAGE),
    };
    ExitCode::from(status)
}

fn say(what: impl fmt::Display, status: u8) -> u8 {
    complain(what);
    status
}

fn done(result: Result<(), CannotDo>) -> u8 {
    match result {
        Ok(()) => 0,
        Err(fault) => {
            let status = match &fault {
                CannotDo::Server(fault) | CannotDo::Refused(fault, _) => status_of_fault(fault),
                CannotDo::Output(_) => NOT_WRITTEN,
            };
            say(fault, status)
        }
    }
}

fn status_of(fault: &NotRun) -> u8 {
    match fault {
        NotRun::Server(fault) => status_of_fault(fault),
        NotRun::Command(..) | NotRun::System(_) => UNAVAILABLE,
        NotRun::Fork(_) => SYSTEM,
    }
}

fn status_of_inquiry(fault: &log::Unknown) -> u8 {
    match fault.kind() {
        log::Kind::Files => NO_INPUT,
        log::Kind::Program => UNAVAILABLE,
        log::Kind::Data => DATA,
        log::Kind::Output => NOT_WRITTEN,
    }
}

fn status_of_fault(fault: &Fault) -> u8 {
    match fault {
        Fault::Connect(..) | Fault::Closed | Fault::ClosedFirst | Fault::System(_) | Fault::Late => UNAVAILABLE,
        Fault::Nobody | Fault::Gone(_) => UNAVAILABLE,
        Fault::At(_, fault) => status_of_fault(fault),
        Fault::Refused(_) | Fault::Unexpected(_) => PROTOCOL,
    }
}
