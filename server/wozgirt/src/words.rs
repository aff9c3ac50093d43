//! What the words of the command line ask for.

use crate::log::FORMS;
use crate::options::{COMMANDS, ORDERS};
use crate::places::Place;
use std::ffi::OsString;
use std::fmt;
use std::path::PathBuf;
use std::time::Duration;
use wozgirt_grants::Moment;
use wozgirt_words::BadWord;

/// What is to be done.
#[derive(Debug, Clone, PartialEq, Eq)]
pub enum Words {
    /// To run a command while a lock is held.
    Lock(Vec<Place>, Hold),
    /// To print how the locks are.
    Status(Look),
    /// To measure.
    Bench(Place, Load),
    /// To send a server an order, over the socket of operators.
    Admin(PathBuf, Order),
    /// To print who held which lock.
    Log(Inquiry),
    /// To print the help.
    Help,
    /// To print the version.
    Version,
}

/// How long to wait for a lock.
#[derive(Debug, Clone, Copy, PartialEq, Eq)]
pub enum Patience {
    /// For as long as it takes.
    Endless,
    /// This long.
    For(Duration),
    /// Not at all.
    None,
}

/// A lock and a command.
#[derive(Debug, Clone, PartialEq, Eq)]
pub struct Hold {
    /// The lock.
    pub name: String,
    /// How long to wait.
    pub patience: Patience,
    /// How long to wait for a server that is just starting.
    pub server_wait: Duration,
    /// The status of giving up.
    pub conflict_status: u8,
    /// The label, if it is given.
    pub label: Option<u64>,
    /// The lease, if it is given.
    pub lease: Option<Duration>,
    /// The time from TERM to KILL.
    pub kill_after: Duration,
    /// Whether the command does not inherit the connection.
    pub closes: bool,
    /// Whether programs that the command leaves running do not keep the lock.
    pub is_of_command_only: bool,
    /// Whether the command gets a group of its own.
    pub is_group: bool,
    /// The command and its words.
    pub command: Vec<OsString>,
}

impl Hold {
    /// The label that the journal keeps.
    pub fn label(&self) -> u64 {
        self.label.unwrap_or(std::process::id().into())
    }
}

/// How the locks are looked at.
#[derive(Debug, Clone, PartialEq, Eq)]
pub struct Look {
    /// The servers, the first of which answers.
    pub places: Vec<Place>,
    /// How long to wait for one that is just starting.
    pub server_wait: Duration,
    /// After what time they are looked at again.
    pub every: Option<Duration>,
    /// What the names of those begin with that are shown.
    pub prefix: String,
    /// Whether that is for a program.
    pub is_json: bool,
}

/// What an operator asks for.
#[derive(Debug, Clone, PartialEq, Eq)]
pub enum Order {
    /// To list the connected clients.
    Clients,
    /// Where the server is in the log.
    Cluster,
    /// That a hold ends: its lock and its token.
    End(String, u64),
    /// That a client goes.
    Kick(u64),
    /// That a fault is written: the lock, the machine and the value.
    Corrupt(String, u64, u64),
    /// That the server ends.
    Stop,
}

/// Which holds are asked for, and where they are written.
#[derive(Debug, Clone, PartialEq, Eq)]
pub struct Inquiry {
    /// The folder of the journal.
    pub journal: PathBuf,
    /// The files to which servers write grants.
    pub records: Vec<PathBuf>,
    /// The program that reads the journal.
    pub program: String,
    /// The lock, if one is named.
    pub name: Option<String>,
    /// From when on.
    pub since: Option<Moment>,
    /// Until when.
    pub until: Option<Moment>,
    /// Whether that is for a program.
    pub is_json: bool,
}

/// What is measured.
#[derive(Debug, Clone, PartialEq, Eq)]
pub struct Load {
    /// How many clients.
    pub clients: usize,
    /// On how many locks.
    pub locks: usize,
    /// How long.
    pub time: Duration,
}

/// What is wrong with the words.
#[derive(Debug, PartialEq, Eq)]
pub enum BadWords {
    /// No word says what to do.
    None,
    /// The first word is not a command.
    Command(String),
    /// There is no such word here.
    Unknown(String),
    /// It needs a value.
    NoValue(String),
    /// This is not a value of it.
    Value(String, String),
    /// This server speaks TLS.
    Tls(String),
    /// This is not a moment.
    Moment(String, String),
    /// No lock is named.
    NoName,
    /// No lock can have this name.
    Name(String),
    /// No command is named.
    NoCommand,
    /// Both of --wait and --no-wait.
    Both,
    /// Several servers where one is measured.
    Several,
    /// An operator says none of what can be said, or not all of it.
    Order,
}

impl fmt::Display for BadWords {
    fn fmt(&self, f: &mut fmt::Formatter<'_>) -> fmt::Result {
        match self {
            BadWords::None => write!(f, "{} is wanted", one_of(COMMANDS.iter().map(|it| it.name))),
            BadWords::Command(word) => write!(f, "`{word}` is not a command: {}", BadWords::None),
            BadWords::Unknown(word) => write!(f, "`{word}` has no place here"),
            BadWords::NoValue(word) => write!(f, "{word} needs a value"),
            BadWords::Value(word, value) => write!(f, "{word}: bad value `{value}`"),
            BadWords::Tls(place) => {
                write!(f, "{place}: wozgirt speaks no TLS: name the socket of wozgirt-tunnel@.service, which does")
            }
            BadWords::Moment(word, value) => {
                write!(f, "{word}: bad moment `{value}`: a moment is one as {FORMS}; in UTC")
            }
            BadWords::NoName => f.write_str("NAME is missing"),
            BadWords::NoCommand => f.write_str("COMMAND is missing"),
            BadWords::Name(name) => {
                write!(
                    f,
                    "no lock can be named `{}`: a name has letters, digits and signs of ASCII, no space",
                    name.escape_debug()
                )
            }
            BadWords::Both => f.write_str("--wait and --no-wait exclude each other"),
            BadWords::Several => f.write_str("bench measures one server: name it with --socket PLACE"),
            BadWords::Order => write!(f, "admin: {} is wanted", one_of(ORDERS.iter().map(|it| it.words))),
        }
    }
}

impl std::error::Error for BadWords {}

impl From<BadWord> for BadWords {
    fn from(word: BadWord) -> BadWords {
        match word {
            BadWord::Unknown(word) => BadWords::Unknown(word.to_string_lossy().into_owned()),
            BadWord::NoValue(name) => BadWords::NoValue(name),
        }
    }
}

/// `a, b or c`.
fn one_of(words: impl Iterator<Item = &'static str>) -> String {
    let words: Vec<&str> = words.collect();
    match words.split_last() {
        Some((last, others)) if !others.is_empty() => format!("{} or {last}", others.join(", ")),
        _ => words.concat(),
    }
}
