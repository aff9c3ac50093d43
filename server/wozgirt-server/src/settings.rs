//! The words of the command line.

mod reading;

pub use crate::options::help;
pub use reading::seconds;

use crate::cluster::OverEtcd;
use crate::options::options;
use reading::Reading;
use std::ffi::OsString;
use std::fmt;
use std::net::SocketAddr;
use std::path::PathBuf;
use std::time::Duration;
use wozgirt_words::{next_word, BadWord, OwnFolder, Word};

/// How a socket is made that has a name.
#[derive(Debug, Clone, PartialEq, Eq)]
pub struct Named {
    /// Its name.
    pub path: PathBuf,
    /// Its mode.
    pub mode: u32,
    /// Its group, by name or number.
    pub group: Option<String>,
}

/// How the engine is run.
#[derive(Debug, Clone, PartialEq, Eq)]
pub struct EngineSettings {
    /// Its program.
    pub program: String,
    /// The list of locks, if it is given.
    pub locks: Option<String>,
    /// How many locks may be held of names that are not in the list, if it is given.
    pub most_names: Option<u32>,
    /// How many lines a segment has, if it is given.
    pub segment: Option<u64>,
    /// How many segments are kept, if not all.
    pub keep_segments: Option<usize>,
    /// Whether answers wait for the disk.
    pub is_synced: bool,
    /// Whether operators may write faults.
    pub permits_faults: bool,
    /// How long it may leave a question unanswered.
    pub patience: Duration,
}

/// Where is listened.
#[derive(Debug, Clone, PartialEq, Eq)]
pub struct Sockets {
    /// The socket of clients.
    pub clients: Named,
    /// The socket of operators.
    pub operators: Option<Named>,
    /// The socket of a proxy.
    pub proxied: Option<Named>,
    /// The address of clients over TCP.
    pub tcp: Option<SocketAddr>,
    /// The address of the page.
    pub page: Option<SocketAddr>,
}

/// The record of grants.
#[derive(Debug, Clone, PartialEq, Eq)]
pub struct GrantsSettings {
    /// Its file.
    pub path: PathBuf,
    /// How long it may be before it gets another name.
    pub most_bytes: u64,
}

/// What is bounded, and how.
#[derive(Debug, Clone, PartialEq, Eq)]
pub struct Limits {
    /// The longest silence of a client.
    pub longest_lease: Duration,
    /// Whether a client on a Unix socket has a lease that did not ask for one.
    pub is_lease_for_all: bool,
    /// How long open holds stay held after the engine started.
    pub grace: Duration,
    /// How many clients there may be at each door.
    pub connections: usize,
    /// How much memory all connections may take together, in MiB, if it is given.
    pub memory: Option<usize>,
    /// How many may wait for one lock.
    pub waiters: usize,
    /// How many locks one client may hold.
    pub most_holds: usize,
    /// How long answers may stay unread.
    pub deaf: Duration,
}

/// What the words ask for.
#[derive(Debug, Clone, PartialEq, Eq)]
pub struct Settings {
    /// The engine.
    pub engine: EngineSettings,
    /// The folder of its journal.
    pub journal: PathBuf,
    /// Whether that is in the user's own folder, since no word says where it is.
    pub is_own: bool,
    /// Whether sessions are kept beside the journal.
    pub keeps_sessions: bool,
    /// How much is added to their file before it is written anew.
    pub session_bytes: usize,
    /// The sockets.
    pub sockets: Sockets,
    /// The file of rules.
    pub rules: Option<PathBuf>,
    /// The limits.
    pub limits: Limits,
    /// Files with certificates whose ends are watched.
    pub certificates: Vec<PathBuf>,
    /// The record of grants, if there is one.
    pub grants: Option<GrantsSettings>,
    /// Whether connections are logged.
    pub logs_connections: bool,
    /// The log that this server has with others.
    pub cluster: Option<OverEtcd>,
}

/// What the words are, if they are not wrong.
#[derive(Debug, PartialEq, Eq)]
pub enum Words {
    /// Run so.
    Run(Box<Settings>),
    /// Print the help.
    Help,
    /// Print the version.
    Version,
}

/// What is wrong with the words.
#[derive(Debug, PartialEq, Eq)]
pub enum BadWords {
    /// A word is not text.
    NoText(OsString),
    /// There is no such word.
    Unknown(String),
    /// It needs a value.
    NoValue(String),
    /// This is not a value of it.
    Value(String, String),
    /// This one has to be there.
    Missing(&'static str),
    /// The address is not this machine's own.
    Anywhere(SocketAddr),
    /// The grace is shorter than the longest lease.
    Grace,
    /// This word says nothing without `--etcd`.
    Alone(&'static str),
    /// This word is not for several servers.
    NotAlone(&'static str),
    /// This word says nothing without `--grants`.
    NoGrants(&'static str),
}

impl fmt::Display for BadWords {
    fn fmt(&self, f: &mut fmt::Formatter<'_>) -> fmt::Result {
        match self {
            BadWords::NoText(word) => write!(f, "{word:?} is not text in UTF-8"),
            BadWords::Unknown(word) => write!(f, "there is no option {word}"),
            BadWords::NoValue(word) => write!(f, "{word} needs a value"),
            BadWords::Value(word, value) => write!(f, "{word}: bad value `{value}`"),
            BadWords::Missing(word) => write!(f, "{word} is missing"),
            BadWords::Anywhere(address) => {
                write!(f, "{address} can be reached from other machines, and connections are not authenticated: see --listen-anywhere")
            }
            BadWords::Grace => f.write_str("--grace is shorter than --longest-lease"),
            BadWords::NotAlone(word) => write!(f, "{word} is for a single server, without --etcd"),
            BadWords::NoGrants(word) => write!(f, "{word} says nothing without --grants"),
            BadWords::Alone(word) => write!(f, "{word} is for several servers: see --etcd"),
        }
    }
}

impl std::error::Error for BadWords {}

impl From<BadWord> for BadWords {
    fn from(word: BadWord) -> BadWords {
        match word {
            BadWord::Unknown(word) => word.into_string().map_or_else(BadWords::NoText, BadWords::Unknown),
            BadWord::NoValue(name) => BadWords::NoValue(name),
        }
    }
}

/// Reads the words after the program's name.
///
/// `own`: where a single server is whose words do not say it.
pub fn parse(words: impl IntoIterator<Item = impl Into<OsString>>, own: Option<OwnFolder>) -> Result<Words, BadWords> {
    let mut reading = Reading::default();
    let mut words = words.into_iter().map(Into::into);
    while let Some(word) = next_word(&mut words, options()) {
        match word? {
            Word::Help => return Ok(Words::Help),
            Word::Version => return Ok(Words::Version),
            Word::End => return Err(BadWords::Unknown("--".into())),
            Word::Other(word) => return Err(BadWord::Unknown(word).into()),
            Word::Option(name, written, value) => {
                let value = value.into_string().map_err(BadWords::NoText)?;
                reading.put(name, &value).ok_or(BadWords::Value(written, value))?;
            }
        }
    }
    reading.settings(own).map(|settings| Words::Run(Box::new(settings)))
}

/// How many sessions there may be for each connection: those of clients that are away are some.
const SESSIONS_EACH: usize = 8;
/// How many locks may be held that are not in the list, if nothing is said.
const MOST_NAMES: u32 = 65_536;

impl Settings {
    /// How many sessions there may be.
    pub fn most_sessions(&self) -> usize {
        SESSIONS_EACH * self.limits.connections
    }

    /// How many locks may be held that are not in the list.
    pub fn most_names(&self) -> usize {
        self.engine.most_names.unwrap_or(MOST_NAMES) as usize
    }

    /// The folder of the engine's journal.
    pub fn engine_journal(&self) -> PathBuf {
        match self.cluster {
            None => self.journal.clone(),
            Some(_) => self.journal.join("journal"),
        }
    }

    /// The file with the open holds, which an engine that begins at a checkpoint reads.
    pub fn holders(&self) -> PathBuf {
        self.journal.join("holders")
    }

    /// The words with which the engine is run. Where there is a log, that is on disks already.
    pub fn engine_words(&self) -> Vec<String> {
        let mut words = vec!["locks".into(), "--journal".into(), self.engine_journal().to_string_lossy().into_owned()];
        if let Some(locks) = &self.engine.locks {
            words.extend(["--locks".into(), locks.clone()]);
        }
        if let Some(most) = self.engine.most_names {
            words.extend(["--most-names".into(), most.to_string()]);
        }
        if let Some(segment) = self.engine.segment {
            words.extend(["--segment".into(), segment.to_string()]);
        }
        words.push(if self.engine.is_synced && self.cluster.is_none() { "--sync".into() } else { "--no-sync".into() });
        if self.engine.permits_faults {
            words.push("--faults".into());
        }
        if self.cluster.is_some() {
            words.extend(["--strict".into(), "--holders".into(), self.holders().to_string_lossy().into_owned()]);
        }
        words
    }
}

#[cfg(test)]
mod tests;
