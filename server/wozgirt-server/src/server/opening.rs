//! What is read and checked before the server serves.

use super::porch::MOST_ARRIVALS;
use super::shows::MOST_VISITORS;
use super::OTHER_FILES;
use crate::accounts::Accounts;
use crate::alone::{Alone, Store};
use crate::board::Board;
use crate::cluster::{NoFolder, Other, LONGEST_LIST};
use crate::doors::CannotListen;
use crate::engine::CannotStart;
use crate::grants::Grants;
use crate::names::{BadNames, Names};
use crate::places::Places;
use crate::rules::{BadRule, Rules};
use crate::settings::{GrantsSettings, Settings};
use std::fmt;
use std::fs::{self, DirBuilder, File};
use std::io::{self, ErrorKind, Read};
use std::os::unix::fs::DirBuilderExt;
use std::path::{Path, PathBuf};
use std::process::ExitStatus;
use std::time::Instant;
use wozgirt_system::{open_at_once, permit_files};

/// A list of locks that does not continue that of the journal.
#[derive(Debug)]
pub struct OtherList {
    /// Where that of the journal is.
    file: PathBuf,
    /// Both lists, in short.
    old: String,
    new: String,
    /// The number of the first lock in which they differ, from 1.
    number: usize,
    /// Whether that of the journal ends with `*`.
    is_closed: bool,
}

impl fmt::Display for OtherList {
    fn fmt(&self, f: &mut fmt::Formatter<'_>) -> fmt::Result {
        let OtherList { file, old, new, number, is_closed } = self;
        let file = file.display();
        write!(f, "--locks names {new}, but this journal has {old} ({file}): lock {number} there is another one. ")?;
        f.write_str(match is_closed {
            true => "Its list ends with `*`, so it stays as it is. ",
            false => "Names, and `*`, can be added at the end of its list; none can be removed, renamed, reordered or resized. ",
        })?;
        f.write_str("Another list needs another journal, whose tokens begin at 1")
    }
}

/// Why the server does not serve.
#[derive(Debug)]
pub enum CannotServe {
    /// The file of locks in the engine's folder cannot be read, and no locks were named.
    Locks(PathBuf, io::Error),
    /// The locks are not named well.
    Names(BadNames),
    /// The list does not continue that of the journal.
    OtherList(Box<OtherList>),
    /// The folder of the journal cannot be made.
    Journal(PathBuf, io::Error),
    /// The rules cannot be read.
    Rules(PathBuf, io::Error),
    /// The rules are wrong.
    Rule(PathBuf, BadRule),
    /// Fewer files may be open than there may be connections.
    Files {
        /// How many may be.
        limit: u64,
        /// How many are needed.
        needed: u64,
    },
    /// Each connection needs some memory: this many MiB for all.
    Memory(usize),
    /// A socket cannot be listened to.
    Listen(CannotListen),
    /// The engine cannot be started.
    Engine(CannotStart),
    /// The engine keeps ending before it is ready.
    EngineEnds(ExitStatus, Option<String>),
    /// What is kept of sessions cannot be read or written.
    Sessions(io::Error),
    /// The record of grants cannot be written there.
    Grants(PathBuf, io::Error),
    /// The folder cannot be had.
    Folder(PathBuf, NoFolder),
    /// There is no process that speaks to etcd.
    Log(CannotStart),
    /// It keeps ending before it has found the log.
    LogEnds(ExitStatus),
    /// The checkpoint is wrong in this line.
    Checkpoint(PathBuf, usize),
    /// The log was begun with other settings.
    Settings {
        /// Those of the log.
        log: String,
        /// Those of this server.
        own: String,
    },
    /// etcd has another log than this server has read, or an earlier state of it: how that is known.
    OtherLog(String),
    /// The log does not reach back to the checkpoint: how that is known.
    LogGone(String),
    /// One of the two, and it is not known which.
    LogLost,
    /// Another server of this name is alive: this start of it.
    NameTaken(u64),
    /// The engine has not come back to the state of the checkpoint.
    Restored,
    /// Two other servers had other answers.
    Contradicted(u64),
    /// The system refused something else.
    System(io::Error),
}

impl fmt::Display for CannotServe {
    fn fmt(&self, f: &mut fmt::Formatter<'_>) -> fmt::Result {
        match self {
            CannotServe::Locks(path, fault) => write!(f, "--locks is missing, and {}: {fault}", path.display()),
            CannotServe::Names(fault) => write!(f, "--locks: {fault}"),
            CannotServe::OtherList(lists) => lists.fmt(f),
            CannotServe::Journal(path, fault) => write!(f, "the journal's folder {} cannot be made: {fault}", path.display()),
            CannotServe::Rules(path, fault) => write!(f, "{}: {fault}", path.display()),
            CannotServe::Rule(path, fault) => write!(f, "{}: {fault}", path.display()),
            CannotServe::Files { limit, needed } => {
                write!(
                    f,
                    "{limit} files may be open, and {needed} are needed: raise that limit, or lower --connections"
                )
            }
            CannotServe::Memory(needed) => {
                write!(f, "the connections need --memory {needed} at least: raise that, or lower --connections")
            }
            CannotServe::Listen(fault) => fault.fmt(f),
            CannotServe::Engine(fault) => fault.fmt(f),
            CannotServe::Sessions(fault) => write!(f, "what is kept of sessions, beside the journal: {fault} (--no-sessions serves without)"),
            CannotServe::Grants(path, fault) => write!(f, "--grants: {}: {fault}", path.display()),
            CannotServe::Folder(path, NoFolder::InUse) => write!(f, "{}: another server has this folder", path.display()),
            CannotServe::Folder(path, NoFolder::Alone) => write!(
                f,
                "{}: this folder has the journal of a single server; one of several needs a folder of its own, and its tokens begin at 1",
                path.display()
            ),
            CannotServe::Folder(_, NoFolder::Locks) => {
                write!(f, "--locks: of several servers the list has at most {LONGEST_LIST} bytes")
            }
            CannotServe::Folder(path, NoFolder::System(fault)) => write!(f, "{}: {fault}", path.display()),
            CannotServe::Log(fault) => write!(f, "--log-program: {fault}"),
            CannotServe::LogEnds(status) => write!(f, "wozgirt-log keeps ending before it has found the log: {status}"),
            CannotServe::Checkpoint(path, line) => write!(f, "{}: line {line} is wrong", path.display()),
            CannotServe::Settings { log, own } => write!(
                f,
                "the version of entries, --checkpoint, --segment, --faults and --locks are the same for all servers; in the log they are `{log}`, here `{own}`"
            ),
            CannotServe::OtherLog(why) => write!(
                f,
                "etcd has another log than this server has read, or an earlier state of it ({why}): it was wiped, restored or replaced. \
                 Tokens would be given twice, so nothing is served. Stop all servers, and do what OPERATING says of an etcd that was lost or restored"
            ),
            CannotServe::LogGone(why) => write!(
                f,
                "the log does not reach back to this server's checkpoint ({why}): begin again with another server's folder, as OPERATING says of a \
                 host that is replaced"
            ),
            CannotServe::LogLost => f.write_str(
                "the log is another one, or does not reach back to the checkpoint: do what OPERATING says of an etcd that was restored, or of a \
                 host that is replaced",
            ),
            CannotServe::NameTaken(incarnation) => write!(
                f,
                "--name: another server of this name is in the log, as start {incarnation}, and is alive: each server has a name of its own"
            ),
            CannotServe::Restored => f.write_str(
                "the engine does not come back to the state of the checkpoint: keep the folder for an inquiry, and begin again with another server's",
            ),
            CannotServe::Contradicted(position) => write!(
                f,
                "two other servers had other answers up to position {position}: keep the folder for an inquiry, and begin again with one of theirs"
            ),
            CannotServe::EngineEnds(status, None) => write!(f, "the engine keeps ending before it is ready: {status}"),
            CannotServe::EngineEnds(status, Some(said)) => {
                write!(f, "the engine keeps ending before it is ready: {status}; it said: {said}")
            }
            CannotServe::System(fault) => fault.fmt(f),
        }
    }
}

impl std::error::Error for CannotServe {}

impl CannotServe {
    /// The status of the process: 3 if this server's answers are wrong, 4 if the log is not the one that it needs, 78 (as `sysexits.h` has
    /// it) if the settings have to be changed before it can serve, else 1.
    pub fn status(&self) -> u8 {
        match self {
            CannotServe::Locks(..)
            | CannotServe::Names(_)
            | CannotServe::OtherList(_)
            | CannotServe::Rule(..)
            | CannotServe::Files { .. }
            | CannotServe::Memory(_)
            | CannotServe::Grants(..)
            | CannotServe::Settings { .. } => 78,
            CannotServe::Restored | CannotServe::Contradicted(_) => 3,
            CannotServe::OtherLog(_) | CannotServe::LogGone(_) | CannotServe::LogLost => 4,
            _ => 1,
        }
    }
}

impl From<io::Error> for CannotServe {
    fn from(fault: io::Error) -> CannotServe {
        CannotServe::System(fault)
    }
}

impl From<Other> for CannotServe {
    fn from(Other(why): Other) -> CannotServe {
        CannotServe::OtherLog(why)
    }
}

impl From<CannotListen> for CannotServe {
    fn from(fault: CannotListen) -> CannotServe {
        CannotServe::Listen(fault)
    }
}

/// The locks that are named, or those of the journal. A new one of the user's own folder has locks of any name.
pub(super) fn read_names(settings: &mut Settings) -> Result<Names, CannotServe> {
    let path = settings.engine_journal().join("locks");
    let list = match (&settings.engine.locks, fs::read_to_string(&path)) {
        (Some(list), _) => list.clone(),
        (None, Ok(list)) => list,
        (None, Err(fault)) if settings.is_own && fault.kind() == ErrorKind::NotFound => {
            settings.engine.locks.insert("*".into()).clone()
        }
        (None, Err(fault)) => return Err(CannotServe::Locks(path, fault)),
    };
    Names::parse(&list).map_err(CannotServe::Names)
}

/// Makes the folder of a single server's journal, if it is missing, and those above it if they are the user's own.
pub(super) fn make_journal(settings: &Settings) -> Result<(), CannotServe> {
    if settings.cluster.is_some() {
        return Ok(()); // the checkpoint's folder is made with it
    }
    let missing = settings.journal.ancestors().skip(1).take_while(|folder| settings.is_own && !folder.exists());
    let folders = missing.collect::<Vec<_>>().into_iter().rev().chain([&*settings.journal]);
    folders
        .map(make_folder)
        .collect::<io::Result<()>>()
        .map_err(|fault| CannotServe::Journal(settings.journal.clone(), fault))
}

/// Makes a folder so that a loss of power leaves it there.
fn make_folder(path: &Path) -> io::Result<()> {
    match DirBuilder::new().mode(0o700).create(path) {
        Err(fault) if fault.kind() == ErrorKind::AlreadyExists => Ok(()),
        Err(fault) => Err(fault),
        Ok(()) => {
            let parent = path.parent().filter(|parent| !parent.as_os_str().is_empty()).unwrap_or(Path::new("."));
            File::open(parent)?.sync_all()
        }
    }
}

/// Compares the list of a single server with that of its journal, which the engine would refuse each time that it is started. (What is
/// there and is not a list, the engine refuses.)
pub(super) fn check_list(settings: &Settings, new: &Names) -> Result<(), CannotServe> {
    let file = settings.engine_journal().join("locks");
    let text = fs::read_to_string(&file).ok().filter(|_| settings.cluster.is_none());
    let Some(old) = text.and_then(|text| Names::parse(&text).ok()) else { return Ok(()) };
    let Some(place) = new.first_change(&old) else { return Ok(()) };
    let is_closed = old.any().is_some();
    let lists = OtherList { file, old: old.short(), new: new.short(), number: place + 1, is_closed };
    Err(CannotServe::OtherList(Box::new(lists)))
}

/// The text of a regular file. A pipe, into which somebody has yet to write, is refused at once.
pub(super) fn read_file(path: &Path) -> io::Result<String> {
    let mut file = open_at_once(path)?;
    if !file.metadata()?.is_file() {
        return Err(io::Error::new(ErrorKind::InvalidInput, "not a regular file"));
    }
    let mut text = String::new();
    file.read_to_string(&mut text)?;
    Ok(text)
}

pub(super) fn read_rules(settings: &Settings, board: &Board, accounts: &mut Accounts) -> Result<Rules, CannotServe> {
    let Some(path) = &settings.rules else { return Ok(Rules::default()) };
    let text = read_file(path).map_err(|fault| CannotServe::Rules(path.clone(), fault))?;
    Rules::parse(&text, board, accounts).map_err(|fault| CannotServe::Rule(path.clone(), fault))
}

/// The sessions that are kept beside the journal of a single server, if it is to have some.
pub(super) fn open_sessions(settings: &Settings) -> Result<Alone, CannotServe> {
    let opened = settings.keeps_sessions.then(|| Store::open(&settings.journal, settings.session_bytes)).transpose();
    let store = opened.map_err(|fault| match fault {
        NoFolder::System(fault) => CannotServe::Sessions(fault),
        fault => CannotServe::Folder(settings.journal.clone(), fault),
    })?;
    Alone::new(store, settings.most_sessions()).map_err(CannotServe::Sessions)
}

/// The record of grants, if there is to be one: what happens to holds goes there from now on.
pub(super) fn open_grants(settings: &Settings, board: &mut Board, now: Instant) -> Result<Option<Grants>, CannotServe> {
    let Some(GrantsSettings { path, most_bytes }) = &settings.grants else { return Ok(None) };
    board.keep_news();
    let server = settings.cluster.as_ref().map(|words| words.name.clone());
    let opened = Grants::open(path, *most_bytes, server, settings.engine.is_synced, now);
    opened.map(Some).map_err(|fault| CannotServe::Grants(path.clone(), fault))
}

/// The system's limit of open files, which the server raises to the hard limit at its start.
pub(super) fn check_files(settings: &Settings) -> Result<(), CannotServe> {
    let arrivals = if settings.sockets.proxied.is_some() { MOST_ARRIVALS } else { 0 };
    let needed = (Places::count(settings) + MOST_VISITORS + arrivals + OTHER_FILES) as u64;
    let limit = permit_files(needed)?;
    if limit < needed {
        return Err(CannotServe::Files { limit, needed });
    }
    Ok(())
}
