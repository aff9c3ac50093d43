//! What the log has a line of.

use super::{End, Of};
use crate::engine_version::EngineVersion;
use crate::header::BadHeader;
use std::fmt;
use std::time::Duration;
use wozgirt_engine::{Client, Lock, NotALine, Token};

/// This program.
const SERVER: &str = concat!("wozgirt-server ", env!("CARGO_PKG_VERSION"));

/// How many names of locks a line has.
const MOST_NAMES: usize = 8;

/// Some of these names, and how many more there are.
pub fn some_of(names: &[Lock]) -> String {
    let (first, rest) = names.split_at(names.len().min(MOST_NAMES));
    match rest.len() {
        0 => first.join(","),
        count => format!("{} and {count} more", first.join(",")),
    }
}

/// Something that happened.
#[allow(missing_docs)] // the texts below say what they are
pub enum Event<'a> {
    Started {
        locks: usize,
        has_others: bool,
        journal: &'a dyn fmt::Display,
        socket: &'a dyn fmt::Display,
        engine: &'a EngineVersion,
    },
    Listening {
        what: &'a str,
        place: &'a dyn fmt::Display,
    },
    EngineStarted {
        process: u32,
        grace: Duration,
    },
    EngineReady {
        held: usize,
    },
    EngineEnded {
        status: String,
    },
    EngineSaid {
        line: &'a str,
    },
    EngineUnreadable {
        line: String,
        fault: Option<NotALine>,
    },
    EngineSilent {
        time: Duration,
    },
    EngineAnswers {
        time: Duration,
    },
    EngineHangs {
        time: Duration,
    },
    GraceOver,
    HoldEnded {
        by: &'a str,
        lock: &'a str,
        token: Token,
        client: Client,
    },
    SegmentRemoved {
        name: &'a str,
        digest: &'a str,
    },
    SegmentsStay {
        fault: &'a std::io::Error,
    },
    RulesRead,
    RulesBad {
        fault: &'a dyn fmt::Display,
    },
    RulesUnknown {
        who: &'a dyn fmt::Display,
    },
    Came {
        client: Client,
        who: &'a str,
    },
    Went {
        client: Client,
        who: &'a str,
        end: End,
        held: &'a str,
    },
    TooMany {
        who: &'a str,
    },
    HeaderRefused {
        who: &'a str,
        fault: BadHeader,
    },
    ClientsUnknown {
        place: &'a dyn fmt::Display,
    },
    CertificateEnds {
        file: &'a dyn fmt::Display,
        left: Option<Duration>,
    },
    CertificateUnread {
        file: &'a dyn fmt::Display,
        why: &'a dyn fmt::Display,
    },
    LeftOut {
        count: u64,
    },
    PartFull {
        who: &'a str,
        of: Of,
        has: usize,
        all: usize,
    },
    Fault {
        client: Client,
        who: &'a str,
        lock: &'a str,
        machine: u64,
        value: u64,
        old: u64,
    },
    Stopping {
        why: &'a str,
    },
    CannotStart {
        fault: &'a std::io::Error,
    },
    CannotAccept {
        fault: &'a std::io::Error,
    },
    Stopped,
    LogStarted {
        process: u32,
    },
    LogEnded {
        status: String,
    },
    LogSaid {
        line: &'a str,
    },
    LogUnreadable {
        line: &'a str,
    },
    LogLeft {
        why: &'a str,
    },
    LogFull,
    LogJoined {
        identity: &'a str,
        server: &'a dyn fmt::Display,
        position: u64,
    },
    ServerOver {
        server: &'a dyn fmt::Display,
        position: u64,
    },
    MoreLocks {
        count: usize,
        own: usize,
        list: &'a str,
    },
    SessionRefused {
        who: &'a str,
    },
    SessionOver {
        session: Client,
        held: &'a str,
    },
    SessionEnded {
        by: &'a str,
        session: Client,
        held: &'a str,
    },
    SessionsKept {
        sessions: usize,
        held: usize,
    },
    SessionsUnkept {
        fault: &'a std::io::Error,
    },
    GrantsUnwritten {
        fault: &'a str,
    },
    GrantsWritten {
        lost: u64,
    },
    Contradiction {
        name: &'a str,
        position: u64,
    },
    HostAway {
        name: &'a str,
        seconds: u64,
    },
    Checkpoint {
        position: u64,
        segment: u64,
    },
}

impl Event<'_> {
    /// One word for its kind, which stays the same when texts change.
    pub fn key(&self) -> &'static str {
        match self {
            Event::Started { .. } => "started",
            Event::Listening { .. } => "listening",
            Event::EngineStarted { .. } => "engine-started",
            Event::EngineReady { .. } => "engine-ready",
            Event::EngineEnded { .. } => "engine-ended",
            Event::EngineSaid { .. } => "engine-said",
            Event::EngineUnreadable { .. } => "engine-unreadable",
            Event::EngineSilent { .. } => "engine-silent",
            Event::EngineAnswers { .. } => "engine-answers",
            Event::EngineHangs { .. } => "engine-hangs",
            Event::GraceOver => "grace-over",
            Event::HoldEnded { .. } => "hold-ended",
            Event::SegmentRemoved { .. } => "segment-removed",
            Event::SegmentsStay { .. } => "segments-stay",
            Event::RulesRead => "rules-read",
            Event::RulesBad { .. } => "rules-bad",
            Event::RulesUnknown { .. } => "rules-unknown",
            Event::Came { .. } => "client-came",
            Event::Went { .. } => "client-went",
            Event::TooMany { .. } => "client-refused",
            Event::HeaderRefused { .. } => "header-refused",
            Event::ClientsUnknown { .. } => "clients-unknown",
            Event::CertificateEnds { .. } => "certificate-ends",
            Event::CertificateUnread { .. } => "certificate-unread",
            Event::PartFull { .. } => "part-full",
            Event::Fault { .. } => "fault",
            Event::LeftOut { .. } => "lines-left-out",
            Event::Stopping { .. } => "stopping",
            Event::CannotAccept { .. } => "cannot-accept",
            Event::CannotStart { .. } => "cannot-start",
            Event::Stopped => "stopped",
            Event::LogStarted { .. } => "log-started",
            Event::LogEnded { .. } => "log-ended",
            Event::LogSaid { .. } => "log-said",
            Event::LogUnreadable { .. } => "log-unreadable",
            Event::LogLeft { .. } => "log-left",
            Event::LogFull => "log-full",
            Event::LogJoined { .. } => "log-joined",
            Event::ServerOver { .. } => "server-over",
            Event::MoreLocks { .. } => "more-locks",
            Event::SessionRefused { .. } => "session-refused",
            Event::SessionOver { .. } => "session-over",
            Event::SessionEnded { .. } => "session-ended",
            Event::SessionsKept { .. } => "sessions-kept",
            Event::SessionsUnkept { .. } => "sessions-unkept",
            Event::GrantsUnwritten { .. } => "grants-unwritten",
            Event::GrantsWritten { .. } => "grants-written",
            Event::Contradiction { .. } => "contradiction",
            Event::HostAway { .. } => "host-away",
            Event::Checkpoint { .. } => "checkpoint",
        }
    }
}

impl fmt::Display for Event<'_> {
    fn fmt(&self, f: &mut fmt::Formatter<'_>) -> fmt::Result {
        match self {
            Event::Started { locks, has_others, journal, socket, engine } => {
                match (locks, has_others) {
                    (0, _) => write!(f, "{SERVER}, locks of any name"),
                    (_, true) => write!(f, "{SERVER}, {locks} locks, and those of any other name"),
                    (_, false) => write!(f, "{SERVER}, {locks} locks"),
                }?;
                let proved = if engine.is_proved { "proved" } else { "of which NOTHING WAS PROVED" };
                write!(f, "; journal {journal}, socket {socket}; engine {}, {proved}", engine.name)
            }
            Event::Listening { what, place } => write!(f, "{what} at {place}"),
            Event::EngineStarted { process, grace } => {
                write!(f, "engine started, process {process}; what was held stays held for {} s", grace.as_secs_f64())
            }
            Event::EngineReady { held } => write!(f, "engine ready, {held} locks held from before"),
            Event::EngineEnded { status } => write!(f, "engine ended: {status}"),
            Event::EngineSaid { line } | Event::LogSaid { line } => f.write_str(line),
            Event::EngineUnreadable { line, fault: Some(fault) } => {
                write!(f, "engine said something that is not an answer ({fault}): {line}")
            }
            Event::EngineUnreadable { line, fault: None } => write!(f, "engine answered what it was not asked: {line}"),
            Event::EngineSilent { time } => write!(f, "engine has not answered for {:.1} s", time.as_secs_f64()),
            Event::EngineAnswers { time } => write!(f, "engine answers again, after {:.1} s", time.as_secs_f64()),
            Event::EngineHangs { time } => {
                write!(f, "engine has not answered for {:.1} s, and is ended", time.as_secs_f64())
            }
            Event::GraceOver => f.write_str("grace over: what was held from before is free"),
            Event::HoldEnded { by, lock, token, client } => {
                write!(f, "hold of {lock} with token {token} ended by an operator ({by}): client {client} had it")
            }
            Event::SegmentRemoved { name, digest } => write!(f, "segment {name} removed; its digest was {digest}"),
            Event::SegmentsStay { fault } => write!(f, "old segments cannot be removed: {fault}"),
            Event::RulesRead => f.write_str("rules read again"),
            Event::RulesBad { fault } => write!(f, "rules not read again, the old ones hold: {fault}"),
            Event::RulesUnknown { who } => write!(f, "rules, {who}: this lets nobody in"),
            Event::Came { client, who } => write!(f, "client {client} came: {who}"),
            Event::Went { client, who, end, held } => {
                write!(f, "client {client} went ({}): {who}", end.word())?;
                if held.is_empty() {
                    Ok(())
                } else {
                    write!(f, "; it held {held}")
                }
            }
            Event::HeaderRefused { who, fault } => write!(f, "refused, {fault}: {who}"),
            Event::ClientsUnknown { place } => {
                write!(
                    f,
                    "clients over TCP at {place} are not known, and what they say is not encrypted: see --proxied"
                )
            }
            Event::CertificateEnds { file, left: None } => write!(f, "the certificate in {file} HAS ENDED"),
            Event::CertificateEnds { file, left: Some(left) } => {
                write!(f, "the certificate in {file} ends in {:.1} days", left.as_secs_f64() / 86_400.0)
            }
            Event::CertificateUnread { file, why } => write!(f, "certificate {file}: {why}"),
            Event::TooMany { who } => write!(f, "refused, too many connections: {who}"),
            Event::PartFull { who, of, has, all } => {
                write!(f, "refused, one more of {}: {who}; {has} of {all} are this user's, or address's", of.word())
            }
            Event::Fault { client, who, lock, machine, value, old } => {
                write!(f, "fault by client {client} ({who}): lock {lock}, machine {machine}, {value} over {old}")
            }
            Event::LeftOut { count } => {
                write!(f, "{count} lines about the user, or address, of the next line are left out")
            }
            Event::Stopping { why } => write!(f, "stopping: {why}"),
            Event::CannotStart { fault } => write!(f, "a process cannot be started ({fault}): that is tried again"),
            Event::CannotAccept { fault } => write!(f, "cannot accept a connection: {fault}"),
            Event::Stopped => f.write_str("stopped"),
            Event::LogStarted { process } => write!(f, "wozgirt-log started, process {process}"),
            Event::LogEnded { status } => write!(f, "wozgirt-log ended: {status}"),
            Event::LogUnreadable { line } => write!(f, "wozgirt-log said something that it should not: {line}"),
            Event::LogLeft { why } => write!(f, "out of the log ({why}): all connections end"),
            Event::LogFull => f.write_str("etcd has no room for entries: the server grants nothing until it has"),
            Event::LogJoined { identity, server, position } => {
                write!(f, "in the log {identity} as {server}, after position {position}")
            }
            Event::ServerOver { server, position } => {
                write!(f, "server {server} is over at position {position}, with all its sessions")
            }
            Event::MoreLocks { count, own, list } => {
                write!(f, "the log has {count} locks, and --locks {own} of them: put them all there: {list}")
            }

            Event::SessionRefused { who } => write!(f, "refused, the session belongs to another user: {who}"),
            Event::SessionsKept { sessions, held } => {
                write!(f, "{sessions} sessions continue, with {held} holds, if their clients come back")
            }
            Event::SessionsUnkept { fault } => {
                write!(f, "sessions cannot be kept beside the journal, and do not outlive this server: {fault}")
            }
            Event::GrantsUnwritten { fault } => {
                write!(f, "the record of grants cannot be written, and locks are granted without it: {fault}")
            }
            Event::GrantsWritten { lost } => {
                write!(f, "the record of grants is written again; {lost} lines are missing")
            }
            Event::SessionEnded { by, session, held } => {
                write!(f, "session {session}, whose client is away, ended by an operator ({by}); it held {held}")
            }
            Event::SessionOver { session, held } => write!(f, "session {session} did not come back; it held {held}"),
            Event::Contradiction { name, position } => {
                write!(f, "CONTRADICTION: server {name} had other answers up to position {position}")
            }
            Event::HostAway { name, seconds } => {
                write!(f, "host {name} is away for {seconds} s, and keeps the log from being compacted")
            }
            Event::Checkpoint { position, segment } => {
                write!(f, "checkpoint at position {position}, after segment {segment}")
            }
        }
    }
}
