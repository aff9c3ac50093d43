//! What was read of the command line so far, and what is meant where nothing is said.

use super::{BadWords, EngineSettings, GrantsSettings, Limits, Named, Settings, Sockets};
use crate::cluster::ReadingOverEtcd;
use crate::options::Name;
use std::net::SocketAddr;
use std::path::PathBuf;
use std::time::Duration;
use wozgirt_words::OwnFolder;

/// How long the record of grants may be before it gets another name, if nothing is said.
const GRANTS_BYTES: u64 = 64 << 20;

/// What was read so far.
#[derive(Default)]
pub(super) struct Reading {
    engine: ReadingEngine,
    journal: Option<PathBuf>,
    has_no_sessions: bool,
    session_bytes: Option<usize>,
    sockets: ReadingSockets,
    rules: Option<PathBuf>,
    limits: ReadingLimits,
    certificates: Vec<PathBuf>,
    grants: Option<PathBuf>,
    grants_bytes: Option<u64>,
    logs_connections: bool,
    cluster: ReadingOverEtcd,
}

#[derive(Default)]
struct ReadingEngine {
    program: Option<String>,
    locks: Option<String>,
    most_names: Option<u32>,
    segment: Option<u64>,
    keep_segments: Option<usize>,
    is_not_synced: bool,
    permits_faults: bool,
    patience: Option<Duration>,
}

#[derive(Default)]
struct ReadingNamed {
    path: Option<PathBuf>,
    mode: Option<u32>,
    group: Option<String>,
}

#[derive(Default)]
struct ReadingSockets {
    clients: ReadingNamed,
    operators: ReadingNamed,
    proxied: ReadingNamed,
    tcp: Option<SocketAddr>,
    page: Option<SocketAddr>,
    listens_anywhere: bool,
}

#[derive(Default)]
struct ReadingLimits {
    longest_lease: Option<Duration>,
    is_lease_for_all: bool,
    grace: Option<Duration>,
    connections: Option<usize>,
    memory: Option<usize>,
    waiters: Option<usize>,
    most_holds: Option<usize>,
    deaf: Option<Duration>,
}

impl Reading {
    /// Nothing if it is not a value of this option.
    pub(super) fn put(&mut self, name: Name, value: &str) -> Option<()> {
        let Reading { engine, sockets, limits, .. } = self;
        match name {
            Name::Engine => engine.program = Some(value.into()),
            Name::Locks => engine.locks = Some(value.into()),
            Name::MostNames => engine.most_names = Some(u32::try_from(count(value)?).ok()?),
            Name::Segment => engine.segment = Some(value.parse().ok().filter(|&lines| lines > 0)?),
            Name::KeepSegments => engine.keep_segments = Some(count(value).filter(|&count| count > 1)?),
            Name::NoSync => engine.is_not_synced = true,
            Name::Faults => engine.permits_faults = true,
            Name::EnginePatience => engine.patience = Some(some_seconds(value)?),
            Name::Journal => self.journal = Some(value.into()),
            Name::NoSessions => self.has_no_sessions = true,
            Name::SessionBytes => self.session_bytes = Some(value.parse().ok()?),
            Name::Socket => sockets.clients.path = Some(value.into()),
            Name::Mode => sockets.clients.mode = Some(mode(value)?),
            Name::Group => sockets.clients.group = Some(value.into()),
            Name::Operators => sockets.operators.path = Some(value.into()),
            Name::OperatorsMode => sockets.operators.mode = Some(mode(value)?),
            Name::OperatorsGroup => sockets.operators.group = Some(value.into()),
            Name::Proxied => sockets.proxied.path = Some(value.into()),
            Name::ProxiedMode => sockets.proxied.mode = Some(mode(value)?),
            Name::ProxiedGroup => sockets.proxied.group = Some(value.into()),
            Name::Tcp => sockets.tcp = Some(value.parse().ok()?),
            Name::Page => sockets.page = Some(value.parse().ok()?),
            Name::ListenAnywhere => sockets.listens_anywhere = true,
            Name::Rules => self.rules = Some(value.into()),
            Name::LongestLease => limits.longest_lease = Some(some_seconds(value)?),
            Name::LeaseForAll => limits.is_lease_for_all = true,
            Name::Grace => limits.grace = Some(seconds(value)?),
            Name::Connections => limits.connections = Some(count(value)?),
            Name::Memory => limits.memory = Some(count(value)?),
            Name::Waiters => limits.waiters = Some(value.parse().ok()?),
            Name::MostHolds => limits.most_holds = Some(count(value)?),
            Name::Deaf => limits.deaf = Some(some_seconds(value)?),
            Name::WatchCertificate => self.certificates.push(value.into()),
            Name::Grants => self.grants = Some(value.into()),
            Name::GrantsBytes => self.grants_bytes = Some(value.parse().ok().filter(|&bytes| bytes > 0)?),
            Name::LogConnections => self.logs_connections = true,
            Name::OverEtcd(name) => self.cluster.put(name, value)?,
        }
        Some(())
    }

    /// All of them, if they fit together. `own`: where a single server is whose words do not say it.
    pub(super) fn settings(self, own: Option<OwnFolder>) -> Result<Settings, BadWords> {
        let cluster = self.cluster.settings()?;
        let own = own.filter(|_| self.journal.is_none() && cluster.is_none());
        let of_one = [
            ("--keep-segments", self.engine.keep_segments.is_some()),
            ("--no-sessions", self.has_no_sessions),
            ("--session-bytes", self.session_bytes.is_some()),
        ];
        if let Some((name, _)) = of_one.iter().find(|(_, is_given)| cluster.is_some() && *is_given) {
            return Err(BadWords::NotAlone(name));
        }
        let most_bytes = self.grants_bytes.unwrap_or(GRANTS_BYTES);
        let grants = self.grants.map(|path| GrantsSettings { path, most_bytes });
        if grants.is_none() && self.grants_bytes.is_some() {
            return Err(BadWords::NoGrants("--grants-bytes"));
        }
        let limits = self.limits.settings()?;
        let sockets = self.sockets.settings(own.as_ref())?;
        let journal = self.journal.or_else(|| own.as_ref().map(OwnFolder::journal));
        Ok(Settings {
            engine: self.engine.settings(),
            journal: journal.ok_or(BadWords::Missing("--journal"))?,
            is_own: own.is_some(),
            keeps_sessions: !self.has_no_sessions,
            session_bytes: self.session_bytes.unwrap_or(16 << 20),
            sockets,
            rules: self.rules,
            limits,
            certificates: self.certificates,
            grants,
            logs_connections: self.logs_connections,
            cluster,
        })
    }
}

impl ReadingEngine {
    fn settings(self) -> EngineSettings {
        EngineSettings {
            program: self.program.unwrap_or_else(|| "ring_tool".into()),
            locks: self.locks,
            most_names: self.most_names,
            segment: self.segment,
            keep_segments: self.keep_segments,
            is_synced: !self.is_not_synced,
            permits_faults: self.permits_faults,
            patience: self.patience.unwrap_or(Duration::from_secs(60)),
        }
    }
}

impl ReadingNamed {
    /// Where it is, if nothing else is said, at this path.
    fn at(self, path: PathBuf) -> Named {
        Named { path: self.path.unwrap_or(path), mode: self.mode.unwrap_or(0o600), group: self.group }
    }
}

impl ReadingSockets {
    fn settings(self, own: Option<&OwnFolder>) -> Result<Sockets, BadWords> {
        for address in [self.tcp, self.page].into_iter().flatten() {
            if !address.ip().is_loopback() && !self.listens_anywhere {
                return Err(BadWords::Anywhere(address));
            }
        }
        let clients = own.map_or_else(|| "/run/wozgirt/lock.sock".into(), OwnFolder::socket);
        let operators = self.operators.path.clone().or_else(|| own.map(OwnFolder::operators));
        Ok(Sockets {
            clients: self.clients.at(clients),
            operators: operators.map(|path| self.operators.at(path)),
            proxied: self.proxied.path.clone().map(|path| self.proxied.at(path)),
            tcp: self.tcp,
            page: self.page,
        })
    }
}

impl ReadingLimits {
    fn settings(self) -> Result<Limits, BadWords> {
        let longest_lease = self.longest_lease.unwrap_or(Duration::from_secs(30));
        let grace = self.grace.unwrap_or(longest_lease);
        if grace < longest_lease {
            return Err(BadWords::Grace);
        }
        Ok(Limits {
            longest_lease,
            is_lease_for_all: self.is_lease_for_all,
            grace,
            connections: self.connections.unwrap_or(1000),
            memory: self.memory,
            waiters: self.waiters.unwrap_or(10_000),
            most_holds: self.most_holds.unwrap_or(1024),
            deaf: self.deaf.unwrap_or(Duration::from_secs(30)),
        })
    }
}

fn mode(value: &str) -> Option<u32> {
    u32::from_str_radix(value, 8).ok().filter(|&mode| mode <= 0o777)
}

/// The greatest count of connections, and of MiB.
const MOST_COUNT: usize = 1_000_000;

fn count(value: &str) -> Option<usize> {
    value.parse().ok().filter(|count| (1..=MOST_COUNT).contains(count))
}

/// A time of at most a year.
pub fn seconds(value: &str) -> Option<Duration> {
    let seconds: f64 = value.parse().ok()?;
    (0.0..=31_536_000.0).contains(&seconds).then(|| Duration::from_secs_f64(seconds))
}

/// The same, but some.
fn some_seconds(value: &str) -> Option<Duration> {
    seconds(value).filter(|time| !time.is_zero())
}
