//! What tests of the desk, and of what uses it, begin with.

use super::Desk;
use crate::alone::Alone;
use crate::board::Board;
use crate::cluster::Who;
use crate::connection::{Caller, Connection, Door, Known, SHARE};
use crate::engine::{Engine, ROOM};
use crate::log::Log;
use crate::mode::Mode;
use crate::names::Names;
use crate::questions::Questions;
use crate::settings::{parse, Settings, Words};
use crate::shares::Guest;
use crate::stream::Stream;
use std::io::Write;
use std::os::unix::net::UnixStream;
use std::time::Instant;

/// The settings of a single server with the locks a1, a2 and so on.
pub(crate) fn settings(locks: usize) -> Settings {
    let names = (1..=locks).map(|lock| format!("a{lock}")).collect::<Vec<_>>().join(",");
    match parse(["--journal", "j", "--locks", &names, "--socket", "s"], None) {
        Ok(Words::Run(settings)) => *settings,
        other => panic!("{other:?}"),
    }
}

/// A desk of the locks a1, a2 and so on, whose engine is not there.
pub(crate) fn desk(locks: usize, now: Instant) -> Desk {
    let settings = settings(locks);
    let listed = Names::parse(settings.engine.locks.as_deref().unwrap()).unwrap();
    Desk {
        rules: Default::default(),
        engine: Engine::new("none".into(), Vec::new(), ROOM, now),
        questions: Questions::new(now),
        is_full: false,
        board: Board::new(&listed),
        sums: Default::default(),
        parts: Default::default(),
        log: Log::start().unwrap(),
        grants: None,
        mode: Mode::Alone(Alone::new(None, 9).unwrap()),
        now,
        settings,
    }
}

/// Client 1, which says this; and the other end.
pub(crate) fn connection(lines: &[u8], now: Instant) -> (Connection, UnixStream) {
    let (stream, mut other) = UnixStream::pair().unwrap();
    let (identity, guest, who) = (Who::Unknown, Guest::UNKNOWN, String::new());
    let caller = Caller { door: Door::Clients, known: Known::Nobody, address: None, identity, guest, who };
    let mut connection = Connection::new(1, caller, Stream::unix(stream).unwrap(), 1 << 16, now);
    other.write_all(lines).unwrap();
    connection.read(&mut [0; SHARE], now).unwrap();
    (connection, other)
}
