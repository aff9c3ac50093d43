//! What a browser and Prometheus are shown: read only, and closed after each answer.

mod html;
mod http;
mod metrics;
mod telling;
mod visitor;

use telling::Telling;
pub use visitor::{Next, Visitor};

use crate::board::Board;
use crate::certificates::Watched;
use crate::engine_version::EngineVersion;
use crate::figures::Figures;
use crate::grants::Grants;
use crate::journal::JournalSize;
use crate::sums::Sums;
use std::time::{Duration, Instant};

/// What there is to show of a server that is one of several.
pub struct InLog {
    /// Whether it is in the log now.
    pub is_in_log: bool,
    /// Whether etcd has no room for entries.
    pub is_full: bool,
    /// The last entry that its engine has done.
    pub position: u64,
    /// The entry of the last checkpoint.
    pub checkpoint: u64,
    /// How many servers are alive.
    pub alive: usize,
    /// How often another one had other answers.
    pub contradictions: u64,
}

/// What there is to show of the engine.
pub struct EngineView<'a> {
    /// Which engine it is.
    pub version: &'a EngineVersion,
    /// How often it was started.
    pub starts: u64,
    /// Whether it answers.
    pub is_ready: bool,
    /// How long it has left a question unanswered.
    pub silence: Duration,
    /// Whether that is long.
    pub is_silent: bool,
    /// How many lines may wait for it.
    pub waiting_lines: usize,
}

/// What there is to show.
pub struct View<'a> {
    /// The locks.
    pub board: &'a Board,
    /// The sums.
    pub sums: &'a Sums,
    /// How many are connected.
    pub connected: usize,
    /// How many sessions there are.
    pub sessions: usize,
    /// The engine.
    pub engine: EngineView<'a>,
    /// The log that the server has with others, if it has one.
    pub in_log: Option<InLog>,
    /// The record of grants, if there is one.
    pub grants: Option<&'a Grants>,
    /// The engine's journal.
    pub journal: &'a JournalSize,
    /// What the system says of the process.
    pub figures: &'a Figures,
    /// The certificates that are watched.
    pub certificates: &'a [Watched],
    /// When the server started.
    pub started: Instant,
    /// The time.
    pub now: Instant,
}

impl View<'_> {
    /// Whether the engine answers in time.
    pub fn is_well(&self) -> bool {
        self.engine.is_ready && !self.engine.is_silent
    }
}
