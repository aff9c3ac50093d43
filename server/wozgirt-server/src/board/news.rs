//! What has happened to holds, for the record of grants.

use crate::log::End;
use wozgirt_engine::{Client, Label, Lock, Token};
use wozgirt_grants::{OPERATOR, RELEASED};

/// Why a hold ended.
#[derive(Debug, Clone, Copy, PartialEq, Eq)]
pub enum Why {
    /// Its client released it.
    Released,
    /// An operator ended it.
    Operator,
    /// Its client left all that it had.
    Left,
    /// Its client's connection ended.
    Parted(End),
    /// The client of its session did not come back in time.
    Session,
    /// It was of an engine, or a server, that had ended, and the grace is over.
    Grace,
    /// Its client's server is over: one of several.
    Server,
}

impl Why {
    /// One word for it.
    pub fn word(self) -> &'static str {
        match self {
            Why::Released => RELEASED,
            Why::Operator => OPERATOR,
            Why::Left => "left",
            Why::Parted(end) => end.word(),
            Why::Session => "session",
            Why::Grace => "grace",
            Why::Server => "server",
        }
    }

    /// Whether the hold is over: one of an engine that is gone may last.
    fn is_end(self) -> bool {
        !matches!(self, Why::Parted(End::Engine | End::Stop | End::Log | End::Moved))
    }
}

/// What has happened to a hold.
#[derive(Debug, Clone, Copy, PartialEq, Eq)]
pub enum Change {
    /// It was granted, with this label, if that is known.
    Granted(Option<Label>),
    /// Its client came back to it.
    Kept,
    /// It ended.
    Ended(Why),
}

/// A hold, and what has happened to it.
#[derive(Debug, Clone, PartialEq, Eq)]
pub struct News {
    /// The lock.
    pub lock: Lock,
    /// The token.
    pub token: Token,
    /// The client.
    pub client: Client,
    /// What it is.
    pub change: Change,
}

/// News that nobody has taken yet, if somebody wants them.
#[derive(Debug, Default)]
pub(super) struct Unread(Option<Vec<News>>);

impl Unread {
    /// Somebody wants them from now on.
    pub(super) fn keep(&mut self) {
        self.0.get_or_insert_with(Vec::new);
    }

    /// Whether there are some.
    pub(super) fn are_any(&self) -> bool {
        self.0.as_ref().is_some_and(|news| !news.is_empty())
    }

    /// All of them, once.
    pub(super) fn take(&mut self) -> Vec<News> {
        self.0.as_mut().map(std::mem::take).unwrap_or_default()
    }

    /// One more.
    pub(super) fn add(&mut self, lock: &Lock, token: Token, client: Client, change: Change) {
        let Some(news) = &mut self.0 else { return };
        if !matches!(change, Change::Ended(why) if !why.is_end()) {
            news.push(News { lock: lock.clone(), token, client, change });
        }
    }
}
