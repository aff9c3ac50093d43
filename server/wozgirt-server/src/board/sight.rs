//! One lock, as far as it is known.

use crate::certificate_name::CertificateName;
use crate::log::Utc;
use crate::shares::Guest;
use std::collections::VecDeque;
use std::time::{Duration, Instant};
use wozgirt_engine::{Client, Label, Lock, Token};

/// A client, and on whose account what it has is.
#[derive(Debug, Clone, PartialEq, Eq)]
pub struct Party {
    /// The client.
    pub client: Client,
    /// On whose account.
    pub guest: Guest,
}

impl From<Client> for Party {
    fn from(client: Client) -> Party {
        Party { client, guest: Guest::UNKNOWN }
    }
}

impl From<(Client, Guest)> for Party {
    fn from((client, guest): (Client, Guest)) -> Party {
        Party { client, guest }
    }
}

/// The holder of a lock.
#[derive(Debug, Clone, Copy, PartialEq, Eq)]
pub struct Holder {
    /// The client; [`NOBODY`] for a hold from before the engine's start.
    pub client: Client,
    /// The token.
    pub token: Token,
    /// The label, if it is known here.
    pub label: Option<Label>,
    /// Since when, as this server knows.
    pub since: Instant,
}

/// A client that waits for a lock.
#[derive(Debug, Clone, PartialEq, Eq)]
pub struct Waiter {
    /// The client.
    pub client: Client,
    /// The label for its hold.
    pub label: Label,
    /// Since when.
    pub since: Instant,
    /// On whose account it waits.
    pub guest: Guest,
}

/// A fault that an operator wrote. The engine repairs it before it answers.
#[derive(Debug, Clone, Copy, PartialEq, Eq)]
pub struct Fault {
    /// When it was answered.
    pub at: Utc,
    /// The machine.
    pub machine: u64,
    /// The value that was written, and the one before.
    pub value: u64,
    /// The value that was there.
    pub old: u64,
}

/// What has been of a lock since the server started.
#[derive(Debug, Default)]
pub struct Past {
    /// How often it was granted.
    pub grants: u64,
    /// How long those who were granted it had waited, together and at most.
    pub waited: Duration,
    /// The longest of these waits.
    pub longest_wait: Duration,
    /// How many faults were written.
    pub faults: u64,
    /// The last of them.
    pub last_fault: Option<Fault>,
}

impl Past {
    fn note_grant(&mut self, waited: Duration) {
        self.grants += 1;
        self.waited += waited;
        self.longest_wait = self.longest_wait.max(waited);
    }

    pub(super) fn note_fault(&mut self, fault: Fault) {
        self.faults += 1;
        self.last_fault = Some(fault);
    }
}

/// One lock, as far as it is known here.
#[derive(Debug)]
pub struct Sight {
    /// Its name.
    pub lock: Lock,
    /// How many machines its ring has, or 0 as long as the engine did not say.
    pub machines: u64,
    /// How many passes were granted, as far as the engine said.
    pub passes: u64,
    /// Its holder.
    pub holder: Option<Holder>,
    /// The clients that wait, in the order of the queue.
    pub line: VecDeque<Waiter>,
    /// What has been of it since the server started.
    pub past: Past,
    /// How many acquires the engine has not answered yet; and, of a name that is not in the list, tries.
    pub(super) asked: usize,
    pub(super) tried: usize,
    /// On whose account the name is: the holder's, or that of the client that asked for it first.
    pub(super) payer: Guest,
    /// Whether it is of the list; the number of one of another name.
    pub(super) is_listed: bool,
    pub(super) number: u64,
}

impl Sight {
    pub(super) fn new(lock: Lock) -> Sight {
        Sight {
            lock,
            machines: 0,
            passes: 0,
            holder: None,
            line: VecDeque::new(),
            past: Past::default(),
            asked: 0,
            tried: 0,
            payer: Guest::UNKNOWN,
            is_listed: true,
            number: 0,
        }
    }

    /// Of a name that is not in the list, with this many machines.
    pub(super) fn of_other(lock: Lock, machines: u64) -> Sight {
        Sight { machines, is_listed: false, ..Sight::new(lock) }
    }

    /// The name of its holder's certificate, if the holder has one.
    pub fn certificate(&self) -> Option<&CertificateName> {
        self.holder.and_then(|_| self.payer.certificate())
    }

    /// Whether a client has something of it, or asks for it.
    pub fn is_used(&self) -> bool {
        self.holder.is_some() || !self.line.is_empty() || self.asked + self.tried > 0
    }

    /// Whether one more client might be too many in the queue. The first that asks for a free lock does not wait.
    pub fn is_full(&self, most: usize) -> bool {
        let waiting = self.line.len() + self.asked;
        waiting >= most.saturating_add(usize::from(self.holder.is_none()))
    }

    /// No client has anything of it.
    pub(super) fn forget(&mut self) {
        self.holder = None;
        self.line.clear();
        (self.asked, self.tried) = (0, 0);
    }

    /// The client holds it: how long that had waited.
    pub(super) fn grant(&mut self, party: Party, token: Token, label: Option<Label>, now: Instant) -> Duration {
        let Party { client, guest } = party;
        let waiter = self.take_waiter(client);
        let waited = waiter.as_ref().map_or(Duration::ZERO, |waiter| now.saturating_duration_since(waiter.since));
        let label = label.or(waiter.as_ref().map(|it| it.label));
        self.payer = waiter.map_or(guest, |waiter| waiter.guest);
        self.hold(Holder { client, token, label, since: now });
        self.past.note_grant(waited);
        waited
    }

    /// Its ring has had a pass: a token is the number of it, or, where the name is not of the list, only rises with it.
    fn hold(&mut self, holder: Holder) {
        self.passes = if self.is_listed { self.passes.max(holder.token) } else { self.passes + 1 };
        self.holder = Some(holder);
    }

    /// How many acquires, or tries, the engine has not answered.
    pub(super) fn asked_of(&mut self, is_acquire: bool) -> &mut usize {
        if is_acquire {
            &mut self.asked
        } else {
            &mut self.tried
        }
    }

    pub(super) fn take_waiter(&mut self, client: Client) -> Option<Waiter> {
        // the one that is granted is the first
        let place = self.line.iter().position(|waiter| waiter.client == client)?;
        self.line.remove(place)
    }

    /// The hold ended, if it was this client's: its token.
    pub(super) fn end_hold(&mut self, client: Client) -> Option<Token> {
        let holder = self.holder.filter(|holder| holder.client == client)?;
        self.holder = None;
        Some(holder.token)
    }
}
