//! What the engine answered about each lock, for readers: `status`, the page, the metrics. It decides nothing, except
//! how many clients may wait.

mod any;
mod news;
mod sight;
#[cfg(test)]
mod tests;
mod waits;

pub use any::Any;
pub use news::{Change, News, Why};
pub use sight::{Fault, Holder, Party, Sight, Waiter};
pub use waits::{Waits, WAITS};

use crate::log::Utc;
use crate::names::{ByName, Names};
use crate::shares::{Guest, Share};
use news::Unread;
use std::collections::HashMap;
use std::time::Instant;
use wozgirt_engine::{Client, Input, Label, Lock, Stats, Token, NOBODY};

/// Where a reader of all locks is: those of the list come first, then others that are in use, and then the last that were.
#[derive(Debug, Clone, Copy, PartialEq, Eq)]
pub enum Place {
    /// The lock at this place of the list.
    Listed(usize),
    /// One in use, after that with this number.
    Used(u64),
    /// One that is in use no longer, after that with this number.
    Unused(u64),
}

impl Place {
    /// Before all.
    pub const FIRST: Place = Place::Listed(0);
}

/// All locks.
#[derive(Debug, Default)]
pub struct Board {
    /// In the order of the list.
    locks: Vec<Sight>,
    places: ByName<usize>,
    /// Those of other names, if there may be any.
    any: Option<Any>,
    waits: Waits,
    /// How often a hold, a queue, or the list has changed, or a fault was written.
    changes: u64,
    /// What has happened to holds.
    news: Unread,
}

impl Board {
    /// For these locks, of which nothing is known.
    pub fn new(names: &Names) -> Board {
        let mut board = Board::default();
        board.take(names);
        board
    }

    /// A number that is another one after each change of what `status` shows, except the time.
    pub fn changes(&self) -> u64 {
        self.changes
    }

    /// What happens to holds is wanted from now on.
    pub fn keep_news(&mut self) {
        self.news.keep();
    }

    /// Whether something has happened to holds since that was taken.
    pub fn has_news(&self) -> bool {
        self.news.are_any()
    }

    /// What has happened to holds, once.
    pub fn take_news(&mut self) -> Vec<News> {
        self.news.take()
    }

    /// How long grants were waited for.
    pub fn all_waits(&self) -> &Waits {
        &self.waits
    }

    /// There are these locks now, in this order; nothing is known of those that are new.
    pub fn take(&mut self, names: &Names) {
        self.changes += 1;
        let mut known: HashMap<Lock, Sight> = self.locks.drain(..).map(|it| (it.lock.clone(), it)).collect();
        let sights = names.locks().map(|lock| known.remove(lock).unwrap_or_else(|| Sight::new(lock.clone())));
        self.locks = sights.collect();
        self.places = self.locks.iter().enumerate().map(|(place, sight)| (sight.lock.clone(), place)).collect();
        let any = self.any.take();
        self.any = names.any().map(|machines| any.unwrap_or_else(|| Any::new(machines.into())));
    }

    /// Each lock of the list, in order.
    pub fn locks(&self) -> &[Sight] {
        &self.locks
    }

    /// Locks of other names, if there may be any.
    pub fn any(&self) -> Option<&Any> {
        self.any.as_ref()
    }

    /// Whether the lock is one of the list.
    pub fn is_listed(&self, name: &str) -> bool {
        self.any.is_none() || self.places.contains_key(name)
    }

    /// The lock of this name, if there may be one.
    pub fn name(&self, name: &str) -> Option<Lock> {
        let known = self.lock(name).map(|sight| sight.lock.clone());
        known.or_else(|| self.any.as_ref().and_then(|_| name.parse().ok()))
    }

    /// A name of which the engine can say how its lock is: the first of the list, or one that is as good as any.
    pub fn some_name(&self) -> Lock {
        self.locks.first().map_or_else(Lock::some, |sight| sight.lock.clone())
    }

    /// What is known of a lock, by its name.
    pub fn lock(&self, name: &str) -> Option<&Sight> {
        let listed = self.places.get(name).map(|place| &self.locks[*place]);
        listed.or_else(|| self.any.as_ref()?.lock(name))
    }

    /// The lock at this place, or the next one, with the place after it. Of other names those that had a number up to `last`.
    pub fn next(&self, place: Place, last: u64) -> Option<(&Sight, Place)> {
        let after = |number, is_used| self.any.as_ref()?.after(number, is_used).filter(|(_, number)| *number <= last);
        match place {
            Place::Listed(place) => {
                let listed = self.locks.get(place).map(|sight| (sight, Place::Listed(place + 1)));
                listed.or_else(|| self.next(Place::Used(0), last))
            }
            Place::Used(number) => {
                let used = after(number, true).map(|(sight, number)| (sight, Place::Used(number)));
                used.or_else(|| self.next(Place::Unused(0), last))
            }
            Place::Unused(number) => after(number, false).map(|(sight, number)| (sight, Place::Unused(number))),
        }
    }

    /// The last number that a lock of another name has.
    pub fn last(&self) -> u64 {
        self.any.as_ref().map_or(0, Any::last)
    }

    /// Changes a lock: if it is to come into use, one that is not known too.
    fn change<R>(&mut self, lock: &str, is_new: bool, change: impl FnOnce(&mut Sight) -> R) -> Option<R> {
        match self.places.get(lock) {
            Some(place) => Some(change(&mut self.locks[*place])),
            None => self.any.as_mut()?.change(lock, is_new, change),
        }
    }

    /// The same, of a change that is shown.
    fn show<R>(&mut self, lock: &str, is_new: bool, change: impl FnOnce(&mut Sight) -> R) -> Option<R> {
        self.changes += 1;
        self.change(lock, is_new, change)
    }

    /// Whether one more client might be too many in the queue.
    pub fn is_full(&self, lock: &str, most: usize) -> bool {
        self.lock(lock).is_some_and(|sight| sight.is_full(most))
    }

    /// An input goes to the engine.
    pub fn asked(&mut self, input: &Input, guest: &Guest) {
        let (lock, is_acquire) = match input {
            Input::Acquire { lock, .. } => (lock, true),
            Input::Try { lock, .. } if !self.is_listed(lock) => (lock, false),
            _ => return,
        };
        self.change(lock, true, |sight| {
            if !sight.is_used() {
                sight.payer = guest.clone();
            }
            *sight.asked_of(is_acquire) += 1;
        });
    }

    /// An input was answered, or its client is gone.
    pub fn asked_no_longer(&mut self, input: &Input) {
        let (lock, is_acquire) = match input {
            Input::Acquire { lock, .. } => (lock, true),
            Input::Try { lock, .. } if !self.is_listed(lock) => (lock, false),
            _ => return,
        };
        self.change(lock, false, |sight| {
            let count = sight.asked_of(is_acquire);
            *count = count.saturating_sub(1);
        });
    }

    /// Whether this guest may have something of the lock: it is in the list, or in use, or of the names that may be in use there is one
    /// left for this guest.
    pub fn has_name_for(&self, lock: &str, guest: &Guest, share: Share) -> bool {
        let Some(any) = self.any.as_ref().filter(|_| !self.is_listed(lock)) else { return true };
        any.lock(lock).is_some_and(Sight::is_used) || share.permits(any.payers(), guest)
    }

    /// The client is at the end of the queue.
    pub fn waits(&mut self, lock: &str, party: impl Into<Party>, label: Label, now: Instant) {
        let Party { client, guest } = party.into();
        self.show(lock, true, |sight| {
            if !sight.is_used() {
                sight.payer = guest.clone();
            }
            sight.line.push_back(Waiter { client, label, since: now, guest });
        });
    }

    /// The client waits no longer.
    pub fn waits_no_longer(&mut self, lock: &str, client: Client) {
        self.show(lock, false, |sight| sight.take_waiter(client));
    }

    /// The client holds the lock. The label of one that waited is known.
    pub fn granted(&mut self, lock: &str, party: impl Into<Party>, token: Token, label: Option<Label>, now: Instant) {
        let party: Party = party.into();
        let client = party.client;
        let granted = self.show(lock, true, |sight| {
            let waited = sight.grant(party, token, label, now);
            (waited, sight.lock.clone(), sight.holder.and_then(|holder| holder.label))
        });
        if let Some((waited, lock, label)) = granted {
            self.waits.count(waited);
            self.news.add(&lock, token, client, Change::Granted(label));
        }
    }

    /// The client holds the lock since before this server started.
    pub fn holds(&mut self, lock: &str, party: impl Into<Party>, token: Token, now: Instant) {
        let Party { client, guest } = party.into();
        self.show(lock, true, |sight| {
            sight.payer = guest;
            sight.holder = Some(Holder { client, token, label: None, since: now });
        });
    }

    /// The client has come back to its hold.
    pub fn kept(&mut self, lock: &Lock, token: Token, client: Client) {
        self.news.add(lock, token, client, Change::Kept);
    }

    /// The client released its hold.
    pub fn released(&mut self, lock: &str, client: Client) {
        self.left(lock, client, Why::Released);
    }

    /// The client's hold ended: whether there was one.
    pub fn left(&mut self, lock: &str, client: Client, why: Why) -> bool {
        let ended = self.show(lock, false, |sight| Some((sight.lock.clone(), sight.end_hold(client)?))).flatten();
        let Some((lock, token)) = ended else { return false };
        self.news.add(&lock, token, client, Change::Ended(why));
        true
    }

    /// A fault was written and repaired.
    pub fn fault(&mut self, lock: &str, machine: u64, value: u64, old: u64) {
        self.show(lock, false, |sight| sight.past.note_fault(Fault { at: Utc::now(), machine, value, old }));
    }

    /// The engine ended: nothing is known of holds and lines.
    pub fn forget(&mut self) {
        self.changes += 1;
        self.locks.iter_mut().for_each(Sight::forget);
        self.any.iter_mut().for_each(Any::forget);
    }

    /// What the engine says of a lock's ring.
    pub fn note_stats(&mut self, stats: &Stats<'_>) {
        self.change(stats.lock, false, |sight| {
            sight.machines = stats.machines;
            sight.passes = stats.passes;
        });
    }

    /// How a lock is, as far as the engine said. One of another name that is not in use is as one that never was.
    pub fn stats<'a>(&self, lock: &'a str) -> Option<Stats<'a>> {
        let known = self.lock(lock).filter(|sight| sight.is_listed || sight.is_used());
        let Some(sight) = known else {
            return self.any.as_ref().map(|_| Stats { lock, machines: 0, waiters: 0, passes: 0, holder: 0, token: 0 });
        };
        let (holder, token) = sight.holder.map_or((0, 0), |holder| (holder.client, holder.token));
        let (machines, waiters, passes) = (sight.machines, sight.line.len() as u64, sight.passes);
        Some(Stats { lock, machines, waiters, passes, holder, token })
    }

    /// What the engine says of a lock when it starts: whether it is held from before.
    pub fn begin(&mut self, stats: &Stats<'_>, now: Instant) -> bool {
        let is_held = stats.token > 0 && stats.holder == NOBODY;
        self.note_stats(stats);
        if is_held {
            self.holds(stats.lock, NOBODY, stats.token, now);
        }
        is_held
    }
}
