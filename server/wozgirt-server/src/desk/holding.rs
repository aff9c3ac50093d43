//! How much a client has: no client takes all locks.

use crate::connection::{Connection, Pending};
use crate::mode::Mode;
use wozgirt_engine::Input;

impl Mode {
    /// Whether the client holds the lock or waits for it, as far as the engine has answered. For such a one it asks again when an answer
    /// was lost, so nothing that bounds others is in its way.
    pub(super) fn has(&self, connection: &Connection, lock: &str) -> bool {
        self.holds(connection, lock) || self.standing(connection).1.is_some_and(|waits| *waits == *lock)
    }

    /// Whether the client has this many locks, and this one is none of them. What it has asked for counts, since it may get that.
    pub(super) fn has_enough(&self, connection: &Connection, lock: &str, most: usize) -> bool {
        let has = self.count_locks(connection);
        if has + connection.pending.len() < most {
            return false;
        }
        let asked = connection.pending.iter().filter(|it| is_for_a_lock(it)).count();
        has + asked >= most && !self.has(connection, lock)
    }
}

/// Whether a hold may come of it.
fn is_for_a_lock(pending: &Pending) -> bool {
    let (Pending::Asked(input) | Pending::Numbered(_, input)) = pending else { return false };
    matches!(input, Input::Acquire { .. } | Input::Try { .. })
}
