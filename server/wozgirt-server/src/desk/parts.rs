//! The part of each user and address: what is said of one that has it.

use super::Desk;
use crate::connection::Connection;
use crate::log::{Event, Of};
use crate::shares::{Guest, Share};
use std::collections::HashMap;
use std::time::{Duration, Instant};

/// How often the log says at most that somebody has its part of something.
const PAUSE: Duration = Duration::from_secs(60);
/// Of how many the log remembers that it has said so.
const MOST_SAID: usize = 1024;

/// What the log has said of those that have their part.
#[derive(Debug, Default)]
pub struct Parts {
    said: HashMap<(Guest, Of), Instant>,
}

impl Parts {
    /// Whether the log says it now.
    fn is_news(&mut self, guest: &Guest, of: Of, now: Instant) -> bool {
        if self.said.len() >= MOST_SAID {
            self.said.retain(|_, said| now.saturating_duration_since(*said) < PAUSE);
        }
        match self.said.get(&(guest.clone(), of)) {
            Some(said) if now.saturating_duration_since(*said) < PAUSE => false,
            None if self.said.len() >= MOST_SAID => false,
            _ => {
                self.said.insert((guest.clone(), of), now);
                true
            }
        }
    }
}

impl Desk {
    /// Whether this client may bring the name into use, or the lock is in use already, or in the list.
    pub(super) fn has_name_for(&mut self, connection: &Connection, name: &str) -> bool {
        let share = Share::within(self.settings.most_names());
        let has = connection.caller.is_operator() || self.board.has_name_for(name, &connection.caller.guest, share);
        if !has {
            self.note_part(connection, Of::Names);
        }
        has
    }

    /// The client was refused one more, since its user or address has its part, or all have theirs.
    pub(crate) fn note_part(&mut self, connection: &Connection, of: Of) {
        let guest = &connection.caller.guest;
        let (has, all) = match of {
            Of::Sessions => self.mode.sessions().map_or((0, 0), |it| (it.of(guest), it.all())),
            Of::Names => self.board.any().map_or((0, 0), |it| (it.payers().of(guest), it.payers().all())),
        };
        self.sums.refused_part(of);
        if self.parts.is_news(guest, of, self.now) {
            self.log.say(&Event::PartFull { who: &connection.caller.who, of, has, all });
        }
    }
}

#[cfg(test)]
mod tests {
    use super::*;

    #[test]
    fn it_is_said_once_a_minute_of_each() {
        let (mut parts, now) = (Parts::default(), Instant::now());
        let user = |number| Guest::User(Some(number));
        assert!(parts.is_news(&user(1), Of::Names, now) && parts.is_news(&user(1), Of::Sessions, now));
        assert!(!parts.is_news(&user(1), Of::Names, now + PAUSE / 2) && parts.is_news(&user(2), Of::Names, now));
        assert!(parts.is_news(&user(1), Of::Names, now + PAUSE));
        let said =
            (0..2 * MOST_SAID as u32).filter(|number| parts.is_news(&user(100 + number), Of::Names, now + PAUSE));
        assert_eq!(said.count(), MOST_SAID - 1);
        assert!(parts.is_news(&user(9), Of::Names, now + 3 * PAUSE));
    }
}
