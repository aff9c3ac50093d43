//! What was read of the log, and waits for the engine.

use super::entries::Entry;
use std::collections::VecDeque;

/// With this many entries unread, or bytes for the engine, no more is read of the log.
const MOST_UNREAD: usize = 64;
pub(super) const MOST_FOR_ENGINE: usize = 1 << 20;

/// An entry that was read.
#[derive(Debug)]
pub struct Read {
    /// Its position.
    pub position: u64,
    /// Its revision.
    pub revision: u64,
    /// The entry, if it is one.
    pub entry: Option<Entry>,
}

/// The entries that wait for the engine.
#[derive(Debug, Default)]
pub struct Reading {
    unread: VecDeque<Read>,
    /// Whether etcd has no room for entries.
    pub is_full: bool,
    /// Whether no more is read of the log.
    is_shut: bool,
}

impl Reading {
    /// The process that reads the log has started: it is heard.
    pub fn begin(&mut self) {
        self.is_shut = false;
    }

    /// Nothing waits.
    pub fn clear(&mut self) {
        self.unread.clear();
    }

    /// Whether nothing waits.
    pub fn is_empty(&self) -> bool {
        self.unread.is_empty()
    }

    /// The next entry, if it is that: the last one before has this position, unless others wait.
    pub fn put(&mut self, read: Read, last: u64) -> Option<&Read> {
        let last = self.unread.back().map_or(last, |read| read.position);
        if read.position != last + 1 {
            return None;
        }
        self.unread.push_back(read);
        self.unread.back()
    }

    /// The next one for the engine.
    pub fn take(&mut self) -> Option<Read> {
        self.unread.pop_front()
    }

    /// Whether more is read of the log from now on, while this number of bytes waits for the engine; nothing if that is as before.
    pub fn change(&mut self, for_engine: usize) -> Option<bool> {
        let is_shut = self.unread.len() >= MOST_UNREAD || for_engine >= MOST_FOR_ENGINE;
        (std::mem::replace(&mut self.is_shut, is_shut) != is_shut).then_some(!is_shut)
    }
}

#[cfg(test)]
mod tests {
    use super::*;

    fn read(position: u64) -> Read {
        Read { position, revision: position, entry: None }
    }

    #[test]
    fn entries_come_in_their_order() {
        let mut reading = Reading::default();
        assert!(reading.put(read(9), 7).is_none() && reading.is_empty());
        assert!(reading.put(read(8), 7).is_some() && reading.put(read(8), 7).is_none());
        assert!(reading.put(read(9), 7).is_some());
        assert_eq!(
            [reading.take(), reading.take(), reading.take()].map(|it| it.map(|it| it.position)),
            [Some(8), Some(9), None]
        );
    }

    #[test]
    fn no_more_is_read_than_the_engine_can_do() {
        let mut reading = Reading::default();
        assert_eq!([0, MOST_FOR_ENGINE - 1, MOST_FOR_ENGINE].map(|it| reading.change(it)), [None, None, Some(false)]);
        assert_eq!((reading.change(MOST_FOR_ENGINE), reading.change(0)), (None, Some(true)));
        (1..=MOST_UNREAD as u64).for_each(|position| assert!(reading.put(read(position), 0).is_some()));
        assert_eq!(reading.change(0), Some(false));
        reading.begin(); // another process is heard, until this is looked at again
        assert_eq!((reading.change(0), reading.take().is_some(), reading.change(0)), (Some(false), true, Some(true)));
    }
}
