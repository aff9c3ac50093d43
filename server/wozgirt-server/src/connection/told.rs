//! Answers to a connection: those that it has not read yet, and those that wait for others before them.

use super::Pending;
use crate::grants::Ticket;
use crate::outbox::Outbox;
use crate::status::Listing;
use std::collections::VecDeque;
use std::fmt::Display;
use std::time::Instant;

/// What was said to a connection.
#[derive(Debug)]
pub(super) struct Told {
    pub(super) outbox: Outbox,
    /// With more bytes untold and unread than this, no more is read of it.
    most_unread: usize,
    /// How many bytes wait among the answers to be sent.
    untold: usize,
    /// Whether all locks are to be listed, and what came meanwhile.
    pub(super) has_listing: bool,
    late: Vec<u8>,
    /// Since when it takes nothing of what is sent to it.
    pub(super) stuck: Option<Instant>,
    /// Up to which block of the record of grants the disk has to be, before more is sent.
    pub(super) awaits: Option<Ticket>,
}

impl Told {
    pub(super) fn new(most_unread: usize) -> Told {
        Told {
            outbox: Outbox::default(),
            most_unread,
            untold: 0,
            has_listing: false,
            late: Vec::new(),
            stuck: None,
            awaits: None,
        }
    }

    pub(super) fn has_room(&self) -> bool {
        self.outbox.len() + self.untold < self.most_unread
    }

    /// Says something at once, or after the list of all locks that is being sent.
    pub(super) fn tell(&mut self, pending: &VecDeque<Pending>, line: impl Display) {
        let is_listing = matches!(pending.front(), Some(Pending::Listing(listing)) if listing.has_begun());
        put_line(if is_listing { &mut self.late } else { self.outbox.bytes() }, line);
    }

    /// Says something of the server's own, after the answers to what was said before.
    pub(super) fn tell_in_order(&mut self, pending: &mut VecDeque<Pending>, line: impl Display) {
        let added = match pending.back_mut() {
            None => return self.tell(pending, line),
            Some(Pending::Told(lines)) => put_line(lines, line),
            Some(_) => {
                let mut lines = Vec::new();
                let added = put_line(&mut lines, line);
                pending.push_back(Pending::Told(lines));
                added
            }
        };
        self.untold += added;
    }

    /// Says this instead of the first line of its kind.
    pub(super) fn tell_in_place(
        &mut self,
        pending: &mut VecDeque<Pending>,
        is_its: impl Fn(&Pending) -> bool,
        line: impl Display,
    ) {
        if let Some(pending) = pending.iter_mut().find(|it| is_its(it)) {
            let mut lines = Vec::new();
            self.untold += put_line(&mut lines, line);
            *pending = Pending::Told(lines);
        }
        self.tell_what_waited(pending);
    }

    /// Says what waited only for the answers that are sent now.
    pub(super) fn tell_what_waited(&mut self, pending: &mut VecDeque<Pending>) {
        while let Some(Pending::Told(lines)) = pending.front() {
            self.untold -= lines.len();
            self.outbox.bytes().extend_from_slice(lines);
            pending.pop_front();
        }
    }

    /// Says more of the list of all locks, if that is due: see [`Connection::tell_listing`](super::Connection::tell_listing).
    pub(super) fn tell_listing(
        &mut self,
        pending: &mut VecDeque<Pending>,
        go_on: impl FnOnce(&mut Listing, &mut Vec<u8>, usize) -> bool,
    ) {
        let room = self.most_unread.saturating_sub(self.outbox.len() + self.untold);
        let Some(Pending::Listing(listing)) = pending.front_mut().filter(|_| room > 0) else { return };
        let text = self.outbox.bytes();
        let most = text.len() + room;
        if go_on(listing, text, most) {
            pending.pop_front();
            self.has_listing = false;
            text.append(&mut self.late);
        }
    }

    /// Something was written, or could not be: since when nothing is taken.
    pub(super) fn note_written(&mut self, is_any: bool, now: Instant) {
        if self.outbox.is_empty() {
            self.stuck = None;
        } else if is_any || self.stuck.is_none() {
            self.stuck = Some(now);
        }
    }
}

/// How many bytes were added.
fn put_line(lines: &mut Vec<u8>, line: impl Display) -> usize {
    use std::io::Write;
    let before = lines.len();
    let _ = writeln!(lines, "{line}"); // a list takes whatever is written
    lines.len() - before
}

#[cfg(test)]
mod tests {
    use super::*;

    fn text(told: &mut Told) -> String {
        String::from_utf8(std::mem::take(told.outbox.bytes())).unwrap()
    }

    #[test]
    fn answers_come_in_the_order_of_the_questions() {
        let (mut told, mut pending) = (Told::new(100), VecDeque::new());
        told.tell_in_order(&mut pending, "pong");
        pending.push_back(Pending::Ending);
        told.tell_in_order(&mut pending, "lease 1");
        told.tell_in_order(&mut pending, "lease 2");
        assert_eq!((text(&mut told), pending.len(), told.untold), ("pong\n".into(), 2, 16));
        told.tell_in_place(&mut pending, |it| matches!(it, Pending::Ending), "ended a");
        assert_eq!((text(&mut told), pending.len(), told.untold), ("ended a\nlease 1\nlease 2\n".into(), 0, 0));
    }

    #[test]
    fn what_comes_while_a_list_is_sent_waits_for_its_end() {
        let (mut told, mut pending) = (Told::new(4), VecDeque::new());
        pending.push_back(Pending::Listing(Listing::begun()));
        told.has_listing = true;
        told.tell(&pending, "granted a 1");
        assert!(text(&mut told).is_empty());
        told.tell_listing(&mut pending, |_, text, most| {
            text.extend_from_slice(b"status 0\n");
            assert_eq!(most, 4);
            true
        });
        assert_eq!((text(&mut told), told.has_listing, pending.len()), ("status 0\ngranted a 1\n".into(), false, 0));
    }

    #[test]
    fn without_room_nothing_more_is_listed() {
        let (mut told, mut pending) = (Told::new(5), VecDeque::from([Pending::Listing(Listing::begun())]));
        assert!(told.has_room());
        told.outbox.bytes().extend_from_slice(b"pong\n");
        told.tell_listing(&mut pending, |_, _, _| panic!("there is no room"));
        assert!(!told.has_room() && pending.len() == 1);
    }

    #[test]
    fn one_that_takes_something_is_not_stuck_since_before() {
        let (mut told, begun) = (Told::new(5), Instant::now());
        let later = begun + std::time::Duration::from_secs(1);
        told.outbox.bytes().push(b'a');
        told.note_written(false, begun);
        told.note_written(false, later);
        assert_eq!(told.stuck, Some(begun));
        told.note_written(true, later);
        assert_eq!(told.stuck, Some(later));
        told.outbox.clear();
        told.note_written(true, later);
        assert_eq!(told.stuck, None);
    }
}
