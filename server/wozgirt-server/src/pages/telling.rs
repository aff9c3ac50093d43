//! A text about all locks, sent in parts: a reader that is slow, or a list that is long, keeps neither memory nor time from others.

use super::http::Wanted;
use super::{html, metrics, View};
use crate::board::Place;
use std::time::Instant;

/// After this many locks the server looks whether time or room is over.
const STEP: usize = 32;
/// How many locks in use the page has whose names are not in the list.
const MOST_USED: usize = 1000;

/// How far a text is sent.
pub struct Telling {
    wanted: Wanted,
    has_begun: bool,
    /// Of the metrics, the family whose values are sent next.
    family: usize,
    /// The lock that is next.
    next: Place,
    /// The last number of another name when it began, and how many in use were sent.
    last: u64,
    used: usize,
}

impl Telling {
    /// Nothing is sent.
    pub fn new(wanted: Wanted) -> Telling {
        Telling { wanted, has_begun: false, family: 0, next: Place::FIRST, last: 0, used: 0 }
    }

    /// Puts the next part into `text`, until that has this many bytes or it is this time: whether it is the last.
    pub fn go_on(&mut self, text: &mut String, view: &View<'_>, most: usize, until: Instant) -> bool {
        let (head, families, tail): (fn(&mut String, &View<'_>), _, _) = match self.wanted {
            Wanted::Page => (html::head, 1, html::TAIL),
            Wanted::Metrics => (metrics::head, metrics::OF_LOCKS.len(), ""),
            Wanted::Health => return true, // one line, which was sent
        };
        if !std::mem::replace(&mut self.has_begun, true) {
            self.last = view.board.last();
            head(text, view);
        }
        while self.family < families {
            if text.len() >= most || Instant::now() >= until && !text.is_empty() {
                return false;
            }
            self.step(text, view);
        }
        text.push_str(tail);
        true
    }

    /// Some locks.
    fn step(&mut self, text: &mut String, view: &View<'_>) {
        for _ in 0..STEP {
            let is_there = match self.wanted {
                Wanted::Page => self.row(text, view),
                Wanted::Metrics => self.value(text, view),
                Wanted::Health => false,
            };
            if !is_there {
                (self.family, self.next) = (self.family + 1, Place::FIRST);
                break;
            }
        }
    }

    /// One lock of the page: whether there was one.
    fn row(&mut self, text: &mut String, view: &View<'_>) -> bool {
        if self.used == MOST_USED {
            html::more(text, view.board.any().map_or(0, |any| any.used()).saturating_sub(MOST_USED));
            (self.next, self.used) = (Place::Unused(0), MOST_USED + 1);
        }
        let Some((sight, next)) = view.board.next(self.next, self.last) else { return false };
        html::row(text, sight, view.now);
        self.used += usize::from(matches!(next, Place::Used(_)));
        self.next = next;
        true
    }

    /// One value of a family: of a lock of the list, or of all others together. Whether there is another one.
    fn value(&mut self, text: &mut String, view: &View<'_>) -> bool {
        let Place::Listed(place) = self.next else { return false };
        let family = &metrics::OF_LOCKS[self.family];
        if let Some(sight) = view.board.locks().get(place) {
            metrics::of_lock(text, view, family, sight, place == 0);
            self.next = Place::Listed(place + 1);
            return true;
        }
        view.board.any().into_iter().for_each(|any| metrics::of_others(text, view, family, any, place == 0));
        false
    }
}
