//! The answer to `status`: `status COUNT`, and as many lines
//! `lock NAME STATE CLIENT LABEL TOKEN AGE WAITING OLDEST GRANTS LONGEST`, with times in milliseconds.
//!
//! STATE is `free`, `held`, or `before`: held by a client of an engine that ended. What is not known is `-`. After the locks of the
//! list come those of other names that are in use, and the last that were. A list of many is sent in parts, between which some may be
//! gone: such a line has `*` for NAME.

use crate::board::{Board, Place, Sight};
use crate::connection::Known;
use crate::rules::Rules;
use std::io::Write;
use std::rc::Rc;
use std::time::Instant;
use wozgirt_engine::NOBODY;

/// After this many locks the server looks whether time or room is over.
const STEP: usize = 32;

/// What is done next.
#[derive(Debug)]
enum Stage {
    /// Nothing was done.
    New,
    /// Of other names those are counted that are shown; there are this many so far.
    Counting(usize),
    /// This number of lines is to be sent.
    Telling(usize),
}

/// An answer to `status` that is sent in parts: of which locks, and how far it is.
#[derive(Debug)]
pub struct Listing {
    /// Nothing if all locks are shown, else the rules that held at the beginning.
    rules: Option<Rc<Rules>>,
    stage: Stage,
    next: Place,
    /// The last number of another name when it began.
    last: u64,
}

impl Listing {
    /// Of all locks, or of those that these rules permit.
    pub fn new(rules: Option<Rc<Rules>>) -> Listing {
        Listing { rules, stage: Stage::New, next: Place::FIRST, last: 0 }
    }

    /// Of no lock, the first line of which is sent.
    #[cfg(test)]
    pub fn begun() -> Listing {
        Listing { stage: Stage::Telling(0), ..Listing::new(None) }
    }

    /// Whether some of it is sent.
    pub fn has_begun(&self) -> bool {
        matches!(self.stage, Stage::Telling(_))
    }

    /// Puts the next lines into `text`, until that has this many bytes or it is this time: whether it is done.
    pub fn go_on(&mut self, text: &mut Vec<u8>, view: &Locks<'_>, most: usize, until: Instant) -> bool {
        loop {
            match self.stage {
                Stage::New => {
                    self.begin(text, view);
                    continue;
                }
                Stage::Counting(count) => self.count(count, text, view),
                Stage::Telling(0) => return true,
                Stage::Telling(left) => self.tell(left, text, view),
            }
            if matches!(self.stage, Stage::Telling(0)) {
                return true;
            }
            if text.len() >= most || Instant::now() >= until {
                return false;
            }
        }
    }

    fn begin(&mut self, text: &mut Vec<u8>, view: &Locks<'_>) {
        let (listed, any) = (view.board.locks().len(), view.board.any());
        self.last = view.board.last();
        match &self.rules {
            Some(rules) if any.is_some() => {
                self.next = Place::Used(0);
                self.stage = Stage::Counting(rules.count(listed, view.known));
            }
            Some(rules) => self.begin_telling(rules.count(listed, view.known), text),
            None => self.begin_telling(listed + any.map_or(0, |any| any.count()), text),
        }
    }

    fn begin_telling(&mut self, count: usize, text: &mut Vec<u8>) {
        let _ = writeln!(text, "status {count}"); // a list takes whatever is written
        (self.stage, self.next) = (Stage::Telling(count), Place::FIRST);
    }

    /// Counts some names.
    fn count(&mut self, mut count: usize, text: &mut Vec<u8>, view: &Locks<'_>) {
        for _ in 0..STEP {
            let Some((sight, next)) = view.board.next(self.next, self.last) else {
                return self.begin_telling(count, text);
            };
            self.next = next;
            count += usize::from(self.shows(sight, view));
        }
        self.stage = Stage::Counting(count);
    }

    /// Sends some lines: at most this many.
    fn tell(&mut self, mut left: usize, text: &mut Vec<u8>, view: &Locks<'_>) {
        for _ in 0..STEP {
            match view.board.next(self.next, self.last) {
                _ if left == 0 => break,
                Some((sight, next)) => {
                    self.next = next;
                    if self.shows(sight, view) {
                        put(text, sight, view.now);
                        left -= 1;
                    }
                }
                None => {
                    let _ = writeln!(text, "lock * free - - - - 0 0 0 0");
                    left -= 1;
                }
            }
        }
        self.stage = Stage::Telling(left);
    }

    fn shows(&self, sight: &Sight, view: &Locks<'_>) -> bool {
        self.rules.as_ref().map_or(true, |rules| rules.permits(&sight.lock, view.known))
    }
}

/// What is shown, and to whom.
pub struct Locks<'a> {
    /// What is known of the locks.
    pub board: &'a Board,
    /// What the rules know of the client that asks.
    pub known: &'a Known,
    /// The time.
    pub now: Instant,
}

fn put(text: &mut Vec<u8>, sight: &Sight, now: Instant) {
    let name = &sight.lock;
    let age = |since: Instant| now.saturating_duration_since(since).as_millis();
    let _ = match sight.holder {
        None => write!(text, "lock {name} free - - - -"),
        Some(holder) => {
            let state = if holder.client == NOBODY { "before" } else { "held" };
            let label = holder.label.map_or("-".into(), |label| label.to_string());
            write!(text, "lock {name} {state} {} {label} {} {}", holder.client, holder.token, age(holder.since))
        }
    };
    let oldest = sight.line.front().map_or(0, |waiter| age(waiter.since));
    let _ =
        writeln!(text, " {} {oldest} {} {}", sight.line.len(), sight.past.grants, sight.past.longest_wait.as_millis());
}

#[cfg(test)]
mod tests {
    use super::*;
    use crate::accounts::Accounts;
    use crate::names::Names;
    use std::time::Duration;

    /// The whole text, sent in parts of at least this many bytes, and how many parts there were.
    fn told(view: &Locks<'_>, rules: Option<Rules>, most: usize) -> (String, usize) {
        let (mut listing, mut whole, mut parts) = (Listing::new(rules.map(Rc::new)), String::new(), 0);
        loop {
            let mut text = Vec::new();
            let is_done = listing.go_on(&mut text, view, most, Instant::now() + Duration::from_secs(60));
            whole.push_str(&String::from_utf8(text).unwrap());
            parts += 1;
            if is_done {
                return (whole, parts);
            }
        }
    }

    fn board(list: &str) -> Board {
        Board::new(&Names::parse(list).unwrap())
    }

    #[test]
    fn lines() {
        let (mut board, start) = (board("deploy,gpu,db"), Instant::now());
        board.granted("deploy", 7, 12, Some(77), start);
        board.waits("deploy", 8, 1, start + Duration::from_millis(10));
        let rules = Rules::parse("lock db:", &board, &mut Accounts::default()).unwrap();
        let view = Locks { board: &board, known: &Known::Nobody, now: start + Duration::from_millis(25) };
        let text = "status 2\nlock deploy held 7 77 12 25 1 15 1 0\nlock gpu free - - - - 0 0 0 0\n";
        assert_eq!(told(&view, Some(rules), 1000), (text.into(), 1));
        assert!(told(&view, None, 1000).0.starts_with("status 3\n"));
    }

    #[test]
    fn a_list_in_parts_is_the_same_list() {
        let board = board(&(0..100).map(|i| format!("n{i}")).collect::<Vec<_>>().join(","));
        let view = Locks { board: &board, known: &Known::Nobody, now: Instant::now() };
        let (whole, parts) = told(&view, None, 1 << 20);
        assert_eq!((whole.lines().count(), parts), (101, 1));
        assert_eq!(told(&view, None, 1), (whole, 100usize.div_ceil(STEP)));
    }

    #[test]
    fn other_names_come_behind_those_of_the_list() {
        let (mut board, start) = (board("deploy,*"), Instant::now());
        board.granted("x/2", 7, 812, Some(77), start);
        board.granted("x/1", 8, 813, Some(78), start);
        board.released("x/2", 7);
        board.waits("y", 9, 1, start);
        let view = Locks { board: &board, known: &Known::Nobody, now: start };
        let lines = [
            "status 4",
            "lock deploy free - - - - 0 0 0 0",
            "lock x/1 held 8 78 813 0 0 0 1 0",
            "lock y free - - - - 1 0 0 0",
            "lock x/2 free - - - - 0 0 1 0",
        ];
        assert_eq!(told(&view, None, 1000).0.lines().collect::<Vec<_>>(), lines);
        let rules = Rules::parse("lock x/*:\nlock x/2: *", &board, &mut Accounts::default()).unwrap();
        let lines = [&["status 3"], &lines[1..2], &lines[3..]].concat();
        assert_eq!(told(&view, Some(rules), 1000).0.lines().collect::<Vec<_>>(), lines);
    }

    #[test]
    fn a_name_that_is_gone_meanwhile_has_a_line() {
        let (mut board, now) = (board("*"), Instant::now());
        let hold = |board: &mut Board, from: u64, to: u64| {
            (from..to).for_each(|i| board.granted(&format!("n{i}"), 1, i, None, now));
        };
        hold(&mut board, 0, 300);
        let (mut listing, mut text) = (Listing::new(None), Vec::new());
        assert!(!listing.go_on(&mut text, &Locks { board: &board, known: &Known::Nobody, now }, 1, now));
        (200..300).for_each(|i| board.released(&format!("n{i}"), 1));
        hold(&mut board, 300, 400);
        while !listing.go_on(&mut text, &Locks { board: &board, known: &Known::Nobody, now }, 1, now) {}
        let text = String::from_utf8(text).unwrap();
        let names: Vec<&str> = text.lines().filter_map(|line| line.strip_prefix("lock ")?.split(' ').next()).collect();
        assert_eq!((text.lines().next(), names.len()), (Some("status 300"), 300));
        assert_eq!((names[0], names[199], &names[200..]), ("n0", "n199", ["*"; 100].as_slice()));
    }
}
