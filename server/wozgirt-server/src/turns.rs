//! Whose lines go to the engine next.
//!
//! The engine answers in order, so whatever it has got already comes before a new line. It gets only a limited amount at once, and a
//! client that has more to ask waits in a queue here, by start-time fair queueing. Each client has a *tag*, to which is added how many
//! lines the engine gets for it; the lowest tag is next, and a client that asks seldom begins at the tag that was served last. So a
//! client waits for what the engine has, and not for what other clients ask of it, whatever that costs.

use std::collections::BTreeMap;
use wozgirt_engine::Client;

/// A new connection begins this far after those that are here.
const NEWCOMERS: u64 = 32;
/// A client that is at most this far back has asked for no more than its part, and may have one line at the engine at any time.
const LIGHT: u64 = 16;
/// The tag of one that has asked for nothing for a while.
pub const FIRST_TAG: u64 = 0;
/// When this many that have left wait for that, others are kept from coming in, until a quarter of them is left.
const MOST_LEAVING: usize = 64;

/// What a client waits for in the queue.
#[derive(Debug, Clone, Copy, PartialEq, Eq)]
pub enum Turn {
    /// To ask more.
    Ask,
    /// It is gone, and the engine has to hear that; of a session, with the number of its last input, of which the engine has a note.
    Gone(Option<u64>),
}

impl Turn {
    fn is_of_one_gone(self) -> bool {
        matches!(self, Turn::Gone(_))
    }
}

/// The line.
#[derive(Debug, Default)]
pub struct Turns {
    /// The tag that was served last.
    served: u64,
    line: BTreeMap<(u64, Client), Turn>,
    leaving: usize,
}

impl Turns {
    /// The tag of one that has just come.
    pub fn newcomer(&self) -> u64 {
        self.served + NEWCOMERS
    }

    /// Whether no client is before this tag.
    pub fn is_next(&self, tag: u64) -> bool {
        self.line.first_key_value().map_or(true, |((first, _), _)| tag.max(self.served) <= *first)
    }

    /// Whether one with this tag has asked for no more than its part.
    pub fn is_light(&self, tag: u64) -> bool {
        tag <= self.served + LIGHT
    }

    /// A line that costs so much was taken of one with this tag: its next one.
    pub fn charge(&mut self, tag: u64, cost: u64) -> u64 {
        if cost == 0 {
            return tag;
        }
        self.served = self.served.max(tag);
        self.served + cost
    }

    /// A client waits in the queue from now on: its place there.
    pub fn line_up(&mut self, client: Client, tag: u64, turn: Turn) -> u64 {
        let place = tag.max(self.served);
        self.line.insert((place, client), turn);
        self.leaving += usize::from(turn.is_of_one_gone());
        place
    }

    /// A client that wanted to ask more does so no longer.
    pub fn step_out(&mut self, client: Client, place: u64) {
        self.line.remove(&(place, client));
    }

    /// What the next one waits for there.
    pub fn first(&self) -> Option<Turn> {
        self.line.first_key_value().map(|(_, turn)| *turn)
    }

    /// Takes out who is next.
    pub fn next(&mut self) -> Option<(Client, Turn)> {
        let ((place, client), turn) = self.line.pop_first()?;
        if turn.is_of_one_gone() {
            self.leaving -= 1;
            self.served = self.served.max(place);
        }
        Some((client, turn))
    }

    /// The engine is gone, and knows nothing of those who have left.
    pub fn forget_leaving(&mut self) {
        self.line.retain(|_, turn| !turn.is_of_one_gone());
        self.leaving = 0;
    }

    /// Whether others are kept out, since many have left. `is_so`: they are already.
    pub fn keeps_out(&self, is_so: bool) -> bool {
        self.leaving >= if is_so { MOST_LEAVING / 4 } else { MOST_LEAVING }
    }
}

#[cfg(test)]
mod tests {
    use super::*;

    #[test]
    fn who_asks_seldom_is_next() {
        let mut turns = Turns::default();
        let mut tags = [0; 3];
        for client in 0..3 {
            turns.line_up(client as Client, tags[client], Turn::Ask);
        }
        let mut served = Vec::new();
        for _ in 0..9 {
            let (client, _) = turns.next().unwrap();
            served.push(client);
            let tag = &mut tags[client as usize];
            *tag = turns.charge(*tag, if client == 2 { 100 } else { 40 });
            assert!(turns.is_next(0) && !turns.is_next(1000));
            turns.line_up(client, *tag, Turn::Ask);
        }
        assert_eq!(served, [0, 1, 2, 0, 1, 0, 1, 2, 0]);
        turns.line_up(9, 0, Turn::Ask);
        let next = [turns.next(), turns.next()];
        assert!(next.contains(&Some((9, Turn::Ask))));
    }

    #[test]
    fn a_costly_line_makes_one_wait_and_none_costs_nothing() {
        let mut turns = Turns::default();
        let tag = turns.charge(0, 100);
        assert!(!turns.is_light(tag) && turns.is_light(0) && !turns.is_light(turns.newcomer()));
        assert_eq!(turns.charge(tag, 0), tag);
        assert_eq!(turns.charge(tag, 1), tag + 1);
        assert!(turns.is_light(tag + 1) && turns.is_light(0));
    }

    #[test]
    fn who_steps_out_stands_there_no_longer() {
        let mut turns = Turns::default();
        let place = turns.line_up(1, 7, Turn::Ask);
        turns.line_up(2, 9, Turn::Gone(None));
        turns.step_out(1, place);
        let gone = Turn::Gone(None);
        assert_eq!((turns.first(), turns.next(), turns.next()), (Some(gone), Some((2, gone)), None));
    }

    #[test]
    fn those_who_have_left_keep_others_out() {
        let mut turns = Turns::default();
        for client in 0..64 {
            turns.line_up(client, 0, Turn::Gone((client % 2 == 0).then_some(client)));
        }
        assert!(turns.keeps_out(false));
        assert_eq!((0..40).filter_map(|_| turns.next()).count(), 40);
        assert!(!turns.keeps_out(false) && turns.keeps_out(true));
        assert_eq!((0..9).filter_map(|_| turns.next()).count(), 9);
        assert!(!turns.keeps_out(true));
        turns.forget_leaving();
        assert_eq!((turns.next(), turns.leaving), (None, 0));
    }
}
