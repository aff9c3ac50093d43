//! Which lines wait here until the engine has less to do, and who has the next turn.

use super::Desk;
use crate::connection::{Connection, MOST_PENDING};
use crate::turns::Turn;
use wozgirt_engine::Client;

impl Desk {
    /// Whether the connection has a line that may be taken now. If that only waits for the engine, it is in the queue from now on.
    pub fn has_work(&mut self, connection: &mut Connection) -> bool {
        if !connection.has_line() {
            return false;
        }
        let may_ask = self.may_ask(connection);
        // one that has its part there gets an answer before long
        if !may_ask
            && connection.asking.place.is_none()
            && self.questions.has_part(connection.asking.asked, MOST_PENDING)
        {
            connection.asking.place =
                Some(self.questions.turns.line_up(connection.client, connection.asking.tag, Turn::Ask));
        }
        may_ask
    }

    /// The connection leaves the queue.
    pub(super) fn step_out(&mut self, connection: &mut Connection) {
        if let Some(place) = connection.asking.place.take() {
            self.questions.turns.step_out(connection.client, place);
        }
    }

    /// Whether one more line of the connection may wait for the engine. Operators may ask when clients may not.
    pub(super) fn may_ask(&mut self, connection: &Connection) -> bool {
        self.is_full |= self.waits_for_log(1, 1);
        let is_operator = connection.caller.is_operator();
        let is_refused = if is_operator { self.waits_for_log(2, 1) } else { self.is_full };
        let is_permitted = is_operator || self.questions.permits(connection.asking.asked, connection.asking.tag);
        !is_refused && is_permitted && self.questions.has_part(connection.asking.asked, MOST_PENDING)
    }

    /// Whether of the lines that may wait for the log `times` parts in `parts` do.
    fn waits_for_log(&self, times: usize, parts: usize) -> bool {
        self.mode.most_waiting().is_some_and(|most| self.waiting_lines() >= times * most / parts)
    }

    /// Whether so much went into the log that clients may ask again.
    pub fn is_free_again(&self) -> bool {
        self.is_full && !self.waits_for_log(1, 2)
    }

    /// Whether no client is to be let in: those that are here have a turn before others come. `is_so`: it was so before.
    pub fn keeps_out(&self, is_so: bool) -> bool {
        self.is_full || self.questions.turns.keeps_out(is_so) || is_so && self.waits_for_log(1, 4)
    }

    /// Which client may ask the engine next, of those that wait in the queue for that. At the end all that have left do.
    pub fn next_turn(&mut self, is_ending: bool) -> Option<(Client, Turn)> {
        self.has_next_turn(is_ending).then(|| self.questions.turns.next()).flatten()
    }

    /// Whether there is one.
    pub fn has_next_turn(&self, is_ending: bool) -> bool {
        self.questions.turns.first().is_some() && (is_ending || self.questions.has_room())
    }
}

#[cfg(test)]
mod tests {
    use super::*;
    use crate::desk::tests::{connection, desk};
    use std::time::Instant;

    #[test]
    fn a_leave_takes_the_room_of_one_line() {
        let mut desk = desk(1000, Instant::now());
        for client in 1..=128 {
            assert_eq!((desk.questions.waiting() as u64, desk.questions.has_room()), (client - 1, true));
            desk.say_gone(client, 0, None);
        }
        assert_eq!(
            (desk.questions.waiting(), desk.questions.has_room(), desk.questions.turns.first()),
            (128, false, None)
        );
        desk.say_gone(129, 0, None);
        assert_eq!((desk.questions.waiting(), desk.questions.turns.first()), (128, Some(Turn::Gone(None))));
    }

    #[test]
    fn many_who_are_gone_at_once_stand_in_the_line() {
        let mut desk = desk(1000, Instant::now());
        (1..=200).for_each(|session| desk.say_gone(session, 0, Some(7)));
        assert_eq!((desk.questions.waiting(), desk.questions.turns.first()), (128, Some(Turn::Gone(Some(7)))));
        assert!(!desk.has_next_turn(false) && desk.has_next_turn(true) && desk.keeps_out(false));
        let rest: Vec<_> = std::iter::from_fn(|| desk.next_turn(true)).collect();
        assert_eq!((rest.len(), rest[0], rest[135]), (136, (65, Turn::Gone(Some(7))), (200, Turn::Gone(Some(7)))));
    }

    #[test]
    fn who_asks_no_more_than_its_part_may_leave_at_once() {
        let now = Instant::now();
        let (mut desk, (mut connection, _other)) = (desk(1000, now), connection(b"leave\ntry a1 1\n", now));
        (0..128).for_each(|_| {
            desk.questions.ask();
        });
        assert!(!desk.questions.has_room() && desk.has_work(&mut connection));
        desk.take_lines(&mut connection, now);
        // the leave, and the question that shows that it is done
        assert_eq!((connection.asking.asked, connection.asking.tag, desk.questions.waiting()), (1, 2, 130));
        assert!(!desk.has_work(&mut connection));
        assert_eq!((connection.asking.place, desk.questions.turns.first()), (Some(2), Some(Turn::Ask)));
    }

    #[test]
    fn a_place_in_the_line_goes_with_what_it_is_for() {
        let now = Instant::now();
        let (mut desk, (mut connection, _other)) = (desk(1, now), connection(b"try a1 1\n", now));
        connection.asking.tag = 1000;
        (0..1000).for_each(|_| {
            desk.questions.ask();
        });
        assert!(!desk.has_work(&mut connection) && desk.questions.turns.first() == Some(Turn::Ask));
        desk.questions.forget(now); // the engine has nothing to do
        assert!(desk.has_work(&mut connection) && connection.asking.place.is_some());
        desk.take_lines(&mut connection, now);
        assert_eq!((connection.asking.asked, connection.asking.place, desk.questions.turns.first()), (1, None, None));
    }
}
