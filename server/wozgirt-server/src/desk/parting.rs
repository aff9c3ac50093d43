//! A connection is gone: what it had, and what the engine hears of that.

use super::Desk;
use crate::board::Why;
use crate::connection::{Connection, Pending};
use crate::log::{End, Event};
use crate::turns::Turn;
use wozgirt_engine::{Client, Input};

impl Desk {
    /// The connection is gone: the engine hears it, and the log.
    pub fn part(&mut self, connection: &mut Connection, end: End) {
        let mut is_asking = false;
        for pending in std::mem::take(&mut connection.pending) {
            if let Pending::Asked(input) | Pending::Numbered(_, input) = pending {
                self.board.asked_no_longer(&input);
                is_asking = true;
            }
        }
        self.step_out(connection);
        let held = self.end_of(connection, end, is_asking);
        self.questions.askers -= usize::from(connection.asking.asked > 0);
        self.sums.ended(end);
        let is_wanted = !held.is_empty() || !matches!(end, End::Closed | End::Stop);
        let logs_all = self.settings.logs_connections && !connection.caller.is_proxy();
        if is_wanted || logs_all {
            let event = Event::Went { client: connection.client, who: &connection.caller.who, end, held: &held };
            if logs_all {
                self.log.say(&event); // each is wanted
            } else {
                self.log.say_of(&connection.caller.guest, self.now, &event);
            }
        }
    }

    /// What a connection that is gone had is free. Returns what it held.
    pub(crate) fn end_plain(&mut self, connection: &mut Connection, end: End) -> String {
        if connection.seat.is_some() {
            return self.leave_session(connection, end);
        }
        // of one that never asked the engine knows nothing
        if connection.asking.has_asked && !matches!(end, End::Engine | End::Stop) {
            self.say_gone(connection.client, connection.asking.tag, None);
        }
        self.forget(connection, Why::Parted(end))
    }

    /// A client or a session with this tag is gone: the engine hears that now, or when its turn comes.
    pub(crate) fn say_gone(&mut self, client: Client, tag: u64, last: Option<u64>) {
        if self.questions.has_room() && self.questions.turns.is_next(tag) {
            self.ask_to_forget(client, last);
        } else {
            self.questions.turns.line_up(client, tag, Turn::Gone(last));
        }
    }

    /// The engine hears that a client or a session is gone. It keeps no note of the last input of a session, which has this number.
    pub(crate) fn ask_to_forget(&mut self, client: Client, last: Option<u64>) {
        self.ask_engine(client, &Input::Leave);
        if let Some(last) = last {
            self.ask_engine_line(format_args!("{client} {last} forget"));
        }
    }
}
