//! What operators have done: the list of clients, one that has to go, a hold that ends.

use super::Server;
use crate::connection::Connection;
use crate::desk::Order;
use crate::log::{End, Event};
use crate::questions::Own;
use wozgirt_engine::{Answer, Client, Input, Lock, Token, NOBODY};

/// One whose operator is not there any more.
const GONE: &str = "an operator that is gone";

impl Server {
    pub(super) fn obey(&mut self, operator: Client, order: Order) {
        match order {
            Order::Clients => {
                let list = self.list_of_clients();
                if let Some(connection) = self.talks.get_mut(operator) {
                    connection.tell_in_order(list);
                }
            }
            Order::Kick(number) => self.kick(operator, number),
            Order::EndHold(holder, lock, token) => self.end_hold(operator, holder, lock, token),
            Order::Stop => self.stop("an operator said so"),
        }
    }

    fn list_of_clients(&mut self) -> String {
        let mut clients: Vec<&Connection> = self.talks.all().collect();
        clients.sort_unstable_by_key(|connection| connection.client);
        let away = self.desk.mode.away(self.desk.now);
        let mut text = format!("clients {}", clients.len() + away.len());
        for it in clients {
            let (holds, waits) = self.desk.mode.standing(it);
            let lease = it.lease.map_or(0, |lease| lease.as_millis());
            put_client(&mut text, self.desk.mode.number(it), lease, &holds, waits.as_ref(), &it.caller.who);
        }
        for it in away {
            let who = format!("away, {}", self.people.name(&it.guest));
            put_client(&mut text, it.number, it.left.as_millis(), &it.holds, it.waits.as_ref(), &who);
        }
        text
    }

    /// An operator has this client go, by the number by which it is shown.
    fn kick(&mut self, operator: Client, number: Client) {
        let shown = |connection: &&Connection| number > 0 && self.desk.mode.number(connection) == number;
        let found = self.talks.all().find(shown).map(|connection| connection.client);
        let is_kicked = found.is_some() || self.end_away(operator, number);
        if let Some(connection) = self.talks.get_mut(operator) {
            let word = if is_kicked { "kicked" } else { "refused client" };
            connection.tell_in_order(format_args!("{word} {number}"));
            if found == Some(operator) {
                connection.ending = Some(End::Kicked); // when it has heard that
            }
        }
        if let Some(client) = found.filter(|client| *client != operator) {
            self.part(client, End::Kicked);
        }
    }

    /// An operator ends a session whose client is away: whether there is one of this number.
    fn end_away(&mut self, operator: Client, number: Client) -> bool {
        let Some(held) = self.desk.end_away(number) else { return false };
        let by = self.talks.get(operator).map_or(GONE, |connection| &connection.caller.who);
        let held = if held.is_empty() { "nothing" } else { &held };
        self.desk.log.say(&Event::SessionEnded { by, session: number, held });
        true
    }

    /// An operator has a hold end: of a client that is connected, or of one from before the engine's start.
    fn end_hold(&mut self, operator: Client, holder: Client, lock: Lock, token: Token) {
        if holder == NOBODY {
            self.desk.questions.put(Own::End(operator, lock.clone(), token, self.desk.now));
            self.desk.engine.ask_line(format_args!("{NOBODY} {}", Input::Release { lock, token }));
        } else if let Some(connection) = self.talks.get_mut(holder).filter(|it| it.seat.is_none()) {
            self.desk.ask_to_end(connection, operator, lock, token);
        } else {
            self.desk.ask_session_to_end(operator, holder, lock, token);
        }
    }

    /// Sends the operator what came of that.
    pub(super) fn tell_ended(
        &mut self,
        operator: Client,
        holder: Client,
        lock: &str,
        token: Token,
        answer: &Answer<'_>,
    ) {
        let is_ended = matches!(answer, Answer::Released { .. });
        let by = self.talks.get(operator).map_or(GONE, |connection| &connection.caller.who);
        if is_ended {
            self.desk.log.say(&Event::HoldEnded { by, lock, token, client: holder });
        }
        if let Some(connection) = self.talks.get_mut(operator) {
            let word = if is_ended { "ended" } else { "refused holder" };
            connection.tell_ending(format_args!("{word} {lock}"));
            self.go_on(operator);
        }
    }
}

/// A line of the list of clients.
fn put_client(text: &mut String, client: Client, lease: u128, holds: &[Lock], waits: Option<&Lock>, who: &str) {
    let holds = if holds.is_empty() { "-".into() } else { holds.join(",") };
    let waits = waits.map_or("-", |lock| lock);
    text.push_str(&format!("\nclient {client} {lease} {holds} {waits} {who}"));
}

#[cfg(test)]
mod tests {
    use super::*;

    #[test]
    fn a_line_of_a_client() {
        let lock = |name: &str| name.parse::<Lock>().unwrap();
        let mut text = String::new();
        put_client(&mut text, 7, 1500, &[lock("a"), lock("b")], Some(&lock("c")), "root, process 1");
        put_client(&mut text, 8, 0, &[], None, "10.0.0.1:9");
        assert_eq!(text, "\nclient 7 1500 a,b c root, process 1\nclient 8 0 - - 10.0.0.1:9");
    }
}
