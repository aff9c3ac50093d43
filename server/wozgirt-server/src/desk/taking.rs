//! What is asked: a line of a connection is a request, and a request that is permitted goes to the engine or into the log.

use super::{Desk, Order, Then};
use crate::connection::{Connection, Pending};
use crate::header;
use crate::log::End;
use crate::requests::{numbered, parse, BadRequest, Request, Verb, LONGEST_LINE};
use crate::status::Listing;
use std::time::Instant;
use wozgirt_engine::{Client, Input, Lock, NotALine, Token};

/// After this many lines the server looks at the clock.
const LINES_BY_CLOCK: u32 = 8;

impl Desk {
    /// Takes lines of the connection as long as it may say more, but only a few after this time.
    pub fn take_lines(&mut self, connection: &mut Connection, until: Instant) -> Then {
        let input = connection.take_input();
        let (mut taken, mut count, mut then) = (0, 0, Then::Wait);
        while then == Then::Wait && connection.takes_more() && self.may_ask(connection) {
            count += 1;
            if count % LINES_BY_CLOCK == 0 && Instant::now() >= until {
                break;
            }
            let Some(length) = input[taken..].iter().take(LONGEST_LINE).position(|&b| b == b'\n') else { break };
            let (before, start) = (self.questions.asked(), taken);
            then = match std::str::from_utf8(&input[taken..taken + length]) {
                Ok(line) => self.take(connection, line),
                Err(_) => self.refuse(connection, &BadRequest::Word),
            };
            let cost = self.questions.asked() - before;
            connection.asking.tag = self.questions.turns.charge(connection.asking.tag, cost);
            taken += length + 1;
            if then == Then::End(End::Syntax) && header::is_one(&input[start..]) {
                then = Then::End(End::Header);
            }
        }
        if taken > 0 {
            self.step_out(connection); // it was in the queue for the lines that were taken
        }
        connection.put_back(input, taken);
        if then == Then::Wait && connection.has_endless_line() && connection.takes_more() {
            connection.tell_in_order("refused line");
            return Then::End(End::Line);
        }
        then
    }

    fn take(&mut self, connection: &mut Connection, line: &str) -> Then {
        let is_keyed = connection.seat.as_ref().is_some_and(|seat| seat.is_keyed);
        let (number, line) = match if is_keyed { numbered(line) } else { Ok((None, line)) } {
            Ok(found) => found,
            Err(fault) => return self.refuse(connection, &fault),
        };
        match parse(line, connection.caller.is_operator()) {
            Ok(request) if is_keyed && request.is_input() != number.is_some() => {
                return self.refuse(connection, &BadRequest::Rest(NotALine::Syntax));
            }
            Ok(Request::Of(name, Verb::End(token))) => return self.end_hold(connection, name, token),
            Ok(Request::Of(name, verb)) => return self.ask(connection, number, name, verb),
            Ok(Request::Leave) => self.leave(connection, number),
            Ok(Request::Session(key, is_attached)) => return self.open_session(connection, key, is_attached),
            Ok(Request::Cluster) => self.tell_cluster(connection),
            Ok(Request::Ping) => connection.tell_in_order("pong"),
            Ok(Request::Lease(asked)) => {
                let longest = self.settings.limits.longest_lease;
                let lease = if asked.is_zero() { longest } else { asked.min(longest) };
                connection.lease = Some(lease);
                if self.mode.set_lease(connection, lease) {
                    // it may be written
                    connection.asking.tag = self.questions.turns.charge(connection.asking.tag, 1);
                }
                connection.tell_in_order(format_args!("lease {}", lease.as_millis()));
            }
            Ok(Request::GivenLease) => {
                let lease = connection.lease.map_or(0, |lease| lease.as_millis());
                connection.tell_in_order(format_args!("lease {lease}"));
            }
            Ok(Request::Status) => {
                let rules = (!connection.caller.is_operator()).then(|| self.rules.clone());
                connection.put_listing(Listing::new(rules));
            }
            Ok(Request::Changes(seen)) => {
                connection.awaits_change_of = Some(seen);
                return Then::Watch;
            }
            Ok(Request::Clients) => return Then::Operator(Order::Clients),
            Ok(Request::Kick(client)) => return Then::Operator(Order::Kick(client)),
            Ok(Request::Stop) => {
                connection.tell_in_order("stopping");
                return Then::Operator(Order::Stop);
            }
            Err(fault) => return self.refuse(connection, &fault),
        }
        Then::Wait
    }

    /// A line that is not a request. If not even its first word is known, the connection ends: a web page that makes a browser
    /// send lines to a port ends in this way too.
    fn refuse(&mut self, connection: &mut Connection, fault: &BadRequest) -> Then {
        self.sums.refused(&fault.to_string());
        connection.tell_in_order(format_args!("refused {fault}"));
        match fault {
            BadRequest::Word => Then::End(End::Syntax),
            BadRequest::Rest(NotALine::Syntax | NotALine::Number) => Then::Wait,
        }
    }

    fn ask(&mut self, connection: &mut Connection, number: Option<u64>, name: &str, verb: Verb) -> Then {
        let input = match self.input(connection, name, verb) {
            Ok(input) => input,
            Err(why) => {
                self.sums.refused(why);
                match number {
                    None => connection.tell_in_order(format_args!("refused {why} {name}")),
                    Some(number) => connection.tell_in_order(format_args!("{number} refused {why} {name}")),
                }
                return Then::Wait;
            }
        };
        self.sums.inputs += 1;
        self.take_input(connection, number, input)
    }

    pub(crate) fn ask_plainly(&mut self, connection: &mut Connection, input: Input) {
        self.ask_engine(connection.client, &input);
        self.note_asked(connection, Pending::Asked(input));
    }

    /// The engine does not answer a leave: the next question after it shows when it is done.
    pub(crate) fn ask_to_leave(&mut self, connection: &mut Connection) {
        self.sums.inputs += 1;
        for input in [Input::Leave, self.look()] {
            self.ask_engine(connection.client, &input);
        }
        self.note_asked(connection, Pending::Left);
    }

    /// The engine's input, or why the server refuses it.
    fn input(&mut self, connection: &Connection, name: &str, verb: Verb) -> Result<Input, &'static str> {
        let lock = self.board.name(name).ok_or("lock")?;
        let is_for_it = matches!(verb, Verb::Acquire(_) | Verb::Try(_));
        // what a client has it may give back, whatever the rules say by now
        let is_ruled = is_for_it || matches!(verb, Verb::Stats);
        if is_ruled && !connection.caller.is_operator() && !self.rules.permits(name, &connection.caller.known) {
            return Err("permission");
        }
        if is_for_it && self.mode.has_enough(connection, name, self.settings.limits.most_holds) {
            return Err("many");
        }
        if is_for_it && !self.has_name_for(connection, name) {
            return Err("names");
        }
        let input = match verb {
            Verb::Acquire(label) => {
                if self.board.is_full(name, self.settings.limits.waiters) && !self.mode.has(connection, name) {
                    return Err("waiters");
                }
                Input::Acquire { lock, label }
            }
            Verb::Try(label) => Input::Try { lock, label },
            Verb::Release(token) => Input::Release { lock, token },
            Verb::Cancel => Input::Cancel { lock },
            Verb::Stats => Input::Stats { lock },
            Verb::Corrupt { .. } if !self.settings.engine.permits_faults => return Err("off"),
            Verb::Corrupt { machine, value } => Input::Corrupt { lock, machine, value },
            Verb::End(token) => Input::Release { lock, token },
        };
        self.board.asked(&input, &connection.caller.guest);
        Ok(input)
    }

    /// An operator ends a hold. What servers share a log of is ended with its session.
    fn end_hold(&mut self, connection: &mut Connection, name: &str, token: Token) -> Then {
        let why = match self.board.lock(name).map(|sight| (&sight.lock, sight.holder)) {
            _ if !self.mode.ends_holds() => "cluster",
            None if self.board.name(name).is_none() => "lock",
            Some((lock, Some(holder))) if holder.token == token => {
                connection.pending.push_back(Pending::Ending);
                return Then::Operator(Order::EndHold(holder.client, lock.clone(), token));
            }
            _ => "holder",
        };
        self.sums.refused(why);
        connection.tell_in_order(format_args!("refused {why} {name}"));
        Then::Wait
    }

    /// Asks the engine to end a client's hold, for this operator.
    pub fn ask_to_end(&mut self, holder: &mut Connection, operator: Client, lock: Lock, token: Token) {
        self.ask_engine(holder.client, &Input::Release { lock: lock.clone(), token });
        self.note_asked(holder, Pending::Ended(operator, lock, token));
    }
}
