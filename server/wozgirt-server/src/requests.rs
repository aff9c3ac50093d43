//! What a connection says: one line, with the lock's name.

use std::fmt;
use std::time::Duration;
use wozgirt_engine::{decimal, Client, Label, NotALine, Token};

/// The longest line, with its end.
pub const LONGEST_LINE: usize = 256;

/// One line of a client or of an operator.
#[derive(Debug, PartialEq, Eq)]
pub enum Request<'a> {
    /// What is about one lock, which has this name.
    Of(&'a str, Verb),
    /// To give up all that is held and waited for.
    Leave,
    /// To be heard.
    Ping,
    /// To be taken for dead after such a silence; of 0, the longest that there may be.
    Lease(Duration),
    /// What lease the connection has.
    GivenLease,
    /// How all locks are.
    Status,
    /// To hear when that is not as it was when this was the number of changes.
    Changes(u64),
    /// To continue the session that has this key.
    Session(u64, bool),
    /// Of an operator: where this server is in the log.
    Cluster,
    /// Of an operator: a list of the connected clients.
    Clients,
    /// Of an operator: that this client goes.
    Kick(Client),
    /// Of an operator: that the server ends.
    Stop,
}

/// What is asked of a lock.
#[derive(Debug, Clone, Copy, PartialEq, Eq)]
pub enum Verb {
    /// To hold it.
    Acquire(Label),
    /// To hold it at once or not at all.
    Try(Label),
    /// To end the hold.
    Release(Token),
    /// To wait no longer.
    Cancel,
    /// How it is.
    Stats,
    /// Of an operator: that the hold with this token ends, whosever it is.
    End(Token),
    /// Of an operator: a fault.
    Corrupt {
        /// The machine.
        machine: u64,
        /// The value that is written.
        value: u64,
    },
}

/// Why a line is not a request.
#[derive(Debug, PartialEq, Eq)]
pub enum BadRequest {
    /// Its first word is unknown: it is not from a client of this server.
    Word,
    /// The rest is not as it has to be.
    Rest(NotALine),
}

impl From<NotALine> for BadRequest {
    fn from(fault: NotALine) -> BadRequest {
        BadRequest::Rest(fault)
    }
}

impl fmt::Display for BadRequest {
    fn fmt(&self, f: &mut fmt::Formatter<'_>) -> fmt::Result {
        match self {
            BadRequest::Word => f.write_str("syntax"),
            BadRequest::Rest(fault) => fault.fmt(f),
        }
    }
}

/// The request in a line, without its end. `is_operator`: those of operators are read too.
pub fn parse(line: &str, is_operator: bool) -> Result<Request<'_>, BadRequest> {
    let (word, rest) = line.split_once(' ').map_or((line, None), |(word, rest)| (word, Some(rest)));
    match word {
        "acquire" => of_lock_and_number(rest, Verb::Acquire),
        "try" => of_lock_and_number(rest, Verb::Try),
        "release" => of_lock_and_number(rest, Verb::Release),
        "cancel" => Ok(Request::Of(only_name(rest)?, Verb::Cancel)),
        "stats" => Ok(Request::Of(only_name(rest)?, Verb::Stats)),
        "leave" => alone(rest, Request::Leave),
        "ping" => alone(rest, Request::Ping),
        "status" => alone(rest, Request::Status),
        "changes" => Ok(Request::Changes(decimal(rest.unwrap_or(""))?)),
        "session" => {
            let rest = rest.unwrap_or("");
            let key = rest.strip_suffix(" attached");
            Ok(Request::Session(decimal(key.unwrap_or(rest))?, key.is_some()))
        }
        "lease" if rest.is_none() => Ok(Request::GivenLease),
        "lease" => Ok(Request::Lease(Duration::from_millis(decimal(rest.unwrap_or(""))?))),
        "cluster" if is_operator => alone(rest, Request::Cluster),
        "clients" if is_operator => alone(rest, Request::Clients),
        "stop" if is_operator => alone(rest, Request::Stop),
        "end" if is_operator => of_lock_and_number(rest, Verb::End),
        "kick" if is_operator => Ok(Request::Kick(decimal(rest.unwrap_or(""))?)),
        "corrupt" if is_operator => {
            let (name, numbers) = rest.and_then(|rest| rest.split_once(' ')).ok_or(NotALine::Syntax)?;
            let (machine, value) = numbers.split_once(' ').ok_or(NotALine::Syntax)?;
            Ok(Request::Of(name, Verb::Corrupt { machine: decimal(machine)?, value: decimal(value)? }))
        }
        _ => Err(BadRequest::Word),
    }
}

/// The number before a line, if there is one, and the rest.
pub fn numbered(line: &str) -> Result<(Option<u64>, &str), BadRequest> {
    match line.split_once(' ') {
        Some((word, rest)) if word.starts_with(|c: char| c.is_ascii_digit()) => Ok((Some(decimal(word)?), rest)),
        _ => Ok((None, line)),
    }
}

impl Request<'_> {
    /// Whether it is one that the history has.
    pub fn is_input(&self) -> bool {
        matches!(self, Request::Leave)
            || matches!(self, Request::Of(_, verb) if !matches!(verb, Verb::Stats | Verb::End(_)))
    }
}

fn of_lock_and_number(rest: Option<&str>, verb: fn(u64) -> Verb) -> Result<Request<'_>, BadRequest> {
    let (name, number) = rest.and_then(|rest| rest.split_once(' ')).ok_or(NotALine::Syntax)?;
    Ok(Request::Of(name, verb(decimal(number)?)))
}

fn only_name(rest: Option<&str>) -> Result<&str, NotALine> {
    rest.filter(|name| !name.is_empty() && !name.contains(' ')).ok_or(NotALine::Syntax)
}

fn alone<'a>(rest: Option<&str>, request: Request<'a>) -> Result<Request<'a>, BadRequest> {
    rest.map_or(Ok(request), |_| Err(NotALine::Syntax.into()))
}

#[cfg(test)]
mod tests {
    use super::*;

    #[test]
    fn each_request() {
        let lines = [
            ("acquire deploy 7", Request::Of("deploy", Verb::Acquire(7))),
            ("try deploy 0", Request::Of("deploy", Verb::Try(0))),
            ("release deploy 18446744073709551615", Request::Of("deploy", Verb::Release(u64::MAX))),
            ("cancel deploy", Request::Of("deploy", Verb::Cancel)),
            ("stats deploy", Request::Of("deploy", Verb::Stats)),
            ("leave", Request::Leave),
            ("ping", Request::Ping),
            ("status", Request::Status),
            ("lease", Request::GivenLease),
            ("lease 1500", Request::Lease(Duration::from_millis(1500))),
            ("session 18446744073709551615", Request::Session(u64::MAX, false)),
            ("session 7 attached", Request::Session(7, true)),
            ("cluster", Request::Cluster),
            ("clients", Request::Clients),
            ("stop", Request::Stop),
            ("end deploy 7", Request::Of("deploy", Verb::End(7))),
            ("kick 7", Request::Kick(7)),
            ("corrupt deploy 1 2", Request::Of("deploy", Verb::Corrupt { machine: 1, value: 2 })),
        ];
        for (line, request) in lines {
            assert_eq!(parse(line, true), Ok(request));
        }
    }

    #[test]
    fn numbers_in_front() {
        assert_eq!(numbered("12 cancel a"), Ok((Some(12), "cancel a")));
        assert_eq!(numbered("cancel a"), Ok((None, "cancel a")));
        assert_eq!(numbered("12"), Ok((None, "12")));
        assert_eq!(numbered("01 leave"), Err(BadRequest::Rest(NotALine::Syntax)));
        assert_eq!(numbered("18446744073709551616 leave"), Err(BadRequest::Rest(NotALine::Number)));
        let is_input = |line| parse(line, true).unwrap().is_input();
        assert!(["acquire a 1", "try a 1", "release a 1", "cancel a", "corrupt a 1 1", "leave"]
            .into_iter()
            .all(is_input));
        assert!(!["stats a", "ping", "status", "lease 1", "session 1", "stop"].into_iter().any(is_input));
    }

    #[test]
    fn what_only_operators_say() {
        for line in ["corrupt deploy 1 2", "clients", "cluster", "stop", "end deploy 7", "kick 7"] {
            assert_eq!(parse(line, false), Err(BadRequest::Word));
        }
    }

    #[test]
    fn refusals() {
        let rest = |fault| Err(BadRequest::Rest(fault));
        for line in [
            "acquire",
            "acquire a",
            "acquire a x",
            "acquire a 1 2",
            "cancel",
            "cancel ",
            "cancel a b",
            "ping 1",
            "lease ",
            "lease -1",
            "session",
            "session x",
            "session attached",
            "session 7 x",
        ] {
            assert_eq!(parse(line, false), rest(NotALine::Syntax), "{line:?}");
        }
        assert_eq!(parse("acquire a 18446744073709551616", false), rest(NotALine::Number));
        for line in ["", " ", "GET / HTTP/1.1", "acquire\ta 1", "Acquire a 1"] {
            assert_eq!(parse(line, true), Err(BadRequest::Word), "{line:?}");
        }
    }
}
