//! `wozgirt admin`: what operators say to a server, over the socket that is theirs.

use crate::client::{soon, unexpected, Client, Fault};
use crate::output::print;
use crate::places::Place;
use crate::table::table;
use crate::words::Order;
use crate::CannotDo;
use std::path::Path;

const HEAD: [&str; 5] = ["CLIENT", "LEASE", "HOLDS", "WAITS FOR", "WHO"];

/// Says it, and prints the answer.
pub fn run(operators: &Path, order: &Order) -> Result<(), CannotDo> {
    let mut client = Client::open(&Place::Path(operators.into()), soon(None))?;
    let text = match order {
        Order::Clients => {
            let lines = client.list("clients", soon(None))?;
            let rows = lines.iter().map(|line| row(line)).collect::<Option<Vec<_>>>();
            table(&HEAD, &rows.ok_or_else(|| Fault::Unexpected("a client that cannot be read".into()))?)
        }
        order => {
            client.send(&question(order))?;
            let line = client.line(Some(soon(None)))?;
            if !is_answer(&line, order) {
                return Err(match why(&line, order) {
                    Some(why) => CannotDo::Refused(unexpected(line), why),
                    None => unexpected(line).into(),
                });
            }
            line + "\n"
        }
    };
    Ok(print(&text)?)
}

fn question(order: &Order) -> String {
    match order {
        Order::Clients => "clients".into(),
        Order::Cluster => "cluster".into(),
        Order::Stop => "stop".into(),
        Order::Kick(client) => format!("kick {client}"),
        Order::End(lock, token) => format!("end {lock} {token}"),
        Order::Corrupt(lock, machine, value) => format!("corrupt {lock} {machine} {value}"),
    }
}

/// Whether the line says that just this was done.
fn is_answer(line: &str, order: &Order) -> bool {
    match order {
        Order::Clients => false,
        Order::Cluster => line.starts_with("cluster "),
        Order::Stop => line == "stopping",
        Order::Kick(client) => line == format!("kicked {client}"),
        Order::End(lock, _) => line == format!("ended {lock}"),
        Order::Corrupt(lock, ..) => {
            let old = line.strip_prefix("corrupted ").and_then(|rest| rest.strip_prefix(lock.as_str()));
            old.and_then(|old| old.strip_prefix(' ')).is_some_and(|old| old.parse::<u64>().is_ok())
        }
    }
}

/// What a refusal means, if its words do not say it.
fn why(line: &str, order: &Order) -> Option<String> {
    Some(match (line.strip_prefix("refused ")?.split(' ').next()?, order) {
        ("holder", Order::End(lock, token)) => format!("no client holds {lock} with the token {token}"),
        ("client", Order::Kick(client)) => format!("there is no client {client}"),
        ("lock", Order::End(lock, _) | Order::Corrupt(lock, ..)) => format!("there is no lock {lock}"),
        ("off", Order::Corrupt(..)) => "the server was started without --faults".into(),
        ("cluster", Order::Cluster) => "this server runs without --etcd".into(),
        ("syntax", _) => "this server does not know that".into(),
        _ => return None,
    })
}

/// The cells of `client NUMBER LEASE HOLDS WAITS WHO`.
fn row(line: &str) -> Option<Vec<String>> {
    let mut words = line.splitn(6, ' ');
    let (_, number) = (words.next().filter(|word| *word == "client")?, words.next()?);
    let lease: u64 = words.next()?.parse().ok()?;
    let lease = if lease == 0 { "-".into() } else { format!("{} s", lease as f64 / 1000.0) };
    let cells = [number, &lease, words.next()?, words.next()?, words.next()?];
    Some(cells.iter().map(|cell| cell.to_string()).collect())
}

#[cfg(test)]
mod tests {
    use super::*;

    #[test]
    fn clients() {
        let cells = row("client 12 1500 a,b - alice, process 27114").unwrap();
        assert_eq!(cells, ["12", "1.5 s", "a,b", "-", "alice, process 27114"]);
        assert_eq!(row("client 12 0 - a root").unwrap()[1], "-");
        for line in ["client 12 0 - -", "client 12 x - - root", "lock 12 0 - - root", ""] {
            assert_eq!(row(line), None, "{line}");
        }
    }

    #[test]
    fn answers_are_of_the_question() {
        let end = Order::End("a".into(), 7);
        assert!(is_answer("ended a", &end) && !is_answer("ended b", &end) && !is_answer("kicked 7", &end));
        assert!(is_answer("kicked 7", &Order::Kick(7)) && !is_answer("kicked 77", &Order::Kick(7)));
        let corrupt = Order::Corrupt("a".into(), 1, 2);
        assert!(is_answer("corrupted a 5", &corrupt) && !is_answer("corrupted ab 5", &corrupt));
        assert!(is_answer("stopping", &Order::Stop) && !is_answer("pong", &Order::Stop));
        assert_eq!(why("refused holder a", &end).unwrap(), "no client holds a with the token 7");
        assert_eq!((why("refused full a", &end), why("ended b", &end)), (None, None));
    }
}
