//! `wozgirt status` and `wozgirt watch`: a table of the locks, or JSON.

use crate::client::{soon, unexpected, Client, Fault};
use crate::connecting::while_starting;
use crate::output::print;
use crate::table::table;
use crate::words::Look;
use crate::CannotDo;
use std::io::{self, IsTerminal};
use std::time::{Duration, Instant};

const HEAD: [&str; 9] = ["LOCK", "STATE", "CLIENT", "LABEL", "TOKEN", "FOR", "WAITING", "HAND-OVERS", "LONGEST WAIT"];
/// What JSON calls the numbers of a lock.
const NUMBERS: [&str; 8] =
    ["client", "label", "token", "held_ms", "waiting", "oldest_wait_ms", "grants", "longest_wait_ms"];
/// How long the table is shown at least.
const PAUSE: Duration = Duration::from_millis(100);
/// How often a server over TCP is asked at least.
const LEAST_LEASE: Duration = Duration::from_secs(1);
/// To the first line, and nothing below it.
const CLEAR: &str = "\x1b[H\x1b[J";

/// For NAME, where a lock was gone before the server had sent its line.
pub const GONE: &str = "*";

/// Of several servers, how long one may take to be there.
const SOON: Duration = Duration::from_secs(2);

/// Prints the table, as the first of the servers knows it that answers; then again when it has changed, and at least so often.
pub fn run(look: &Look) -> Result<(), CannotDo> {
    let there = Instant::now() + look.server_wait;
    let (client, mut lines) = while_starting(there, || first(look))?;
    let clear = if look.every.is_some() && io::stdout().is_terminal() { CLEAR } else { "" };
    let mut watch = Watch { client, seen: 0, is_asked: false };
    loop {
        let text = shown(&lines, look).ok_or_else(|| Fault::Unexpected("a lock that cannot be read".into()))?;
        print(&format!("{clear}{text}"))?;
        let Some(time) = look.every else { return Ok(()) };
        std::thread::sleep(PAUSE.min(time));
        match watch.next(time) {
            Ok(more) => lines = more,
            Err(fault) if look.places.len() == 1 => return Err(fault.into()),
            Err(_) => {
                (watch.client, lines) = first(look)?;
                (watch.seen, watch.is_asked) = (0, false);
            }
        }
    }
}

/// A server that says when its locks have changed.
struct Watch {
    client: Client,
    /// The number of changes when it last said so, and whether it was asked for the next one.
    seen: u64,
    is_asked: bool,
}

impl Watch {
    /// The locks when they have changed, but after such a time at the latest.
    fn next(&mut self, time: Duration) -> Result<Vec<String>, Fault> {
        if !std::mem::replace(&mut self.is_asked, true) {
            self.client.send(&format!("changes {}", self.seen))?;
        }
        // over TCP a client that is silent for a lease is taken for dead
        let lease = if self.client.is_tcp() { LEAST_LEASE } else { time };
        match self.client.line(Some(Instant::now() + time.min(lease))) {
            Ok(line) => self.note(&line).ok_or_else(|| unexpected(line))?,
            Err(fault) if fault.is_late() => {}
            Err(fault) => return Err(fault),
        }
        self.client.send("status")?;
        let mut first = self.client.line(Some(soon(None)))?;
        if self.note(&first).is_some() {
            first = self.client.line(Some(soon(None)))?;
        }
        let count: Option<usize> = first.strip_prefix("status ").and_then(|word| word.parse().ok());
        let count = count.ok_or_else(|| unexpected(first))?;
        (0..count).map(|_| self.client.line(Some(soon(None)))).collect()
    }

    /// The server says that the locks have changed; nothing if it is another line.
    fn note(&mut self, line: &str) -> Option<()> {
        self.seen = line.strip_prefix("changes ")?.parse().ok()?;
        self.is_asked = false;
        Some(())
    }
}

/// The first of the servers that answers, and what it says.
fn first(look: &Look) -> Result<(Client, Vec<String>), Fault> {
    let mut fault = Fault::Nobody;
    for place in &look.places {
        let until = soon((look.places.len() > 1).then(|| Instant::now() + SOON));
        let client = Client::open(place, until);
        let found = client.and_then(|mut client| client.list("status", soon(None)).map(|lines| (client, lines)));
        match found.map_err(Fault::before_an_answer) {
            Ok(found) => return Ok(found),
            // one that may just be starting is waited for, whatever the others say
            Err(other) if !fault.is_of_a_start() => fault = other,
            Err(_) => {}
        }
    }
    Err(fault)
}

/// The lines as they are printed; nothing if one cannot be read.
fn shown(lines: &[String], look: &Look) -> Option<String> {
    let locks = lines.iter().map(|line| words(line)).collect::<Option<Vec<_>>>()?;
    let locks = locks.iter().filter(|[name, ..]| *name != GONE && name.starts_with(&look.prefix));
    if look.is_json {
        let objects = locks.map(object).collect::<Option<Vec<_>>>()?;
        return Some(format!("[{}]\n", objects.join(",")));
    }
    Some(table(&HEAD, &locks.map(row).collect::<Option<Vec<_>>>()?))
}

/// `NAME STATE CLIENT LABEL TOKEN AGE WAITING OLDEST GRANTS LONGEST`, after `lock`.
fn words(line: &str) -> Option<[&str; 10]> {
    line.strip_prefix("lock ")?.split(' ').collect::<Vec<_>>().try_into().ok()
}

/// The cells of a lock.
fn row(
    &[name, state, client, label, token, age, waiting, _oldest, grants, longest]: &[&str; 10],
) -> Option<Vec<String>> {
    let age = if age == "-" { "-".into() } else { time(age)? };
    let cells = [name, state, client, label, token, &age, waiting, grants, &time(longest)?];
    Some(cells.iter().map(|cell| cell.to_string()).collect())
}

/// A lock for a program: what is not known is null. (A name has no byte that JSON writes otherwise.)
fn object(&[name, state, numbers @ ..]: &[&str; 10]) -> Option<String> {
    let mut text = format!("{{\"lock\":\"{name}\",\"state\":\"{state}\"");
    for (key, number) in NUMBERS.iter().zip(numbers) {
        let number = if number == "-" { "null" } else { number.parse::<u64>().ok().map(|_| number)? };
        text += &format!(",\"{key}\":{number}");
    }
    Some(text + "}")
}

fn time(milliseconds: &str) -> Option<String> {
    let milliseconds: u64 = milliseconds.parse().ok()?;
    Some(match milliseconds / 1000 {
        0 => format!("{milliseconds} ms"),
        seconds @ 1..=119 => format!("{seconds}.{} s", milliseconds / 100 % 10),
        seconds @ 120..=7199 => format!("{} min", seconds / 60),
        seconds => format!("{} h {} min", seconds / 3600, seconds / 60 % 60),
    })
}

#[cfg(test)]
mod tests {
    use super::*;

    const LINES: [&str; 3] = [
        "lock deploy held 7 77 12 25 1 15 1 0",
        "lock gpu free - - - - 0 0 0 90061000",
        "lock * free - - - - 0 0 0 0", // it was gone
    ];

    fn shown(prefix: &str, is_json: bool, lines: &[&str]) -> Option<String> {
        let (places, server_wait) = (Vec::new(), Duration::ZERO);
        let look = Look { places, server_wait, every: None, prefix: prefix.into(), is_json };
        super::shown(&lines.iter().map(|line| line.to_string()).collect::<Vec<_>>(), &look)
    }

    #[test]
    fn a_table() {
        let text = "\
LOCK    STATE  CLIENT  LABEL  TOKEN  FOR    WAITING  HAND-OVERS  LONGEST WAIT
deploy  held   7       77     12     25 ms  1        1           0 ms
gpu     free   -       -      -      -      0        0           25 h 1 min
";
        assert_eq!(shown("", false, &LINES).as_deref(), Some(text));
        let of_gpu = shown("g", false, &LINES).unwrap();
        assert!(of_gpu.starts_with("LOCK  STATE") && of_gpu.contains("\ngpu   free") && of_gpu.lines().count() == 2);
        for line in ["lock deploy", "lock deploy held 7 77 12 x 1 15 1 0", "look deploy held 7 77 12 25 1 15 1 0"] {
            assert_eq!(shown("", false, &[line]), None);
        }
    }

    #[test]
    fn json() {
        let deploy = r#"{"lock":"deploy","state":"held","client":7,"label":77,"token":12,"held_ms":25,"waiting":1,"oldest_wait_ms":15,"grants":1,"longest_wait_ms":0}"#;
        let gpu = r#"{"lock":"gpu","state":"free","client":null,"label":null,"token":null,"held_ms":null,"waiting":0,"oldest_wait_ms":0,"grants":0,"longest_wait_ms":90061000}"#;
        assert_eq!(shown("", true, &LINES), Some(format!("[{deploy},{gpu}]\n")));
        assert_eq!(shown("gpu", true, &LINES), Some(format!("[{gpu}]\n")));
        assert_eq!((shown("x", true, &LINES), shown("", true, &[])), (Some("[]\n".into()), Some("[]\n".into())));
        assert_eq!(shown("", true, &["lock deploy held 7 77 12 25 x 15 1 0"]), None);
    }
}
