//! The reading of the command line.

use crate::log::moment;
use crate::options::{Name, OrderName, Verb, COMMANDS, ORDERS};
use crate::places::{places, NoPlace, Place};
use crate::words::{BadWords, Hold, Inquiry, Load, Look, Order, Patience, Words};
use std::ffi::{OsStr, OsString};
use std::os::unix::ffi::OsStrExt;
use std::path::PathBuf;
use std::time::Duration;
use wozgirt_grants::Moment;
use wozgirt_words::{next_word, Word};

/// Where servers are, if no word says it.
#[derive(Debug, Clone)]
pub struct Usual {
    /// The socket of clients.
    pub socket: OsString,
    /// The socket of operators.
    pub operators: OsString,
    /// The folder of the journal.
    pub journal: OsString,
    /// The record of grants, if it is not beside the journal.
    pub grants: Option<OsString>,
}

/// What was read of the options.
struct Reading {
    socket: OsString,
    operators: OsString,
    server_wait: Duration,
    wait: Option<Duration>,
    is_impatient: bool,
    conflict_status: u8,
    label: Option<u64>,
    lease: Option<Duration>,
    kill_after: Duration,
    closes: bool,
    is_of_command_only: bool,
    is_group: bool,
    every: Duration,
    is_json: bool,
    journal: OsString,
    usual_grants: Option<OsString>,
    grants: Vec<PathBuf>,
    engine: String,
    since: Option<Moment>,
    until: Option<Moment>,
    others: Vec<OsString>,
    command: Vec<OsString>,
}

/// Reads the words after the program's name.
pub fn parse(words: impl IntoIterator<Item = OsString>, usual: Usual) -> Result<Words, BadWords> {
    let mut words = words.into_iter();
    let command = match next_word::<Name>(&mut words, []).ok_or(BadWords::None)?? {
        Word::Help => return Ok(Words::Help),
        Word::Version => return Ok(Words::Version),
        Word::Other(word) if word == "help" => return Ok(Words::Help),
        Word::Other(word) => COMMANDS.iter().find(|it| word == it.name).ok_or_else(|| BadWords::Command(text(word)))?,
        Word::Option(_, word, _) => return Err(BadWords::Unknown(word)),
        Word::End => return Err(BadWords::Unknown("--".into())),
    };
    let mut reading = Reading::new(usual);
    reading.is_impatient = command.verb == Verb::Try;
    let is_lock = matches!(command.verb, Verb::Lock | Verb::Try);
    while let Some(word) = next_word(&mut words, command.options()) {
        match word? {
            Word::Help => return Ok(Words::Help),
            Word::Version => return Ok(Words::Version),
            Word::End if is_lock => reading.command = words.by_ref().collect(),
            Word::End => return Err(BadWords::Unknown("--".into())),
            Word::Option(name @ (Name::Since | Name::Until), written, value) => {
                reading.put(name, &value).ok_or_else(|| BadWords::Moment(written, text(value)))?;
            }
            Word::Option(name, written, value) => {
                reading.put(name, &value).ok_or_else(|| BadWords::Value(written, text(value)))?;
            }
            Word::Other(word) if is_lock && !reading.others.is_empty() => {
                reading.command.push(word);
                reading.command.extend(words.by_ref());
            }
            Word::Other(word) => reading.others.push(word),
        }
    }
    reading.words(command.verb)
}

/// A word for a message, or one that only text can be equal to.
fn text(word: OsString) -> String {
    word.to_string_lossy().into_owned()
}

impl Reading {
    fn new(usual: Usual) -> Reading {
        Reading {
            socket: usual.socket,
            operators: usual.operators,
            server_wait: Duration::from_secs(5),
            wait: None,
            is_impatient: false,
            conflict_status: 1,
            label: None,
            lease: None,
            kill_after: Duration::from_secs(5),
            closes: false,
            is_of_command_only: false,
            is_group: false,
            every: Duration::from_secs(10),
            is_json: false,
            journal: usual.journal,
            usual_grants: usual.grants,
            grants: Vec::new(),
            engine: "ring_tool".into(),
            since: None,
            until: None,
            others: Vec::new(),
            command: Vec::new(),
        }
    }

    /// Nothing if it is not a value of this option.
    fn put(&mut self, name: Name, value: &OsStr) -> Option<()> {
        match name {
            Name::Socket => self.socket = value.into(),
            Name::Operators => self.operators = value.into(),
            Name::ServerWait => self.server_wait = seconds(value)?,
            Name::Json => self.is_json = true,
            Name::Every => self.every = seconds(value).filter(|time| !time.is_zero())?,
            Name::Wait => self.wait = Some(seconds(value)?),
            Name::NoWait => self.is_impatient = true,
            Name::ConflictStatus => self.conflict_status = number(value)?,
            Name::Label => self.label = Some(number(value)?),
            Name::Lease => self.lease = Some(seconds(value).filter(|time| time.as_millis() > 0)?),
            Name::KillAfter => self.kill_after = seconds(value)?,
            Name::Close => self.closes = true,
            Name::CommandOnly => self.is_of_command_only = true,
            Name::Group => self.is_group = true,
            Name::Journal => self.journal = value.into(),
            Name::Grants => self.grants.push(value.into()),
            Name::Engine => self.engine = value.to_str()?.into(),
            Name::Since => self.since = Some(moment(value.to_str()?, Moment::now())?),
            Name::Until => self.until = Some(moment(value.to_str()?, Moment::now())?),
        }
        Some(())
    }

    fn words(mut self, verb: Verb) -> Result<Words, BadWords> {
        let mut others = std::mem::take(&mut self.others).into_iter();
        let words = match verb {
            Verb::Bench => self.bench(&mut others)?,
            Verb::Admin => Words::Admin(self.operators.into(), order(&mut others)?),
            Verb::Status => Words::Status(self.look(None, others.next())?),
            Verb::Watch => Words::Status(self.look(Some(self.every), others.next())?),
            Verb::Log => Words::Log(self.inquiry(others.next())?),
            Verb::Lock | Verb::Try => Words::Lock(self.places()?, self.hold(others.next())?),
        };
        others.next().map_or(Ok(words), |word| Err(BadWords::Unknown(text(word))))
    }

    fn places(&self) -> Result<Vec<Place>, BadWords> {
        places(&self.socket).map_err(|why| match why {
            NoPlace::NoText => BadWords::Value("--socket".into(), text(self.socket.clone())),
            NoPlace::Tls(place) => BadWords::Tls(place),
        })
    }

    fn look(&self, every: Option<Duration>, prefix: Option<OsString>) -> Result<Look, BadWords> {
        let prefix = prefix.map_or_else(String::new, text);
        Ok(Look { places: self.places()?, server_wait: self.server_wait, every, prefix, is_json: self.is_json })
    }

    fn inquiry(&self, lock: Option<OsString>) -> Result<Inquiry, BadWords> {
        let beside = || {
            // the folder's own name, without what may follow it
            let mut name = PathBuf::from(&self.journal).components().as_path().as_os_str().to_owned();
            name.push(".grants");
            name
        };
        let usual = || vec![self.usual_grants.clone().unwrap_or_else(beside).into()];
        let records = if self.grants.is_empty() { usual() } else { self.grants.clone() };
        let (journal, program) = (self.journal.clone().into(), self.engine.clone());
        let (since, until, is_json) = (self.since, self.until, self.is_json);
        Ok(Inquiry { journal, records, program, name: lock.map(name).transpose()?, since, until, is_json })
    }

    fn bench(&self, others: &mut impl Iterator<Item = OsString>) -> Result<Words, BadWords> {
        let count = |word: Option<OsString>, usual| match word {
            None => Ok(usual),
            Some(word) => number(&word).filter(|&n| n > 0).ok_or(BadWords::Value("bench".into(), text(word))),
        };
        let (clients, locks) = (count(others.next(), 64)?, count(others.next(), 1)?);
        let time = match others.next() {
            None => Duration::from_secs(3),
            Some(word) => {
                let time = seconds(&word).filter(|time| !time.is_zero());
                time.ok_or(BadWords::Value("bench".into(), text(word)))?
            }
        };
        let mut places = self.places()?;
        let place = places.pop().filter(|_| places.is_empty()).ok_or(BadWords::Several)?;
        Ok(Words::Bench(place, Load { clients, locks, time }))
    }

    fn hold(self, lock: Option<OsString>) -> Result<Hold, BadWords> {
        let patience = match (self.is_impatient, self.wait) {
            (true, Some(_)) => return Err(BadWords::Both),
            (true, None) | (false, Some(Duration::ZERO)) => Patience::None,
            (false, Some(time)) => Patience::For(time),
            (false, None) => Patience::Endless,
        };
        let name = name(lock.ok_or(BadWords::NoName)?)?;
        if self.command.is_empty() {
            return Err(BadWords::NoCommand);
        }
        Ok(Hold {
            name,
            patience,
            server_wait: self.server_wait,
            conflict_status: self.conflict_status,
            label: self.label,
            lease: self.lease,
            kill_after: self.kill_after,
            closes: self.closes,
            is_of_command_only: self.is_of_command_only,
            is_group: self.is_group,
            command: self.command,
        })
    }
}

/// What an operator says.
fn order(words: &mut impl Iterator<Item = OsString>) -> Result<Order, BadWords> {
    let verb = words.next().ok_or(BadWords::Order)?;
    let found = ORDERS.iter().find(|it| verb == it.name()).ok_or(BadWords::Order)?;
    let next_number = |words: &mut dyn Iterator<Item = OsString>| {
        let word = words.next().ok_or(BadWords::Order)?;
        number(&word).ok_or_else(|| BadWords::Value(found.name().into(), text(word)))
    };
    Ok(match found.order {
        OrderName::Clients => Order::Clients,
        OrderName::Cluster => Order::Cluster,
        OrderName::Stop => Order::Stop,
        OrderName::Kick => Order::Kick(next_number(words)?),
        OrderName::End => Order::End(name(words.next().ok_or(BadWords::Order)?)?, next_number(words)?),
        OrderName::Corrupt => {
            let lock = name(words.next().ok_or(BadWords::Order)?)?;
            Order::Corrupt(lock, next_number(words)?, next_number(words)?)
        }
    })
}

/// The name of a lock: one word of a line, so that the line says what was meant.
fn name(word: OsString) -> Result<String, BadWords> {
    let is_name = !word.is_empty() && word.as_bytes().iter().all(u8::is_ascii_graphic);
    let name = text(word);
    if is_name {
        Ok(name)
    } else {
        Err(BadWords::Name(name))
    }
}

fn number<T: std::str::FromStr>(word: &OsStr) -> Option<T> {
    // `parse` would take a sign too
    word.to_str().filter(|word| word.bytes().all(|b| b.is_ascii_digit()))?.parse().ok()
}

/// A time of at most a year.
fn seconds(value: &OsStr) -> Option<Duration> {
    let seconds: f64 = value.to_str()?.parse().ok()?;
    (0.0..=31_536_000.0).contains(&seconds).then(|| Duration::from_secs_f64(seconds))
}

#[cfg(test)]
mod tests {
    use super::*;
    use std::os::unix::ffi::OsStringExt;

    fn usual() -> Usual {
        Usual { socket: "/s".into(), operators: "/o".into(), journal: "/j".into(), grants: None }
    }

    fn read(words: &str) -> Result<Words, BadWords> {
        parse(words.split_whitespace().map(OsString::from), usual())
    }

    fn look(places: &[&str], every: Option<Duration>) -> Words {
        Words::Status(a_look(places, every))
    }

    fn a_look(places: &[&str], every: Option<Duration>) -> Look {
        let places = places.iter().map(|place| crate::places::places(place.as_ref()).unwrap().remove(0)).collect();
        let (prefix, is_json) = (String::new(), false);
        Look { places, server_wait: Duration::from_secs(5), every, prefix, is_json }
    }

    fn hold(words: &str) -> Hold {
        match read(words) {
            Ok(Words::Lock(_, hold)) => hold,
            other => panic!("{other:?}"),
        }
    }

    #[test]
    fn a_lock_and_its_command() {
        let it = hold("lock deploy -- make -j 4 --wait 3");
        assert_eq!((it.name.as_str(), it.patience, it.conflict_status), ("deploy", Patience::Endless, 1));
        assert_eq!(it.command, ["make", "-j", "4", "--wait", "3"]);
        assert_eq!(hold("lock deploy make -j 4").command, ["make", "-j", "4"]);
        let it = hold("lock -w 0.5 -E 9 --label 7 --lease 2 --kill-after 0 -o --group deploy -- true");
        assert_eq!(
            (it.patience, it.conflict_status, it.label),
            (Patience::For(Duration::from_millis(500)), 9, Some(7))
        );
        assert_eq!((it.lease, it.kill_after), (Some(Duration::from_secs(2)), Duration::ZERO));
        assert!(it.closes && it.is_group);
        assert_eq!(hold("lock deploy --no-wait -- true").patience, Patience::None);
        assert_eq!(hold("try deploy -- true").patience, Patience::None);
        assert_eq!((it.server_wait, it.is_of_command_only), (Duration::from_secs(5), false));
        let it = hold("lock --server-wait 0 --command-only deploy -- true");
        assert_eq!((it.server_wait, it.is_of_command_only), (Duration::ZERO, true));
    }

    #[test]
    fn as_with_flock() {
        for words in ["-w0.5 -E9", "--wait=0.5 --conflict-exit-code=9", "--timeout 0.5 -E 9"] {
            let it = hold(&format!("lock {words} deploy -- true -w1"));
            assert_eq!((it.patience, it.conflict_status), (Patience::For(Duration::from_millis(500)), 9), "{words}");
            assert_eq!(it.command, ["true", "-w1"]);
        }
        for words in ["-n", "--nonblock", "--nb", "-w 0", "-w0", "--no-wait"] {
            assert_eq!(hold(&format!("lock {words} deploy true")).patience, Patience::None, "{words}");
        }
    }

    #[test]
    fn words_that_are_no_text() {
        let bytes = |bytes: &[u8]| OsString::from_vec(bytes.into());
        let words = |more: &[&[u8]]| parse(more.iter().map(|word| bytes(word)), usual());
        let found = words(&[b"lock", b"--socket", b"/\xff", b"a", b"--", b"printf", b"\xfe"]);
        let Ok(Words::Lock(places, hold)) = found else { panic!("{found:?}") };
        assert_eq!(places, [Place::Path(bytes(b"/\xff").into())]);
        assert_eq!(hold.command, [bytes(b"printf"), bytes(b"\xfe")]);
        for name in [&b"\xff"[..], b"a 1\nacquire b 5\nping", b"a b", b"", b"a\t", "é".as_bytes()] {
            assert!(matches!(words(&[b"lock", name, b"--", b"true"]), Err(BadWords::Name(_))), "{name:?}");
            assert!(matches!(words(&[b"admin", b"end", name, b"1"]), Err(BadWords::Name(_))), "{name:?}");
        }
        assert!(matches!(words(&[b"lock", b"--wait=\xff", b"a", b"--", b"true"]), Err(BadWords::Value(..))));
        assert!(matches!(words(&[b"status", b"--socket", b"tcp:\xff:1"]), Err(BadWords::Value(..))));
        assert!(
            matches!(words(&[b"status", b"--socket", b"/a,tls:h:1"]), Err(BadWords::Tls(place)) if place == "tls:h:1")
        );
        assert!(matches!(words(&[b"\xff"]), Err(BadWords::Command(_))));
    }

    #[test]
    fn orders() {
        for (words, order) in [
            ("clients", Order::Clients),
            ("cluster", Order::Cluster),
            ("stop", Order::Stop),
            ("kick 7", Order::Kick(7)),
            ("end gpu/0 18446744073709551615", Order::End("gpu/0".into(), u64::MAX)),
            ("corrupt a 1 2", Order::Corrupt("a".into(), 1, 2)),
        ] {
            assert_eq!(read(&format!("admin {words}")), Ok(Words::Admin("/o".into(), order.clone())));
            assert_eq!(read(&format!("admin --operators=/p {words}")), Ok(Words::Admin("/p".into(), order)));
        }
        for words in ["", "jump", "end", "end a", "kick", "corrupt a 1"] {
            assert_eq!(read(&format!("admin {words}")), Err(BadWords::Order), "{words}");
        }
        assert_eq!(read("admin kick x").unwrap_err().to_string(), "kick: bad value `x`");
        assert_eq!(read("admin end a +1").unwrap_err().to_string(), "end: bad value `+1`");
        assert_eq!(read("admin stop now").unwrap_err().to_string(), "`now` has no place here");
        assert_eq!(read("admin --socket /s stop").unwrap_err().to_string(), "`--socket` has no place here");
    }

    #[test]
    fn the_others() {
        assert_eq!(read("status"), Ok(look(&["/s"], None)));
        assert_eq!(read("status --socket /a,tcp:h:1"), Ok(look(&["/a", "tcp:h:1"], None)));
        let of_some = Look { prefix: "order/".into(), is_json: true, ..a_look(&["/s"], None) };
        assert_eq!(read("status order/ --json"), Ok(Words::Status(of_some)));
        assert_eq!(
            read("status --socket /a,tls:h:1").unwrap_err().to_string(),
            "tls:h:1: wozgirt speaks no TLS: name the socket of wozgirt-tunnel@.service, which does"
        );
        assert_eq!(read("watch --every 2 --socket=tcp:h:1"), Ok(look(&["tcp:h:1"], Some(Duration::from_secs(2)))));
        let load = Load { clients: 8, locks: 2, time: Duration::from_secs(1) };
        assert_eq!(read("bench 8 2 1"), Ok(Words::Bench(Place::Path("/s".into()), load)));
        assert_eq!(read("--help"), Ok(Words::Help));
        assert_eq!(read("lock --help"), Ok(Words::Help));
        assert_eq!(read("--version"), Ok(Words::Version));
        assert_eq!(read("lock deploy --version"), Ok(Words::Version));
    }

    fn inquiry(words: &str) -> Inquiry {
        match read(words) {
            Ok(Words::Log(inquiry)) => inquiry,
            other => panic!("{other:?}"),
        }
    }

    #[test]
    fn an_inquiry() {
        let it = inquiry("log");
        assert_eq!((it.journal, it.records, it.program.as_str()), ("/j".into(), vec!["/j.grants".into()], "ring_tool"));
        assert_eq!((it.name, it.since, it.until, it.is_json), (None, None, None, false));
        let it =
            inquiry("log deploy --journal /k/./ --engine e --since 2026-11-24 --until 2026-11-24T14:10:08.5Z --json");
        assert_eq!((it.journal, it.records, it.program.as_str()), ("/k/./".into(), vec!["/k.grants".into()], "e"));
        let time = |text: &str| text.parse().ok();
        assert_eq!((it.name.as_deref(), it.is_json), (Some("deploy"), true));
        assert_eq!((it.since, it.until), (time("2026-11-24T00:00:00.000000Z"), time("2026-11-24T14:10:08.500000Z")));
        assert_eq!(inquiry("log --grants /a --grants=/b").records, [PathBuf::from("/a"), "/b".into()]);
        let usual = Usual { grants: Some("/g".into()), ..usual() };
        let Ok(Words::Log(it)) = parse(["log".into()], usual) else { panic!() };
        assert_eq!(it.records, [PathBuf::from("/g")]);
    }

    #[test]
    fn refusals() {
        for (words, why) in [
            ("", "lock, try, status, watch, log, bench or admin is wanted"),
            ("lcok", "`lcok` is not a command: lock, try, status, watch, log, bench or admin is wanted"),
            ("-w 1 lock deploy -- true", "`-w` has no place here"),
            ("-- lock deploy true", "`--` has no place here"),
            ("status --", "`--` has no place here"),
            ("lock", "NAME is missing"),
            ("lock deploy", "COMMAND is missing"),
            ("lock deploy --", "COMMAND is missing"),
            ("lock --wait", "--wait needs a value"),
            ("lock --wait x deploy -- true", "--wait: bad value `x`"),
            ("lock --wait -1 deploy -- true", "--wait: bad value `-1`"),
            ("lock -n -w 1 deploy -- true", "--wait and --no-wait exclude each other"),
            ("lock --no-wait=1 deploy -- true", "`--no-wait=1` has no place here"),
            ("lock --label +1 deploy -- true", "--label: bad value `+1`"),
            ("lock --operators /o deploy -- true", "`--operators` has no place here"),
            ("bench --server-wait 1", "`--server-wait` has no place here"),
            ("lock --every 1 deploy -- true", "`--every` has no place here"),
            ("status -n", "`-n` has no place here"),
            ("status --since 2h", "`--since` has no place here"),
            ("log --socket /s", "`--socket` has no place here"),
            ("log a b", "`b` has no place here"),
            ("log --since", "--since needs a value"),
            ("status all more", "`more` has no place here"),
            ("bench 0", "bench: bad value `0`"),
            ("bench 1 1 1 1", "`1` has no place here"),
            ("bench --socket /a,/b", "bench measures one server: name it with --socket PLACE"),
        ] {
            assert_eq!(read(words).unwrap_err().to_string(), why, "{words}");
        }
        let why = read("log --until soon").unwrap_err().to_string();
        assert!(
            why.starts_with("--until: bad moment `soon`: a moment is one as 90s, ") && why.ends_with("; in UTC"),
            "{why}"
        );
    }
}
