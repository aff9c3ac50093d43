//! `engine-double holds FOLDER`: the holds of a folder that the double has written, in the lines of `ring_tool holds`. It judges nothing.

use crate::journal::{listed, segments};
use crate::ring::{CARRIED, HOLD, LEFT, RELEASED};
use std::collections::BTreeMap;
use std::fmt::Write as _;
use std::fs;
use std::io;
use std::path::Path;
use wozgirt_engine::decimal;

/// A hold, as far as it was read.
struct Held {
    name: String,
    token: u64,
    /// The label and the number of events before the grant, unless that is in no file.
    begun: Option<(u64, u64)>,
    /// How it ended, and the number of events before that.
    ended: Option<(&'static str, u64)>,
}

/// One ring.
#[derive(Default)]
struct Ring {
    /// Its lock, and the numbers with which it got that: its last grant's, and that of all grants.
    name: String,
    before: u64,
    floor: u64,
    events: u64,
    holds: Vec<Held>,
}

impl Ring {
    fn token(&self, number: u64) -> u64 {
        self.floor + number - self.before
    }

    fn open(&mut self) -> Option<&mut Held> {
        self.holds.last_mut().filter(|held| held.ended.is_none())
    }

    fn call(&mut self, words: &[&str]) -> Option<()> {
        let number = |i: usize| words.get(i).and_then(|word| decimal(word).ok());
        let (kind, seat, events) = (*words.get(1)?, number(2)?, self.events);
        self.events += u64::from(kind != "s");
        match (kind, seat) {
            ("p", HOLD) => {
                let (name, token) = (self.name.clone(), self.token(number(6)?));
                self.holds.push(Held { name, token, begun: Some((number(4)?, events)), ended: None });
            }
            ("p", CARRIED) if self.open().is_none() => {
                let (name, token) = (self.name.clone(), self.token(number(4)?));
                self.holds.push(Held { name, token, begun: None, ended: None });
            }
            ("s", RELEASED | LEFT) => {
                let how = if seat == RELEASED { "released" } else { "left" };
                self.open()?.ended = Some((how, events));
            }
            _ => {}
        }
        Some(())
    }
}

fn wrong(line: &str) -> io::Error {
    io::Error::new(io::ErrorKind::InvalidData, format!("a line is wrong: {line}"))
}

/// The lines.
pub fn of(folder: &Path) -> io::Result<String> {
    let list = fs::read_to_string(folder.join("locks"))?.trim().replace('\n', ",");
    let (names, _) = listed(&list, 1).ok_or_else(|| wrong("locks"))?;
    let mut rings: BTreeMap<u64, Ring> = BTreeMap::new();
    for (number, (name, ..)) in names.iter().enumerate() {
        rings.insert(number as u64, Ring { name: name.to_string(), ..Ring::default() });
    }
    for segment in segments(folder)? {
        let text = fs::read_to_string(segment)?;
        let whole = &text[..text.rfind('\n').map_or(0, |end| end + 1)];
        let calls = whole.split_once("\ndone ").map_or("", |(_, calls)| calls);
        for line in calls.lines().skip(1) {
            hear(&mut rings, line).ok_or_else(|| wrong(line))?;
        }
    }
    Ok(rings.values().flat_map(|ring| &ring.holds).fold(String::new(), |mut text, held| {
        let begun = held.begun.map_or("label - from -".into(), |(label, from)| format!("label {label} from {from}"));
        let ended = held.ended.map_or("- open".into(), |(how, to)| format!("{to} {how}"));
        let _ = writeln!(text, "lock {} token {} {begun} to {ended}", held.name, held.token); // a String takes all
        text
    }))
}

fn hear(rings: &mut BTreeMap<u64, Ring>, line: &str) -> Option<()> {
    let words: Vec<&str> = line.split(' ').collect();
    match words[..] {
        ["#", "name", ring, before, floor, name] => {
            let ring = rings.entry(decimal(ring).ok()?).or_default();
            (ring.name, ring.before, ring.floor) = (name.into(), decimal(before).ok()?, decimal(floor).ok()?);
            Some(())
        }
        ["#", ..] => Some(()),
        [ring, ..] => rings.entry(decimal(ring).ok()?).or_default().call(&words),
        [] => None,
    }
}
