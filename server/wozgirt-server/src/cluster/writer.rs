//! The entries of this server: what goes into the next one, and when that is written.
//!
//! One entry is on its way at a time, and what comes meanwhile goes into the next one. Where many wait for entries, servers write at
//! the same time: etcd takes what comes together in one step, and grants that come with one server's entry are given back in
//! the next entries of all. The first of the busy servers, by its name, writes when its last entry has come back; the others write
//! when they have read that entry.

use super::entries::{Entry, Line, Server};
use super::Digests;
use std::collections::{BTreeMap, VecDeque};
use std::rc::Rc;
use std::time::{Duration, Instant};

/// How many lines, and bytes, an entry has at most.
const MOST_LINES: usize = 2000;
const MOST_BYTES: usize = 256 << 10;
/// A server whose entries have this many lines is busy.
const MANY_LINES: usize = 4;
/// A busy server's next entry waits until clients, which get answers, have said nothing for this time. At first it waits twice
/// as long, since they have to read them.
const SILENCE: Duration = Duration::from_micros(300);
/// But no longer than this.
const GATHERING: Duration = Duration::from_millis(2);
/// How long a busy server waits for the entry of the first one.
const ROUND: Duration = Duration::from_millis(8);
/// One that has not written for this time is not busy.
const LATELY: Duration = Duration::from_millis(50);

/// The next entry waits.
#[derive(Debug)]
struct Waiting {
    /// For what clients say until then.
    until: Instant,
    /// And no longer than this.
    latest: Instant,
    /// How many lines there were when that was set.
    lines: usize,
}

/// What this server writes into the log.
#[derive(Debug, Default)]
pub struct Writer {
    batch: VecDeque<Line>,
    /// The last entry that was written, and the last that has come back.
    serial: u64,
    returned: u64,
    /// How many lines the last entry had.
    last_lines: usize,
    waiting: Option<Waiting>,
    /// When entries of busy servers came, by their names.
    busy: BTreeMap<Rc<str>, Instant>,
    /// Whether one of the first of them has come since the last entry was written.
    has_beat: bool,
}

impl Writer {
    /// The line goes into the next entry.
    pub fn put(&mut self, line: Line) {
        self.batch.push_back(line);
    }

    /// How many lines wait for an entry.
    pub fn waiting(&self) -> usize {
        self.batch.len()
    }

    /// Whether all that was put has come back.
    pub fn is_idle(&self) -> bool {
        self.batch.is_empty() && self.serial == self.returned
    }

    /// When the next entry is due, if one waits.
    pub fn due(&self) -> Option<Instant> {
        self.waiting.as_ref().filter(|_| !self.batch.is_empty()).map(|waiting| waiting.until)
    }

    /// An entry has come, of this server or another.
    pub fn note(&mut self, entry: &Entry, me: Option<&Server>, now: Instant) {
        if entry.lines.len() >= MANY_LINES {
            self.busy.insert(entry.writer.name.clone(), now);
        }
        self.busy.retain(|_, came| now.saturating_duration_since(*came) < LATELY);
        let name = &entry.writer.name;
        let is_of_first = self.busy.keys().next() == Some(name);
        if Some(&entry.writer) != me {
            if is_of_first {
                self.has_beat = true;
                if self.waiting.is_some() {
                    self.gather(now);
                }
            }
        } else if entry.serial > self.returned {
            self.returned = entry.serial;
            if self.last_lines >= MANY_LINES {
                self.gather(now);
                if !is_of_first && !self.has_beat {
                    self.waiting = Some(Waiting { until: now + ROUND, latest: now + ROUND, lines: usize::MAX });
                }
            }
        }
    }

    fn gather(&mut self, now: Instant) {
        let (until, latest) = (now + 2 * SILENCE, now + GATHERING);
        self.waiting = Some(Waiting { until, latest, lines: self.batch.len() });
    }

    /// The next entry, if there is something to say and it is time.
    pub fn next(&mut self, writer: &Server, told: &Digests, now: Instant) -> Option<Entry> {
        if self.batch.is_empty() || self.serial != self.returned {
            return None;
        }
        if let Some(waiting) = self.waiting.as_mut().filter(|_| self.batch.len() < MOST_LINES) {
            if self.batch.len() > waiting.lines {
                waiting.lines = self.batch.len();
                waiting.until = waiting.latest.min(now + SILENCE);
            }
            if now < waiting.until {
                return None;
            }
        }
        self.waiting = None;
        self.has_beat = false;
        self.serial += 1;
        let lines = self.take();
        self.last_lines = lines.len();
        let (position, digest) = told.last();
        Some(Entry { writer: writer.clone(), serial: self.serial, position, digest: digest.into(), lines })
    }

    /// As much as goes into an entry.
    fn take(&mut self) -> Vec<Line> {
        let (mut lines, mut bytes) = (Vec::new(), 0);
        while lines.len() < MOST_LINES && bytes < MOST_BYTES {
            let Some(line) = self.batch.pop_front() else { break };
            bytes += match &line {
                Line::With(settings) => settings.len(),
                Line::Do(_, _, input) => 100 + input.lock().map_or(0, |lock| lock.len()),
                _ => 100,
            };
            lines.push(line);
        }
        lines
    }
}

#[cfg(test)]
mod tests {
    use super::super::owner::Who;
    use super::*;

    fn server(name: &str) -> Server {
        Server { name: name.into(), incarnation: 1 }
    }

    /// What the server writes at this time.
    fn next(writer: &mut Writer, name: &str, now: Instant) -> Option<Entry> {
        writer.next(&server(name), &Digests::default(), now)
    }

    fn here(key: u64) -> Line {
        Line::Here(key, Who::Unknown)
    }

    fn put(writer: &mut Writer, count: u64) {
        (0..count).for_each(|key| writer.put(here(key)));
    }

    /// An entry of another server, with this many lines.
    fn other(name: &str, count: u64) -> Entry {
        let lines = (0..count).map(here).collect();
        Entry { writer: server(name), serial: 1, position: 0, digest: String::new(), lines }
    }

    #[test]
    fn one_at_a_time_and_at_once_where_few_wait() {
        let (mut writer, now) = (Writer::default(), Instant::now());
        assert!(writer.is_idle() && next(&mut writer, "a", now).is_none());
        put(&mut writer, 1);
        let entry = next(&mut writer, "a", now).unwrap();
        assert_eq!((entry.serial, entry.lines.len()), (1, 1));
        put(&mut writer, 2 * MOST_LINES as u64);
        assert_eq!(next(&mut writer, "a", now + LATELY), None);
        writer.note(&entry, Some(&server("a")), now);
        writer.note(&entry, Some(&server("a")), now);
        assert_eq!(next(&mut writer, "a", now).map(|it| (it.serial, it.lines.len())), Some((2, MOST_LINES)));
        assert!(!writer.is_idle() && writer.due().is_none());
    }

    #[test]
    fn a_busy_server_waits_for_what_clients_say_but_not_long() {
        let (mut writer, now, me) = (Writer::default(), Instant::now(), server("b"));
        put(&mut writer, MANY_LINES as u64);
        let entry = next(&mut writer, "b", now).unwrap();
        writer.note(&other("c", 9), Some(&me), now); // it is not the first
        writer.note(&entry, Some(&me), now);
        put(&mut writer, 1);
        assert_eq!((next(&mut writer, "b", now), writer.due()), (None, Some(now + SILENCE)));
        let mut last = now;
        while next(&mut writer, "b", last).is_none() {
            put(&mut writer, 1);
            last += SILENCE / 2;
        }
        assert!(now + GATHERING <= last && last < now + GATHERING + SILENCE);
        writer.note(&other("b", MANY_LINES as u64), Some(&me), last); // an old one, as after a retry
        assert!(writer.due().is_none());
    }

    #[test]
    fn busy_servers_write_when_the_first_one_has_written() {
        let (mut writer, now, me) = (Writer::default(), Instant::now(), server("b"));
        writer.note(&other("a", 9), Some(&me), now);
        put(&mut writer, MANY_LINES as u64);
        let entry = next(&mut writer, "b", now).unwrap();
        writer.note(&entry, Some(&me), now);
        put(&mut writer, 1);
        assert_eq!((next(&mut writer, "b", now + GATHERING), writer.due()), (None, Some(now + ROUND)));
        writer.note(&other("c", 9), Some(&me), now + GATHERING);
        assert_eq!(writer.due(), Some(now + ROUND));
        writer.note(&other("a", 9), Some(&me), now + GATHERING);
        assert_eq!(writer.due(), Some(now + GATHERING + 2 * SILENCE));
        assert!(next(&mut writer, "b", now + 2 * GATHERING).is_some());
    }

    #[test]
    fn a_first_one_that_is_silent_is_not_waited_for_long() {
        let (mut writer, now, me) = (Writer::default(), Instant::now(), server("b"));
        for (start, is_waited_for) in [(now, true), (now + LATELY, false)] {
            if is_waited_for {
                writer.note(&other("a", 9), Some(&me), start);
            }
            put(&mut writer, MANY_LINES as u64);
            let mut entry = next(&mut writer, "b", start).unwrap();
            entry.writer = me.clone();
            writer.note(&entry, Some(&me), start);
            put(&mut writer, 1);
            let is_written = next(&mut writer, "b", start + GATHERING).is_some();
            assert_eq!(is_written, !is_waited_for);
            if is_waited_for {
                let entry = next(&mut writer, "b", start + ROUND).unwrap();
                writer.note(&entry, Some(&me), start + ROUND);
            }
        }
    }
}
