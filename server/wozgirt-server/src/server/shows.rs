//! What visitors of the page see of what the server is and does.

use super::{Server, PAGE, SHORTEST_TURN, VISITORS};
use crate::certificates::{Certificates, News};
use crate::engine_version::EngineVersion;
use crate::figures::Figures;
use crate::header::BadHeader;
use crate::journal::Journal;
use crate::log::Event;
use crate::pages::{EngineView, Next, View, Visitor};
use crate::shares::Guest;
use crate::stream::Stream;
use std::collections::HashMap;
use std::time::Instant;
use wozgirt_system::{Interest, Poller};

/// How many visitors the page has at once.
pub(super) const MOST_VISITORS: usize = 32;

/// The visitors, and what only they are shown.
pub(super) struct Shows {
    visitors: HashMap<u64, Visitor>,
    last: u64,
    journal: Journal,
    figures: Figures,
    engine_version: EngineVersion,
    certificates: Certificates,
    started: Instant,
}

impl Shows {
    /// Nobody visits.
    pub(super) fn new(engine_version: EngineVersion, certificates: Certificates, now: Instant) -> Shows {
        let (journal, figures) = (Journal::new(now), Figures::new());
        Shows { visitors: HashMap::new(), last: 0, journal, figures, engine_version, certificates, started: now }
    }

    /// A visitor has come: its key, and by when it has to be gone.
    fn let_in(&mut self, stream: Stream, poller: &Poller, now: Instant) -> Option<(u64, Instant)> {
        if self.visitors.len() >= MOST_VISITORS {
            self.send_one_away();
        }
        self.last += 1;
        let key = VISITORS + self.last;
        let visitor = Visitor::new(stream, now);
        poller.add(visitor.stream(), key, Interest::READS).ok()?;
        let deadline = visitor.deadline();
        self.visitors.insert(key, visitor);
        Some((key, deadline))
    }

    /// The visitor whose turn it is makes room for another.
    fn send_one_away(&mut self) {
        if let Some((_, key)) = self.visitors.iter().map(|(key, visitor)| (visitor.turn_to_go(), *key)).min() {
            self.visitors.remove(&key);
        }
    }

    /// Those whose time is over go; by when the next of the others has to be gone.
    pub(super) fn sweep(&mut self, now: Instant) -> Option<Instant> {
        self.visitors.retain(|_, visitor| visitor.deadline() > now);
        self.visitors.values().map(Visitor::deadline).min()
    }
}

impl Server {
    pub(super) fn let_visitors_in(&mut self) {
        for _ in 0..MOST_VISITORS {
            let stream = match self.entrance.accept(PAGE) {
                Ok(Some((stream, _))) => stream,
                Ok(None) => return,
                Err(fault) => return self.shut_doors(&fault),
            };
            if let Some((key, deadline)) = self.shows.let_in(stream, &self.poller, self.desk.now) {
                self.leases.note(deadline);
                self.visit(key); // mostly it has said by now what it wants
            }
        }
    }

    pub(super) fn visit(&mut self, key: u64) {
        let Some(mut visitor) = self.shows.visitors.remove(&key) else { return };
        let journal = self.desk.settings.engine_journal();
        self.shows.journal.look(&journal, self.desk.now);
        self.shows.figures.look(&journal, self.desk.now);
        let until = Instant::now() + SHORTEST_TURN;
        let next = visitor.go_on(&self.view(), until);
        if visitor.take_header() {
            let event = Event::HeaderRefused { who: "a visitor of the page", fault: BadHeader::Place };
            self.desk.log.say_of(&Guest::UNKNOWN, self.desk.now, &event);
        }
        if let Next::Wait(interest) = next {
            if self.poller.change(visitor.stream(), key, interest).is_ok() {
                self.shows.visitors.insert(key, visitor);
            }
        }
    }

    /// Puts into the log which certificates end soon.
    pub(super) fn log_certificates(&mut self) {
        for (path, news) in self.shows.certificates.news(self.desk.now) {
            let file = &path.display();
            match news {
                News::Ends(left) => self.desk.log.say(&Event::CertificateEnds { file, left }),
                News::Unread(why) => self.desk.log.say(&Event::CertificateUnread { file, why: &why }),
            }
        }
    }

    fn view(&self) -> View<'_> {
        View {
            board: &self.desk.board,
            sums: &self.desk.sums,
            connected: self.talks.count(),
            sessions: self.desk.mode.sessions().map_or(0, |counts| counts.all()),
            engine: self.view_of_engine(),
            in_log: self.desk.mode.view(),
            grants: self.desk.grants.as_ref(),
            journal: self.shows.journal.size(),
            figures: &self.shows.figures,
            certificates: self.shows.certificates.files(),
            started: self.shows.started,
            now: self.desk.now,
        }
    }

    fn view_of_engine(&self) -> EngineView<'_> {
        EngineView {
            version: &self.shows.engine_version,
            starts: self.desk.engine.starts(),
            is_ready: self.is_engine_ready(),
            silence: self.desk.engine_silence(),
            is_silent: self.is_engine_silent(),
            waiting_lines: self.desk.waiting_lines(),
        }
    }
}

#[cfg(test)]
mod tests {
    use super::*;
    use std::os::unix::net::UnixStream;
    use std::time::Duration;

    fn come(shows: &mut Shows, poller: &Poller, now: Instant) -> (Option<(u64, Instant)>, UnixStream) {
        let (one, other) = UnixStream::pair().unwrap();
        (shows.let_in(Stream::unix(one).unwrap(), poller, now), other)
    }

    #[test]
    fn there_are_no_more_visitors_than_that_and_none_stays() {
        let (begun, poller) = (Instant::now(), Poller::new().unwrap());
        let mut shows = Shows::new(EngineVersion::of("/nonexistent"), Certificates::watch(&[]).unwrap(), begun);
        let mut others = Vec::new();
        let mut come = |shows: &mut Shows, after: u64| {
            let (come, other) = come(shows, &poller, begun + Duration::from_millis(after));
            others.push(other);
            come.unwrap()
        };
        let keys: Vec<u64> = (0..MOST_VISITORS as u64).map(|after| come(&mut shows, after).0).collect();
        assert_eq!((keys[0], shows.visitors.len()), (VISITORS + 1, MOST_VISITORS));
        let (key, deadline) = come(&mut shows, 50);
        assert!(shows.visitors.contains_key(&key) && !shows.visitors.contains_key(&keys[0]));
        assert_eq!(shows.visitors.len(), MOST_VISITORS);
        assert_eq!(shows.sweep(deadline - Duration::from_millis(1)), Some(deadline));
        assert_eq!((shows.sweep(deadline), shows.visitors.len()), (None, 0));
    }
}
