//! One visitor of the page.

use super::http::{head, health, part, refusal, request, Asked, Wanted};
use super::{Telling, View};
use crate::header;
use crate::outbox::Outbox;
use crate::stream::Stream;
use std::io::{self, ErrorKind, Read};
use std::time::{Duration, Instant};
use wozgirt_system::Interest;

/// How long a visit lasts at most, and how much of that a visitor has to say what it wants.
const LONGEST_VISIT: Duration = Duration::from_secs(10);
const LONGEST_ASKING: Duration = Duration::from_secs(3);
/// How many bytes of an answer wait to be written.
const MOST_AHEAD: usize = 16 << 10;
const READ: usize = 2048;

/// A visitor: it asks once, and is answered once.
pub struct Visitor {
    stream: Stream,
    since: Instant,
    input: Vec<u8>,
    outbox: Outbox,
    has_asked: bool,
    /// What is still to be sent.
    telling: Option<(Asked, Telling)>,
    /// Since when it takes nothing of what is sent to it.
    stuck: Option<Instant>,
    /// It was refused, and may say more, as the body of a request; and it has this answer by now.
    is_refused: bool,
    is_done: bool,
    /// It began as a proxy does, which is to be logged.
    has_header: bool,
}

/// What is to be done with a visitor.
#[derive(Debug, PartialEq, Eq)]
pub enum Next {
    /// To wait for this.
    Wait(Interest),
    /// To let it go.
    Close,
}

impl Visitor {
    /// A new visitor.
    pub fn new(stream: Stream, now: Instant) -> Visitor {
        Visitor {
            stream,
            since: now,
            input: Vec::new(),
            outbox: Outbox::default(),
            has_asked: false,
            telling: None,
            stuck: None,
            is_refused: false,
            is_done: false,
            has_header: false,
        }
    }

    /// Its socket.
    pub fn stream(&self) -> &Stream {
        &self.stream
    }

    /// Whether it has said who it is as a proxy does, where that is not asked: once.
    pub fn take_header(&mut self) -> bool {
        std::mem::take(&mut self.has_header)
    }

    /// When it has taken too long.
    pub fn deadline(&self) -> Instant {
        self.since + if self.has_asked && !self.is_done { LONGEST_VISIT } else { LONGEST_ASKING }
    }

    /// Which visitor goes first if there are too many: the smaller it is, the sooner. One that does not read its answer, or has it, keeps
    /// no place from others; then one goes that has said nothing, and then the one that is here longest.
    pub fn turn_to_go(&self) -> (u8, Instant) {
        if let Some(since) = self.stuck.or(self.is_done.then_some(self.since)) {
            return (0, since);
        }
        (if self.has_asked { 2 } else { 1 }, self.since)
    }

    /// Reads and writes what can be until this time.
    pub fn go_on(&mut self, view: &View<'_>, until: Instant) -> Next {
        self.try_to_go_on(view, until).unwrap_or(Next::Close)
    }

    fn try_to_go_on(&mut self, view: &View<'_>, until: Instant) -> io::Result<Next> {
        if self.is_done {
            return Ok(self.drain_all());
        }
        if !self.has_asked && !self.hear(view)? {
            return Ok(Next::Wait(Interest::READS));
        }
        loop {
            self.tell(view, until);
            let is_any = self.outbox.write_to(&mut self.stream)?;
            if self.telling.is_none() && self.outbox.is_empty() {
                return self.end();
            }
            self.stuck = match self.stuck {
                _ if self.outbox.is_empty() => None,
                Some(since) if !is_any => Some(since),
                _ => Some(view.now),
            };
            if !self.outbox.is_empty() || Instant::now() >= until {
                return Ok(Next::Wait(Interest { reads: false, writes: true }));
            }
        }
    }

    /// Whether it has said what it wants.
    fn hear(&mut self, view: &View<'_>) -> io::Result<bool> {
        let mut bytes = [0; READ];
        match self.stream.read(&mut bytes) {
            Ok(0) => return Err(ErrorKind::UnexpectedEof.into()),
            Ok(count) => self.input.extend_from_slice(&bytes[..count]),
            Err(fault) if matches!(fault.kind(), ErrorKind::WouldBlock | ErrorKind::Interrupted) => {}
            Err(fault) => return Err(fault),
        }
        let Some(request) = request(&self.input) else { return Ok(false) };
        self.has_asked = true;
        self.has_header = header::is_one(&self.input);
        self.input = Vec::new();
        let text = match request {
            Ok(Asked { wanted: Wanted::Health, has_body, .. }) => health(view.is_well(), has_body),
            Ok(asked) => {
                self.telling = asked.has_body.then(|| (asked, Telling::new(asked.wanted)));
                head(asked)
            }
            Err(refused) => {
                self.is_refused = true;
                refusal(refused)
            }
        };
        self.outbox.bytes().extend_from_slice(text.as_bytes());
        Ok(true)
    }

    fn tell(&mut self, view: &View<'_>, until: Instant) {
        let Some((asked, telling)) = self.telling.as_mut().filter(|_| self.outbox.len() < MOST_AHEAD) else { return };
        let mut text = String::new();
        let is_last = telling.go_on(&mut text, view, MOST_AHEAD, until);
        self.outbox.bytes().extend_from_slice(part(*asked, &text, is_last).as_bytes());
        if is_last {
            self.telling = None;
        }
    }

    /// It has its answer. What it still says is read, for a while: a socket that is closed with something unread takes back the answer.
    fn end(&mut self) -> io::Result<Next> {
        let next = self.drain_all();
        if !self.is_refused {
            return Ok(Next::Close);
        }
        self.is_done = true;
        self.stream.end_writing()?;
        Ok(next)
    }

    /// Reads what is there of what it says, and whether that is all.
    fn drain_all(&mut self) -> Next {
        for _ in 0..8 {
            match self.stream.read(&mut [0; READ]) {
                Ok(count) if count > 0 => {}
                Err(fault) if matches!(fault.kind(), ErrorKind::WouldBlock | ErrorKind::Interrupted) => break,
                _ => return Next::Close,
            }
        }
        Next::Wait(Interest::READS)
    }
}
