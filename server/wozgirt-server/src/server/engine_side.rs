//! The engine: started, heard, lost.

use super::{Server, ENGINE, ENGINE_INPUT, REMARKS};
use crate::alone::Start;
use crate::board::Why;
use crate::desk::Unasked;
use crate::engine::{Engine, Outcome, Unheard};
use crate::log::{End, Event};
use crate::mode::Mode;
use crate::questions::Own;
use crate::retention::{self, Removal};
use crate::settings::Settings;
use crate::CannotServe;
use std::io;
use std::process::ExitStatus;
use std::sync::mpsc::Receiver;
use std::time::{Duration, Instant};
use wozgirt_engine::{decimal, Answer, Answered, Input, Lock, NotALine, StateLine, NOBODY};
use wozgirt_system::{lacks_means, Interest, Poller};

/// An engine that leaves a question unanswered for this time is called silent.
const SILENCE: Duration = Duration::from_secs(2);
/// How many times longer it may take to answer when it starts.
const TIMES_AT_START: u32 = 10;

/// Has the poller look at what a process says and takes, by these keys.
pub(super) fn poll_process(poller: &Poller, process: &Engine, output: u64, input: u64) -> io::Result<()> {
    if let (Some(pipe), Some(answers)) = (process.input(), process.output()) {
        poller.add(answers, output, Interest::READS)?;
        poller.add(pipe, input, Interest { reads: false, writes: false })?;
    }
    process.complaints().map_or(Ok(()), |pipe| poller.add(pipe, REMARKS, Interest::READS))
}

/// What is known of the engine's last start.
pub(super) struct EngineSide {
    /// The locks that were held then.
    pub(super) held_before: Vec<Lock>,
    /// When these are given up.
    pub(super) grace_until: Option<Instant>,
    /// Whether it has answered how all locks are.
    pub(super) is_begun: bool,
    /// When it was started, and since when it leaves a question unanswered, if the log says so.
    since: Instant,
    silent_since: Option<Instant>,
    /// Whether the log says that sessions are not kept.
    pub(super) says_unkept: bool,
    /// What becomes of old segments of its journal, if not all are kept.
    removals: Option<Receiver<Removal>>,
}

impl EngineSide {
    /// Before its first start.
    pub(super) fn start(settings: &Settings, now: Instant) -> io::Result<EngineSide> {
        let kept = settings.engine.keep_segments;
        let removals = kept.map(|kept| retention::start(settings.engine_journal(), kept)).transpose()?;
        Ok(EngineSide { removals, ..EngineSide::new(now) })
    }

    fn new(now: Instant) -> EngineSide {
        EngineSide {
            held_before: Vec::new(),
            grace_until: None,
            is_begun: false,
            since: now,
            silent_since: None,
            says_unkept: false,
            removals: None,
        }
    }

    /// It is started now, and what was held stays held until then.
    fn begin(&mut self, now: Instant, grace: Duration) {
        self.since = now;
        self.grace_until = Some(now + grace);
    }

    /// It is gone, and nothing is known of it.
    fn forget(&mut self) {
        self.is_begun = false;
        self.silent_since = None;
        self.held_before.clear();
        self.grace_until = None;
    }

    /// The oldest question without an answer is another one, or there is none: since when it was silent, if the log says so.
    fn answers_again(&mut self, oldest: Option<Instant>) -> Option<Instant> {
        let since = self.silent_since.filter(|since| Some(*since) != oldest)?;
        self.silent_since = None;
        Some(since)
    }

    /// It leaves the question of this time unanswered for long: whether the log does not say so yet.
    fn is_silence_news(&mut self, asked: Instant) -> bool {
        self.silent_since.replace(asked).is_none()
    }
}

impl Server {
    /// What the engine has answered.
    pub(super) fn hear_engine(&mut self) -> Result<(), CannotServe> {
        match self.desk.mode {
            Mode::Alone(_) => {
                self.hear_engine_alone();
                self.note_news(); // as long as those are there who were granted something
                self.write_sessions();
                Ok(())
            }
            Mode::InLog(_) => self.hear_engine_of_cluster(),
        }
    }

    fn hear_engine_alone(&mut self) {
        let lines = match self.desk.engine.read() {
            Ok(lines) => lines,
            Err(Unheard::Ended) if self.is_turning() => return self.desk.engine.give_up(true, self.desk.now),
            Err(Unheard::Ended) => return self.lose_engine(true),
            Err(Unheard::Endless) => return self.give_up_for("a line without an end", Some(NotALine::Syntax)),
        };
        for line in lines.lines() {
            let heard = if self.desk.questions.is_for_state() {
                self.hear_line_of_state(line).map(Ok)
            } else {
                Answered::parse(line).map(|answered| self.answer(answered))
            };
            match heard {
                Ok(Ok(())) => {}
                Ok(Err(Unasked)) => return self.give_up_for(line, None),
                Err(fault) => return self.give_up_for(line, Some(fault)),
            }
        }
    }

    /// One answer, if a line asked for it.
    fn answer(&mut self, Answered { client, answer }: Answered<'_>) -> Result<(), Unasked> {
        if client == NOBODY {
            return self.answer_own(&answer);
        }
        let Some(connection) = self.talks.get_mut(client).filter(|it| it.seat.is_none()) else {
            return self.answer_session(client, &answer);
        };
        if let Some((operator, lock, token)) = self.desk.tell_answer(connection, &answer)? {
            self.tell_ended(operator, client, &lock, token, &answer);
        }
        self.go_on(client);
        Ok(())
    }

    /// The engine said what is not an answer, or no line asked, and is given up.
    fn give_up_for(&mut self, line: &str, fault: Option<NotALine>) {
        let line = line.escape_debug().take(100).collect();
        self.desk.log.say(&Event::EngineUnreadable { line, fault });
        self.lose_engine(false);
    }

    /// The answer to a question of the server's own.
    fn answer_own(&mut self, answer: &Answer<'_>) -> Result<(), Unasked> {
        let own = self.desk.questions.answered(answer, self.desk.now).ok_or(Unasked)?;
        if let Own::End(operator, lock, token, _) = own {
            if matches!(answer, Answer::Released { .. }) {
                self.engine.held_before.retain(|held| *held != lock);
                self.desk.board.left(&lock, NOBODY, Why::Operator);
            }
            self.tell_ended(operator, NOBODY, &lock, token, answer);
        } else if let (Own::Begin(lock), Answer::Stats(stats)) = (own, answer) {
            if self.desk.board.begin(stats, self.desk.now) {
                self.engine.held_before.push(lock);
            }
            self.note_begun();
        }
        Ok(())
    }

    /// A line of the engine's state, when it starts: of its holds those are news that are nobody's, of names that are not in the list.
    fn hear_line_of_state(&mut self, line: &str) -> Result<(), NotALine> {
        if let Some(count) = line.strip_prefix("state ") {
            decimal(count)?;
            self.desk.questions.state_is_over();
            self.note_begun();
        } else if let StateLine::Hold { lock, token, client: NOBODY } = line.parse()? {
            if !self.desk.board.is_listed(&lock) {
                self.desk.board.holds(&lock, NOBODY, token, self.desk.now);
                self.engine.held_before.push(lock);
            }
        }
        Ok(())
    }

    /// If the engine has reported how all locks are, it serves.
    fn note_begun(&mut self) {
        if !self.desk.questions.has_begun() || !self.has_begun() {
            return;
        }
        self.engine.is_begun = true;
        self.desk.engine.note_ready();
        self.desk.log.say(&Event::EngineReady { held: self.engine.held_before.len() });
        if let Some((sessions, held)) = self.desk.alone().map(|it| (it.counts().all(), it.holds().count())) {
            if sessions > 0 {
                self.desk.log.say(&Event::SessionsKept { sessions, held });
            }
        }
        self.talks.touch_all();
    }

    /// Asks the engine each second whether it is there. One that leaves that unanswered for too long is ended. `seen`: all that it
    /// had answered by then was heard.
    pub(super) fn watch_engine(&mut self, seen: Option<Instant>) {
        let now = self.desk.now;
        let Some(seen) = seen else { return };
        if self.desk.mode.in_log().is_some() || self.stopping.is_some() || !self.desk.engine.is_running() {
            return;
        }
        let patience = self.desk.settings.engine.patience;
        if !self.engine.is_begun {
            // it reads its journal first
            return self.end_engine_after(TIMES_AT_START * patience, self.engine.since, seen);
        }
        if self.desk.questions.next_mark().is_some_and(|due| due <= now) {
            self.desk.mark();
        }
        let oldest = self.desk.questions.oldest();
        if let Some(since) = self.engine.answers_again(oldest) {
            let time = now.saturating_duration_since(since);
            self.desk.log.say(&Event::EngineAnswers { time });
        }
        let Some(asked) = oldest else { return };
        if self.is_engine_silent() && self.engine.is_silence_news(asked) {
            self.desk.log.say(&Event::EngineSilent { time: self.desk.engine_silence() });
        }
        self.end_engine_after(patience, asked, seen);
    }

    fn end_engine_after(&mut self, patience: Duration, since: Instant, seen: Instant) {
        let time = seen.saturating_duration_since(since);
        if time > patience {
            self.desk.log.say(&Event::EngineHangs { time });
            self.lose_engine(false);
        }
    }

    /// Whether the engine has left a question unanswered for a while.
    pub(super) fn is_engine_silent(&self) -> bool {
        self.desk.engine_silence() > SILENCE
    }

    /// The engine ended, or has to: all that was held is its past, and every connection hears that by its end.
    pub(super) fn lose_engine(&mut self, is_ended: bool) {
        match self.desk.mode {
            Mode::Alone(_) => self.lose_engine_alone(is_ended),
            Mode::InLog(_) => {
                self.lose_log("it ends", false);
                self.lose_engine_of_cluster(is_ended);
            }
        }
    }

    fn lose_engine_alone(&mut self, is_ended: bool) {
        self.desk.engine.give_up(is_ended, self.desk.now);
        self.part_all(if self.stopping.is_some() { End::Stop } else { End::Engine });
        if let Mode::Alone(alone) = &mut self.desk.mode {
            alone.start = Start::Serving;
        }
        self.desk.board.forget();
        self.desk.questions.forget(self.desk.now);
        self.engine.forget();
    }

    /// Whether it has ended, and whether it is to be started.
    pub(super) fn look_at_engine(&mut self) -> Result<(), CannotServe> {
        match self.desk.mode {
            Mode::Alone(_) => self.look_at_engine_alone()?,
            Mode::InLog(_) => self.look_at_cluster()?,
        }
        let of_log = self.desk.mode.other_process().and_then(Engine::take_lack);
        for fault in self.desk.engine.take_lack().into_iter().chain(of_log) {
            self.desk.log.say(&Event::CannotStart { fault: &fault });
        }
        Ok(())
    }

    fn look_at_engine_alone(&mut self) -> Result<(), CannotServe> {
        let now = self.desk.now;
        let outcome = self.desk.engine.look(self.stopping.is_some(), now)?;
        if !matches!(outcome, Outcome::NotYet) {
            self.log_remarks();
        }
        match outcome {
            Outcome::NotYet => {}
            Outcome::Again(status) if self.is_turning() && status.success() => self.desk.engine.start_at_once(now),
            Outcome::Again(status) => self.desk.log.say(&Event::EngineEnded { status: status.to_string() }),
            Outcome::Over(status) => {
                self.desk.log.say(&Event::EngineEnded { status: status.to_string() });
                return if self.stopping.is_some() { Ok(()) } else { Err(self.engine_ends(status)) };
            }
        }
        if self.stopping.is_some() {
            return Ok(());
        }
        if !self.desk.engine.is_due(now) {
            return Ok(());
        }
        self.desk.engine.lend_files();
        match self.prepare_engine() {
            Err(CannotServe::Sessions(fault)) if self.desk.engine.starts() > 0 && lacks_means(&fault) => {
                self.desk.engine.postpone(fault, now);
                return Ok(());
            }
            other => other?,
        }
        let Some(process) = self.desk.engine.start(now).map_err(CannotServe::Engine)? else { return Ok(()) };
        let grace = self.desk.settings.limits.grace;
        self.desk.log.say(&Event::EngineStarted { process, grace });
        poll_process(&self.poller, &self.desk.engine, ENGINE, ENGINE_INPUT)?;
        self.engine.begin(now, grace);
        self.begin_engine();
        Ok(())
    }

    /// It keeps ending before it is ready, and has said why.
    pub(super) fn engine_ends(&self, status: ExitStatus) -> CannotServe {
        CannotServe::EngineEnds(status, self.desk.engine.last_remark().map(String::from))
    }

    /// Puts into the log which old segments were removed.
    pub(super) fn log_removals(&mut self) {
        for removal in self.engine.removals.iter().flat_map(Receiver::try_iter) {
            match &removal {
                Ok((name, digest)) => self.desk.log.say(&Event::SegmentRemoved { name, digest }),
                Err(fault) => self.desk.log.say(&Event::SegmentsStay { fault }),
            }
        }
    }

    /// Puts into the log what the processes said on their standard errors.
    pub(super) fn log_remarks(&mut self) {
        let desk = &mut self.desk;
        for line in desk.engine.remarks() {
            desk.log.say(&Event::EngineSaid { line: &line });
        }
        let of_log = desk.mode.other_process().map(Engine::remarks);
        for line in of_log.into_iter().flatten() {
            desk.log.say(&Event::LogSaid { line: &line });
        }
    }

    /// A holder of a lock when the engine ended knows by now that it lost it, or its lease is over.
    pub(super) fn end_grace(&mut self) {
        self.engine.grace_until = None;
        self.desk.ask_engine(NOBODY, &Input::Leave);
        for lock in std::mem::take(&mut self.engine.held_before) {
            self.desk.board.left(&lock, NOBODY, Why::Grace);
        }
        self.desk.log.say(&Event::GraceOver);
    }
}

#[cfg(test)]
mod tests {
    use super::*;

    #[test]
    fn a_silence_is_said_once_and_ends_with_another_question() {
        let begun = Instant::now();
        let (mut side, later) = (EngineSide::new(begun), begun + SILENCE);
        assert_eq!((side.answers_again(None), side.is_silence_news(begun)), (None, true));
        assert_eq!((side.answers_again(Some(begun)), side.is_silence_news(begun)), (None, false));
        assert_eq!((side.answers_again(Some(later)), side.answers_again(None)), (Some(begun), None));
        assert!(side.is_silence_news(later));
    }

    #[test]
    fn a_new_start_has_its_own_grace() {
        let begun = Instant::now();
        let mut side = EngineSide::new(begun);
        side.begin(begun + SILENCE, SILENCE);
        (side.is_begun, side.says_unkept) = (true, true);
        side.held_before.push("a".parse().unwrap());
        assert_eq!((side.since, side.grace_until), (begun + SILENCE, Some(begun + 2 * SILENCE)));
        side.forget();
        assert_eq!((side.is_begun, side.grace_until, side.held_before.len()), (false, None, 0));
        assert!(side.says_unkept); // that lasts beyond one start
    }
}
