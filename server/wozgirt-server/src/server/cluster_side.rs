//! One of several servers: it reads the log, its engine does what the log says, and clients get the answers.

use super::checkpoints::check_settings;
use super::engine_side::poll_process;
use super::{Server, ENGINE, ENGINE_INPUT};
use crate::cluster::{list, Block, Effect, Key, Phase, Read, Verdict};
use crate::engine::{Outcome, Unheard};
use crate::log::{End, Event, Log};
use crate::CannotServe;
use std::mem;
use wozgirt_engine::{Answer, Answered, Input, StateLine, NOBODY};

/// The status with which the process that speaks to etcd says that the log is not the one that is asked for.
const LOST: i32 = 4;

impl Server {
    /// Both processes: whether they have ended, and whether they are to be started.
    pub(super) fn look_at_cluster(&mut self) -> Result<(), CannotServe> {
        let (now, is_stopping) = (self.desk.now, self.stopping.is_some());
        let outcome = self.desk.engine.look(is_stopping, now)?;
        if !matches!(outcome, Outcome::NotYet) {
            self.log_remarks();
        }
        self.engine_ended(outcome)?;
        let Some(cluster) = self.desk.mode.in_log_mut() else { return Ok(()) };
        let outcome = cluster.log.look(is_stopping, now)?;
        if !matches!(outcome, Outcome::NotYet) {
            self.log_remarks();
        }
        match outcome {
            Outcome::NotYet => {}
            Outcome::Again(status) | Outcome::Over(status) if status.code() == Some(LOST) && !is_stopping => {
                return Err(CannotServe::LogLost);
            }
            Outcome::Again(status) => self.desk.log.say(&Event::LogEnded { status: status.to_string() }),
            Outcome::Over(status) => {
                self.desk.log.say(&Event::LogEnded { status: status.to_string() });
                return if is_stopping { Ok(()) } else { Err(CannotServe::LogEnds(status)) };
            }
        }
        if is_stopping {
            return Ok(());
        }
        self.start_engine()?;
        self.start_log()
    }

    fn engine_ended(&mut self, outcome: Outcome) -> Result<(), CannotServe> {
        match outcome {
            Outcome::NotYet => {}
            Outcome::Again(status) if status.success() && self.desk.mode.is_saving() => self.save()?,
            Outcome::Again(status) => {
                self.desk.log.say(&Event::EngineEnded { status: status.to_string() });
                if self.desk.mode.in_log().is_some_and(|cluster| cluster.replica.is_restored) {
                    self.lose_engine_of_cluster(true); // it ended badly while it was to end
                }
                self.begin_cluster()?;
            }
            Outcome::Over(status) => {
                self.desk.log.say(&Event::EngineEnded { status: status.to_string() });
                if self.stopping.is_none() {
                    return Err(self.engine_ends(status));
                }
            }
        }
        Ok(())
    }

    /// Starts the engine with the state that it ended with.
    fn start_engine(&mut self) -> Result<(), CannotServe> {
        let desk = &mut self.desk;
        let Some(process) = desk.engine.start(desk.now).map_err(CannotServe::Engine)? else { return Ok(()) };
        let Some(cluster) = desk.mode.in_log_mut() else { return Ok(()) };
        if !cluster.replica.is_restored {
            desk.log.say(&Event::EngineStarted { process, grace: desk.settings.limits.grace });
        }
        poll_process(&self.poller, &desk.engine, ENGINE, ENGINE_INPUT)?;
        for sight in desk.board.locks() {
            desk.engine.ask_line(format_args!("{NOBODY} {}", Input::Stats { lock: sight.lock.clone() }));
        }
        if cluster.replica.saved.1 == 0 {
            desk.engine.ask_line("at 0");
        } else {
            for line in cluster.replica.state.iter().filter(|line| !matches!(line, StateLine::Hold { .. })) {
                desk.engine.ask_line(line);
            }
        }
        desk.engine.ask_line("state");
        Ok(())
    }

    /// What the engine has answered.
    pub(super) fn hear_engine_of_cluster(&mut self) -> Result<(), CannotServe> {
        match self.desk.engine.read() {
            Ok(lines) => {
                for line in lines.lines() {
                    if !self.hear_line(line)? {
                        return Ok(());
                    }
                }
            }
            Err(Unheard::Ended) => {
                if self.desk.mode.is_saving() && self.stopping.is_none() {
                    self.desk.engine.give_up(true, self.desk.now);
                } else {
                    self.lose_engine_of_cluster(true);
                }
            }
            Err(Unheard::Endless) => self.lose_engine_for("a line without an end"),
        }
        self.pump()
    }

    /// One line of the engine. False if it is given up.
    fn hear_line(&mut self, line: &str) -> Result<bool, CannotServe> {
        self.note_news(); // before sessions come that this line is for
        let now = self.desk.now;
        let desk = &mut self.desk;
        let Some(cluster) = desk.mode.in_log_mut() else { return Ok(false) };
        cluster.member.has_answered = true;
        match &mut cluster.replica.phase {
            Phase::Restoring(lines) | Phase::Asking(lines) => {
                let is_last = line.starts_with("state ");
                lines.push(line.into());
                if is_last {
                    self.hear_state()?;
                }
                return Ok(true);
            }
            Phase::Following => {}
            Phase::Ending(_) => {
                self.lose_engine_for(line);
                return Ok(false);
            }
        }
        match cluster.mirror.hear(line, &mut desk.board, now) {
            Ok(effects) => {
                cluster.owns.note_arrivals(&effects);
                for effect in effects {
                    self.tell_effect(effect)?;
                }
                Ok(true)
            }
            Err(_) => {
                self.lose_engine_for(line);
                Ok(false)
            }
        }
    }

    /// The engine has reported its whole state.
    fn hear_state(&mut self) -> Result<(), CannotServe> {
        let Some(cluster) = self.desk.mode.in_log_mut() else { return Ok(()) };
        let phase = mem::replace(&mut cluster.replica.phase, Phase::Following);
        let is_asked = matches!(phase, Phase::Asking(_));
        let (Phase::Restoring(mut lines) | Phase::Asking(mut lines)) = phase else { return Ok(()) };
        let count = lines.pop().and_then(|last| last.strip_prefix("state ").and_then(|count| count.parse().ok()));
        let Some(start) = count.and_then(|count: usize| lines.len().checked_sub(count)) else {
            self.lose_engine_for("state");
            return Ok(());
        };
        let state = lines.split_off(start).iter().map(|line| line.parse()).collect::<Result<Vec<StateLine>, _>>();
        let Ok(state) = state else {
            self.lose_engine_for("state");
            return Ok(());
        };
        if is_asked {
            cluster.replica.phase = Phase::Ending(state);
            self.desk.engine.end();
            return Ok(());
        }
        if state != cluster.replica.state {
            return Err(CannotServe::Restored);
        }
        self.restored(&lines)
    }

    /// The engine has the state of the checkpoint, and has also said this.
    fn restored(&mut self, lines: &[String]) -> Result<(), CannotServe> {
        let desk = &mut self.desk;
        let Some(cluster) = desk.mode.in_log_mut() else { return Ok(()) };
        for line in lines {
            if let Ok(Answered { answer: Answer::Stats(stats), .. }) = Answered::parse(line) {
                desk.board.note_stats(&stats);
            }
        }
        if let (Some(StateLine::At { digest, .. }), false) = (cluster.replica.state.last(), cluster.replica.is_restored)
        {
            cluster.place.done(cluster.applied.position, digest)?;
            cluster.replica.digests.note(cluster.applied.position, digest.clone());
        }
        desk.engine.note_ready();
        if !mem::replace(&mut cluster.replica.is_restored, true) {
            let held = cluster.replica.state.iter().filter(|line| matches!(line, StateLine::Hold { .. })).count();
            desk.log.say(&Event::EngineReady { held });
        }
        self.start_log()?;
        self.pump()
    }

    fn lose_engine_for(&mut self, line: &str) {
        self.desk.log.say(&Event::EngineUnreadable { line: line.into(), fault: None });
        self.lose_engine_of_cluster(false);
    }

    /// The engine is gone: it begins again at the checkpoint, and so has the log to be read again from there.
    pub(super) fn lose_engine_of_cluster(&mut self, is_ended: bool) {
        self.desk.engine.give_up(is_ended, self.desk.now);
        if self.stopping.is_some() {
            return self.part_all(End::Stop);
        }
        self.part_all(End::Engine);
        self.leave_log(false);
        if let Some(cluster) = self.desk.mode.in_log_mut() {
            cluster.begin_again();
        }
    }

    /// Gives the engine what is there of the log. How far that was read is written before a client gets an answer that comes of it.
    pub(super) fn pump(&mut self) -> Result<(), CannotServe> {
        loop {
            let waiting = self.desk.engine.waiting();
            let now = self.desk.now;
            let Some(cluster) = self.desk.mode.in_log_mut() else { return Ok(()) };
            let Some(read) = cluster.next_read(waiting) else { return Ok(cluster.place.write(now)?) };
            cluster.place.read(read.position, read.revision)?;
            self.give(read)?;
        }
    }

    /// Gives the engine one entry.
    fn give(&mut self, read: Read) -> Result<(), CannotServe> {
        let desk = &mut self.desk;
        let Some(cluster) = desk.mode.in_log_mut() else { return Ok(()) };
        let Read { position, revision, entry } = read;
        let is_first = cluster.applied.settings.is_none();
        let lost = entry.iter().flat_map(|entry| cluster.sessions_lost_by(entry)).collect::<Vec<_>>();
        let step = cluster.applied.apply(position, revision, entry.as_ref());
        if let (true, Some(settings)) = (step.has_more_locks, &cluster.applied.settings) {
            check_settings(cluster, settings)?; // one that begins with others is not heard
        }
        if let (true, Some(settings)) = (is_first, cluster.applied.settings.clone()) {
            check_settings(cluster, &settings)?;
            cluster.place.note_settings(&settings)?;
            if list(&settings) != cluster.list {
                self.lose_engine_of_cluster(false); // it begins again, with the list of the log
                return Ok(());
            }
        }
        if step.is_taken {
            lost.into_iter().for_each(|session| cluster.owns.note_end_with_server(session));
        }
        let is_own = entry.as_ref().is_some_and(|entry| Some(&entry.writer) == cluster.member.me.as_ref());
        for given in step.given {
            let line = given.to_string();
            if !line.is_empty() {
                desk.engine.ask_line(line);
            }
            cluster.give(given, is_own);
        }
        desk.engine.ask_line(format_args!("at {position}"));
        cluster.mirror.give_at(position);
        if step.is_checkpoint {
            desk.engine.ask_line("state");
        }
        let claim = entry.filter(|_| step.is_taken && !is_own);
        let claim = claim.map(|entry| (entry.writer.name, entry.position, entry.digest));
        cluster.replica.blocks.push_back(Block { claim, is_checkpoint: step.is_checkpoint });
        for server in &step.over {
            desk.log.say(&Event::ServerOver { server, position });
        }
        let (moved, is_over) = (cluster.lose_sessions(&step.moved), cluster.is_among(&step.over));
        for client in moved {
            self.part(client, End::Moved);
        }
        if is_over {
            self.lose_log("another server has declared it over", false);
        }
        Ok(())
    }

    /// Sends the answers of the engine to those that they concern.
    fn tell_effect(&mut self, effect: Effect<'_>) -> Result<(), CannotServe> {
        self.note_news(); // as long as it is known whose they are
        let (desk, talks) = (&mut self.desk, &mut self.talks);
        let Some(cluster) = desk.mode.in_log_mut() else { return Ok(()) };
        let client = match &effect {
            Effect::Done { position, digest } => {
                return match cluster.done(*position, digest)? {
                    Some((name, claimed, verdict)) => judge(&mut desk.log, &name, claimed, &verdict),
                    None => Ok(()),
                };
            }
            Effect::Left(session, _) => {
                cluster.owns.forget(*session);
                return Ok(());
            }
            Effect::Here(key, _) => {
                let key = *key;
                return self.opened(key, effect);
            }
            Effect::Closed(key) => {
                let client = cluster.owns.opening.pop_front();
                client.map(|client| cluster.owns.go(*key, client));
                client
            }
            Effect::Gone(key) => cluster.owns.client(*key),
            Effect::Granted { session, .. } => cluster.owns.client_of(*session),
            Effect::Answered { session, input, answer, .. } => {
                if let (&Input::Corrupt { ref lock, machine, value }, &Answer::Corrupted { old, .. }) = (input, answer)
                {
                    desk.log.say(&Event::Fault { client: *session, who: "a session", lock, machine, value, old });
                }
                cluster.owns.client_of(*session)
            }
        };
        let Some(connection) = client.and_then(|client| talks.get_mut(client)) else { return Ok(()) };
        match effect {
            Effect::Answered { number, answer, .. } => desk.tell_numbered(connection, number, &answer),
            Effect::Granted { lock, token, .. } => desk.tell_grant(connection, lock, token),
            Effect::Closed(_) if connection.is_opening() => desk.tell_closed(connection),
            Effect::Closed(_) => {
                // its session was over, and by now is somebody else's: what it has asked since has no answer
                let client = connection.client;
                self.part(client, End::Moved);
                return Ok(());
            }
            Effect::Gone(_) => desk.tell_left(connection),
            Effect::Here(..) | Effect::Left(..) | Effect::Done { .. } => {}
        }
        let client = connection.client;
        self.go_on(client);
        Ok(())
    }

    /// The session has come here. A client may have come twice, and gets what it has where it came last.
    fn opened(&mut self, key: Key, effect: Effect<'_>) -> Result<(), CannotServe> {
        let (now, lease) = (self.desk.now, self.desk.settings.limits.longest_lease);
        let Some(cluster) = self.desk.mode.in_log_mut() else { return Ok(()) };
        let (Some(client), Effect::Here(_, session)) = (cluster.owns.opening.pop_front(), effect) else {
            return Ok(());
        };
        let Some(connection) = self.talks.get_mut(client) else {
            cluster.owns.await_gone(key, now + lease);
            return Ok(());
        };
        if !connection.is_opening() {
            return Ok(()); // it has left before, and begins again
        }
        let before = cluster.owns.come(key, connection.identity(), client);
        self.desk.tell_here(connection, session);
        if let Some(before) = before.filter(|before| *before != client) {
            self.part(before, End::Moved);
        }
        self.go_on(client);
        Ok(())
    }

    /// Ends both processes when all that was asked is answered.
    pub(super) fn stop_cluster(&mut self) {
        let Some(cluster) = self.desk.mode.in_log_mut() else { return };
        if cluster.is_idle() || cluster.member.me.is_none() {
            cluster.log.end();
            self.desk.engine.end();
        }
    }
}

/// What comes of the digest that a server of this name has claimed for a position.
fn judge(log: &mut Log, name: &str, position: u64, verdict: &Verdict) -> Result<(), CannotServe> {
    if !matches!(verdict, Verdict::Nothing) {
        log.say(&Event::Contradiction { name, position });
    }
    match verdict {
        Verdict::Nothing | Verdict::Other => Ok(()),
        Verdict::Damaged => Err(CannotServe::Contradicted(position)),
    }
}
