//! The log that several servers have: read, written, lost.

use super::engine_side::poll_process;
use super::{Server, LOG, LOG_INPUT};
use crate::cluster::{Cluster, Told};
use crate::engine::Unheard;
use crate::log::{End, Event};
use crate::CannotServe;
use std::mem;
use wozgirt_system::Interest;

impl Server {
    /// Starts the process that speaks to etcd, if the engine is ready.
    pub(super) fn start_log(&mut self) -> Result<(), CannotServe> {
        let desk = &mut self.desk;
        let Some(cluster) = desk.mode.in_log_mut().filter(|cluster| cluster.replica.is_restored) else { return Ok(()) };
        let Some(process) = cluster.log.start(desk.now).map_err(CannotServe::Log)? else { return Ok(()) };
        desk.log.say(&Event::LogStarted { process });
        cluster.log.ask_line(cluster.known());
        poll_process(&self.poller, &cluster.log, LOG, LOG_INPUT)?;
        cluster.reading.begin();
        Ok(())
    }

    /// This server cannot be in the log any more as it was: it begins there again, as another.
    pub(super) fn lose_log(&mut self, why: &str, is_ended: bool) {
        if self.stopping.is_none() {
            self.desk.log.say(&Event::LogLeft { why });
            self.part_all(End::Log);
        }
        self.leave_log(is_ended);
    }

    pub(super) fn leave_log(&mut self, is_ended: bool) {
        let now = self.desk.now;
        if let Some(cluster) = self.desk.mode.in_log_mut() {
            cluster.leave();
            cluster.log.give_up(is_ended, now);
        }
    }

    /// What the log has reported.
    pub(super) fn hear_log(&mut self) -> Result<(), CannotServe> {
        let Some(cluster) = self.desk.mode.in_log_mut() else { return Ok(()) };
        match cluster.log.read() {
            Ok(lines) => {
                for line in lines.lines() {
                    if !self.hear_log_line(line)? {
                        return Ok(());
                    }
                }
            }
            Err(Unheard::Ended) => self.lose_log("wozgirt-log ends", true),
            Err(Unheard::Endless) => {
                self.desk.log.say(&Event::LogUnreadable { line: "a line without an end" });
                self.lose_log("wozgirt-log is given up", false);
            }
        }
        self.pump()
    }

    /// One line of it. False if nothing more of it is heard.
    fn hear_log_line(&mut self, line: &str) -> Result<bool, CannotServe> {
        let desk = &mut self.desk;
        let Some(cluster) = desk.mode.in_log_mut() else { return Ok(false) };
        let is_right = match line.parse() {
            Ok(Told::Log { identity, incarnation }) => return self.join_log(identity, incarnation).map(|()| true),
            Ok(Told::Entry { position, revision, text }) => {
                cluster.receive(position, revision, &text, desk.now).is_some()
            }
            Ok(Told::Alive(servers)) => {
                let is_alive = cluster.member.me.as_ref().map_or(true, |me| servers.contains(me));
                cluster.member.alive = Some(servers);
                if !is_alive {
                    self.lose_log("its lease in etcd is over", false);
                    return Ok(false);
                }
                true
            }
            Ok(Told::Kept(number)) => {
                let lease = desk.settings.cluster.as_ref().map(|words| words.host_lease);
                if cluster.member.kept(number, lease) {
                    self.talks.touch_all(); // now they are read
                }
                return Ok(true);
            }
            Ok(Told::Other(why)) => return Err(CannotServe::OtherLog(why)),
            Ok(Told::Gone(why)) => return Err(CannotServe::LogGone(why)),
            Ok(Told::Taken(incarnation)) => return Err(CannotServe::NameTaken(incarnation)),
            Ok(Told::Full) => return Ok(self.fill_log()),
            Ok(Told::Away { name, seconds }) => {
                desk.log.say(&Event::HostAway { name: &name, seconds });
                true
            }
            Err(_) => false,
        };
        if !is_right {
            desk.log.say(&Event::LogUnreadable { line: line.get(..100).unwrap_or(line) });
            self.lose_log("wozgirt-log is given up", false);
        }
        Ok(is_right)
    }

    fn join_log(&mut self, identity: String, incarnation: u64) -> Result<(), CannotServe> {
        let desk = &mut self.desk;
        let (Some(cluster), Some(words)) = (desk.mode.in_log_mut(), &desk.settings.cluster) else { return Ok(()) };
        cluster.place.join(&identity, incarnation)??;
        cluster.reading.is_full = false;
        let (position, revision) = (cluster.applied.position, cluster.applied.revision);
        let server = crate::cluster::Server { name: words.name.as_str().into(), incarnation };
        desk.log.say(&Event::LogJoined { identity: &identity, server: &server, position });
        cluster.log.note_ready();
        cluster.log.ask_line(format_args!("follow {position} {revision}"));
        cluster.join(server);
        cluster.say_alive(desk.now);
        Ok(())
    }

    /// etcd has no room for entries, so nothing can be put into the log until an operator makes some. False: nothing more is heard of it.
    fn fill_log(&mut self) -> bool {
        let Some(cluster) = self.desk.mode.in_log_mut() else { return false };
        let (was_full, is_in_log) = (mem::replace(&mut cluster.reading.is_full, true), cluster.member.me.is_some());
        if !was_full {
            self.desk.log.say(&Event::LogFull);
        }
        if is_in_log {
            self.lose_log("etcd has no room", false);
        }
        !is_in_log
    }

    /// What time brings to one of several servers.
    pub(super) fn sweep_cluster(&mut self) {
        let (now, grace) = (self.desk.now, self.desk.settings.limits.grace);
        self.desk.end_late_sessions();
        if let (Some(cluster), Some(words)) = (self.desk.mode.in_log_mut(), &self.desk.settings.cluster) {
            cluster.declare(grace, now);
            if now >= cluster.member.next_alive(words.host_lease) {
                cluster.say_alive(now);
            }
        }
    }

    /// A server that does not know that its lease is valid may have been declared over, as one that was stopped for a while.
    pub(super) fn check_lease(&mut self) {
        let is_over = |cluster: &Cluster| cluster.member.lease.is_some_and(|until| until <= self.desk.now);
        if self.desk.mode.in_log().is_some_and(is_over) {
            self.lose_log("its lease in etcd was not renewed in time", false);
        }
    }

    /// Puts what clients have said into the log.
    pub(super) fn write_log(&mut self) -> Result<(), CannotServe> {
        let waiting = self.desk.engine.waiting();
        let Some(cluster) = self.desk.mode.in_log_mut() else { return Ok(()) };
        while let Some(entry) = cluster.next_entry(self.desk.now) {
            cluster.log.ask_line(format_args!("append {entry}"));
        }
        cluster.log.write();
        if let Some((input, interest)) = cluster.log.awaited_input() {
            self.poller.change(input, LOG_INPUT, interest)?;
        }
        let Some(output) = cluster.log.output() else { return Ok(()) };
        if let Some(reads) = cluster.reading.change(waiting) {
            self.poller.change(output, LOG, Interest { reads, writes: false })?;
        }
        Ok(())
    }
}
