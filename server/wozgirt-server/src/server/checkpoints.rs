//! Where one of several servers begins: at its checkpoint, with the settings of the log.

use super::Server;
use crate::board::Board;
use crate::cluster::{agrees, holders, list, most_names, Applied, BadCheckpoint, Checkpoint, Cluster, Phase};
use crate::log::Event;
use crate::names::Names;
use crate::rules::Rules;
use crate::CannotServe;
use std::mem;
use std::rc::Rc;
use std::time::Instant;
use wozgirt_engine::StateLine;

/// What the engine's state is before the first entry.
fn first_state() -> Vec<StateLine> {
    vec![StateLine::At { place: 0, digest: "0".repeat(64) }]
}

impl Server {
    /// Reads the checkpoint, and prepares the engine's folder for it.
    pub(super) fn begin_cluster(&mut self) -> Result<(), CannotServe> {
        let now = self.desk.now;
        let Some(cluster) = self.desk.mode.in_log_mut() else { return Ok(()) };
        let (applied, state, segment) = match cluster.replica.folder.read()? {
            None => (Applied::new(cluster.applied.most_lines), first_state(), 0),
            Some(text) => {
                let found = Checkpoint::parse(&text, cluster.applied.most_lines);
                let Checkpoint { identity, segment, applied, state } = found.map_err(|BadCheckpoint(line)| {
                    CannotServe::Checkpoint(cluster.replica.folder.checkpoint(), line)
                })?;
                cluster.place.raise(&identity, applied.position, applied.revision)?;
                (applied, state, segment)
            }
        };
        let settings = applied.settings.clone().or_else(|| cluster.place.known().and_then(|it| it.settings.clone()));
        let settings = settings.unwrap_or_else(|| cluster.with.clone());
        check_settings(cluster, &settings)?;
        self.take_list(&settings)?;
        let desk = &mut self.desk;
        let Some(cluster) = desk.mode.in_log_mut() else { return Ok(()) };
        cluster.place.begin(applied.position);
        cluster.replica.folder.restore(segment, applied.position, list(&settings))?;
        cluster.replica.folder.write_holders(&holders(&state))?;
        cluster.replica.saved = (segment, applied.position);
        cluster.applied = applied;
        cluster.begin_again();
        cluster.reading.clear();
        desk.board.forget();
        put_state(cluster, &mut desk.board, &state, now);
        cluster.replica.state = state;
        Ok(())
    }

    /// The log has these settings, with a list of locks that may be longer or shorter than this server's.
    pub(super) fn take_list(&mut self, settings: &str) -> Result<(), CannotServe> {
        let (list, most_names) = (list(settings), most_names(settings));
        let desk = &mut self.desk;
        let Some(cluster) = desk.mode.in_log_mut() else { return Ok(()) };
        if list == cluster.list && desk.settings.engine.locks.is_some() && desk.settings.engine.most_names == most_names
        {
            return Ok(());
        }
        let is_longer = list.len() > cluster.list.len();
        cluster.list = list.into();
        let own = cluster.count();
        desk.board.take(&Names::parse(list).map_err(CannotServe::Names)?);
        let count = list.split(',').count();
        if is_longer {
            match self.people.read_rules(&desk.settings, &desk.board) {
                Ok(rules) => desk.rules = Rc::new(rules),
                Err(fault) => desk.log.say(&Event::RulesBad { fault: &fault }),
            }
        }
        desk.rules = Rc::new(Rules::clone(&desk.rules).of(&desk.board));
        (desk.settings.engine.locks, desk.settings.engine.most_names) = (Some(list.into()), most_names);
        desk.engine.set_words(desk.settings.engine_words());
        if count > own {
            desk.log.say(&Event::MoreLocks { count, own, list });
        }
        Ok(())
    }

    /// The engine has reported its state and ended: that is the checkpoint, from which it starts again.
    pub(super) fn save(&mut self) -> Result<(), CannotServe> {
        let now = self.desk.now;
        let Some(cluster) = self.desk.mode.in_log_mut() else { return Ok(()) };
        let Phase::Ending(state) = mem::replace(&mut cluster.replica.phase, Phase::Restoring(Vec::new())) else {
            return Ok(());
        };
        let segment = cluster.replica.folder.sync_from(cluster.replica.saved.0)?;
        let (position, revision) = (cluster.applied.position, cluster.applied.revision);
        cluster.replica.folder.keep(segment, position)?;
        let identity = cluster.place.known().map(|known| known.identity.clone()).unwrap_or_default();
        let checkpoint = Checkpoint { identity, segment, applied: cluster.applied.clone(), state };
        cluster.replica.folder.write(&checkpoint.text())?;
        cluster.place.rewrite()?;
        cluster.replica.folder.write_holders(&checkpoint.holders())?;
        cluster.replica.folder.forget(cluster.replica.saved.1, position)?;
        cluster.replica.saved = (segment, position);
        cluster.replica.state = checkpoint.state;
        let settings = cluster.applied.settings.clone();
        if cluster.member.me.is_some() {
            cluster.log.ask_line(format_args!("checkpoint {position} {revision}"));
        }
        self.desk.log.say(&Event::Checkpoint { position, segment });
        if let Some(settings) = settings {
            self.take_list(&settings)?;
        }
        self.desk.engine.start_at_once(now);
        Ok(())
    }
}

/// The holders and the waiting clients of a state.
fn put_state(cluster: &mut Cluster, board: &mut Board, state: &[StateLine], now: Instant) {
    for known in cluster.applied.sessions.values() {
        cluster.mirror.begins(known.session, known.owner.guest());
    }
    for line in state {
        match line {
            StateLine::Hold { lock, token, client } => {
                cluster.mirror.put_hold(*client, lock.clone(), *token);
                board.holds(lock, cluster.mirror.party(*client), *token, now);
            }
            StateLine::Wait { client, lock, label } => {
                cluster.mirror.put_wait(*client, lock.clone());
                board.waits(lock, cluster.mirror.party(*client), *label, now);
            }
            StateLine::Did { .. } | StateLine::At { .. } => {}
        }
    }
}

/// The settings of this server are those of the log, except for the end of the list of locks.
pub(super) fn check_settings(cluster: &Cluster, log: &str) -> Result<(), CannotServe> {
    if agrees(&cluster.with, log) {
        return Ok(());
    }
    Err(CannotServe::Settings { log: log.into(), own: cluster.with.clone() })
}
