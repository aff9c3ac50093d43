//! What the engine of one of several servers is at: the state with which it began, what it was given since, and what it said of that.

use super::checkpoint::Folder;
use super::digests::Digests;
use std::collections::VecDeque;
use std::rc::Rc;
use wozgirt_engine::StateLine;

/// What the engine is at.
#[derive(Debug)]
pub enum Phase {
    /// It is started with a state, and reports that again.
    Restoring(Vec<String>),
    /// It is given entries.
    Following,
    /// The last entry before a checkpoint is done, and it reports its state.
    Asking(Vec<String>),
    /// It has reported this state, and is to end.
    Ending(Vec<StateLine>),
}

/// An entry that the engine was given.
pub struct Block {
    /// What its writer's engine had answered: a name, a position, a digest.
    pub claim: Option<(Rc<str>, u64, String)>,
    /// Whether there is a checkpoint after it.
    pub is_checkpoint: bool,
}

/// The engine's part of the log.
pub struct Replica {
    /// The folder of the checkpoint.
    pub folder: Folder,
    /// What the engine is at.
    pub phase: Phase,
    /// Whether it was ready once since the state was read from the checkpoint.
    pub is_restored: bool,
    /// The state that it begins with.
    pub state: Vec<StateLine>,
    /// The last segment, and the position, of the last checkpoint.
    pub saved: (u64, u64),
    /// Entries that it was given and has not done.
    pub blocks: VecDeque<Block>,
    /// What it answered.
    pub digests: Digests,
    /// How often another server had other answers.
    pub contradictions: u64,
}

impl Replica {
    /// With nothing before the first entry.
    pub fn new(folder: Folder) -> Replica {
        Replica {
            folder,
            phase: Phase::Restoring(Vec::new()),
            is_restored: false,
            state: Vec::new(),
            saved: (0, 0),
            blocks: VecDeque::new(),
            digests: Digests::default(),
            contradictions: 0,
        }
    }

    /// The engine begins again, with the state of the last checkpoint.
    pub fn begin_again(&mut self) {
        self.is_restored = false;
        self.blocks.clear();
        self.phase = Phase::Restoring(Vec::new());
    }

    /// Whether the engine may be given an entry.
    pub fn takes_entries(&self) -> bool {
        let is_at_checkpoint = self.blocks.back().is_some_and(|block| block.is_checkpoint);
        matches!(self.phase, Phase::Following) && !is_at_checkpoint
    }
}

#[cfg(test)]
mod tests {
    use super::*;

    #[test]
    fn entries_wait_for_a_checkpoint() {
        let folder = std::env::temp_dir().join(format!("wozgirt-replica-{}", std::process::id()));
        let _ = std::fs::remove_dir_all(&folder);
        let mut replica = Replica::new(Folder::open(&folder).unwrap());
        assert!(!replica.takes_entries());
        replica.phase = Phase::Following;
        replica.blocks.push_back(Block { claim: None, is_checkpoint: false });
        assert!(replica.takes_entries());
        replica.blocks.push_back(Block { claim: None, is_checkpoint: true });
        replica.is_restored = true;
        assert!(!replica.takes_entries());
        replica.begin_again();
        assert!(!replica.takes_entries() && !replica.is_restored && replica.blocks.is_empty());
        replica.phase = Phase::Following;
        assert!(replica.takes_entries());
        drop(replica);
        std::fs::remove_dir_all(folder).unwrap();
    }
}
