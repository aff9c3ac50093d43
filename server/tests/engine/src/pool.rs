//! The rings for locks of any name that is not in the list.

use crate::locks::{Lock, Locks};
use crate::ring::Ring;
use std::fmt::Write as _;
use wozgirt_engine::{Answer, Client, Input, Lock as Name, Refusal, Stats, NOBODY};

/// How many rings there are at first.
const FIRST: usize = 1024;

/// Their size, and how many there may be.
pub struct Pool {
    pub n: usize,
    pub k: u64,
    pub most: usize,
}

impl Locks {
    /// Adds rings until the pool has its first size, or there are so many of all.
    pub fn fill(&mut self, count: usize) {
        let Some(pool) = &self.pool else { return };
        let least = self.listed + FIRST.min(pool.most);
        for number in self.locks.len()..count.max(least) {
            self.locks.push(Lock::new(None, Ring::new(number, pool.n, pool.k)));
        }
    }

    /// Whether a name may want a ring that is not there.
    pub fn is_short_of_rings(&self) -> bool {
        self.pool.as_ref().is_some_and(|pool| self.locks.len() - self.listed < pool.most && self.free_ring().is_none())
    }

    /// Adds as many as there are.
    pub fn grow(&mut self) {
        let most = self.pool.as_ref().map_or(0, |pool| pool.most);
        let size = self.locks.len() - self.listed;
        self.fill(self.listed + (2 * size).min(most));
    }

    fn free_ring(&self) -> Option<usize> {
        (self.listed..self.locks.len()).find(|&l| self.locks[l].name.is_none())
    }

    /// How many grants there were of all rings.
    pub fn top(&self) -> u64 {
        self.locks.iter().map(|lock| lock.ring.passes).sum()
    }

    /// What is asked of a lock that no ring has.
    pub fn ask_of_no_ring(&mut self, client: Client, name: &Name, input: &Input) -> Result<(), Refusal<'static>> {
        if self.pool.is_none() {
            return Err(Refusal::Lock);
        }
        match *input {
            Input::Acquire { .. } | Input::Try { .. } => {
                let l = self.free_ring().ok_or(Refusal::Names)?;
                if matches!(input, Input::Acquire { .. }) && self.waits(client) {
                    return Err(Refusal::Waits);
                }
                let (before, floor) = (self.locks[l].ring.passes, self.top());
                let _ = writeln!(self.journal, "# name {l} {before} {floor} {name}");
                self.bind(l, before, floor, name.clone());
                match *input {
                    Input::Acquire { label, .. } => self.acquire(client, l, label),
                    Input::Try { label, .. } => self.attempt(client, l, label),
                    _ => Ok(()),
                }
            }
            Input::Release { .. } => Err(Refusal::Holder),
            Input::Cancel { .. } => Err(Refusal::Waiter),
            Input::Corrupt { .. } | Input::Leave => Err(Refusal::Lock),
            Input::Stats { .. } => {
                let stats = Stats { lock: name, machines: 0, waiters: 0, passes: 0, holder: NOBODY, token: 0 };
                self.answer(client, Answer::Stats(stats));
                Ok(())
            }
        }
    }

    /// The ring has this name from now on.
    pub fn bind(&mut self, l: usize, before: u64, floor: u64, name: Name) {
        self.numbers.insert(name.clone(), l);
        let lock = &mut self.locks[l];
        (lock.name, lock.before, lock.floor) = (Some(name), before, floor);
    }

    /// No client has anything of the lock: a ring of the pool has no name any more.
    pub fn free(&mut self, l: usize) {
        if l >= self.listed {
            let _ = writeln!(self.journal, "# free {l}");
            self.unbind(l);
        }
    }

    pub fn unbind(&mut self, l: usize) {
        if l < self.listed {
            return;
        }
        if let Some(name) = self.locks[l].name.take() {
            self.numbers.remove(&name);
        }
    }

    /// With what a segment begins: TOP, and the names of the rings that have some.
    pub fn names(&self) -> String {
        if self.pool.is_none() {
            return String::new();
        }
        let mut text = format!("# floor {}\n", self.top());
        for (l, lock) in self.locks.iter().enumerate().skip(self.listed) {
            if let Some(name) = &lock.name {
                let _ = writeln!(text, "# name {l} {} {} {name}", lock.before, lock.floor);
            }
        }
        text
    }
}

#[cfg(test)]
mod tests {
    use super::*;
    use std::mem;

    fn locks(most: usize) -> Locks {
        let mut locks = Locks::new(&[("a".parse().unwrap(), 8, 8)], Some(Pool { n: 2, k: 2, most }), true);
        locks.fill(0);
        locks
    }

    #[test]
    fn a_name_has_a_ring_while_it_is_in_use() {
        let mut locks = locks(2);
        for (line, told) in [
            ("1 acquire a 5", "1 granted a 1\n"),
            ("2 stats x", "2 stats x 0 0 0 0 0\n"),
            ("2 acquire x 6", "2 granted x 2\n"),
            ("1 acquire x 7", "1 waiting x 0\n"),
            ("1 acquire y 7", "1 refused waits y\n"),
            ("2 acquire a 7", "2 refused circle a\n"),
            ("3 try y 8", "3 granted y 3\n"),
            ("3 try z 8", "3 refused names z\n"),
            ("1 acquire z 8", "1 refused names z\n"),
            ("2 release x 1", "2 refused holder x\n"),
            ("2 release x 2", "2 released x\n1 granted x 3\n"),
            ("1 release x 3", "1 released x\n"),
            ("1 release x 3", "1 refused holder x\n"),
            ("1 cancel x", "1 refused waiter x\n"),
            ("1 corrupt x 0 0", "1 refused lock x\n"),
            ("1 try z 9", "1 granted z 5\n"),
            ("1 stats z", "1 stats z 2 0 1 1 5\n"),
            ("1 leave", ""),
            ("1 stats z", "1 stats z 0 0 0 0 0\n"),
            ("1 acquire é 8", "1 refused syntax\n"),
        ] {
            locks.line(line);
            assert_eq!(mem::take(&mut locks.answers), told, "{line}");
        }
        let names = "# name 1 0 1 x\n# name 2 0 2 y\n# free 1\n# name 1 2 4 z\n# free 1\n";
        let remarks: String =
            locks.journal.lines().filter(|line| line.starts_with('#')).map(|it| format!("{it}\n")).collect();
        assert_eq!((remarks.as_str(), locks.names().as_str()), (names, "# floor 5\n# name 2 0 2 y\n"));
    }

    #[test]
    fn a_pool_grows_up_to_its_most() {
        let mut locks = locks(1500);
        for i in 0..1024 {
            assert!(!locks.is_short_of_rings());
            locks.line(&format!("1 try n{i} 0"));
        }
        assert!(locks.is_short_of_rings());
        locks.grow();
        assert_eq!((locks.locks.len(), locks.is_short_of_rings()), (1501, false));
    }
}
