//! Locks of any name that is not in the list: those that are in use, and the last that were. So what is kept does not grow with the names
//! that were ever used.

use super::Sight;
use crate::shares::{Counts, Guest};
use std::collections::{BTreeMap, BTreeSet, HashMap};
use std::time::{Duration, Instant};
use wozgirt_engine::Lock;

/// How many names are known that are in use no longer.
pub const MOST_UNUSED: usize = 100;

/// What is counted of all of them together.
#[derive(Debug, Default, Clone, Copy, PartialEq, Eq)]
pub struct Sums {
    /// How many are held.
    pub held: usize,
    /// How many clients wait.
    pub waiting: usize,
    /// How often one was granted since the server started.
    pub grants: u64,
    /// How long those who were granted one had waited, together and at most.
    pub waited: Duration,
    /// The longest of these waits.
    pub longest_wait: Duration,
    /// How many faults were written since the server started.
    pub faults: u64,
}

/// What of a lock is counted.
struct Glance {
    is_used: bool,
    payer: Option<Guest>,
    held_since: Option<Instant>,
    waits_since: Option<Instant>,
    sums: Sums,
}

impl Glance {
    fn of(sight: &Sight) -> Glance {
        Glance {
            is_used: sight.is_used(),
            payer: sight.is_used().then(|| sight.payer.clone()),
            held_since: sight.holder.map(|holder| holder.since),
            waits_since: sight.line.front().map(|waiter| waiter.since),
            sums: Sums {
                held: usize::from(sight.holder.is_some()),
                waiting: sight.line.len(),
                grants: sight.past.grants,
                waited: sight.past.waited,
                longest_wait: sight.past.longest_wait,
                faults: sight.past.faults,
            },
        }
    }
}

/// The locks of other names.
#[derive(Debug)]
pub struct Any {
    machines: u64,
    sights: HashMap<Lock, Sight>,
    /// Their names, by numbers that rise: a lock gets another one when it comes into use, and when it is in use no longer.
    used: BTreeMap<u64, Lock>,
    unused: BTreeMap<u64, Lock>,
    last: u64,
    /// Since when each of them is held, and the first client in its queue waits.
    holds: BTreeSet<(Instant, Lock)>,
    fronts: BTreeSet<(Instant, Lock)>,
    sums: Sums,
    /// On whose account those in use are.
    payers: Counts,
}

impl Any {
    /// Of none anything is known; each has this many machines.
    pub fn new(machines: u64) -> Any {
        Any {
            machines,
            sights: HashMap::new(),
            used: BTreeMap::new(),
            unused: BTreeMap::new(),
            last: 0,
            holds: BTreeSet::new(),
            fronts: BTreeSet::new(),
            sums: Sums::default(),
            payers: Counts::default(),
        }
    }

    /// What is counted of all.
    pub fn sums(&self) -> &Sums {
        &self.sums
    }

    /// How many are in use.
    pub fn used(&self) -> usize {
        self.used.len()
    }

    /// On whose account those in use are.
    pub fn payers(&self) -> &Counts {
        &self.payers
    }

    /// How many are known.
    pub fn count(&self) -> usize {
        self.sights.len()
    }

    /// Since when the oldest hold lasts.
    pub fn oldest_hold(&self) -> Option<Instant> {
        self.holds.first().map(|(since, _)| *since)
    }

    /// Since when the client waits that has waited longest.
    pub fn oldest_wait(&self) -> Option<Instant> {
        self.fronts.first().map(|(since, _)| *since)
    }

    /// The last number that one has.
    pub fn last(&self) -> u64 {
        self.last
    }

    /// The first one in use, or in use no longer, after one with this number, and its own number.
    pub fn after(&self, number: u64, is_used: bool) -> Option<(&Sight, u64)> {
        let names = if is_used { &self.used } else { &self.unused };
        let (number, lock) = names.range(number.saturating_add(1)..).next()?;
        Some((self.sights.get(lock)?, *number))
    }

    /// The lock of this name, if it is known.
    pub fn lock(&self, name: &str) -> Option<&Sight> {
        self.sights.get(name)
    }

    /// Changes a lock: one that is known, or, if it is to come into use, any.
    pub fn change<R>(&mut self, name: &str, is_new: bool, change: impl FnOnce(&mut Sight) -> R) -> Option<R> {
        if is_new && !self.sights.contains_key(name) {
            let lock: Lock = name.parse().ok()?;
            self.sights.insert(lock.clone(), Sight::of_other(lock, self.machines));
        }
        let sight = self.sights.get_mut(name)?;
        let before = Glance::of(sight);
        let result = change(sight);
        let after = Glance::of(sight);
        let lock = sight.lock.clone();
        if sight.number == 0 || before.is_used != after.is_used {
            self.used.remove(&sight.number);
            self.unused.remove(&sight.number);
            self.last += 1;
            sight.number = self.last;
            if after.is_used {
                self.used.insert(self.last, lock.clone());
            } else if sight.past.grants > 0 {
                sight.passes = 0; // what the engine said of them says nothing of its next use
                self.unused.insert(self.last, lock.clone());
            } else {
                self.sights.remove(&lock); // it was refused, or held before the server started
            }
        }
        move_time(&mut self.holds, &lock, before.held_since, after.held_since);
        move_time(&mut self.fronts, &lock, before.waits_since, after.waits_since);
        self.count_change(&before.sums, &after.sums);
        if before.payer != after.payer {
            before.payer.into_iter().for_each(|guest| self.payers.remove(&guest));
            after.payer.into_iter().for_each(|guest| self.payers.add(guest));
        }
        self.forget_old();
        Some(result)
    }

    fn count_change(&mut self, before: &Sums, after: &Sums) {
        let sums = &mut self.sums;
        sums.held = sums.held + after.held - before.held;
        sums.waiting = sums.waiting + after.waiting - before.waiting;
        sums.grants += after.grants - before.grants;
        sums.waited += after.waited.saturating_sub(before.waited);
        sums.longest_wait = sums.longest_wait.max(after.longest_wait);
        sums.faults += after.faults - before.faults;
    }

    fn forget_old(&mut self) {
        while self.unused.len() > MOST_UNUSED {
            if let Some((_, lock)) = self.unused.pop_first() {
                self.sights.remove(&lock);
            }
        }
    }

    /// No client has anything of any.
    pub fn forget(&mut self) {
        self.holds.clear();
        self.fronts.clear();
        self.payers = Counts::default();
        (self.sums.held, self.sums.waiting) = (0, 0);
        for lock in std::mem::take(&mut self.used).into_values() {
            match self.sights.get_mut(&lock) {
                Some(sight) if sight.past.grants > 0 => {
                    sight.forget();
                    sight.passes = 0; // what the engine said of them says nothing of its next use
                    self.last += 1;
                    sight.number = self.last;
                    self.unused.insert(self.last, lock);
                }
                _ => _ = self.sights.remove(&lock),
            }
        }
        self.forget_old();
    }
}

fn move_time(times: &mut BTreeSet<(Instant, Lock)>, lock: &Lock, before: Option<Instant>, after: Option<Instant>) {
    if before != after {
        before.into_iter().for_each(|time| _ = times.remove(&(time, lock.clone())));
        times.extend(after.map(|time| (time, lock.clone())));
    }
}

#[cfg(test)]
mod tests {
    use crate::board::{Board, Place};
    use crate::names::Names;
    use std::time::{Duration, Instant};

    fn board(list: &str) -> Board {
        Board::new(&Names::parse(list).unwrap())
    }

    /// The names that a reader finds.
    fn found(board: &Board) -> Vec<String> {
        let (mut place, mut names) = (Place::FIRST, Vec::new());
        while let Some((sight, next)) = board.next(place, board.last()) {
            names.push(sight.lock.to_string());
            place = next;
        }
        names
    }

    #[test]
    fn a_name_is_in_use_while_it_is_held_or_waited_for() {
        let (mut board, start) = (board("b,*:3"), Instant::now());
        assert!(board.name("x/1").is_some() && board.name("x 1").is_none() && board.lock("x/1").is_none());
        let acquire = "acquire x/1 1".parse().unwrap();
        board.asked(&acquire, &crate::shares::Guest::UNKNOWN);
        board.asked_no_longer(&acquire);
        assert_eq!((found(&board), board.any().unwrap().count()), (vec!["b".to_string()], 0));
        board.granted("x/1", 1, 812, Some(7), start);
        board.waits("x/1", 2, 8, start + Duration::from_secs(1));
        board.released("x/1", 1);
        let any = board.any().unwrap();
        assert_eq!((any.used(), any.oldest_hold(), any.oldest_wait()), (1, None, Some(start + Duration::from_secs(1))));
        board.granted("x/1", 2, 813, None, start + Duration::from_secs(4));
        let (any, sight) = (board.any().unwrap(), board.lock("x/1").unwrap());
        assert_eq!((sight.machines, sight.passes), (3, 2));
        assert_eq!((any.sums().held, any.sums().waiting, any.sums().grants), (1, 0, 2));
        assert_eq!(
            (any.sums().waited, any.sums().longest_wait, any.oldest_wait()),
            (Duration::from_secs(3), Duration::from_secs(3), None)
        );
        assert!(board.left("x/1", 2, crate::board::Why::Left));
        let (any, sight) = (board.any().unwrap(), board.lock("x/1").unwrap());
        assert_eq!((any.used(), any.sums().held, any.oldest_hold(), sight.passes), (0, 0, None, 0));
        assert_eq!((sight.past.grants, sight.past.longest_wait), (2, Duration::from_secs(3)));
    }

    #[test]
    fn of_names_that_are_in_use_no_longer_the_last_are_known() {
        let (mut board, now) = (board("*"), Instant::now());
        board.granted("held", 1, 1, None, now);
        for i in 0..1000 {
            let name = format!("n{i}");
            board.granted(&name, 2, 2 + i, None, now);
            board.released(&name, 2);
        }
        let any = board.any().unwrap();
        assert_eq!((any.count(), any.used(), any.sums().grants), (1 + super::MOST_UNUSED, 1, 1001));
        let names = found(&board);
        assert_eq!((&*names[0], &*names[1], &*names[100], names.len()), ("held", "n900", "n999", 101));
        board.granted("n950", 3, 1009, None, now);
        assert_eq!(found(&board)[1], "n950");
        assert_eq!(board.lock("n950").unwrap().past.grants, 2);
        board.holds("before", 0, 7, now);
        board.forget();
        assert_eq!((board.any().unwrap().used(), board.any().unwrap().count(), found(&board).len()), (0, 100, 100));
        assert!(board.lock("before").is_none() && board.lock("held").is_some());
    }
}
