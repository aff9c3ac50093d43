//! The locks that a session holds. There may be many of them, so none is looked for among all.

use std::collections::{BTreeMap, HashMap};
use wozgirt_engine::{Lock, Token};

/// Some locks with their tokens, in the order in which they came.
#[derive(Debug, Default, Clone)]
pub struct Holds {
    holds: BTreeMap<u64, (Lock, Token)>,
    places: HashMap<Lock, u64>,
    last: u64,
}

impl Holds {
    /// Whether there is none.
    pub fn is_empty(&self) -> bool {
        self.holds.is_empty()
    }

    /// How many there are.
    pub fn len(&self) -> usize {
        self.holds.len()
    }

    /// Whether the lock is one of them.
    pub fn has(&self, lock: &str) -> bool {
        self.places.contains_key(lock)
    }

    /// The lock comes last, with this token, unless it is there with one that is as great: whether it was not. Tokens rise, so a hold with
    /// a smaller one is over.
    pub fn put(&mut self, lock: Lock, token: Token) -> bool {
        let known = self.places.get(&lock).and_then(|place| self.holds.get(place));
        if known.is_some_and(|(_, known)| *known >= token) {
            return false;
        }
        self.remove(&lock);
        self.last += 1;
        self.places.insert(lock.clone(), self.last);
        self.holds.insert(self.last, (lock, token));
        true
    }

    /// The lock is not one of them any more.
    pub fn remove(&mut self, lock: &str) {
        if let Some(place) = self.places.remove(lock) {
            self.holds.remove(&place);
        }
    }

    /// Only those stay of which that is so.
    pub fn retain(&mut self, is_kept: impl Fn(&(Lock, Token)) -> bool) {
        let places = &mut self.places;
        self.holds.retain(|_, hold| {
            let stays = is_kept(hold);
            if !stays {
                places.remove(&hold.0);
            }
            stays
        });
    }

    /// All of them, in order.
    pub fn iter(&self) -> impl Iterator<Item = &(Lock, Token)> {
        self.holds.values()
    }
}

#[cfg(test)]
mod tests {
    use super::*;

    #[test]
    fn locks_come_and_go() {
        let mut holds = Holds::default();
        for (name, token) in [("a", 1), ("b", 2), ("c", 3), ("a", 4)] {
            holds.put(name.parse().unwrap(), token);
        }
        let found = |holds: &Holds| holds.iter().map(|(lock, token)| format!("{lock} {token}")).collect::<Vec<_>>();
        assert_eq!((found(&holds), holds.len()), (vec!["b 2".into(), "c 3".into(), "a 4".into()], 3));
        assert!(!holds.put("a".parse().unwrap(), 4) && !holds.put("b".parse().unwrap(), 1));
        assert_eq!(found(&holds), vec!["b 2", "c 3", "a 4"]);
        holds.remove("c");
        holds.remove("x");
        assert!(holds.has("a") && !holds.has("c"));
        holds.retain(|(_, token)| *token == 2);
        assert_eq!((found(&holds), holds.has("a"), holds.is_empty()), (vec!["b 2".into()], false, false));
    }
}
