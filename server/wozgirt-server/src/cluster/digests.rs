//! Digests of all that the own engine answered, by positions, and which servers had others.

use std::collections::{BTreeSet, VecDeque};
use std::rc::Rc;

/// How many positions are kept.
const KEPT: usize = 10_000;
/// This many others that contradict are right.
const MANY: usize = 2;

/// The last digests.
#[derive(Debug, Default)]
pub struct Digests {
    /// They follow one another.
    kept: VecDeque<String>,
    /// The position of the last.
    last: u64,
    against: BTreeSet<Rc<str>>,
}

/// What another server's digest says.
#[derive(Debug, PartialEq, Eq)]
pub enum Verdict {
    /// It is the own one, or the position is too old or too new to compare, or it was reported before.
    Nothing,
    /// It is another one: one of the two is damaged.
    Other,
    /// Two servers have others: this one is damaged.
    Damaged,
}

impl Digests {
    /// The own engine's digest at the next position, or at any to begin with.
    pub fn note(&mut self, position: u64, digest: String) {
        if position != self.last + 1 {
            self.kept.clear();
        }
        self.last = position;
        self.kept.push_back(digest);
        if self.kept.len() > KEPT {
            self.kept.pop_front();
        }
    }

    /// The last position and its digest.
    pub fn last(&self) -> (u64, &str) {
        (self.last, self.kept.back().map_or("", String::as_str))
    }

    /// What another server says of a position.
    pub fn compare(&mut self, name: &Rc<str>, position: u64, digest: &str) -> Verdict {
        let back = self.last.checked_sub(position).and_then(|back| usize::try_from(back).ok());
        let place = back.and_then(|back| self.kept.len().checked_sub(1 + back));
        match place.map(|place| self.kept[place] == digest) {
            None => Verdict::Nothing,
            Some(true) => {
                self.against.remove(name);
                Verdict::Nothing
            }
            Some(false) => {
                let is_new = self.against.insert(name.clone());
                if self.against.len() >= MANY {
                    Verdict::Damaged
                } else if is_new {
                    Verdict::Other
                } else {
                    Verdict::Nothing
                }
            }
        }
    }
}

#[cfg(test)]
mod tests {
    use super::*;

    #[test]
    fn two_others_are_right() {
        let mut digests = Digests::default();
        let (a, b): (Rc<str>, Rc<str>) = ("a".into(), "b".into());
        for position in 5..20 {
            digests.note(position, format!("digest {position}"));
        }
        assert_eq!(digests.last(), (19, "digest 19"));
        assert_eq!(digests.compare(&a, 4, "x"), Verdict::Nothing);
        assert_eq!(digests.compare(&a, 20, "x"), Verdict::Nothing);
        assert_eq!(digests.compare(&a, 19, "digest 19"), Verdict::Nothing);
        assert_eq!(digests.compare(&a, 5, "x"), Verdict::Other);
        assert_eq!(digests.compare(&a, 6, "x"), Verdict::Nothing);
        assert_eq!(digests.compare(&a, 7, "digest 7"), Verdict::Nothing);
        assert_eq!(digests.compare(&b, 8, "x"), Verdict::Other);
        assert_eq!(digests.compare(&a, 9, "x"), Verdict::Damaged);
        digests.note(2, "again".into());
        assert_eq!(digests.compare(&a, 3, "x"), Verdict::Nothing);
        assert_eq!(digests.compare(&a, 2, "again"), Verdict::Nothing);
    }

    #[test]
    fn as_many_as_are_kept() {
        let mut digests = Digests::default();
        for position in 0..2 * KEPT as u64 {
            digests.note(position, position.to_string());
        }
        let (a, first): (Rc<str>, u64) = ("a".into(), KEPT as u64);
        assert_eq!(digests.compare(&a, first - 1, "x"), Verdict::Nothing);
        assert_eq!(digests.compare(&a, first, "x"), Verdict::Other);
    }
}
