//! The holds of the journal with the lines of the record: of each its client, from when to when it was, and how it ended. The journal decides which
//! holds there were and how they ended; a record that says otherwise is refused.

use super::journal::{Ending, Held, Journal};
use super::record::{Ended, Gap, Granted, Lines, Place, Record};
use std::collections::BTreeMap;
use std::fmt;
use wozgirt_grants::{Moment, Who, OPERATOR, RELEASED};

/// A hold.
#[derive(Debug, Clone, PartialEq, Eq)]
pub struct Hold {
    /// The lock.
    pub lock: String,
    /// The token.
    pub token: u64,
    /// The label, if either knows it.
    pub label: Option<u64>,
    /// The line of the grant.
    pub granted: Option<Granted>,
    /// The client that came back to it.
    pub kept: Option<Who<'static>>,
    /// The line of the end.
    pub ended: Option<Ended>,
    /// What the journal says, if it still has the hold.
    pub ending: Option<Ending>,
    /// The times between which it was, as far as it or its neighbours have lines.
    times: (Option<Moment>, Option<Moment>),
}

/// What a line says, and the journal does not.
#[derive(Debug, PartialEq, Eq)]
pub enum Contradiction {
    /// The journal has no such hold.
    NoHold(Place, String, u64),
    /// It has another label.
    Label(Place, String, u64, u64),
    /// It did not end by a release.
    Ending(Place, String, u64, Ending),
}

impl fmt::Display for Contradiction {
    fn fmt(&self, f: &mut fmt::Formatter<'_>) -> fmt::Result {
        f.write_str("the record contradicts the journal: ")?;
        match self {
            Contradiction::NoHold(place, lock, token) => {
                write!(f, "{place}: the journal has no hold of {lock} with token {token}")
            }
            Contradiction::Label(place, lock, token, label) => {
                write!(f, "{place}: in the journal the hold of {lock} with token {token} has the label {label}")
            }
            Contradiction::Ending(place, lock, token, ending) => {
                write!(
                    f,
                    "{place}: in the journal the hold of {lock} with token {token} was not released: {}",
                    ending.word()
                )
            }
        }
    }
}

/// Compares what was read of the record before the journal was: all of that is in the journal.
pub fn check(record: &Record, journal: &Journal) -> Result<(), Contradiction> {
    for ((lock, token), lines) in &record.holds {
        let (lock, token) = (lock.clone(), *token);
        let Some(held) = journal.hold(&lock, token) else {
            let first = lines.granted.as_ref().map(|it| &it.place).or(lines.ended.first().map(|it| &it.place));
            match first.filter(|_| !journal.is_before(&lock, token)) {
                Some(place) => return Err(Contradiction::NoHold(place.clone(), lock, token)),
                None => continue,
            }
        };
        if let Some((granted, label)) = lines.granted.as_ref().zip(held.label) {
            if granted.label.is_some_and(|own| own != label) {
                return Err(Contradiction::Label(granted.place.clone(), lock, token, label));
            }
        }
        let is_released = |it: &&Ended| it.why == RELEASED || it.why == OPERATOR;
        if let Some(ended) = lines.ended.iter().find(is_released).filter(|_| held.ending != Ending::Released) {
            return Err(Contradiction::Ending(ended.place.clone(), lock, token, held.ending));
        }
    }
    Ok(())
}

/// All holds of the journal, and those of the record that the journal no longer has, in the order in which they came.
pub fn join(mut record: Record, journal: &Journal) -> Vec<Hold> {
    let mut locks: BTreeMap<&str, BTreeMap<u64, Option<Held>>> = BTreeMap::new();
    for (lock, holds) in &journal.holds {
        locks.entry(lock).or_default().extend(holds.iter().map(|(token, held)| (*token, Some(*held))));
    }
    let known: Vec<(String, u64)> =
        record.holds.keys().filter(|(lock, token)| journal.is_before(lock, *token)).cloned().collect();
    for (lock, token) in &known {
        locks.entry(lock).or_default().entry(*token).or_insert(None);
    }
    let mut all = Vec::new();
    for (lock, holds) in locks {
        let of_lock =
            holds.into_iter().map(|(token, held)| hold(lock, token, held, record.holds.remove(&(lock.into(), token))));
        let mut of_lock: Vec<Hold> = of_lock.collect();
        bound(&mut of_lock);
        all.extend(of_lock);
    }
    all.sort_by_key(|hold| hold.times.0); // those of a lock stay in the order of their tokens
    all
}

fn hold(lock: &str, token: u64, held: Option<Held>, lines: Option<Lines>) -> Hold {
    let Lines { granted, kept, ended } = lines.unwrap_or_default();
    let kept = kept.map(|(_, who)| who);
    let label = held.and_then(|it| it.label).or(granted.as_ref().and_then(|it| it.label));
    let ending = held.map(|it| it.ending);
    // the last one counts: before that an engine had ended, and the hold with its lock stayed
    let ended = ended.into_iter().max_by_key(|it| it.at).filter(|_| ending != Some(Ending::Open));
    Hold { lock: lock.into(), token, label, granted, kept, ended, ending, times: (None, None) }
}

/// Where a time has no line, it is between those of the holds before and after.
fn bound(holds: &mut [Hold]) {
    let mut last = None;
    for hold in holds.iter_mut() {
        let (from, to) = (hold.granted.as_ref().map(|it| it.at), hold.ended.as_ref().map(|it| it.at));
        hold.times = (from.or(last), to);
        last = last.max(from).max(to);
    }
    let mut next = None;
    for hold in holds.iter_mut().rev() {
        let from = hold.granted.as_ref().map(|it| it.at);
        if hold.ending != Some(Ending::Open) {
            hold.times.1 = hold.times.1.or(next);
        }
        next = from.or(hold.times.1).or(next);
    }
}

impl Hold {
    /// Whether it may have been in this time: from the first moment on, and before the other.
    pub fn was(&self, since: Option<Moment>, until: Option<Moment>) -> bool {
        let ends_later = since.map_or(true, |since| self.times.1.map_or(true, |to| to >= since));
        let begins_earlier = until.map_or(true, |until| self.times.0.map_or(true, |from| from < until));
        ends_later && begins_earlier
    }

    /// The client that had it, if a line says that.
    pub fn who(&self) -> Option<&Who<'static>> {
        self.granted.as_ref().map(|it| &it.who).or(self.kept.as_ref())
    }

    /// Whether it has ended, and no line says when.
    pub fn lacks_end(&self) -> bool {
        self.ended.is_none() && !matches!(self.ending, Some(Ending::Open) | None)
    }
}

impl Gap {
    /// Whether some of it is in this time.
    pub fn was(&self, since: Option<Moment>, until: Option<Moment>) -> bool {
        since.map_or(true, |since| self.to >= since) && until.map_or(true, |until| self.from < until)
    }
}

#[cfg(test)]
mod tests {
    use super::super::journal::tests::journal_of;
    use super::super::record::tests::record_of;
    use super::*;

    fn at(minute: u64) -> Option<Moment> {
        format!("2026-11-24T14:{minute:02}:00.000000Z").parse().ok()
    }

    fn granted(minute: u64, token: u64, label: u64) -> String {
        format!("2026-11-24T14:{minute:02}:00.000000Z granted a {token} label={label} client=1")
    }

    fn ended(minute: u64, token: u64, why: &str) -> String {
        format!("2026-11-24T14:{minute:02}:00.000000Z ended a {token} {why}")
    }

    fn record(lines: &[String]) -> Record {
        record_of(&lines.iter().map(String::as_str).collect::<Vec<_>>())
    }

    const HOLDS: [&str; 4] = [
        "lock a token 5 label - from - to 1 released",
        "lock a token 6 label 8 from 1 to 2 left",
        "lock a token 7 label 9 from 2 to 3 released",
        "lock a token 8 label 7 from 3 to - open",
    ];

    #[test]
    fn each_hold_has_its_lines() {
        let journal = journal_of(&HOLDS, "a 8 8\n", &[5]);
        let lines = [
            granted(1, 4, 7),
            ended(2, 4, "released"),
            granted(3, 5, 7),
            ended(4, 5, "released"),
            granted(5, 6, 8),
            ended(5, 6, "closed"),
            ended(7, 6, "grace"),
            granted(10, 8, 7),
            ended(11, 8, "closed"),
        ];
        let record = record(&lines);
        assert_eq!(check(&record, &journal), Ok(()));
        let holds = join(record, &journal);
        let shown: Vec<_> = holds
            .iter()
            .map(|it| (it.token, it.label, it.ended.as_ref().map(|it| it.why.as_str()), it.ending, it.times))
            .collect();
        let (released, left) = (Some(Ending::Released), Some(Ending::Left));
        assert_eq!(
            shown,
            [
                (4, Some(7), Some("released"), None, (at(1), at(2))),
                (5, Some(7), Some("released"), released, (at(3), at(4))),
                (6, Some(8), Some("grace"), left, (at(5), at(7))),
                (7, Some(9), None, released, (at(7), at(10))),
                (8, Some(7), None, Some(Ending::Open), (at(10), None)),
            ]
        );
        assert_eq!(holds.iter().map(Hold::lacks_end).collect::<Vec<_>>(), [false, false, false, true, false]);
        let of = |since, until| holds.iter().filter(|it| it.was(since, until)).map(|it| it.token).collect::<Vec<_>>();
        assert_eq!((of(None, None), of(at(8), None), of(None, at(4))), (vec![4, 5, 6, 7, 8], vec![7, 8], vec![4, 5]));
        assert_eq!((of(at(6), at(7)), of(at(30), at(31)), of(None, at(1))), (vec![6], vec![8], vec![]));
    }

    #[test]
    fn without_lines() {
        let holds = join(Record::default(), &journal_of(&HOLDS, "a 8 8\n", &[5]));
        assert_eq!(
            holds.iter().map(|it| (it.token, it.times)).collect::<Vec<_>>(),
            [5, 6, 7, 8].map(|token| (token, (None, None)))
        );
        assert!(holds.iter().all(|it| it.was(at(1), at(2))));
    }

    #[test]
    fn a_record_that_contradicts_the_journal() {
        let journal = journal_of(&HOLDS, "a 8 8\n", &[5]);
        let found =
            |lines: &[String]| check(&record(lines), &journal).err().map(|it| it.to_string()).unwrap_or_default();
        let of = |text: &str| format!("the record contradicts the journal: grants: line {text}");
        assert_eq!(found(&[granted(1, 9, 7)]), of("2: the journal has no hold of a with token 9"));
        assert_eq!(
            found(&[granted(1, 7, 9), ended(2, 9, "lease")]),
            of("3: the journal has no hold of a with token 9")
        );
        assert_eq!(found(&[granted(1, 7, 1)]), of("2: in the journal the hold of a with token 7 has the label 9"));
        assert_eq!(
            found(&[ended(1, 6, "released")]),
            of("2: in the journal the hold of a with token 6 was not released: left")
        );
        assert_eq!(
            found(&[ended(1, 8, "operator")]),
            of("2: in the journal the hold of a with token 8 was not released: open")
        );
        // what the journal no longer has, or has not come to do, contradicts nothing
        assert_eq!(found(&[granted(1, 3, 1), granted(2, 5, 77), ended(3, 8, "closed"), ended(4, 7, "closed")]), "");
        assert_eq!(found(&[granted(1, 3, 1).replace(" a ", " b ")]), "");
        assert_eq!(
            found(&[granted(1, 6, 1).replace(" a ", " b ")]),
            of("2: the journal has no hold of b with token 6")
        );
    }

    #[test]
    fn gaps() {
        let gap = Gap { from: at(3).unwrap(), to: at(5).unwrap(), lines: 1 };
        assert!(
            gap.was(None, None)
                && gap.was(at(5), None)
                && gap.was(at(4), at(5))
                && !gap.was(at(6), None)
                && !gap.was(None, at(3))
        );
    }
}
