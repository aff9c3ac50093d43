//! Whose an open hold is, from what the store and the journal say.

use super::*;
use std::fs;

/// A journal of its own, with what is kept beside it.
struct Place {
    journal: PathBuf,
}

impl Place {
    fn new(name: &str) -> Place {
        let journal = std::env::temp_dir().join(format!("wozgirt-alone-{name}-{}", std::process::id()));
        let _ = fs::remove_dir_all(&journal);
        let _ = fs::remove_dir_all(journal.with_extension("sessions"));
        fs::create_dir(&journal).unwrap();
        Place { journal }
    }

    /// A server that starts with what is there.
    fn start(&self) -> Alone {
        Alone::new(Some(Store::open(&self.journal, 1 << 16).unwrap()), 9).unwrap()
    }

    /// One that has begun these sessions, with keys that are ten times their numbers.
    fn begin(&self, count: Client) -> Alone {
        let mut it = self.start();
        it.prepare().unwrap();
        for number in 1..=count {
            assert_eq!(it.come(10 * number, Who::Unknown, Duration::from_secs(1), 0), Ok((number, None)));
        }
        it
    }

    /// The journal's remarks.
    fn write_remarks(&self, remarks: &str) {
        fs::write(self.journal.join("0000000001.ring"), format!("done 1\n{remarks}")).unwrap();
    }

    /// The server is killed after it has written what is new; the next one finds these holds open: what each session has then, the
    /// number of its last input, and the lock for which it waits.
    fn killed(&self, mut it: Alone, open: &[(&str, Token)]) -> Vec<Found> {
        it.write().unwrap();
        drop(it);
        let mut it = self.start();
        it.prepare().unwrap();
        it.settle(&open.iter().map(|(name, token)| (lock(name), *token)).collect::<Vec<_>>());
        it.sessions.values().map(found).collect()
    }
}

impl Drop for Place {
    fn drop(&mut self) {
        let _ = fs::remove_dir_all(&self.journal);
        let _ = fs::remove_dir_all(self.journal.with_extension("sessions"));
    }
}

type Found = (Vec<String>, Option<u64>, Option<String>);

fn found(session: &Session) -> Found {
    let holds = session.holds.iter().map(|(lock, token)| format!("{lock} {token}")).collect();
    (holds, session.last.as_ref().map(|(number, _)| *number), session.waits.as_ref().map(|it| it.lock.to_string()))
}

fn has(holds: &[&str], last: u64, waits: Option<&str>) -> Found {
    (holds.iter().map(|it| (*it).into()).collect(), Some(last).filter(|last| *last > 0), waits.map(String::from))
}

fn lock(name: &str) -> Lock {
    name.parse().unwrap()
}

fn did(it: &mut Alone, session: Client, input: u64, answer: &str) {
    let text = format!("{session} {answer}");
    it.did(session, input, Answered::parse(&text).unwrap().answer);
}

/// The session's first input was answered that it waits.
fn waits(it: &mut Alone, session: Client, name: &str) {
    did(it, session, 1, &format!("waiting {name} 0"));
    it.place(session, lock(name), 5);
}

#[test]
fn a_hold_is_that_of_the_session_that_was_told_of_it() {
    let place = Place::new("told");
    let mut it = place.begin(2);
    waits(&mut it, 1, "a");
    it.hold(1, lock("a"), 3);
    waits(&mut it, 2, "a");
    assert_eq!(place.killed(it, &[("a", 3)]), [has(&["a 3"], 1, None), has(&[], 1, Some("a"))]);
}

#[test]
fn a_hold_is_that_of_the_session_of_which_a_remark_has_it() {
    let place = Place::new("remark");
    let it = place.begin(2);
    place.write_remarks("# 1 1 did 1 granted a 3\n# 2 1 did 2 busy a\n");
    assert_eq!(place.killed(it, &[("a", 3)]), [has(&["a 3"], 1, None), has(&[], 1, None)]);
}

/// The holder gave it up, so the engine has granted it to the first in the queue, and the server has not heard that.
#[test]
fn a_hold_of_which_nobody_was_told_is_nobodys() {
    let place = Place::new("untold");
    let mut it = place.begin(2);
    did(&mut it, 1, 1, "granted a 2");
    waits(&mut it, 2, "a");
    place.write_remarks("# 1 2 did 1 released a\n");
    assert_eq!(place.killed(it, &[("a", 3)]), [has(&[], 2, None), has(&[], 1, Some("a"))]);
}

#[test]
fn another_token_is_nobodys() {
    for token in [1, 3] {
        let place = Place::new("token");
        let mut it = place.begin(1);
        did(&mut it, 1, 1, "granted a 2");
        place.write_remarks("# 1 1 did 1 granted a 2\n");
        assert_eq!(place.killed(it, &[("a", token), ("b", 2)]), [has(&[], 1, None)]);
    }
}

/// The remark of an input that is no longer the last is of an earlier hold: it ends none that came later.
#[test]
fn a_release_of_a_remark_ends_no_hold_that_is_open() {
    let place = Place::new("release");
    let mut it = place.begin(1);
    did(&mut it, 1, 1, "granted a 2");
    it.hold(1, lock("a"), 5);
    place.write_remarks("# 1 1 did 1 granted a 2\n# 1 2 did 1 released a\n");
    assert_eq!(place.killed(it, &[("a", 5)]), [has(&["a 5"], 2, None)]);
}

/// It holds one lock after a wait, and waits for another; then all is written anew.
#[test]
fn what_is_written_anew_says_the_same() {
    for is_granted in [false, true] {
        let place = Place::new("anew");
        let mut it = place.begin(2);
        did(&mut it, 1, 1, "waiting a 0");
        it.place(1, lock("a"), 5);
        it.hold(1, lock("a"), 3);
        did(&mut it, 1, 2, "waiting b 0");
        it.place(1, lock("b"), 6);
        if is_granted {
            it.hold(1, lock("b"), 7);
        }
        waits(&mut it, 2, "a");
        it.prepare().unwrap();
        place.write_remarks("# 1 1 did 1 waiting a 0\n# 2 1 did 2 waiting a 0\n# 1 2 did 1 waiting b 0\n");
        let (holds, place_in_line) = if is_granted { (vec!["a 3", "b 7"], None) } else { (vec!["a 3"], Some("b")) };
        let expected = [has(&holds, 2, place_in_line), has(&[], 1, Some("a"))];
        assert_eq!(place.killed(it, &[("a", 3), ("b", 7)]), expected);
    }
}

/// An operator has ended the hold for which it had waited. All the same that input was done.
#[test]
fn a_wait_of_which_nothing_is_left_was_done() {
    let place = Place::new("ended");
    let mut it = place.begin(1);
    waits(&mut it, 1, "a");
    it.hold(1, lock("a"), 3);
    it.free(1, lock("a"));
    it.prepare().unwrap();
    assert_eq!(place.killed(it, &[]), [has(&[], 1, None)]);
}

#[test]
fn a_hold_of_a_session_that_is_over_is_nobodys() {
    let place = Place::new("over");
    let mut it = place.begin(2);
    did(&mut it, 1, 1, "granted a 3");
    waits(&mut it, 2, "a");
    it.end(1);
    assert_eq!(place.killed(it, &[("a", 3)]), [has(&[], 1, Some("a"))]);
}

#[test]
fn a_hold_that_two_claim_is_nobodys() {
    let place = Place::new("two");
    let mut it = place.begin(2);
    did(&mut it, 1, 1, "granted a 3");
    did(&mut it, 2, 1, "granted a 3");
    assert_eq!(place.killed(it, &[("a", 3)]), [has(&[], 1, None), has(&[], 1, None)]);
}

#[test]
fn a_number_is_given_once() {
    let place = Place::new("number");
    let mut it = place.begin(2);
    let client = it.next_number();
    assert_eq!((client, it.come(70, Who::Unknown, Duration::from_secs(1), client)), (3, Ok((4, None))));
    it.end(4);
    it.forget(4);
    assert_eq!(it.come(70, Who::Unknown, Duration::from_secs(1), client), Ok((5, None)));
    it.end(5);
    it.prepare().unwrap();
    drop(it);
    assert_eq!(place.start().next_number(), 6);
}

/// However often a client asks for another lease, or comes to another connection.
#[test]
fn a_round_writes_one_line_for_a_session() {
    let place = Place::new("lines");
    let mut it = place.begin(2);
    it.write().unwrap();
    let path = place.journal.with_extension("sessions").join("sessions");
    let before = fs::read_to_string(&path).unwrap();
    for seconds in (1..=1000).rev() {
        it.set_lease(1, Duration::from_secs(seconds % 2 + 7));
        assert_eq!(it.come(10, Who::Unknown, Duration::from_secs(1), seconds).unwrap().0, 1);
    }
    it.write().unwrap();
    it.set_lease(2, Duration::from_secs(1)); // that is what it was
    it.write().unwrap();
    let after = fs::read_to_string(&path).unwrap();
    assert_eq!(after.strip_prefix(&before), Some("session 1 10 8000 - -\n"));
}

#[test]
fn where_nothing_new_is_to_be_kept_the_old_file_is_enough() {
    let place = Place::new("room");
    let mut it = place.begin(1);
    did(&mut it, 1, 1, "granted a 3");
    it.write().unwrap();
    drop(it);
    fs::create_dir(place.journal.with_extension("sessions").join("sessions.part")).unwrap(); // as if there was no room
    let mut it = place.start();
    it.prepare().unwrap();
    assert!(it.settle(&[(lock("a"), 3)]) && it.write().is_err());
    assert_eq!(found(&it.sessions[&1]), has(&["a 3"], 1, None));
    drop(it);
    place.write_remarks("# 1 2 did 1 granted b 4\n");
    let mut it = place.start();
    assert!(it.prepare().is_err()); // the journal has something new, which the engine drops
    assert!(it.prepare().is_err()); // it has that still, and no file has it
    drop(it);
    assert_eq!(found(&place.start().sessions[&1]), has(&["a 3"], 1, None));
}
