//! That each answer is found to be whose it is, and one that nobody asked is refused.

use super::*;
use crate::names::Names;

fn does(session: Session, number: u64, input: &str, is_new: bool) -> Given {
    Given::Do { key: session + 100, session, number, input: input.parse().unwrap(), is_new }
}

fn lock(name: &str) -> Lock {
    name.parse().unwrap()
}

/// A board of the locks a and b.
fn board() -> Board {
    Board::new(&Names::parse("a,b").unwrap())
}

fn told<'a>(mirror: &mut Mirror, board: &mut Board, lines: &[&'a str]) -> Vec<Effect<'a>> {
    lines.iter().flat_map(|line| mirror.hear(line, board, Instant::now()).unwrap()).collect()
}

#[test]
fn grants_belong_to_what_brought_them() {
    let (mut mirror, mut board) = (Mirror::default(), board());
    for given in [
        does(1, 1, "acquire a 5", true),
        does(2, 1, "acquire b 5", true),
        does(3, 1, "acquire a 6", true),
        does(4, 1, "acquire b 6", true),
        does(1, 2, "release a 1", true),
        Given::Leave(3),
        Given::Leave(2),
        Given::Forget(2, 1),
        Given::Gone(102),
        Given::Here(104, 4),
        does(4, 1, "acquire b 6", false),
    ] {
        mirror.give(given);
    }
    mirror.give_at(1);
    let lines = ["1 granted a 1", "2 granted b 1", "3 waiting a 0", "4 waiting b 0", "1 released a", "3 granted a 2"];
    let effects = told(&mut mirror, &mut board, &lines);
    assert_eq!(effects.last(), Some(&Effect::Granted { session: 3, lock: "a", token: 2 }));
    let digest = "0".repeat(64);
    let at = format!("at 1 {digest}");
    let effects = told(&mut mirror, &mut board, &["4 granted b 2", "4 waiting b 0", &at]);
    assert_eq!(effects[0], Effect::Left(3, Standing { holds: vec![(lock("a"), 2)], waits: None }));
    assert_eq!(effects[2], Effect::Granted { session: 4, lock: "b", token: 2 });
    assert_eq!(effects[3..5], [Effect::Gone(102), Effect::Here(104, 4)]);
    assert!(matches!(effects[5], Effect::Answered { answer: Answer::Waiting { .. }, .. }));
    assert_eq!(effects[6], Effect::Done { position: 1, digest });
    assert_eq!(mirror.standing(4), Standing { holds: vec![(lock("b"), 2)], waits: None });
    assert_eq!((board.locks()[0].holder, board.locks()[1].holder.unwrap().client), (None, 4));
    assert!(mirror.is_idle() && mirror.holds(4, "b") && !mirror.holds(4, "a"));
}

#[test]
fn names_that_are_not_in_the_list() {
    let (mut mirror, mut board) = (Mirror::default(), Board::new(&Names::parse("a,*").unwrap()));
    for given in [
        does(1, 1, "acquire x/1 5", true),
        does(2, 1, "acquire x/1 6", true),
        does(2, 2, "try x/2 7", true),
        does(3, 1, "try x/3 8", true),
        Given::Leave(1),
        does(2, 3, "release x/1 8", true),
        does(2, 4, "release x/1 8", true),
    ] {
        mirror.give(given);
    }
    mirror.give_at(1);
    let at = format!("at 1 {}", "0".repeat(64));
    let lines = ["1 granted x/1 7", "2 waiting x/1 0", "2 refused names x/2", "3 granted x/3 9", "2 granted x/1 8"];
    let effects = told(&mut mirror, &mut board, &lines);
    assert_eq!(effects.last(), Some(&Effect::Granted { session: 2, lock: "x/1", token: 8 }));
    told(&mut mirror, &mut board, &["2 released x/1", "2 refused holder x/1", &at]);
    assert!(mirror.is_idle() && mirror.standing(2) == Standing::default() && mirror.holds(3, "x/3"));
    assert_eq!((board.any().unwrap().used(), board.lock("x/1").unwrap().is_used()), (1, false));
}

#[test]
fn what_nobody_asked() {
    for (given, line) in [
        (does(1, 1, "acquire a 5", true), "2 granted a 1"),
        (does(1, 1, "acquire a 5", true), "1 granted b 1"),
        (does(1, 1, "acquire a 5", true), "1 released a"),
        (does(1, 1, "acquire a 5", true), "at 1 0"),
        (Given::Leave(1), "1 granted a 1"),
        (Given::Stats(lock("a")), "0 stats b 8 0 0 0 0"),
    ] {
        let (mut mirror, mut board) = (Mirror::default(), board());
        mirror.give(given);
        assert_eq!(mirror.hear(line, &mut board, Instant::now()), Err(NotAsked), "{line}");
    }
}

#[test]
fn a_look_after_repairs() {
    let (mut mirror, mut board) = (Mirror::default(), board());
    mirror.give(does(1, 1, "corrupt a 2 3", true));
    mirror.give(Given::Stats(lock("a")));
    let effects = told(&mut mirror, &mut board, &["1 corrupted a 0", "0 stats a 8 0 6 0 0"]);
    assert_eq!(effects.len(), 1);
    assert_eq!((board.locks()[0].passes, board.locks()[0].machines, board.locks()[0].past.faults), (6, 8, 1));
}
