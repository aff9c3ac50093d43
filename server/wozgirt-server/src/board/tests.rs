//! Tests of the board.

use super::*;
use crate::log::End;
use std::time::Duration;

fn board() -> Board {
    Board::new(&Names::parse("a,b").unwrap())
}

#[test]
fn a_hand_over() {
    let (mut board, start) = (board(), Instant::now());
    board.granted("a", 1, 1, Some(77), start);
    let acquire = "acquire a 1".parse().unwrap();
    board.asked(&acquire, &Guest::UNKNOWN);
    assert!(board.locks()[0].is_full(1) && !board.locks()[0].is_full(2));
    assert!(!board.locks()[1].is_full(0));
    board.asked_no_longer(&acquire);
    board.waits("a", 2, 78, start);
    board.waits("a", 3, 79, start);
    board.released("a", 2); // does not hold it
    assert_eq!(board.locks()[0].holder.unwrap().client, 1);
    board.released("a", 1);
    assert_eq!(board.locks()[0].holder, None);
    board.granted("a", 2, 2, None, start + Duration::from_millis(5));
    let sight = &board.locks()[0];
    let holder = Holder { client: 2, token: 2, label: Some(78), since: start + Duration::from_millis(5) };
    assert_eq!(sight.holder, Some(holder));
    assert_eq!((sight.past.grants, sight.past.longest_wait, sight.line.len()), (2, Duration::from_millis(5), 1));
    let mut left = |lock, client| board.left(lock, client, Why::Left);
    assert!(left("a", 2) && !left("a", 2) && !left("c", 2));
    assert_eq!(
        (board.all_waits().counts[0], board.all_waits().counts[2], board.all_waits().sum.as_millis()),
        (1, 1, 5)
    );
    board.waits_no_longer("a", 3);
    assert_eq!((board.locks()[0].holder, board.locks()[0].line.len()), (None, 0));
}

#[test]
fn a_restart() {
    let (mut board, now) = (board(), Instant::now());
    board.granted("a", 5, 9, Some(1), now);
    board.waits("a", 6, 1, now);
    board.forget();
    let stats = Stats { lock: "a", machines: 8, waiters: 0, passes: 9, holder: NOBODY, token: 9 };
    assert!(board.begin(&stats, now));
    assert_eq!(board.locks()[0].holder.unwrap().client, NOBODY);
    assert!(board.left("a", NOBODY, Why::Grace));
    assert!(!board.begin(&Stats { token: 0, ..stats }, now));
    assert!(!board.begin(&Stats { holder: 7, ..stats }, now));
}

#[test]
fn another_list() {
    let mut board = board();
    board.granted("b", 5, 9, Some(1), Instant::now());
    for list in [&["a", "b", "c"][..], &["b"], &["x", "b"]] {
        board.take(&Names::parse(&list.join(",")).unwrap());
        assert_eq!(board.locks().iter().map(|sight| &*sight.lock).collect::<Vec<_>>(), list);
        assert!(list.iter().all(|name| board.lock(name).unwrap().lock == *name));
        assert_eq!((board.lock("b").unwrap().past.grants, board.lock("d").is_none()), (1, true));
    }
}

#[test]
fn news_of_holds_are_kept_if_somebody_wants_them() {
    let (mut board, now) = (board(), Instant::now());
    let hold = |board: &mut Board, client, token, why| {
        board.waits("a", client, 70 + client, now);
        board.granted("a", client, token, None, now);
        board.left("a", client, why);
    };
    hold(&mut board, 1, 1, Why::Left);
    assert!(!board.has_news() && board.take_news().is_empty());
    board.keep_news();
    hold(&mut board, 2, 2, Why::Parted(End::Lease));
    hold(&mut board, 3, 3, Why::Parted(End::Engine)); // which lasts
    board.kept(&"a".parse().unwrap(), 3, 3);
    board.released("b", 1); // does not hold it
    assert!(board.has_news());
    let news = board.take_news();
    let found: Vec<_> = news.iter().map(|it| (&*it.lock, it.token, it.client, it.change)).collect();
    let ended = Change::Ended(Why::Parted(End::Lease));
    let granted = |label| Change::Granted(Some(label));
    assert_eq!(
        found,
        [("a", 2, 2, granted(72)), ("a", 2, 2, ended), ("a", 3, 3, granted(73)), ("a", 3, 3, Change::Kept)]
    );
    assert!(!board.has_news() && board.take_news().is_empty());
    let words =
        [Why::Released, Why::Operator, Why::Left, Why::Parted(End::Deaf), Why::Session, Why::Grace, Why::Server];
    assert_eq!(words.map(Why::word), ["released", "operator", "left", "deaf", "session", "grace", "server"]);
}
