//! Whom rules let in, and which are refused.

use super::*;
use crate::names::Names;
use wozgirt_system::Peer;

fn parse(text: &str) -> Result<Rules, BadRule> {
    let mut accounts = Accounts::with(&[("alice", 1000)], &[("ops", 50)]);
    Rules::parse(text, &board("deploy,gpu,db,db/1,db/2,dbx"), &mut accounts)
}

fn board(list: &str) -> Board {
    Board::new(&Names::parse(list).unwrap())
}

fn peer(user: u32, groups: &[u32]) -> Known {
    Known::Process(Peer { process: 1, user, groups: groups.to_vec() })
}

#[test]
fn users_groups_and_all() {
    let rules = parse("# who may\nlock deploy: alice %ops 1007\n\nlock *:   # nobody else\nlock gpu: *\n").unwrap();
    assert!(rules.permits("deploy", &peer(1000, &[1000])));
    assert!(rules.permits("deploy", &peer(1001, &[1001, 50])));
    assert!(rules.permits("deploy", &peer(1007, &[1])));
    assert!(!rules.permits("deploy", &peer(1001, &[1001])));
    assert!(!rules.permits("deploy", &Known::Nobody));
    assert!(rules.permits("gpu", &Known::Nobody));
    assert!(!rules.permits("db", &peer(0, &[0])));
    assert_eq!((rules.count(6, &peer(1000, &[1])), rules.count(6, &Known::Nobody)), (2, 1));
    let rules = parse("lock deploy: alice").unwrap();
    assert!(rules.permits("db", &Known::Nobody) && rules.count(6, &Known::Nobody) == 5);
}

/// Which of the locks each of the users 1, 2 and 3 may use.
fn permitted(text: &str) -> [Vec<&'static str>; 3] {
    let rules = parse(text).unwrap();
    [1, 2, 3].map(|user| {
        let peer = peer(user, &[]);
        let all = ["deploy", "gpu", "db", "db/1", "db/2", "dbx"].into_iter();
        let may: Vec<_> = all.filter(|name| rules.permits(name, &peer)).collect();
        assert_eq!(rules.count(6, &peer), may.len(), "{text}");
        may
    })
}

#[test]
fn patterns() {
    let names = permitted("lock *: 3\nlock db*: 1\nlock db/*: 2\nlock db/2: 1 2\n");
    assert_eq!(names, [vec!["db", "db/2", "dbx"], vec!["db/1", "db/2"], vec!["deploy", "gpu"]]);
    // in any order, and of names that no lock has
    let names = permitted("lock db/2: 1\nlock db/*: 2\nlock z*: 3\nlock db/2/*:\nlock db*: 1 3");
    let all = ["deploy", "gpu"].as_slice();
    assert_eq!(names[0], [all, &["db", "db/2", "dbx"]].concat());
    assert_eq!(names[1], [all, &["db/1"]].concat());
    assert_eq!(names[2], [all, &["db", "dbx"]].concat());
    let rules = parse("lock db/*:\nlock d*: *").unwrap();
    assert!(
        !rules.permits("db/é", &Known::Nobody)
            && rules.permits("dé", &Known::Nobody)
            && !rules.permits("db/", &Known::Nobody)
    );
    assert!(
        rules.permits("d", &Known::Nobody) && rules.permits("é", &Known::Nobody) && rules.permits("", &Known::Nobody)
    );
}

#[test]
fn rules_of_another_list() {
    let rules = parse("lock db/*:\nlock gpu*: 1\nlock gpu:").unwrap();
    assert_eq!(rules.count(6, &Known::Nobody), 3);
    let rules = rules.of(&board("deploy,gpu,db,db/1,db/2,dbx,db/3,gpu/1,gpu/2"));
    assert_eq!((rules.count(9, &Known::Nobody), rules.count(9, &peer(1, &[]))), (3, 5));
    assert!(!rules.permits("db/3", &Known::Nobody) && !rules.permits("gpu/1", &Known::Nobody));
    assert_eq!(rules.of(&board("deploy")).count(1, &Known::Nobody), 1);
}

#[test]
fn rules_of_names_that_are_not_in_the_list() {
    let board = board("deploy,*");
    let text = "lock order/4711: 1\nlock order/*: 2\nlock deploy: 1 2";
    let rules = Rules::parse(text, &board, &mut Accounts::default()).unwrap();
    let [one, two] = [1, 2].map(|user| peer(user, &[]));
    for (name, first, second) in [("order/4711", true, false), ("order/4712", false, true), ("x", true, true)] {
        assert_eq!((rules.permits(name, &one), rules.permits(name, &two)), (first, second), "{name}");
    }
    assert_eq!((rules.count(1, &one), rules.count(1, &Known::Nobody)), (1, 0));
    let bad = Rules::parse("lock a b: *", &board, &mut Accounts::default());
    assert_eq!(bad.unwrap_err().to_string(), "line 1: there is no lock a b");
}

#[test]
fn who_is_not_known_is_nobody() {
    let rules = parse("lock gpu: no-such-user\n\nlock db: no-such-user alice %no-such-group").unwrap();
    let [alice, other] = [1000, 4_294_967_295].map(|user| peer(user, &[user]));
    for (name, first, second) in [("gpu", false, false), ("db", true, false), ("deploy", true, true)] {
        let permits = (rules.permits(name, &alice), rules.permits(name, &other));
        assert_eq!(permits, (first, second), "{name}");
    }
    let told: Vec<_> = rules.unknown().iter().map(Unknown::to_string).collect();
    let user = |line| format!("line {line}: there is no user no-such-user");
    assert_eq!(told, [user(1), user(3), "line 3: there is no group no-such-group".into()]);
    assert!(parse("lock gpu: alice %ops 7 %8 *").unwrap().unknown().is_empty());
}

#[test]
fn refusals() {
    let texts = [
        ("lock deploy alice", "line 1: `lock NAME: USER %GROUP cert:NAME ..` is wanted"),
        ("\nuser deploy: alice", "line 2: `lock NAME: USER %GROUP cert:NAME ..` is wanted"),
        ("lock x: alice", "line 1: there is no lock x"),
        ("lock gpu: *\nlock gpu: alice", "line 2: lock gpu has a rule already"),
        ("lock *: alice\nlock *:", "line 2: lock * has a rule already"),
        ("lock d*: *\nlock db:\nlock d*:", "line 3: lock d* has a rule already"),
        ("lock d*b: *", "line 1: in d*b a `*` is not at the end, where it means any rest of a name"),
        ("lock *b: *", "line 1: in *b a `*` is not at the end, where it means any rest of a name"),
        ("lock d**: *", "line 1: in d** a `*` is not at the end, where it means any rest of a name"),
        ("lock db/ *: *", "line 1: no name of a lock begins with `db/ `"),
        ("lock db: cert:", "line 1: in cert: the name of a certificate is empty"),
        ("lock db: alice cert:a%2", "line 1: in cert:a%2 the name of a certificate is not written as names are"),
        ("lock db: cert:%zz*", "line 1: in cert:%zz* the name of a certificate is not written as names are"),
        ("lock db: cert:a*b", "line 1: in cert:a*b the name of a certificate is not written as names are"),
        ("lock db: cert:a**", "line 1: in cert:a** the name of a certificate is not written as names are"),
        ("lock db: cert:%FF", "line 1: in cert:%FF the name of a certificate is not text in UTF-8"),
    ];
    for (text, why) in texts {
        assert_eq!(parse(text).unwrap_err().to_string(), why);
    }
}

fn certificate(name: &str) -> Known {
    Known::Certificate(CertificateName::new(name.as_bytes()).unwrap())
}

#[test]
fn certificates() {
    let text =
        "lock deploy: cert:build-* cert:René alice\nlock gpu: cert:*\nlock db: *\nlock dbx: cert:a%20b%2A cert:%C3*\n";
    let rules = parse(text).unwrap();
    for (name, permitted) in [
        ("build-", &["deploy", "gpu", "db"][..]),
        ("build-7", &["deploy", "gpu", "db"]),
        ("build", &["gpu", "db"]),
        ("Build-7", &["gpu", "db"]),
        ("xbuild-7", &["gpu", "db"]),
        ("René", &["deploy", "gpu", "db"]),
        ("Renés", &["gpu", "db"]),
        ("alice", &["gpu", "db"]), // a certificate is not a user
        ("a b*", &["gpu", "db", "dbx"]),
        ("a b", &["gpu", "db"]),
        ("a b*c", &["gpu", "db"]),
        ("éa", &["gpu", "db", "dbx"]),
    ] {
        let known = certificate(name);
        let all = ["deploy", "gpu", "db", "dbx"].into_iter();
        assert_eq!(all.filter(|lock| rules.permits(lock, &known)).collect::<Vec<_>>(), permitted, "{name}");
        assert_eq!(rules.count(6, &known), permitted.len() + 2, "{name}"); // two locks have no rule
    }
    for nobody in [Known::Nobody, peer(0, &[0]), peer(1, &[])] {
        assert!(!rules.permits("deploy", &nobody) && !rules.permits("gpu", &nobody) && rules.permits("db", &nobody));
    }
    assert!(rules.permits("deploy", &peer(1000, &[])) && rules.unknown().is_empty());
    assert_eq!(names_in(text).collect::<Vec<_>>(), ["alice"]); // the system is asked of no certificate
}
