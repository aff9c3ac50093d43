//! That settings are read as they are written, and refused where they do not fit.

use super::*;
use std::os::unix::ffi::OsStringExt;

fn read(words: &str) -> Result<Settings, BadWords> {
    match parse(words.split_whitespace().map(String::from), None)? {
        Words::Run(settings) => Ok(*settings),
        other => panic!("{other:?}"),
    }
}

#[test]
fn few_words() {
    let settings = read("--journal /j").unwrap();
    assert_eq!(settings.engine_words(), ["locks", "--journal", "/j", "--sync"]);
    assert_eq!(settings.engine.program, "ring_tool");
    assert_eq!(settings.sockets.clients, Named { path: "/run/wozgirt/lock.sock".into(), mode: 0o600, group: None });
    assert_eq!((settings.sockets.operators, settings.sockets.tcp, settings.sockets.page), (None, None, None));
    assert_eq!(
        (settings.limits.longest_lease, settings.limits.grace),
        (Duration::from_secs(30), Duration::from_secs(30))
    );
    assert_eq!(read("--journal=/j --grace=31").unwrap().limits.grace, Duration::from_secs(31));
}

#[test]
fn words_that_are_no_text() {
    let word = OsString::from_vec(b"\xff".to_vec());
    for words in [vec!["--journal".into(), word.clone()], vec![word.clone()]] {
        assert_eq!(parse(words, None), Err(BadWords::NoText(word.clone())));
    }
    assert_eq!(BadWords::NoText(word).to_string(), "\"\\xFF\" is not text in UTF-8");
}

#[test]
fn all_words() {
    let settings = read(
        "--engine e --journal j --locks a,b:3 --segment 9 --no-sync --faults --engine-patience 3 --socket s --mode 660 --group g \
         --operators o --operators-mode 640 --operators-group h --proxied x --proxied-mode 640 --proxied-group i --watch-certificate c \
         --watch-certificate d --tcp 127.0.0.1:1 --page [::1]:2 --rules r \
         --longest-lease 0.5 --lease-for-all --grace 2 --connections 7 --memory 64 --waiters 8 --most-holds 6 --deaf 9 \
         --log-connections --no-sessions --session-bytes 5",
    )
    .unwrap();
    let few = read("--journal j").unwrap();
    assert_eq!([settings.keeps_sessions, few.keeps_sessions], [false, true]);
    assert_eq!([settings.session_bytes, few.session_bytes], [5, 1 << 24]);
    let words = ["locks", "--journal", "j", "--locks", "a,b:3", "--segment", "9", "--no-sync", "--faults"];
    assert_eq!(settings.engine_words(), words);
    assert_eq!(settings.sockets.clients, Named { path: "s".into(), mode: 0o660, group: Some("g".into()) });
    assert_eq!(settings.sockets.operators, Some(Named { path: "o".into(), mode: 0o640, group: Some("h".into()) }));
    assert_eq!(settings.sockets.proxied, Some(Named { path: "x".into(), mode: 0o640, group: Some("i".into()) }));
    assert_eq!((few.sockets.proxied, settings.certificates), (None, vec!["c".into(), "d".into()]));
    assert_eq!(settings.sockets.tcp, Some("127.0.0.1:1".parse().unwrap()));
    assert_eq!(settings.sockets.page, Some("[::1]:2".parse().unwrap()));
    assert_eq!(
        (settings.limits.longest_lease, settings.limits.grace),
        (Duration::from_millis(500), Duration::from_secs(2))
    );
    assert_eq!((settings.limits.connections, settings.limits.waiters, settings.limits.deaf.as_secs()), (7, 8, 9));
    assert_eq!((settings.limits.most_holds, read("--journal j").unwrap().limits.most_holds), (6, 1024));
    assert_eq!((settings.limits.memory, settings.engine.patience.as_secs()), (Some(64), 3));
    assert!(settings.limits.is_lease_for_all && settings.logs_connections);
}

#[test]
fn a_server_of_ones_own() {
    let own = OwnFolder::of(|_| Some("/state".into()));
    let read = |words: &str| match parse(words.split_whitespace(), own.clone()) {
        Ok(Words::Run(settings)) => {
            (settings.is_own, settings.journal, settings.sockets.clients.path, settings.sockets.operators)
        }
        other => panic!("{other:?}"),
    };
    let folder = PathBuf::from("/state/wozgirt");
    let operators = Some(Named { path: folder.join("operators.sock"), mode: 0o600, group: None });
    assert_eq!(read(""), (true, folder.join("journal"), folder.join("lock.sock"), operators.clone()));
    assert_eq!(read("--socket s"), (true, folder.join("journal"), "s".into(), operators));
    assert_eq!(read("--journal j"), (false, "j".into(), "/run/wozgirt/lock.sock".into(), None));
    let of_several = parse(["--etcd", "e", "--name", "a"], own.clone());
    assert_eq!(of_several, Err(BadWords::Missing("--journal")));
}

#[test]
fn any_name() {
    let words = read("--journal j --locks a,* --most-names 1000").unwrap().engine_words();
    assert_eq!(words, ["locks", "--journal", "j", "--locks", "a,*", "--most-names", "1000", "--sync"]);
}

#[test]
fn one_of_several() {
    let settings = read("--journal /j --etcd http://a,http://b --name x").unwrap();
    let words = ["locks", "--journal", "/j/journal", "--no-sync", "--strict", "--holders", "/j/holders"];
    assert_eq!(settings.engine_words(), words);
    let cluster = settings.cluster.unwrap();
    assert_eq!((cluster.checkpoint, &*cluster.program), (100_000, "wozgirt-log"));
    let words = "--endpoints http://a,http://b --prefix wozgirt --name x --lease 10";
    assert_eq!(cluster.words().join(" "), words);
    let settings = read(
        "--journal j --etcd e --name x.1 --prefix p/q --cacert c --cert d --key f --etcd-user u --etcd-password-file v --host-lease 1.5 --checkpoint 9 \
         --log-program g",
    );
    let cluster = settings.unwrap().cluster.unwrap();
    let words = "--endpoints e --prefix p/q --name x.1 --lease 2 --cacert c --cert d --key f --etcd-user u --etcd-password-file v";
    assert_eq!(cluster.words().join(" "), words);
    assert_eq!((cluster.checkpoint, &*cluster.program), (9, "g"));
}

#[test]
fn refusals() {
    let texts = [
        ("", "--journal is missing"),
        ("--journal", "--journal needs a value"),
        ("--journal j --jump", "there is no option --jump"),
        ("--journal j jump", "there is no option jump"),
        ("--journal j --no-sync=1", "there is no option --no-sync=1"),
        ("--journal j -- --no-sync", "there is no option --"),
        ("--journal j --mode 8", "--mode: bad value `8`"),
        ("--journal j --mode 1777", "--mode: bad value `1777`"),
        ("--journal j --grace -1", "--grace: bad value `-1`"),
        ("--journal j --grace inf", "--grace: bad value `inf`"),
        ("--journal j --deaf 0", "--deaf: bad value `0`"),
        ("--journal j --connections 18446744073709551615", "--connections: bad value `18446744073709551615`"),
        ("--journal j --connections 1000001", "--connections: bad value `1000001`"),
        ("--journal j --keep-segments 1", "--keep-segments: bad value `1`"),
        ("--journal j --session-bytes x", "--session-bytes: bad value `x`"),
        ("--journal j --no-sessions --etcd e --name a", "--no-sessions is for a single server, without --etcd"),
        ("--journal j --keep-segments 2 --etcd e --name a", "--keep-segments is for a single server, without --etcd"),
        ("--journal j --memory 0", "--memory: bad value `0`"),
        ("--journal j --most-holds 0", "--most-holds: bad value `0`"),
        ("--journal j --most-names 1000001", "--most-names: bad value `1000001`"),
        ("--journal j --etcd e", "--name is missing"),
        ("--journal j --etcd e --name a:b", "--name: bad value `a:b`"),
        ("--journal j --etcd e --name a --host-lease 0.5", "--host-lease: bad value `0.5`"),
        ("--journal j --name a", "--name is for several servers: see --etcd"),
        ("--journal j --key f", "--key is for several servers: see --etcd"),
        ("--journal j --tcp localhost:1", "--tcp: bad value `localhost:1`"),
        ("--journal j --longest-lease 10 --grace 9", "--grace is shorter than --longest-lease"),
    ];
    for (words, why) in texts {
        assert_eq!(read(words).unwrap_err().to_string(), why);
    }
    assert!(matches!(read("--journal j --tcp 0.0.0.0:1"), Err(BadWords::Anywhere(_))));
    assert!(read("--journal j --tcp 0.0.0.0:1 --listen-anywhere").is_ok());
    assert_eq!(parse(["--help"], None), Ok(Words::Help));
    assert_eq!(parse(["--version"], None), Ok(Words::Version));
}
