//! What the server has of the record: blocks, numbers of blocks, and what is said when it cannot be written.

use super::*;
use std::fs;
use std::path::PathBuf;
use std::thread;
use wozgirt_grants::Who;

fn folder(name: &str) -> PathBuf {
    let folder = std::env::temp_dir().join(format!("wozgirt-record-of-{name}-{}", std::process::id()));
    let _ = fs::remove_dir_all(&folder);
    fs::create_dir(&folder).unwrap();
    folder
}

fn open(folder: &Path, is_synced: bool) -> Grants {
    Grants::open(&folder.join("grants"), 1 << 20, None, is_synced, Instant::now()).unwrap()
}

fn granted(token: u64) -> Line<'static> {
    Line::Granted { lock: "a", token, label: Some(7), who: Who { client: 1, ..Who::default() } }
}

#[test]
fn a_block_is_written_at_once_and_its_lines_have_one_moment() {
    let (folder, now) = (folder("block"), Instant::now());
    let mut grants = open(&folder, false);
    assert_eq!(grants.write(now), None);
    grants.put(&granted(1));
    grants.put(&Line::Ended { lock: "a", token: 1, why: "lease" });
    let text = || fs::read_to_string(folder.join("grants")).unwrap();
    assert_eq!(text().lines().count(), 2);
    assert_eq!((grants.write(now), grants.done(), grants.patience()), (None, 0, None));
    let lines: Vec<_> = text()
        .lines()
        .skip(2)
        .map(|it| it.split_once(' ').map(|(at, it)| (at.to_string(), it.to_string())).unwrap())
        .collect();
    assert_eq!(
        (lines[0].0.clone(), lines[0].1.as_str(), lines[1].1.as_str()),
        (lines[1].0.clone(), "granted a 1 label=7 client=1", "ended a 1 lease")
    );
    assert_eq!((grants.sums(), grants.is_well(), grants.news()), (Sums { written: 2, lost: 0 }, true, vec![]));
    fs::remove_dir_all(folder).unwrap();
}

#[test]
fn answers_wait_for_the_disk_for_a_while() {
    let (folder, now) = (folder("synced"), Instant::now());
    let mut grants = open(&folder, true);
    grants.put(&granted(1));
    assert_eq!((grants.write(now), grants.patience()), (None, Some(now + PATIENCE)));
    for token in 2..=3 {
        grants.put(&granted(token));
        grants.write(now);
    }
    while grants.done() < 3 {
        thread::sleep(Duration::from_millis(1));
    }
    grants.hear(now);
    assert_eq!((grants.done(), grants.patience(), grants.is_well()), (3, None, true));
    // a disk that does not answer: the thread is gone
    grants.syncing = Some(Syncing::never());
    grants.put(&granted(4));
    assert_eq!((grants.write(now), grants.done()), (Some(3), 0)); // it waits for the one before
    grants.pass_time(now + PATIENCE / 2);
    assert_eq!((grants.done(), grants.news()), (0, vec![]));
    grants.pass_time(now + PATIENCE);
    assert_eq!((grants.done(), grants.patience(), grants.is_well()), (4, None, false));
    grants.put(&granted(5));
    assert_eq!((grants.write(now), grants.done()), (None, 5));
    assert_eq!(grants.news(), [News::Unwritten("the disk does not take them in time".into())]);
    fs::remove_dir_all(folder).unwrap();
}

#[test]
fn what_cannot_be_written_is_said_once() {
    let (folder, now) = (folder("unwritten"), Instant::now());
    let path = folder.join("grants");
    let mut grants = open(&folder, false);
    fs::remove_file(&path).unwrap();
    fs::create_dir(&path).unwrap();
    for second in 1..4 {
        grants.put(&granted(second));
        assert_eq!(grants.write(now + Duration::from_secs(2 * second)), None);
    }
    assert_eq!((grants.is_well(), grants.sums()), (false, Sums { written: 0, lost: 3 }));
    assert!(matches!(&grants.news()[..], [News::Unwritten(_)]));
    fs::remove_dir(&path).unwrap();
    grants.put(&granted(4));
    grants.write(now + Duration::from_secs(9));
    assert_eq!(
        (grants.is_well(), grants.news(), grants.sums()),
        (true, vec![News::Written(3)], Sums { written: 1, lost: 3 })
    );
    let text = fs::read_to_string(&path).unwrap();
    assert!(text.contains(" gap 3 ") && text.contains(" granted a 4 ") && !text.contains(" granted a 3 "), "{text}");
    fs::remove_dir_all(folder).unwrap();
}
