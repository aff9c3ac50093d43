//! That it is said of each file, in time and not too often, until when its certificates hold; over certificates that openssl makes.

use super::*;
use std::process::{Command, Stdio};

struct Folder(PathBuf);

impl Folder {
    fn new(name: &str) -> Folder {
        let folder = std::env::temp_dir().join(format!("wozgirt-certificates-{name}-{}", std::process::id()));
        let _ = fs::remove_dir_all(&folder);
        fs::create_dir(&folder).unwrap();
        Folder(folder)
    }
}

impl Drop for Folder {
    fn drop(&mut self) {
        let _ = fs::remove_dir_all(&self.0); // it may be gone
    }
}

/// A certificate that these words ask for, with its key; and when it ends, as openssl says. Nothing where there is no openssl.
fn made(folder: &Folder, name: &str, words: &[&str]) -> Option<(PathBuf, u64)> {
    let path = folder.0.join(name);
    let file = path.to_str().unwrap();
    let request = ["req", "-x509", "-nodes", "-subj", "/CN=René M", "-utf8", "-keyout", file, "-out", file];
    let status = Command::new("openssl").args(request).args(words).stdout(Stdio::null()).stderr(Stdio::null()).status();
    assert!(status.ok()?.success());
    let dates = ["x509", "-in", file, "-noout", "-enddate"];
    let told = String::from_utf8(Command::new("openssl").args(dates).output().unwrap().stdout).unwrap();
    let ends = told.trim().strip_prefix("notAfter=").unwrap();
    let seconds = Command::new("date").args(["-u", "-d", ends, "+%s"]).output().unwrap().stdout;
    Some((path, String::from_utf8(seconds).unwrap().trim().parse().unwrap()))
}

#[test]
fn certificates_that_openssl_makes() {
    let folder = Folder::new("made");
    let curve = ["-newkey", "ec", "-pkeyopt", "ec_paramgen_curve:P-256"];
    let kinds: [(&str, &[&str], &[&str]); 4] = [
        ("rsa", &["-newkey", "rsa:2048"], &["-days", "3"]),
        ("ec", &curve, &["-days", "400", "-addext", "basicConstraints=critical,CA:FALSE"]),
        ("ed25519", &["-newkey", "ed25519"], &["-days", "36500"]), // after 2049 a time is written in another way
        ("long", &curve, &["-days", "30", "-set_serial", "340282366920938463463374607431768211455"]),
    ];
    let mut all = String::new();
    let mut soonest = u64::MAX;
    for (name, key, words) in kinds {
        let Some((path, ends)) = made(&folder, name, &[key, words].concat()) else { return };
        assert_eq!(first_end(&path).unwrap(), ends, "{name}");
        all.push_str(&fs::read_to_string(&path).unwrap());
        soonest = soonest.min(ends);
    }
    let path = folder.0.join("all");
    fs::write(&path, &all).unwrap();
    assert_eq!(first_end(&path).unwrap(), soonest);
    // one that is cut anywhere is not half read
    let certificate = pem::certificates(&all).unwrap().remove(1);
    let ends = der::ends(&certificate);
    for length in 0..certificate.len() {
        assert_eq!(der::ends(&certificate[..length]), None, "{length}");
    }
    assert!(ends.is_some());
}

#[test]
fn files_that_say_nothing() {
    let folder = Folder::new("nothing");
    let path = folder.0.join("file");
    assert!(matches!(first_end(&path), Err(Unread::File(_))));
    for (text, why) in [
        ("", "it has no certificate in PEM"),
        ("-----BEGIN CERTIFICATE-----\nZg==\n-----END CERTIFICATE-----\n", "a certificate in it cannot be read"),
    ] {
        fs::write(&path, text).unwrap();
        assert_eq!(first_end(&path).unwrap_err().to_string(), why);
    }
}

/// What is said of a certificate that ends this number of days after `time`.
fn said(watched: &mut Watched, days: i64, time: Duration, now: Instant) -> Option<Option<Duration>> {
    let ends = time.as_secs().checked_add_signed(days * 86_400).unwrap();
    match watched.note(Ok(ends), time, now)? {
        News::Ends(left) => Some(left),
        News::Unread(why) => panic!("{why}"),
    }
}

#[test]
fn it_is_said_a_week_before_and_once_a_day() {
    let (mut watched, now) = (Watched { path: "c".into(), ends: None, said: None }, Instant::now());
    let (time, day) = (Duration::from_secs(1_796_000_000), Duration::from_secs(86_400));
    assert_eq!((said(&mut watched, 7, time, now), watched.ends()), (None, Some(1_796_000_000 + 7 * 86_400)));
    assert_eq!(said(&mut watched, 6, time, now), Some(Some(6 * day)));
    assert_eq!(said(&mut watched, 6, time, now + day / 2), None);
    assert_eq!(said(&mut watched, 0, time, now + day), Some(Some(Duration::ZERO)));
    assert_eq!(said(&mut watched, -1, time, now + 2 * day), Some(None));
    assert_eq!(said(&mut watched, 300, time, now + 2 * day), None);
    assert_eq!(said(&mut watched, 3, time, now + 2 * day), Some(Some(3 * day))); // another one, of which nothing was said
    let unread = |watched: &mut Watched, now| watched.note(Err(Unread::None), time, now).is_some();
    assert!(!unread(&mut watched, now + 2 * day) && watched.ends().is_none() && unread(&mut watched, now + 3 * day));
}

#[test]
fn a_thread_reads_them() {
    let folder = Folder::new("thread");
    let path = folder.0.join("none");
    let mut watching = Certificates::watch(&[path.clone()]).unwrap();
    let until = Instant::now() + Duration::from_secs(60);
    let mut news = Vec::new();
    while news.is_empty() && Instant::now() < until {
        news = watching.news(Instant::now());
        thread::yield_now();
    }
    assert!(matches!(&news[..], [(its, News::Unread(Unread::File(_)))] if *its == path));
    assert_eq!((watching.files().len(), watching.files()[0].ends()), (1, None));
    assert!(Certificates::watch(&[]).unwrap().news(Instant::now()).is_empty());
}
