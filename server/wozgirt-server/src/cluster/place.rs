//! The file PLACE: which log this server is in, and how far it has read it.
//!
//! ```text
//! wozgirt place 1
//! log IDENTITY INCARNATION
//! with SETTINGS
//! POSITION REVISION DONE DIGEST
//! ```
//!
//! SETTINGS are those with which the log began, or `-` as long as this server has not read them. The last line counts: the last entry
//! that was read, and the last that the engine has done, with the digest there. A line is written before a client gets an answer of its
//! entry, so that an etcd that was wiped or restored is detected by it. It is on the disk within a second, and at once when this server
//! comes into the log and at checkpoints.

use super::entries::is_digest;
use crate::files::{create, replace};
use std::fmt;
use std::fs::{self, File};
use std::io::{self, ErrorKind, Write};
use std::path::{Path, PathBuf};
use std::sync::mpsc::{sync_channel, Receiver, SyncSender, TryRecvError};
use std::thread;
use std::time::{Duration, Instant};
use wozgirt_engine::decimal;

const FIRST: &str = "wozgirt place 1";
const NAME: &str = "PLACE";
/// How long a line may wait until it is on the disk.
const SYNC: Duration = Duration::from_secs(1);
/// A file that is longer is written anew.
const LONGEST: u64 = 16 << 20;

/// What is known of the log.
#[derive(Debug, Clone, PartialEq, Eq)]
pub struct Known {
    /// Which log it is.
    pub identity: String,
    /// The number of this server's last start in it; 0 if there was none.
    pub incarnation: u64,
    /// The settings with which the log began, if they were read.
    pub settings: Option<String>,
    /// The last entry that was read, and its revision; 0 before the first.
    pub position: u64,
    /// The revision.
    pub revision: u64,
    /// The last entry that the engine has done; 0 before the first.
    pub done: u64,
    /// The digest there.
    pub digest: String,
}

impl fmt::Display for Known {
    fn fmt(&self, f: &mut fmt::Formatter<'_>) -> fmt::Result {
        write!(f, "{} {} {} {}", self.position, self.revision, self.done, self.digest)
    }
}

impl Known {
    /// Nothing was read of this log.
    pub fn new(identity: String) -> Known {
        Known { identity, incarnation: 0, settings: None, position: 0, revision: 0, done: 0, digest: "0".repeat(64) }
    }

    /// Nothing if the text is of another form. A last line that is not whole, as after a loss of power, does not count.
    fn parse(text: &str) -> Option<Known> {
        let mut lines = text.split_inclusive('\n');
        let mut whole = || lines.next().and_then(|line| line.strip_suffix('\n'));
        if whole()? != FIRST {
            return None;
        }
        let (identity, incarnation) = whole()?.strip_prefix("log ")?.split_once(' ')?;
        let settings = Some(whole()?.strip_prefix("with ")?.to_string()).filter(|settings| settings != "-");
        let known = Known { incarnation: decimal(incarnation).ok()?, settings, ..Known::new(identity.into()) };
        let mut last = None;
        while let Some(found) = whole().and_then(|line| known.with(line)) {
            last = Some(found);
        }
        last
    }

    fn with(&self, line: &str) -> Option<Known> {
        let words: Vec<&str> = line.split(' ').collect();
        let [position, revision, done, digest] = words[..] else { return None };
        let number = |word: &str| decimal(word).ok();
        let (position, revision, done) = (number(position)?, number(revision)?, number(done)?);
        is_digest(digest).then(|| Known { position, revision, done, digest: digest.into(), ..self.clone() })
    }
}

/// The log is not the one that was read: why.
#[derive(Debug, PartialEq, Eq)]
pub struct Other(pub String);

/// The file, and what it says.
#[derive(Debug)]
pub struct Place {
    path: PathBuf,
    known: Option<Known>,
    /// Whether the log has the entries that were done before; the last entry that was read and its revision, until that is known.
    is_right: bool,
    ahead: Option<(u64, u64)>,
    file: Option<File>,
    size: u64,
    is_written: bool,
    /// When the file was last given to be synced, and whether it has changed since.
    synced: Instant,
    is_synced: bool,
    syncer: Syncer,
}

impl Place {
    /// The file in this folder, which may be missing. An error if its text is of another form.
    pub fn open(folder: &Path, now: Instant) -> io::Result<Place> {
        let path = folder.join(NAME);
        let known = match fs::read_to_string(&path) {
            Err(fault) if fault.kind() == ErrorKind::NotFound => None,
            Err(fault) => return Err(fault),
            Ok(text) => {
                let wrong = || io::Error::new(ErrorKind::InvalidData, format!("{}: it is damaged", path.display()));
                Some(Known::parse(&text).ok_or_else(wrong)?)
            }
        };
        let (file, syncer) = (None, Syncer::start()?);
        let (is_right, ahead) = (false, None);
        Ok(Place {
            path,
            known,
            is_right,
            ahead,
            file,
            size: 0,
            is_written: true,
            synced: now,
            is_synced: true,
            syncer,
        })
    }

    /// What is known of the log, if something is.
    pub fn known(&self) -> Option<&Known> {
        self.known.as_ref()
    }

    /// The log is read from this position on: whether it is the one that was read before is open until the engine has done so much again.
    pub fn begin(&mut self, position: u64) {
        self.is_right = self.known.as_ref().map_or(true, |known| known.done <= position);
        self.ahead = None;
    }

    /// Whether the log is known to be the one that was read before.
    pub fn is_right(&self) -> bool {
        self.is_right
    }

    /// A checkpoint is of this log, and reaches so far.
    pub fn raise(&mut self, identity: &str, position: u64, revision: u64) -> Result<(), Other> {
        let known = self.known.get_or_insert_with(|| Known::new(identity.into()));
        if known.identity != identity {
            return Err(Other(format!("CHECKPOINT is of the log {identity}, and {NAME} of {}", known.identity)));
        }
        if position > known.position {
            (known.position, known.revision) = (position, revision);
        }
        Ok(())
    }

    /// This start is in the log.
    pub fn join(&mut self, identity: &str, incarnation: u64) -> Result<io::Result<()>, Other> {
        let known = self.known.get_or_insert_with(|| Known::new(identity.into()));
        if known.identity != identity {
            return Err(Other(format!("it is {identity}, and {} was read", known.identity)));
        }
        known.incarnation = incarnation;
        Ok(self.rewrite())
    }

    /// The log began with these settings.
    pub fn note_settings(&mut self, settings: &str) -> io::Result<()> {
        match &mut self.known {
            Some(known) if known.settings.is_none() => known.settings = Some(settings.into()),
            _ => return Ok(()),
        }
        self.rewrite()
    }

    /// An entry was read.
    pub fn read(&mut self, position: u64, revision: u64) -> Result<(), Other> {
        let Some(known) = &mut self.known else { return Ok(()) };
        if position == known.position && revision != known.revision {
            return Err(Other(format!("entry {position} has revision {revision}, and had {}", known.revision)));
        }
        if position > known.position {
            self.ahead = Some((position, revision));
        }
        self.go_on();
        Ok(())
    }

    fn go_on(&mut self) {
        if !self.is_right {
            return;
        }
        if let (Some(known), Some(ahead)) = (&mut self.known, self.ahead.take()) {
            (known.position, known.revision) = ahead;
            self.is_written = false;
        }
    }

    /// The engine has done an entry.
    pub fn done(&mut self, position: u64, digest: &str) -> Result<(), Other> {
        let Some(known) = &mut self.known else { return Ok(()) };
        if position == known.done && digest != known.digest {
            return Err(Other(format!("it has other entries up to position {position} than were read")));
        }
        if position > known.done {
            (known.done, known.digest) = (position, digest.into());
            self.is_written = false;
        }
        self.is_right |= position == known.done;
        self.go_on();
        Ok(())
    }

    /// Writes what has changed. No client gets an answer of an entry before.
    pub fn write(&mut self, now: Instant) -> io::Result<()> {
        self.syncer.check()?;
        if let (Some(file), Some(known), false) = (&mut self.file, &self.known, self.is_written) {
            let line = format!("{known}\n");
            file.write_all(line.as_bytes())?;
            self.size += line.len() as u64;
            self.is_written = true;
            self.is_synced = false;
            if self.size > LONGEST {
                return self.rewrite();
            }
        }
        if let (Some(file), false) = (&self.file, self.is_synced) {
            if now.saturating_duration_since(self.synced) >= SYNC && self.syncer.sync(file)? {
                (self.synced, self.is_synced) = (now, true);
            }
        }
        Ok(())
    }

    /// Replaces the file; it is on the disk then.
    pub fn rewrite(&mut self) -> io::Result<()> {
        let Some(known) = &self.known else { return Ok(()) };
        let part = self.path.with_extension("part");
        let settings = known.settings.as_deref().unwrap_or("-");
        let text = format!("{FIRST}\nlog {} {}\nwith {settings}\n{known}\n", known.identity, known.incarnation);
        let file = replace(&self.path, &part, create, text.as_bytes())?;
        (self.file, self.size, self.is_written, self.is_synced) = (Some(file), text.len() as u64, true, true);
        Ok(())
    }
}

/// A thread that syncs files, since the server does not wait for the disk.
#[derive(Debug)]
struct Syncer {
    files: SyncSender<File>,
    faults: Receiver<io::Error>,
}

impl Syncer {
    fn start() -> io::Result<Syncer> {
        let (files, given) = sync_channel::<File>(1);
        let (told, faults) = sync_channel(1);
        thread::Builder::new().name("place".into()).spawn(move || {
            for file in given {
                if let Err(fault) = file.sync_data() {
                    let _ = told.try_send(fault); // one is enough
                }
            }
        })?;
        Ok(Syncer { files, faults })
    }

    /// Whether it will be synced: not if the one before is not done.
    fn sync(&self, file: &File) -> io::Result<bool> {
        Ok(self.files.try_send(file.try_clone()?).is_ok())
    }

    fn check(&self) -> io::Result<()> {
        match self.faults.try_recv() {
            Ok(fault) => Err(fault),
            Err(TryRecvError::Empty | TryRecvError::Disconnected) => Ok(()),
        }
    }
}

#[cfg(test)]
mod tests {
    use super::*;

    fn digest(digit: char) -> String {
        digit.to_string().repeat(64)
    }

    fn folder(name: &str) -> PathBuf {
        let path = std::env::temp_dir().join(format!("wozgirt-place-{name}-{}", std::process::id()));
        let _ = fs::remove_dir_all(&path);
        fs::create_dir(&path).unwrap();
        path
    }

    #[test]
    fn it_is_written_and_read() {
        let (folder, now) = (folder("written"), Instant::now());
        let mut place = Place::open(&folder, now).unwrap();
        assert_eq!(place.known(), None);
        assert!(!folder.join(NAME).exists());
        place.join("x", 3).unwrap().unwrap();
        place.begin(0);
        place.note_settings("9 - 0 a:8:8,b:8:8").unwrap();
        place.note_settings("9 - 0 a:8:8").unwrap();
        for position in 1..=5 {
            place.read(position, position + 10).unwrap();
            place.write(now + SYNC).unwrap();
        }
        place.done(4, &digest('a')).unwrap();
        place.write(now).unwrap();
        let known = Known {
            identity: "x".into(),
            incarnation: 3,
            settings: Some("9 - 0 a:8:8,b:8:8".into()),
            position: 5,
            revision: 15,
            done: 4,
            digest: digest('a'),
        };
        assert_eq!(Place::open(&folder, now).unwrap().known(), Some(&known));
        let text = fs::read_to_string(folder.join(NAME)).unwrap();
        assert_eq!(text.lines().count(), 10);
        place.rewrite().unwrap();
        assert_eq!(fs::read_to_string(folder.join(NAME)).unwrap().lines().count(), 4);
        assert_eq!(Place::open(&folder, now).unwrap().known(), Some(&known));
        fs::remove_dir_all(folder).unwrap();
    }

    #[test]
    fn a_last_line_that_is_not_whole_does_not_count() {
        let whole = format!("{FIRST}\nlog x 3\nwith -\n5 15 4 {}\n", digest('a'));
        let known = Known::parse(&whole).unwrap();
        for rest in ["6", "6 16 5 aa\n7 17 6 bb", &format!("6 16 5 {}", digest('b')), "\0\0\0"] {
            assert_eq!(Known::parse(&format!("{whole}{rest}")).as_ref(), Some(&known), "{rest:?}");
        }
        for wrong in
            ["", FIRST, &whole[..whole.len() - 1], &whole.replace("place 1", "place 2"), &whole.replace("log x", "log")]
        {
            assert_eq!(Known::parse(wrong), None, "{wrong:?}");
        }
        let folder = folder("damaged");
        fs::write(folder.join(NAME), FIRST).unwrap();
        assert_eq!(Place::open(&folder, Instant::now()).unwrap_err().kind(), ErrorKind::InvalidData);
        fs::remove_dir_all(folder).unwrap();
    }

    #[test]
    fn another_log_is_known() {
        let (folder, now) = (folder("other"), Instant::now());
        let mut place = Place::open(&folder, now).unwrap();
        place.join("x", 1).unwrap().unwrap();
        place.begin(0);
        place.read(1, 11).unwrap();
        place.read(2, 12).unwrap();
        place.done(1, &digest('a')).unwrap();
        assert_eq!((place.read(1, 9), place.read(2, 12), place.done(1, &digest('a'))), (Ok(()), Ok(()), Ok(())));
        place.begin(0); // it is read again
        place.read(3, 13).unwrap();
        assert_eq!((place.is_right(), place.known().map(|known| known.position)), (false, Some(2)));
        assert!(place.read(2, 13).is_err() && place.done(1, &digest('b')).is_err());
        assert!(place.join("y", 2).is_err() && place.raise("y", 9, 19).is_err());
        place.done(1, &digest('a')).unwrap();
        assert_eq!((place.is_right(), place.known().map(|known| known.position)), (true, Some(3)));
        place.raise("x", 1, 11).unwrap();
        assert_eq!(place.known().map(|known| known.position), Some(3));
        place.raise("x", 9, 19).unwrap();
        assert_eq!(place.known().map(|known| (known.position, known.revision)), Some((9, 19)));
        fs::remove_dir_all(folder).unwrap();
    }
}
