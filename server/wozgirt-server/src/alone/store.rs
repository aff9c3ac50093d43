//! The folder beside the journal, with what is kept of sessions.
//!
//! The file `sessions` has a line for each change. It is written before a client gets an answer about the change, so it outlives the
//! server. It is on the disk when the server starts its engine, which writes the last segment anew, without what that has of sessions. A
//! file that has become long is replaced, by one that is on the disk before it gets that name; the server does not wait for that. A file
//! stays until the next one is complete: what a file that misses the last changes says of a hold is true as long as that hold is open.
//!
//! ```text
//! wozgirt sessions 2
//! last NUMBER
//! session NUMBER KEY LEASE USER ADDRESS
//! NUMBER INPUT did ANSWER
//! NUMBER acquire LOCK LABEL
//! hold LOCK TOKEN NUMBER
//! free NUMBER LOCK
//! over NUMBER
//! ```
//!
//! LOCK is the name of a lock. The first version had numbers of locks: of such a file no line counts. Lines that begin with `boot`, `plain`
//! or `given`, which other servers write, say nothing.

use crate::cluster::{NoFolder, Owner};
use crate::files::{beside, refuse_link};
use crate::private;
use std::fmt;
use std::fs::{self, File};
use std::io::{self, BufRead, BufReader, ErrorKind, Write};
use std::path::{Path, PathBuf};
use std::sync::mpsc::{channel, Receiver, TryRecvError};
use std::thread;
use std::time::Duration;
use wozgirt_engine::{decimal, Client, Lock, NotALine, StateLine};
use wozgirt_system::{inherit, try_lock};

const FIRST: &str = "wozgirt sessions 2";
/// How often the folder's lock is tried, and the pause between: the engine of a server that was killed may end a moment later.
const TRIES: u32 = 500;
const PAUSE: Duration = Duration::from_millis(20);

/// One line of the file.
#[derive(Debug, Clone, PartialEq, Eq)]
pub enum Line {
    /// No session, and no client, has had a greater number.
    Last(Client),
    /// A session: its number, its key, how long its client may be away, and whose it is.
    Session(Client, u64, Duration, Owner),
    /// What one has.
    Has(StateLine),
    /// One holds the lock no longer, or waits for it no longer.
    Free(Client, Lock),
    /// It is over.
    Over(Client),
    /// What other servers write.
    Nothing,
}

impl fmt::Display for Line {
    fn fmt(&self, f: &mut fmt::Formatter<'_>) -> fmt::Result {
        match self {
            Line::Last(number) => write!(f, "last {number}"),
            Line::Session(number, key, lease, owner) => {
                write!(f, "session {number} {key} {} {owner}", lease.as_millis())
            }
            Line::Has(line) => line.fmt(f),
            Line::Free(number, lock) => write!(f, "free {number} {lock}"),
            Line::Over(number) => write!(f, "over {number}"),
            Line::Nothing => f.write_str("plain *"),
        }
    }
}

impl std::str::FromStr for Line {
    type Err = NotALine;

    fn from_str(line: &str) -> Result<Line, NotALine> {
        let words: Vec<&str> = line.split(' ').collect();
        match words[..] {
            ["last", number] => Ok(Line::Last(decimal(number)?)),
            ["session", number, key, lease, user, address] => {
                let lease = Duration::from_millis(decimal(lease)?);
                Ok(Line::Session(decimal(number)?, decimal(key)?, lease, Owner::parse(user, address)?))
            }
            ["free", number, lock] => Ok(Line::Free(decimal(number)?, lock.parse()?)),
            ["over", number] => Ok(Line::Over(decimal(number)?)),
            ["boot" | "plain", _] | ["given", _, _] => Ok(Line::Nothing),
            _ => line.parse().map(Line::Has),
        }
    }
}

/// A file that takes the place of the one that there is as soon as it is on the disk. What comes until then is written to both.
#[derive(Debug)]
struct Next {
    file: File,
    is_there: Receiver<io::Result<()>>,
}

/// Has another thread fsync a file, and sends the result; without a thread nothing is sent.
fn sync_aside(file: File) -> Receiver<io::Result<()>> {
    let (told, is_there) = channel();
    let _ = thread::Builder::new().name("sessions".into()).spawn(move || told.send(file.sync_all()));
    is_there
}

/// The folder.
#[derive(Debug)]
pub struct Store {
    folder: PathBuf,
    journal: PathBuf,
    /// A file to which more was added is written anew.
    longest: usize,
    /// The engine has it too, so that the journal is not read while another engine writes it.
    _lock: File,
    file: Option<File>,
    next: Option<Next>,
    /// How much was added to it.
    size: usize,
    /// Whether the file on the disk misses nothing but what is not written yet.
    is_whole: bool,
    /// Lines that are not written yet.
    lines: Vec<u8>,
}

impl Store {
    /// Makes what is missing, and locks it for this server. The file of sessions is written anew when more than this number of bytes were
    /// added.
    pub fn open(journal: &Path, longest: usize) -> Result<Store, NoFolder> {
        let folder = beside(journal, ".sessions")?;
        private::make_folder(&folder)?;
        private::close_folder(&folder)?; // an earlier version left it open
        refuse_link(&folder.join("lock"))?;
        let lock = File::create(folder.join("lock"))?;
        for tried in 1.. {
            if try_lock(&lock)? {
                break;
            }
            if tried == TRIES {
                return Err(NoFolder::InUse);
            }
            thread::sleep(PAUSE);
        }
        inherit(&lock)?;
        Ok(Store {
            folder,
            journal: journal.to_owned(),
            longest,
            _lock: lock,
            file: None,
            next: None,
            size: 0,
            is_whole: true,
            lines: Vec::new(),
        })
    }

    fn sessions(&self) -> PathBuf {
        self.folder.join("sessions")
    }

    /// What becomes that file.
    fn part(&self) -> PathBuf {
        self.folder.join("sessions.part")
    }

    /// The file with the open holds, which the engine reads.
    pub fn holders(&self) -> PathBuf {
        self.folder.join("holders")
    }

    /// Writes the open holds for the engine. The file is whole, or the one that was there.
    pub fn write_holders(&self, text: &str) -> io::Result<()> {
        let part = self.folder.join("holders.part");
        private::write(&part, text.as_bytes())?;
        fs::rename(part, self.holders())
    }

    /// Whether the file on the disk has all.
    pub fn is_whole(&self) -> bool {
        self.is_whole && self.lines.is_empty()
    }

    /// The lines of the file. After a line that cannot be read, as after a loss of power, no line counts.
    pub fn read(&self) -> io::Result<Vec<Line>> {
        let text = match fs::read(self.sessions()) {
            Err(fault) if fault.kind() == ErrorKind::NotFound => return Ok(Vec::new()),
            other => other?,
        };
        let text = String::from_utf8_lossy(&text);
        let mut lines = text.split_inclusive('\n').map_while(|line| line.strip_suffix('\n'));
        if lines.next() != Some(FIRST) {
            return Ok(Vec::new());
        }
        Ok(lines.map_while(|line| line.parse().ok()).collect())
    }

    /// What the last segment of the journal has of inputs that were done, in their order.
    pub fn remarks(&self) -> io::Result<Vec<StateLine>> {
        let names = fs::read_dir(&self.journal)?.flatten().filter_map(|file| file.file_name().into_string().ok());
        let last = names.filter_map(|name| name.strip_suffix(".ring")?.parse::<u64>().ok()).max();
        let Some(last) = last else { return Ok(Vec::new()) };
        let mut file = BufReader::new(File::open(self.journal.join(format!("{last:010}.ring")))?);
        let (mut found, mut line) = (Vec::new(), Vec::new());
        while file.read_until(b'\n', &mut line)? > 0 {
            let text = line.strip_suffix(b"\n").and_then(|line| line.strip_prefix(b"# "));
            found.extend(text.and_then(|text| std::str::from_utf8(text).ok()?.parse().ok()));
            line.clear();
        }
        Ok(found)
    }

    /// Puts a line among those that are written next.
    pub fn put(&mut self, line: &Line) {
        let _ = writeln!(self.lines, "{line}"); // a list takes whatever is written
    }

    /// Writes these. Whether all is to be written anew: much was added, or the file cannot be added to. Of a file in which some lines are
    /// missing the first ones stay, until there is one with all.
    pub fn write(&mut self) -> io::Result<bool> {
        if self.lines.is_empty() {
            return Ok(false);
        }
        let Some(file) = &mut self.file else { return Ok(true) };
        if let Err(fault) = file.write_all(&self.lines) {
            self.stop_adding();
            return Err(fault);
        }
        if self.next.as_mut().is_some_and(|next| next.file.write_all(&self.lines).is_err()) {
            self.next = None; // the other one has all
        }
        self.size += self.lines.len();
        self.lines.clear();
        self.go_over();
        Ok(self.size > self.longest && self.next.is_none())
    }

    /// The next file takes the other's place, if it is on the disk. If it will not be, that is tried again when as much was added.
    fn go_over(&mut self) {
        let Some(next) = &self.next else { return };
        let is_there = match next.is_there.try_recv() {
            Err(TryRecvError::Empty) => return,
            told => matches!(told, Ok(Ok(()))),
        };
        let next = self.next.take();
        self.size = 0;
        if is_there && fs::rename(self.part(), self.sessions()).is_ok() {
            self.file = next.map(|next| next.file);
            let _ = File::open(&self.folder).map(sync_aside); // until that is done the name is the other file's after a loss of power
        }
    }

    fn stop_adding(&mut self) {
        (self.file, self.next, self.is_whole) = (None, None, false);
        self.lines.clear();
    }

    /// Begins to replace the file: another thread waits for the disk. Where nothing can be added to the file, the new one is there at once.
    pub fn begin_to_replace(&mut self, lines: &[Line]) -> io::Result<()> {
        match self.begin(lines) {
            Err(fault) if self.file.is_none() => {
                self.stop_adding();
                Err(fault)
            }
            Err(_) => {
                self.size = 0; // the file has all, and it is tried again when as much was added
                Ok(())
            }
            Ok(()) => Ok(()),
        }
    }

    fn begin(&mut self, lines: &[Line]) -> io::Result<()> {
        let file = self.write_part(lines)?;
        let is_there = sync_aside(file.try_clone()?);
        if self.file.is_some() {
            self.next = Some(Next { file, is_there });
            return Ok(());
        }
        fs::rename(self.part(), self.sessions())?;
        self.take(file);
        Ok(())
    }

    /// Replaces the file; it is on the disk then. If that cannot be, the old one stays as it is.
    pub fn replace(&mut self, lines: &[Line]) -> io::Result<()> {
        self.next = None;
        let file = self.write_part(lines)?;
        file.sync_all()?;
        fs::rename(self.part(), self.sessions())?;
        File::open(&self.folder)?.sync_all()?;
        self.take(file);
        Ok(())
    }

    fn take(&mut self, file: File) {
        (self.file, self.size, self.is_whole) = (Some(file), 0, true);
        self.lines.clear();
    }

    fn write_part(&self, lines: &[Line]) -> io::Result<File> {
        let mut text = format!("{FIRST}\n").into_bytes();
        for line in lines {
            let _ = writeln!(text, "{line}"); // the same
        }
        private::write(&self.part(), &text)
    }
}

#[cfg(test)]
mod tests {
    use super::*;

    const LONGEST: usize = 1 << 16;

    fn lock(name: &str) -> Lock {
        name.parse().unwrap()
    }

    #[test]
    fn each_line() {
        let second = Duration::from_secs(1);
        for (text, line) in [
            ("last 7", Line::Last(7)),
            ("session 7 70 1000 u1 a::1", Line::Session(7, 70, second, Owner::parse("u1", "a::1").unwrap())),
            ("free 7 a", Line::Free(7, lock("a"))),
            ("over 7", Line::Over(7)),
            ("hold a 2 7", Line::Has(StateLine::Hold { lock: lock("a"), token: 2, client: 7 })),
        ] {
            assert_eq!((text.parse(), line.to_string()), (Ok(line), text.into()));
        }
        for line in ["boot x-1", "plain 1", "plain *", "given a 2"] {
            assert_eq!(line.parse(), Ok(Line::Nothing));
        }
        for line in ["", "last", "session 7 70 x - -", "free 7", "over", "given a"] {
            assert!(line.parse::<Line>().is_err(), "{line:?}");
        }
    }

    #[test]
    fn a_folder() {
        let journal = std::env::temp_dir().join(format!("wozgirt-store-{}", std::process::id()));
        let _ = fs::remove_dir_all(&journal);
        fs::create_dir(&journal).unwrap();
        let mut store = Store::open(&journal, LONGEST).unwrap();
        assert_eq!((store.read().unwrap(), store.remarks().unwrap()), (vec![], vec![]));
        store.put(&Line::Over(1));
        assert!(store.write().unwrap()); // there is no file yet
        store.replace(&[Line::Last(9)]).unwrap();
        assert!(!store.write().unwrap());
        store.put(&Line::Over(7));
        assert!(!store.write().unwrap());
        assert_eq!(store.read().unwrap(), [Line::Last(9), Line::Over(7)]);
        let text = fs::read_to_string(store.sessions()).unwrap();
        for (damaged, count) in [
            (format!("{text}over 8"), 2),
            (format!("{text}\0\0\nover 8\n"), 2),
            (text.replace("sessions 2", "sessions 1"), 0),
        ] {
            fs::write(store.sessions(), damaged).unwrap();
            assert_eq!(store.read().unwrap().len(), count);
        }
        fs::write(journal.join("0000000009.ring"), "done 1\n# 1 1 did 1 busy a\n").unwrap();
        let names = "# floor 9\n# name 1 4 9 order/4711\n";
        let text = format!("done 1\n{names}# 7 1 did 7 busy a\n0 p\n# free 1\n# 7 1 forget\n# 8 2 did ");
        fs::write(journal.join("0000000010.ring"), text).unwrap();
        assert_eq!(store.remarks().unwrap(), ["7 1 did 7 busy a".parse().unwrap()]);
        fs::remove_dir_all(&store.folder).unwrap();
        fs::remove_dir_all(journal).unwrap();
    }

    /// An empty store, and the journal beside it.
    fn new_store(name: &str) -> (Store, PathBuf) {
        let journal = std::env::temp_dir().join(format!("wozgirt-store-{name}-{}", std::process::id()));
        let _ = fs::remove_dir_all(&journal);
        fs::create_dir(&journal).unwrap();
        (Store::open(&journal, LONGEST).unwrap(), journal)
    }

    #[test]
    fn a_long_file_is_not_written_anew_each_time() {
        let (mut store, journal) = new_store("long");
        let line = Line::Over(u64::MAX);
        let count = LONGEST / line.to_string().len();
        store.replace(&vec![line.clone(); count]).unwrap();
        store.put(&line);
        assert!(!store.write().unwrap());
        (0..count).for_each(|_| store.put(&line));
        assert!(store.write().unwrap()); // by now it has as much again
        fs::remove_dir_all(&store.folder).unwrap();
        fs::remove_dir_all(journal).unwrap();
    }

    #[test]
    fn a_file_is_replaced_while_more_is_written() {
        let (mut store, journal) = new_store("next");
        store.replace(&[Line::Last(9), Line::Over(9)]).unwrap();
        store.begin_to_replace(&[Line::Last(9)]).unwrap();
        assert!(store.next.is_some()); // it is not waited for
        assert_eq!(store.read().unwrap(), [Line::Last(9), Line::Over(9)]);
        let mut told = vec![Line::Last(9)];
        while store.next.is_some() {
            thread::sleep(Duration::from_millis(1));
            told.push(Line::Over(told.len() as u64));
            store.put(&told[told.len() - 1]);
            assert!(!store.write().unwrap());
        }
        assert_eq!(store.read().unwrap(), told);
        store.put(&Line::Over(0));
        assert!(!store.write().unwrap());
        told.push(Line::Over(0));
        assert_eq!(store.read().unwrap(), told);
        fs::remove_dir_all(&store.folder).unwrap();
        fs::remove_dir_all(journal).unwrap();
    }

    #[test]
    fn a_next_file_that_is_never_on_the_disk_is_not_taken() {
        let (mut store, journal) = new_store("never");
        store.replace(&[Line::Last(9)]).unwrap();
        for (number, is_told) in [(1, true), (2, false)] {
            let (told, is_there) = channel();
            if is_told {
                told.send(Err(ErrorKind::Other.into())).unwrap();
            }
            drop(told);
            store.next = Some(Next { file: store.write_part(&[]).unwrap(), is_there });
            store.put(&Line::Over(number));
            assert!(!store.write().unwrap() && store.next.is_none());
        }
        assert_eq!(store.read().unwrap(), [Line::Last(9), Line::Over(1), Line::Over(2)]);
        fs::remove_dir_all(&store.folder).unwrap();
        fs::remove_dir_all(journal).unwrap();
    }

    #[test]
    fn a_file_stays_until_another_one_is_whole() {
        let (mut store, journal) = new_store("full");
        store.replace(&[Line::Last(9)]).unwrap();
        fs::create_dir(store.part()).unwrap();
        store.begin_to_replace(&[Line::Last(8)]).unwrap();
        assert!(store.is_whole());
        store.put(&Line::Over(7));
        assert!(store.replace(&[Line::Last(9)]).is_err() && !store.is_whole());
        assert!(!store.write().unwrap() && store.is_whole());
        assert_eq!(store.read().unwrap(), [Line::Last(9), Line::Over(7)]);
        store.stop_adding(); // as if the last line could not be written
        store.put(&Line::Over(8));
        assert!(store.write().unwrap()); // all of it is to be written
        assert!(store.begin_to_replace(&[Line::Last(9)]).is_err() && !store.is_whole());
        assert_eq!(store.read().unwrap(), [Line::Last(9), Line::Over(7)]);
        fs::remove_dir(store.part()).unwrap();
        store.begin_to_replace(&[Line::Last(10)]).unwrap();
        assert!(store.is_whole());
        assert_eq!(store.read().unwrap(), [Line::Last(10)]);
        fs::remove_dir_all(&store.folder).unwrap();
        fs::remove_dir_all(journal).unwrap();
    }

    #[test]
    fn holders_are_whole_or_those_that_were_there() {
        let (store, journal) = new_store("holders");
        store.write_holders("hold a 1 7\n").unwrap();
        fs::create_dir(store.folder.join("holders.part")).unwrap();
        assert!(store.write_holders("hold a 2 8\n").is_err());
        assert_eq!(fs::read_to_string(store.holders()).unwrap(), "hold a 1 7\n");
        fs::remove_dir_all(&store.folder).unwrap();
        fs::remove_dir_all(journal).unwrap();
    }

    #[test]
    fn what_a_link_leads_to_is_not_written() {
        let (mut store, journal) = new_store("link");
        let other = journal.join("other");
        fs::write(&other, "as it was").unwrap();
        for name in ["sessions.part", "holders.part", "sessions", "holders"] {
            std::os::unix::fs::symlink(&other, store.folder.join(name)).unwrap();
        }
        store.replace(&[Line::Last(9)]).unwrap();
        store.write_holders("hold a 1 7\n").unwrap();
        assert_eq!(fs::read_to_string(&other).unwrap(), "as it was");
        assert_eq!(store.read().unwrap(), [Line::Last(9)]);
        fs::remove_dir_all(&store.folder).unwrap();
        fs::remove_dir_all(journal).unwrap();
    }
}
