//! What the journal says of holds. It is read by `ring_tool holds`, which is proved, and refuses a journal that is not legal; what this
//! module reads of the files themselves is only where they begin.

use std::collections::{BTreeMap, HashMap};
use std::fmt;
use std::fs::{self, File};
use std::io::{self, BufRead, BufReader, Read};
use std::path::{Path, PathBuf};
use std::process::{Command, Stdio};

/// How a hold ended, if it did.
#[derive(Debug, Clone, Copy, PartialEq, Eq)]
pub enum Ending {
    /// By a release.
    Released,
    /// Its client left, or was taken for dead.
    Left,
    /// It is open.
    Open,
}

impl Ending {
    const ALL: [Ending; 3] = [Ending::Released, Ending::Left, Ending::Open];

    /// The word that the journal's reader has for it.
    pub fn word(self) -> &'static str {
        match self {
            Ending::Released => "released",
            Ending::Left => "left",
            Ending::Open => "open",
        }
    }
}

/// A hold of the journal.
#[derive(Debug, Clone, Copy, PartialEq, Eq)]
pub struct Held {
    /// The label, unless the hold was open when the oldest segment began.
    pub label: Option<u64>,
    /// How it ended.
    pub ending: Ending,
}

/// The holds of a journal.
#[derive(Debug, Default)]
pub struct Journal {
    /// Of each lock, by their tokens.
    pub holds: BTreeMap<String, BTreeMap<u64, Held>>,
    start: Start,
}

/// Where the oldest segment begins.
#[derive(Debug, Default, PartialEq, Eq)]
struct Start {
    /// Of each lock of the list, the last token before.
    tokens: HashMap<String, u64>,
    /// That of locks of any other name.
    of_others: u64,
}

/// Why the journal cannot be read.
#[derive(Debug)]
pub enum Unread {
    /// A file or folder cannot be.
    Files(PathBuf, io::Error),
    /// The program cannot be run.
    Program(String, io::Error),
    /// The program refuses the journal.
    Refused(String),
    /// The program, or a file, says something that it should not.
    Strange(String),
}

impl fmt::Display for Unread {
    fn fmt(&self, f: &mut fmt::Formatter<'_>) -> fmt::Result {
        match self {
            Unread::Files(path, fault) => write!(f, "{}: {fault}", path.display()),
            Unread::Program(program, fault) => write!(f, "cannot run {program}: {fault}"),
            Unread::Refused(said) => write!(f, "the journal is refused: {said}"),
            Unread::Strange(line) => {
                write!(f, "the journal has a line that is not known here: {}", line.escape_debug())
            }
        }
    }
}

impl Journal {
    /// Reads the journal of a server's folder by this program; only the lock of this name, if one is named.
    pub fn read(program: &str, folder: &Path, name: Option<&str>) -> Result<Journal, Unread> {
        let folder = own_folder(folder);
        let Some(start) = Start::read(&folder)? else { return Ok(Journal::default()) };
        let mut journal = Journal { start, ..Journal::default() };
        let cannot_run = |fault| Unread::Program(program.into(), fault);
        let mut command = Command::new(program);
        command.arg("holds").arg(&folder).stdin(Stdio::null()).stdout(Stdio::piped()).stderr(Stdio::piped());
        let mut child = command.spawn().map_err(cannot_run)?;
        // it says nothing on standard error before its lines are read, but the one that refuses the journal
        let lines =
            BufReader::new(child.stdout.take().ok_or_else(|| cannot_run(io::ErrorKind::BrokenPipe.into()))?).lines();
        let mut strange = None;
        for line in lines {
            let line = line.map_err(cannot_run)?;
            if strange.is_none() && journal.take(&line, name).is_none() {
                strange = Some(line);
            }
        }
        let mut said = String::new();
        child
            .stderr
            .take()
            .into_iter()
            .try_for_each(|mut it| it.read_to_string(&mut said).map(drop))
            .map_err(cannot_run)?;
        if !child.wait().map_err(cannot_run)?.success() {
            return Err(Unread::Refused(said.trim_end().into()));
        }
        strange.map_or(Ok(journal), |line| Err(Unread::Strange(line)))
    }

    /// A line of `ring_tool holds`: `lock NAME token TOKEN label LABEL from FROM to TO ENDING`.
    fn take(&mut self, line: &str, name: Option<&str>) -> Option<()> {
        let words: Vec<&str> = line.split(' ').collect();
        let ["lock", lock, "token", token, "label", label, "from", _, "to", _, ending] = words[..] else { return None };
        let ending = Ending::ALL.into_iter().find(|it| it.word() == ending)?;
        let label = if label == "-" { None } else { Some(label.parse().ok()?) };
        let token = token.parse().ok()?;
        if name.map_or(true, |name| name == lock) {
            // of a hold that is known from two rings' segments the journal has one line
            self.holds.entry(lock.into()).or_default().insert(token, Held { label, ending });
        }
        Some(())
    }

    /// The hold with this token.
    pub fn hold(&self, lock: &str, token: u64) -> Option<Held> {
        self.holds.get(lock)?.get(&token).copied()
    }

    /// Whether a hold with this token was over before the oldest segment began.
    pub fn is_before(&self, lock: &str, token: u64) -> bool {
        token <= self.start.tokens.get(lock).copied().unwrap_or(self.start.of_others)
    }
}

/// The folder of the journal itself: one of several servers has it in its folder.
fn own_folder(folder: &Path) -> PathBuf {
    let inner = folder.join("journal");
    if inner.is_dir() {
        inner
    } else {
        folder.to_owned()
    }
}

impl Start {
    /// By the first lines of the oldest segment, and the list of locks: how many grants of each ring came before.
    /// Nothing if there is no segment yet.
    fn read(folder: &Path) -> Result<Option<Start>, Unread> {
        let unread = |path: &Path| {
            let path = path.to_owned();
            move |fault| Unread::Files(path.clone(), fault)
        };
        let mut oldest: Option<(u64, PathBuf)> = None;
        for entry in fs::read_dir(folder).map_err(unread(folder))? {
            let path = entry.map_err(unread(folder))?.path();
            let is_segment = path.extension().is_some_and(|end| end == "ring");
            let number =
                path.file_stem().and_then(|stem| stem.to_str()).filter(|_| is_segment).and_then(|it| it.parse().ok());
            oldest = [oldest, number.map(|number| (number, path))].into_iter().flatten().min();
        }
        let Some((_, path)) = oldest else { return Ok(None) };
        let list = folder.join("locks");
        let list = fs::read_to_string(&list).map_err(unread(&list))?;
        let head = File::open(&path).map(BufReader::new).map_err(unread(&path))?;
        let start = Start::of(head.lines(), &list).map_err(unread(&path))?;
        start.map_or_else(|| Err(Unread::Strange(path.display().to_string())), |start| Ok(Some(start)))
    }

    /// By the head of a segment, which has `base EVENTS GRANTS AMOUNT CALM` for each ring, and the list's lines `NAME N K`.
    fn of(lines: impl Iterator<Item = io::Result<String>>, list: &str) -> io::Result<Option<Start>> {
        let mut grants = Vec::new();
        for line in lines.skip(2) {
            let line = line?;
            let Some(base) = line.strip_prefix("base ") else { break };
            let Some(count) = base.split(' ').nth(1).and_then(|count| count.parse::<u64>().ok()) else {
                return Ok(None);
            };
            grants.push(count);
        }
        // the tokens of other names are at most the number of all grants
        let of_others = grants.iter().fold(0, |sum: u64, count| sum.saturating_add(*count));
        let names = list.lines().filter_map(|line| line.split(' ').next()).filter(|name| *name != "*");
        let tokens = names.enumerate().map(|(ring, name)| (name.into(), grants.get(ring).copied().unwrap_or(0)));
        Ok(Some(Start { tokens: tokens.collect(), of_others }))
    }
}

#[cfg(test)]
pub mod tests {
    use super::*;

    /// The line of a head with the digest of the segment before.
    const BEFORE: &str = "behind 00";

    /// The journal with these holds and this list of locks, before whose oldest segment the rings had these numbers of grants.
    pub fn journal_of(holds: &[&str], list: &str, grants: &[u64]) -> Journal {
        let bases = grants.iter().map(|count| format!("base 9 {count} 0 0"));
        let head = ["ringsegment 1 3 1".into(), BEFORE.into()].into_iter().chain(bases);
        let start = Start::of(head.map(Ok), list).unwrap().unwrap();
        let mut journal = Journal { start, ..Journal::default() };
        holds.iter().for_each(|line| journal.take(line, None).unwrap());
        journal
    }

    #[test]
    fn lines_of_holds() {
        let mut journal = Journal::default();
        for line in [
            "lock deploy token 1 label 77 from 0 to 1 released",
            "lock deploy token 3 label 78 from 2 to - open",
            "lock gpu/0 token 9 label - from - to 1 left",
        ] {
            assert_eq!(journal.take(line, None), Some(()));
        }
        assert_eq!(journal.hold("deploy", 1), Some(Held { label: Some(77), ending: Ending::Released }));
        assert_eq!(journal.hold("deploy", 3), Some(Held { label: Some(78), ending: Ending::Open }));
        assert_eq!(journal.hold("gpu/0", 9), Some(Held { label: None, ending: Ending::Left }));
        assert_eq!((journal.hold("deploy", 2), journal.hold("db", 1)), (None, None));
        for line in
            ["", "lock deploy", "lock a token 1 label 2 from 0 to 1 gone", "lock a token x label 2 from 0 to 1 left"]
        {
            assert_eq!(journal.take(line, None), None, "{line}");
        }
        let mut of_one = Journal::default();
        assert_eq!(of_one.take("lock deploy token 1 label 77 from 0 to 1 released", Some("db")), Some(()));
        assert!(of_one.holds.is_empty());
    }

    #[test]
    fn where_the_oldest_segment_begins() {
        let of = |text: &str, list: &str| Start::of(text.lines().map(|line| Ok(line.into())), list).unwrap();
        let head = &format!("ringsegment 1 3 2\n{BEFORE}\nbase 9 7 0 1\nbase 4 2 0 1\nringjournal 1\nbase 1 1 1 1\n");
        let start = of(head, "deploy 8 8\ngpu/0 8 8\ndb 8 8\n* 2 2\n").unwrap();
        let journal = Journal { start, ..Journal::default() };
        for (lock, last) in [("deploy", 7), ("gpu/0", 2), ("db", 0), ("order/1", 9)] {
            assert!(last == 0 || journal.is_before(lock, last), "{lock}");
            assert!(!journal.is_before(lock, last + 1), "{lock}");
        }
        assert_eq!(of(&format!("ringsegment 1 3 2\n{BEFORE}\nbase 9\n"), ""), None);
        assert!(!Journal::default().is_before("deploy", 1));
    }
}
