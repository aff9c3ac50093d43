//! The file CHECKPOINT: what the log says up to a place, and what the engine needs to resume from there.

use super::apply::{Applied, Known};
use super::entries::server;
use super::owner::Owner;
use crate::files::replace;
use crate::names::Names;
use crate::private;
use std::fmt::Write as _;
use std::fs::{self, File};
use std::io;
use std::path::{Path, PathBuf};
use std::thread;
use std::time::Duration;
use wozgirt_engine::{decimal, StateLine};
use wozgirt_system::{inherit, try_lock};

/// Its first line.
const FIRST: &str = "wozgirt checkpoint 3";

/// A checkpoint.
#[derive(Debug, Clone, PartialEq, Eq)]
pub struct Checkpoint {
    /// The log's identity.
    pub identity: String,
    /// The last segment of the journal.
    pub segment: u64,
    /// What the log says.
    pub applied: Applied,
    /// The engine's state.
    pub state: Vec<StateLine>,
}

/// A text is not a checkpoint: the number of its first wrong line.
#[derive(Debug, PartialEq, Eq)]
pub struct BadCheckpoint(pub usize);

impl Checkpoint {
    /// As a text.
    pub fn text(&self) -> String {
        let Checkpoint { identity, segment, applied, state } = self;
        let mut text =
            format!("{FIRST}\nlog {identity} {} {}\nsegment {segment}\n", applied.position, applied.revision);
        if let Some(settings) = &applied.settings {
            let _ = writeln!(text, "with {settings}");
        }
        for (server, serial) in &applied.servers {
            let _ = writeln!(text, "server {server} {serial}");
        }
        for (name, incarnation) in &applied.over {
            let _ = writeln!(text, "over {name} {incarnation}");
        }
        let _ = writeln!(text, "sessions {}", applied.last_session);
        for (key, Known { session, home, last, owner }) in &applied.sessions {
            let last = last.map_or("-".into(), |last| last.to_string());
            let _ = writeln!(text, "session {session} {key} {home} {last} {owner}");
        }
        let _ = writeln!(text, "state {}", state.len());
        for line in state {
            let _ = writeln!(text, "{line}");
        }
        text.push_str("end\n");
        text
    }

    /// Reads a text back.
    pub fn parse(text: &str, most_lines: u64) -> Result<Checkpoint, BadCheckpoint> {
        let mut found =
            Checkpoint { identity: String::new(), segment: 0, applied: Applied::new(most_lines), state: vec![] };
        let mut lines = text.lines().enumerate();
        let mut state = None;
        for (i, line) in lines.by_ref() {
            let wrong = BadCheckpoint(i + 1);
            if i == 0 {
                (line == FIRST).then_some(()).ok_or(wrong)?;
            } else if let Some(count) = line.strip_prefix("state ") {
                state = Some(decimal(count).map_err(|_| wrong)?);
                break;
            } else {
                found.line(line).ok_or(wrong)?;
            }
        }
        let count =
            state.and_then(|count| usize::try_from(count).ok()).ok_or(BadCheckpoint(text.lines().count() + 1))?;
        let state = lines.by_ref().take(count);
        let state = state.map(|(i, line)| line.parse().map_err(|_| BadCheckpoint(i + 1)));
        found.state = state.collect::<Result<_, _>>()?;
        let end: Vec<&str> = lines.map(|(_, line)| line).collect();
        if found.state.len() < count || end != ["end"] || !text.ends_with('\n') || found.identity.is_empty() {
            return Err(BadCheckpoint(text.lines().count()));
        }
        Ok(found)
    }

    fn line(&mut self, line: &str) -> Option<()> {
        let applied = &mut self.applied;
        let number = |word: &str| decimal(word).ok();
        if let Some(settings) = line.strip_prefix("with ") {
            applied.settings = Some(settings.into());
            return Some(());
        }
        let words: Vec<&str> = line.split(' ').collect();
        match words[..] {
            ["log", identity, position, revision] => {
                self.identity = identity.into();
                (applied.position, applied.revision) = (number(position)?, number(revision)?);
            }
            ["segment", segment] => self.segment = number(segment)?,
            ["server", name, incarnation, serial] => {
                applied.servers.insert(server(name, incarnation).ok()?, number(serial)?);
            }
            ["over", name, incarnation] => {
                let it = server(name, incarnation).ok()?;
                applied.over.insert(it.name, it.incarnation);
            }
            ["sessions", last] => applied.last_session = number(last)?,
            ["session", session, key, name, incarnation, last, user, address] => {
                let last = if last == "-" { None } else { Some(number(last)?) };
                let owner = Owner::parse(user, address).ok()?;
                let (session, home) = (number(session)?, server(name, incarnation).ok()?);
                applied.sessions.insert(number(key)?, Known { session, home, last, owner });
            }
            _ => return None,
        }
        Some(())
    }

    /// The lines of the state that the engine reads as a file.
    pub fn holders(&self) -> String {
        holders(&self.state)
    }
}

/// The lines of a state that the engine reads as a file.
pub fn holders(state: &[StateLine]) -> String {
    state.iter().filter(|line| matches!(line, StateLine::Hold { .. })).map(|line| format!("{line}\n")).collect()
}

/// What the name of a segment that is kept for a checkpoint begins with, before the position.
const KEPT: &str = "SEGMENT-";

/// How often the folder's lock is tried, and the pause between: the engine of a server that was killed may end a moment later.
const TRIES: u32 = 500;
const PAUSE: Duration = Duration::from_millis(20);

/// The folder of a server.
#[derive(Debug)]
pub struct Folder {
    path: PathBuf,
    /// The engine has it too, so that no other engine is there while one is.
    _lock: File,
}

/// Why there is no folder.
#[derive(Debug)]
pub enum NoFolder {
    /// Another server has it.
    InUse,
    /// It has the journal of a single server.
    Alone,
    /// There are too many locks.
    Locks,
    /// The system refuses.
    System(io::Error),
}

impl From<io::Error> for NoFolder {
    fn from(fault: io::Error) -> NoFolder {
        NoFolder::System(fault)
    }
}

impl Folder {
    /// Makes what is missing, and locks it for this server.
    pub fn open(path: &Path) -> Result<Folder, NoFolder> {
        private::make_folder(&path.join("journal"))?;
        if numbers(path)?.next().is_some() {
            return Err(NoFolder::Alone);
        }
        let lock = File::create(path.join("lock"))?;
        for tried in 1.. {
            if try_lock(&lock)? {
                break;
            }
            if tried == TRIES {
                return Err(NoFolder::InUse);
            }
            thread::sleep(PAUSE);
        }
        inherit(&lock)?;
        let folder = Folder { path: path.to_owned(), _lock: lock };
        private::close_file(&folder.checkpoint())?; // an earlier version left it open
        Ok(folder)
    }

    /// The folder of the engine's journal.
    pub fn journal(&self) -> PathBuf {
        self.path.join("journal")
    }

    /// The file with the open holds.
    pub fn holders(&self) -> PathBuf {
        self.path.join("holders")
    }

    /// The file with the checkpoint.
    pub fn checkpoint(&self) -> PathBuf {
        self.path.join("CHECKPOINT")
    }

    /// The checkpoint's text, if there is one.
    pub fn read(&self) -> io::Result<Option<String>> {
        match fs::read_to_string(self.checkpoint()) {
            Err(fault) if fault.kind() == io::ErrorKind::NotFound => Ok(None),
            other => other.map(Some),
        }
    }

    /// The numbers of the segments.
    fn segments(&self) -> io::Result<Vec<u64>> {
        let mut found: Vec<u64> = numbers(&self.journal())?.collect();
        found.sort_unstable();
        Ok(found)
    }

    fn segment(&self, number: u64) -> PathBuf {
        self.journal().join(format!("{number:010}.ring"))
    }

    /// The copy of the last segment as it was at the checkpoint at this position.
    fn kept(&self, position: u64) -> PathBuf {
        self.path.join(format!("{KEPT}{position}"))
    }

    /// Puts the journal back to where it was at the checkpoint at this position, with this last segment: the log has what came since.
    /// Before the first checkpoint there is none, nor a list of locks but this.
    pub fn restore(&self, last: u64, position: u64, list: &str) -> io::Result<()> {
        let from = last.max(1);
        for number in self.segments()?.into_iter().filter(|&number| number >= from) {
            fs::remove_file(self.segment(number))?;
        }
        if last == 0 {
            let names = self.journal().join("locks");
            let is_other = |text: String| Names::parse(&text).map_or(true, |names| names.list() != list);
            return if fs::read_to_string(&names).is_ok_and(is_other) { fs::remove_file(names) } else { Ok(()) };
        }
        let kept = self.kept(position);
        fs::hard_link(&kept, self.segment(last))
            .map_err(|fault| io::Error::new(fault.kind(), format!("{}: {fault}", kept.display())))
    }

    /// Keeps the last segment as it is now, for the checkpoint at this position. An engine replaces that file when it starts, and writes
    /// into no file that was there. Its name is on the disk before a checkpoint can be that needs it.
    pub fn keep(&self, last: u64, position: u64) -> io::Result<()> {
        let kept = self.kept(position);
        match fs::remove_file(&kept) {
            Err(fault) if fault.kind() != io::ErrorKind::NotFound => return Err(fault),
            _ => fs::hard_link(self.segment(last), kept)?,
        }
        File::open(&self.path)?.sync_all()
    }

    /// Removes what is kept for checkpoints before the one before this position's.
    pub fn forget(&self, before: u64, position: u64) -> io::Result<()> {
        for file in fs::read_dir(&self.path)?.flatten() {
            let name = file.file_name().into_string().unwrap_or_default();
            let at = name.strip_prefix(KEPT).and_then(|at| at.parse::<u64>().ok());
            if at.is_some_and(|at| at != before && at != position) {
                fs::remove_file(file.path())?;
            }
        }
        Ok(())
    }

    /// Writes all segments from this one on to the disk: the number of the last.
    pub fn sync_from(&self, first: u64) -> io::Result<u64> {
        let numbers = self.segments()?;
        for &number in numbers.iter().filter(|&&number| number >= first) {
            File::open(self.segment(number))?.sync_all()?;
        }
        File::open(self.journal())?.sync_all()?;
        Ok(numbers.last().copied().unwrap_or(0))
    }

    /// Replaces the checkpoint.
    pub fn write(&self, text: &str) -> io::Result<()> {
        replace(&self.checkpoint(), &self.path.join("CHECKPOINT.part"), private::create, text.as_bytes())?;
        Ok(())
    }

    /// Writes the open holds for the engine.
    pub fn write_holders(&self, text: &str) -> io::Result<()> {
        replace(&self.holders(), &self.path.join("holders.part"), private::create, text.as_bytes())?;
        Ok(())
    }
}

/// The numbers of the segments in a folder.
fn numbers(path: &Path) -> io::Result<impl Iterator<Item = u64>> {
    let names = fs::read_dir(path)?.flatten().filter_map(|file| file.file_name().into_string().ok());
    Ok(names.filter_map(|name| name.strip_suffix(".ring")?.parse().ok()))
}

#[cfg(test)]
mod tests {
    use super::*;

    fn a_checkpoint() -> Checkpoint {
        let mut applied = Applied::new(5);
        (applied.position, applied.revision, applied.settings) = (12, 40, Some("2 5 - 0 a:8:8".into()));
        applied.servers.insert(server("a", "3").unwrap(), 9);
        applied.over.insert("b".into(), 2);
        applied.last_session = 9;
        let owner = Owner::parse("u7", "a10.0.0.1").unwrap();
        applied.sessions.insert(70, Known { session: 7, home: server("a", "3").unwrap(), last: Some(4), owner });
        applied
            .sessions
            .insert(80, Known { session: 8, home: server("a", "3").unwrap(), last: None, owner: Owner::default() });
        let state = ["hold a 3 7", "8 acquire a 1", "7 4 did 7 granted a 3", "at 12 00"]
            .map(|line| line.parse().unwrap())
            .into();
        Checkpoint { identity: "x".into(), segment: 6, applied, state }
    }

    #[test]
    fn it_is_written_and_read() {
        let checkpoint = a_checkpoint();
        let text = checkpoint.text();
        assert_eq!(Checkpoint::parse(&text, 5), Ok(checkpoint));
        assert!(text
            .contains("\nsessions 9\nsession 7 70 a 3 4 u7 a10.0.0.1\nsession 8 80 a 3 - - -\nstate 4\nhold a 3 7\n"));
        for (wrong, line) in [("", 1), ("wozgirt checkpoint 2\n", 1), (&text[..text.len() - 1], 15), (&text[..60], 5)] {
            assert_eq!(Checkpoint::parse(wrong, 5), Err(BadCheckpoint(line)), "{wrong}");
        }
        assert_eq!(Checkpoint::parse(&text.replace("over b 2", "over b"), 5), Err(BadCheckpoint(6)));
        assert_eq!(Checkpoint::parse(&text.replace("8 acquire a 1", "8 acquire a x"), 5), Err(BadCheckpoint(12)));
    }

    #[test]
    fn a_folder() {
        let path = std::env::temp_dir().join(format!("wozgirt-checkpoint-{}", std::process::id()));
        let _ = fs::remove_dir_all(&path);
        let folder = Folder::open(&path).unwrap();
        assert_eq!((folder.read().unwrap(), folder.sync_from(0).unwrap()), (None, 0));
        for number in 1..=4 {
            fs::write(folder.segment(number), format!("{number}")).unwrap();
        }
        let names = folder.journal().join("locks");
        fs::write(&names, "a 8 8\n").unwrap();
        assert_eq!(folder.sync_from(2).unwrap(), 4);
        folder.keep(2, 70).unwrap();
        fs::remove_file(folder.segment(2)).unwrap();
        fs::write(folder.segment(2), "2, as another start has made it").unwrap();
        for _ in 0..2 {
            folder.restore(2, 70, "b:8:8").unwrap();
            assert_eq!(folder.segments().unwrap(), [1, 2]);
            assert_eq!(fs::read_to_string(folder.segment(2)).unwrap(), "2");
        }
        folder.keep(2, 80).unwrap();
        folder.keep(2, 90).unwrap();
        folder.forget(80, 90).unwrap();
        assert_eq!([70, 80, 90].map(|position| folder.kept(position).exists()), [false, true, true]);
        for (list, is_kept) in [("a:8:8", true), ("a:8:8,b:8:8", false)] {
            folder.restore(0, 0, list).unwrap();
            assert_eq!((folder.segments().unwrap(), names.exists()), (vec![], is_kept));
        }
        folder.write(&a_checkpoint().text()).unwrap();
        assert_eq!(Checkpoint::parse(&folder.read().unwrap().unwrap(), 5), Ok(a_checkpoint()));
        assert_eq!(a_checkpoint().holders(), "hold a 3 7\n");
        drop(folder);
        fs::write(path.join("0000000001.ring"), "").unwrap();
        assert!(matches!(Folder::open(&path), Err(NoFolder::Alone)));
        fs::remove_dir_all(path).unwrap();
    }
}
