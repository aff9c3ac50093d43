//! The file of the record: lines are added at its end, and it gets another name when it is long. Where lines cannot be written,
//! that is counted, and said in the file as soon as something can be written there.

use crate::files::{parent, refuse_link};
use crate::private;
use std::fs::{self, File, OpenOptions};
use std::io::{self, ErrorKind, Read, Seek, SeekFrom, Write};
use std::os::unix::fs::{MetadataExt, OpenOptionsExt};
use std::path::{Path, PathBuf};
use std::sync::Arc;
use std::thread;
use std::time::{Duration, Instant};
use wozgirt_grants::{is_begun, next_number, numbered, Line, Moment, FIRST};
use wozgirt_system::try_lock;

/// How often the file's lock is tried at the start, and the pause between: a server that was ended may end a moment later.
const TRIES: u32 = 500;
const PAUSE: Duration = Duration::from_millis(20);
/// How often is looked whether the file is still the one of its name; and after what time one that cannot be written is tried again.
const LOOK: Duration = Duration::from_secs(1);
/// How much is read at once where the end of the last whole line is looked for.
const PIECE: u64 = 4 << 10;

/// Lines that are not in the file.
#[derive(Debug, Clone, Copy, PartialEq, Eq)]
pub struct Lost {
    /// How many.
    pub lines: u64,
    /// The moment of the first of them.
    pub since: Moment,
}

impl Lost {
    /// These and others.
    pub fn and(self, other: Option<Lost>) -> Lost {
        other.map_or(self, |other| Lost { lines: self.lines + other.lines, since: self.since.min(other.since) })
    }
}

/// Lines that were put together, to be written at once.
#[derive(Debug, Clone, Copy)]
pub struct Block<'a> {
    /// The lines, with their ends.
    pub text: &'a [u8],
    /// How many they are.
    pub lines: u64,
    /// The moment that they have.
    pub at: Moment,
}

/// The file as it is open now.
#[derive(Debug)]
struct Open {
    file: Arc<File>,
    length: u64,
    /// Its device and its number there.
    identity: (u64, u64),
}

/// The file of a record, where this server is the only one that writes.
#[derive(Debug)]
pub struct RecordFile {
    path: PathBuf,
    /// One that would be longer gets another name.
    most_bytes: u64,
    /// The server's name, if it is one of several.
    server: Option<String>,
    open: Option<Open>,
    lost: Option<Lost>,
    next_look: Instant,
    next_try: Instant,
}

impl RecordFile {
    /// Opens the file, or makes it, and says there that a server began. What cannot be a record is refused, and a folder that is missing;
    /// that the disk is full is not: it is tried again.
    pub fn open(path: &Path, most_bytes: u64, server: Option<String>, now: Instant) -> io::Result<RecordFile> {
        let mut record = RecordFile {
            path: path.to_owned(),
            most_bytes,
            server,
            open: None,
            lost: None,
            next_look: now + LOOK,
            next_try: now,
        };
        for tried in 1.. {
            match record.attach() {
                Err(fault) if fault.kind() == ErrorKind::AlreadyExists && tried < TRIES => thread::sleep(PAUSE),
                Err(fault) if is_of_the_disk(&fault) => {
                    record.lose(Lost { lines: 1, since: Moment::now() }, now);
                    break;
                }
                other => {
                    other?;
                    break;
                }
            }
        }
        Ok(record)
    }

    /// The file that is open, of which something may not be on the disk.
    pub fn file(&self) -> Option<&Arc<File>> {
        self.open.as_ref().map(|open| &open.file)
    }

    /// The folder that has its name.
    pub fn folder(&self) -> &Path {
        parent(&self.path)
    }

    /// Adds the block. If that cannot be, nothing of it is there, its lines are counted, and the fault is returned, unless the file could
    /// not be written just before.
    pub fn write(&mut self, block: Block<'_>, now: Instant) -> io::Result<()> {
        let own = Lost { lines: block.lines, since: block.at };
        if self.lost.is_some() && now < self.next_try {
            self.lost = Some(own.and(self.lost));
            return Ok(());
        }
        self.try_to_write(block, now).map_err(|fault| {
            self.lose(own, now);
            fault
        })
    }

    /// Lines that were written are not on the disk for sure.
    pub fn lose(&mut self, lost: Lost, now: Instant) {
        self.lost = Some(lost.and(self.lost));
        self.next_try = now + LOOK;
    }

    /// Lines that are not in the file, where that is not said yet.
    pub fn lost(&self) -> Option<Lost> {
        self.lost
    }

    /// If another program has moved or removed the file, there is a new one.
    pub fn look(&mut self, now: Instant) -> io::Result<()> {
        self.next_look = now + LOOK;
        let Some(open) = &self.open else { return Ok(()) };
        let found = fs::symlink_metadata(&self.path).map(|it| (it.dev(), it.ino()));
        match found {
            Ok(identity) if identity == open.identity => Ok(()),
            Err(fault) if fault.kind() != ErrorKind::NotFound => Err(fault),
            _ => self.attach(),
        }
    }

    fn try_to_write(&mut self, block: Block<'_>, now: Instant) -> io::Result<()> {
        if self.next_look <= now {
            self.look(now)?;
        }
        if self.open.is_none() {
            self.attach()?;
        }
        if self.is_long(block.text.len()) {
            self.go_over(now)?;
        }
        let Some(Lost { lines, since }) = self.lost else { return self.add(block.text) };
        let mut text = format!("{} {}\n", block.at, Line::Gap { lines, since }).into_bytes();
        text.extend_from_slice(block.text);
        self.add(&text)?;
        self.lost = None;
        Ok(())
    }

    fn is_long(&self, more: usize) -> bool {
        self.open.as_ref().is_some_and(|open| open.length + more as u64 > self.most_bytes)
    }

    /// Adds all of the text, or nothing. A file of which that is not sure is opened anew, which cuts off what is not a whole line.
    fn add(&mut self, text: &[u8]) -> io::Result<()> {
        let Some(open) = &mut self.open else { return Err(ErrorKind::NotFound.into()) };
        if let Err(fault) = (&*open.file).write_all(text) {
            if open.file.set_len(open.length).is_err() {
                self.open = None;
            }
            return Err(fault);
        }
        open.length += text.len() as u64;
        Ok(())
    }

    /// Opens the file of this name, and says there that this server began.
    fn attach(&mut self) -> io::Result<()> {
        refuse_link(&self.path)?;
        let file = OpenOptions::new().read(true).append(true).create(true).mode(private::FILE).open(&self.path)?;
        self.take(file)
    }

    /// The next lines go there.
    fn take(&mut self, file: File) -> io::Result<()> {
        let length = begin(&file)?;
        let found = file.metadata()?;
        self.open = Some(Open { file: Arc::new(file), length, identity: (found.dev(), found.ino()) });
        let began = Line::Began { server: self.server.as_deref().map(Into::into) };
        self.add(format!("{} {began}\n", Moment::now()).as_bytes())
    }

    /// The file gets the next number for its name, and another one its own. If that cannot be, lines are added to this one as before.
    fn go_over(&mut self, now: Instant) -> io::Result<()> {
        let mut part = self.path.clone().into_os_string();
        part.push(".part");
        let part = PathBuf::from(part);
        let made = next_number(&self.path).and_then(|number| {
            private::create(&part)?;
            let file = OpenOptions::new().read(true).append(true).open(&part)?;
            begin(&file)?;
            fs::rename(&self.path, numbered(&self.path, number))?;
            fs::rename(&part, &self.path)?;
            Ok(file)
        });
        match made {
            Ok(file) => self.take(file),
            Err(_) => {
                let _ = fs::remove_file(&part); // it is not there, or makes no difference
                self.look(now)
            }
        }
    }
}

/// Whether a disk refuses so, and not what the path leads to.
fn is_of_the_disk(fault: &io::Error) -> bool {
    const ENOSPC: i32 = 28;
    const EDQUOT: i32 = 122;
    const EIO: i32 = 5;
    const EROFS: i32 = 30;
    matches!(fault.raw_os_error(), Some(ENOSPC | EDQUOT | EIO | EROFS))
}

/// Locks the file, and has it begin and end as a record does: its length. `AlreadyExists` if another server has it.
fn begin(file: &File) -> io::Result<u64> {
    if !file.metadata()?.is_file() {
        return Err(io::Error::new(ErrorKind::InvalidInput, "not a regular file"));
    }
    if !try_lock(file)? {
        return Err(io::Error::new(ErrorKind::AlreadyExists, "another server writes it"));
    }
    let mut first = Vec::new();
    let mut reader = file;
    reader.seek(SeekFrom::Start(0))?;
    reader.take(FIRST.len() as u64 + 1).read_to_end(&mut first)?;
    if !is_begun(&first) {
        return Err(io::Error::new(ErrorKind::InvalidData, "it is not a record of grants"));
    }
    let whole = end_of_lines(file)?;
    file.set_len(whole)?;
    if whole == 0 {
        let mut writer = file;
        writeln!(writer, "{FIRST}")?;
    }
    Ok(file.metadata()?.len())
}

/// How many bytes the whole lines of the file have.
fn end_of_lines(mut file: &File) -> io::Result<u64> {
    let mut end = file.metadata()?.len();
    while end > 0 {
        let from = end.saturating_sub(PIECE);
        let mut piece = vec![0; (end - from) as usize];
        file.seek(SeekFrom::Start(from))?;
        file.read_exact(&mut piece)?;
        if let Some(last) = piece.iter().rposition(|&b| b == b'\n') {
            return Ok(from + last as u64 + 1);
        }
        end = from;
    }
    Ok(0)
}

#[cfg(test)]
mod tests;
