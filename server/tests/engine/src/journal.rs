//! The folder with the journal: `locks`, names and sizes, and segments. An engine writes the last one anew, without remarks of keys and
//! positions, and goes on there, or, with `--strict`, begins a new one. Grants are counted over all of them, so their bases are 0. Names of
//! the pool are in remarks.

use crate::keys::{digest, Keyed};
use crate::locks::{Holder, Listed, Lock, Locks};
use crate::pool::Pool;
use crate::ring::{CARRIED, HOLD, LEFT, RELEASED};
use std::fmt::Write as _;
use std::fs::{self, File, OpenOptions};
use std::io::{self, Write};
use std::path::{Path, PathBuf};
use wozgirt_engine::{decimal, NOBODY};

/// The locks in a list, `NAME[:N[:K]],..`: eight machines, and as many values, if there is nothing else. If the last one is `*`, with two
/// machines, others of any name may be held, but not more than `most`.
pub fn listed(list: &str, most: usize) -> Option<(Vec<Listed>, Option<Pool>)> {
    let size = |lock: &str, machines: usize| {
        let mut parts = lock.split([':', ' ']).skip(1);
        let n = parts.next().map_or(Some(machines), |n| n.parse().ok())?;
        let k = parts.next().map_or(Some(n as u64), |k| k.parse().ok())?;
        (n >= 2 && k >= n as u64 && parts.next().is_none()).then_some((n, k))
    };
    let mut locks: Vec<&str> = list.split(',').collect();
    let mut pool = None;
    if let Some(any) = locks.last().copied().filter(|last| name(last) == "*") {
        let (n, k) = size(any, 2)?;
        pool = Some(Pool { n, k, most });
        locks.pop();
    }
    let lock = |lock: &&str| {
        let (n, k) = size(lock, 8)?;
        Some((name(lock).parse().ok()?, n, k))
    };
    Some((locks.iter().map(lock).collect::<Option<_>>()?, pool))
}

fn name(lock: &str) -> &str {
    lock.split([':', ' ']).next().unwrap_or(lock)
}

fn wrong(what: String) -> io::Error {
    io::Error::new(io::ErrorKind::InvalidData, what)
}

/// The segment that is written.
pub struct Journal {
    folder: PathBuf,
    number: u64,
    file: File,
    lines: u64,
    most_lines: u64,
    is_synced: bool,
    /// Whether there was a segment; and whether nothing has come to it since it was begun.
    pub was_there: bool,
    pub is_fresh: bool,
}

impl Journal {
    /// Opens the folder, and does again what stands there, without what stands after the last end of a line.
    pub fn open(folder: &Path, locks: &mut Locks, most_lines: u64, is_synced: bool) -> io::Result<Journal> {
        claim(folder)?;
        fs::write(folder.join("locks"), list_of(locks))?;
        let (mut number, mut kept, mut lines, mut is_fresh) = (0, String::new(), 0, true);
        while let Ok(text) = fs::read_to_string(path(folder, number + 1)) {
            number += 1;
            let whole = &text[..text.rfind('\n').map_or(0, |i| i + 1)];
            kept = whole
                .lines()
                .filter(|line| is_call(line) || is_of_names(line))
                .map(|line| format!("{line}\n"))
                .collect();
            locks.fill(rings_of(&text).ok_or_else(|| wrong("a segment has no number of rings".into()))?);
            let calls = whole.split_once("\ndone ").ok_or_else(|| wrong("a segment has no head".into()))?.1;
            lines = 0;
            is_fresh = calls.lines().skip(1).all(is_of_head);
            for line in calls.lines().skip(1) {
                if let Some(remark) = line.strip_prefix("# ") {
                    hear_name(locks, remark);
                    continue;
                }
                replay(locks, line).ok_or_else(|| wrong(format!("call {lines} of segment {number} is wrong")))?;
                lines += 1;
            }
        }
        // of a name that was not granted, or whose end has no remark, the file was cut off there
        (0..locks.locks.len())
            .filter(|&l| locks.locks[l].holder.is_none())
            .collect::<Vec<_>>()
            .into_iter()
            .for_each(|l| locks.unbind(l));
        locks.fill(0);
        let folder = folder.to_owned();
        if number == 0 {
            let file = begin(&folder, 1, locks, "")?;
            return Ok(Journal {
                folder,
                number: 1,
                file,
                lines: 0,
                most_lines,
                is_synced,
                was_there: false,
                is_fresh,
            });
        }
        let part = folder.join(".wozgirt.part");
        fs::write(&part, kept)?;
        fs::rename(part, path(&folder, number))?;
        let file = OpenOptions::new().append(true).open(path(&folder, number))?;
        Ok(Journal { folder, number, file, lines, most_lines, is_synced, was_there: true, is_fresh })
    }

    /// Begins the next segment.
    pub fn turn(&mut self, keyed: &mut Keyed) -> io::Result<()> {
        self.number += 1;
        if keyed.locks.is_short_of_rings() {
            keyed.locks.grow();
        }
        self.file = begin(&self.folder, self.number, &keyed.locks, &keyed.remarks())?;
        self.lines = calls_in(&carried(&keyed.locks));
        Ok(())
    }

    /// Writes the calls that are there.
    pub fn write(&mut self, locks: &mut Locks) -> io::Result<()> {
        if !locks.journal.is_empty() {
            self.file.write_all(locks.journal.as_bytes())?;
            self.lines += calls_in(&locks.journal);
            locks.journal.clear();
            if self.is_synced {
                self.file.sync_data()?;
            }
        }
        Ok(())
    }

    /// Writes the calls if the segment is full with them, or no ring of a pool is free that may have more, and begins the next one.
    pub fn turn_if_full(&mut self, keyed: &mut Keyed) -> io::Result<()> {
        if self.lines + calls_in(&keyed.locks.journal) >= self.most_lines || keyed.locks.is_short_of_rings() {
            self.write(&mut keyed.locks)?;
            self.turn(keyed)?;
        }
        Ok(())
    }
}

/// Whether a line is no remark, of keys and positions.
fn is_call(line: &str) -> bool {
    !line.starts_with('#')
}

/// Whether a remark is about the names of rings.
fn is_of_names(line: &str) -> bool {
    ["# floor ", "# name ", "# free "].iter().any(|word| line.starts_with(word))
}

/// Whether a segment that was just begun may have the line: names that are bound, and holds that are open.
fn is_of_head(line: &str) -> bool {
    line.starts_with("# floor ") || line.starts_with("# name ") || is_call(line) && line.split(' ').nth(2) == Some("3")
}

/// A segment is as long as its calls are many, without the remarks.
fn calls_in(journal: &str) -> u64 {
    journal.lines().filter(|line| is_call(line)).count() as u64
}

/// The file `locks`: names and sizes.
fn list_of(locks: &Locks) -> String {
    let size =
        |lock: &Lock| format!("{} {} {}\n", lock.name.as_ref().map_or("", |name| name), lock.ring.n(), lock.ring.k);
    let listed: String = locks.locks[..locks.listed].iter().map(size).collect();
    listed + &locks.pool.as_ref().map_or(String::new(), |pool| format!("* {} {}\n", pool.n, pool.k))
}

/// The segments that are there, the oldest first.
pub fn segments(folder: &Path) -> io::Result<Vec<PathBuf>> {
    let files = fs::read_dir(folder)?.map(|it| it.map(|it| it.path())).collect::<io::Result<Vec<_>>>()?;
    let mut found: Vec<PathBuf> =
        files.into_iter().filter(|it| it.extension().is_some_and(|end| end == "ring")).collect();
    found.sort();
    Ok(found)
}

fn path(folder: &Path, number: u64) -> PathBuf {
    folder.join(format!("{number:010}.ring"))
}

fn begin(folder: &Path, number: u64, locks: &Locks, remarks: &str) -> io::Result<File> {
    let before = fs::read(path(folder, number - 1)).map_or("0".repeat(64), |bytes| digest(&bytes));
    let count = locks.locks.len();
    let mut head = format!("ringsegment 1 {number} {count}\nbehind {before}\n");
    head.push_str(&"base 0 0 0 0\n".repeat(count));
    head.push_str("ringjournal 1\nringfarm 2\n");
    for lock in &locks.locks {
        let (ring, n, k) = (&lock.ring, lock.ring.n(), lock.ring.k);
        let _ = writeln!(head, "ring {} {n} {k}\nstart{}\nend 0", ring.number, ring.values_text());
    }
    let _ = writeln!(head, "done {count}");
    head.push_str(&locks.names());
    head.push_str(remarks);
    if number > 1 {
        head.push_str(&carried(locks));
    }
    let part = folder.join(".wozgirt.part");
    let mut file = File::create(&part)?;
    file.write_all(head.as_bytes())?;
    fs::rename(part, path(folder, number))?;
    Ok(file)
}

/// The calls with which a segment says which holds are open.
fn carried(locks: &Locks) -> String {
    let held = locks.locks.iter().filter(|lock| lock.holder.is_some());
    held.map(|lock| format!("{} p {CARRIED} {} {} n\n", lock.ring.number, lock.ring.idle(), lock.ring.passes)).collect()
}

/// How many rings a segment has, by its first line.
fn rings_of(text: &str) -> Option<usize> {
    text.lines().next()?.split(' ').nth(3)?.parse().ok()
}

/// What a remark says of names; others are not about them.
fn hear_name(locks: &mut Locks, remark: &str) {
    let words: Vec<&str> = remark.split(' ').collect();
    let number = |word: &str| decimal(word).ok();
    let ring = words.get(1).and_then(|word| usize::try_from(number(word)?).ok());
    let Some(ring) = ring.filter(|&ring| ring >= locks.listed && ring < locks.locks.len()) else { return };
    match words[..] {
        ["name", _, before, floor, name] => {
            if let (Some(before), Some(floor), Ok(name)) = (number(before), number(floor), name.parse()) {
                locks.bind(ring, before, floor, name);
            }
        }
        ["free", _] => locks.unbind(ring),
        _ => {}
    }
}

/// One line of the journal, done again. Nothing if it is not this ring's.
fn replay(locks: &mut Locks, line: &str) -> Option<()> {
    let words: Vec<&str> = line.split(' ').collect();
    let number = |i: usize| words.get(i).and_then(|word| decimal(word).ok());
    let lock = locks.locks.get_mut(usize::try_from(number(0)?).ok()?)?;
    let seat = number(2)?;
    match *words.get(1)? {
        "p" if seat == CARRIED => Some(()),
        "p" => {
            if number(3)? != lock.ring.first as u64 {
                return None;
            }
            lock.ring.move_first(number(4)?);
            if seat == HOLD {
                lock.holder = Some(Holder { client: NOBODY, token: lock.token() });
            }
            (number(6)? == lock.ring.passes && number(7)? == lock.ring.amount).then_some(())
        }
        "c" => {
            let (machine, value) = (usize::try_from(number(3)?).ok()?, number(4)?);
            (machine < lock.ring.n() && value < lock.ring.k).then(|| lock.ring.write(machine, value))?;
            Some(())
        }
        "s" if seat == RELEASED || seat == LEFT => {
            lock.holder = None;
            Some(())
        }
        _ => None,
    }
}

/// Only one process keeps a journal: a file with its number, which is looked up among those that live. One that ended and
/// that nobody has waited for is still there, with the state Z.
fn claim(folder: &Path) -> io::Result<()> {
    let path = folder.join("lock");
    let owner = fs::read_to_string(&path).unwrap_or_default();
    let lives = owner.parse::<u32>().is_ok_and(|owner| {
        let stat = fs::read_to_string(format!("/proc/{owner}/stat")).unwrap_or_default();
        let (name, rest) = stat.rsplit_once(") ").unwrap_or_default();
        owner != std::process::id() && name.ends_with("(engine-double") && !rest.starts_with('Z')
    });
    if lives {
        return Err(wrong("journal is in use".into()));
    }
    fs::write(path, std::process::id().to_string())
}
