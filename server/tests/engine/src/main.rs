//! A test double of the lock engine, never shipped: it speaks the lines of `ring_tool locks`, takes the same words, and
//! writes a true journal, so that the server can be tried without the proved engine. Nothing of it is proved.
//!
//!     engine-double locks --journal FOLDER --locks NAME[:N[:K]],..[,*] [--most-names COUNT] [--segment LINES] [--faults]
//!                         [--sync | --no-sync] [--strict] [--holders FILE]
//!     engine-double holds FOLDER

#![allow(missing_docs)]

mod holds;
mod journal;
mod keys;
mod locks;
mod pool;
mod ring;

use journal::Journal;
use keys::Keyed;
use locks::Locks;
use std::io::{self, Read, Write};
use std::path::{Path, PathBuf};
use wozgirt_engine::decimal;

struct Settings {
    folder: PathBuf,
    list: String,
    most_names: usize,
    most_lines: u64,
    permits_faults: bool,
    is_synced: bool,
    is_strict: bool,
    holders: Option<PathBuf>,
}

fn settings(mut words: impl Iterator<Item = String>) -> Option<Settings> {
    if words.next()? != "locks" {
        return None;
    }
    let (mut folder, mut list, mut permits_faults, mut is_synced) = (None, None, false, true);
    let (mut most_names, mut most_lines, mut is_strict, mut holders) = (65_536, u64::MAX, false, None);
    while let Some(word) = words.next() {
        match word.as_str() {
            "--journal" => folder = words.next(),
            "--locks" => list = words.next(),
            "--most-names" => most_names = words.next()?.parse().ok()?,
            "--segment" => most_lines = words.next()?.parse().ok()?,
            "--faults" => permits_faults = true,
            "--sync" => is_synced = true,
            "--no-sync" => is_synced = false,
            "--strict" => is_strict = true,
            "--holders" => holders = Some(words.next()?.into()),
            _ => return None,
        }
    }
    let folder = PathBuf::from(folder?);
    let list =
        list.or_else(|| std::fs::read_to_string(folder.join("locks")).ok().map(|text| text.trim().replace('\n', ",")))?;
    Some(Settings { folder, list, most_names, most_lines, permits_faults, is_synced, is_strict, holders })
}

/// Gives open holds to those who are named in a file.
fn give_holds(locks: &mut Locks, text: &str) -> io::Result<()> {
    for (i, line) in text.lines().enumerate() {
        let words: Vec<&str> = line.split(' ').collect();
        let is_given = match words[..] {
            ["hold", lock, token, client] => match (decimal(token), decimal(client)) {
                (Ok(token), Ok(client)) => locks.give(lock, token, client),
                _ => false,
            },
            _ => false,
        };
        if !is_given {
            return Err(io::Error::other(format!("holders: line {}", i + 1)));
        }
    }
    Ok(())
}

/// The journal first, the answers afterwards.
fn write(keyed: &mut Keyed, journal: &mut Journal) -> io::Result<()> {
    journal.write(&mut keyed.locks)?;
    io::stdout().lock().write_all(keyed.output.as_bytes())?;
    keyed.output.clear();
    io::stdout().lock().flush()
}

fn open(settings: &Settings) -> io::Result<(Keyed, Journal)> {
    let listed = journal::listed(&settings.list, settings.most_names);
    let (list, pool) = listed.ok_or_else(|| io::Error::other("bad list of locks"))?;
    let mut locks = Locks::new(&list, pool, settings.permits_faults);
    let mut journal = Journal::open(&settings.folder, &mut locks, settings.most_lines, settings.is_synced)?;
    locks.begin();
    journal.write(&mut locks)?;
    if let Some(path) = &settings.holders {
        give_holds(&mut locks, &std::fs::read_to_string(path)?)?;
    }
    let mut keyed = Keyed::new(locks);
    if (settings.is_strict || keyed.locks.pool.is_some() && !journal.is_fresh) && journal.was_there {
        journal.turn(&mut keyed)?;
    }
    Ok((keyed, journal))
}

fn run(settings: &Settings) -> io::Result<()> {
    let (mut keyed, mut journal) = open(settings)?;
    let (mut bytes, mut have) = (vec![0; 1 << 16], 0);
    loop {
        let count = io::stdin().lock().read(&mut bytes[have..])?;
        if count == 0 {
            return Ok(());
        }
        have += count;
        let end = bytes[..have].iter().rposition(|&b| b == b'\n').map_or(0, |i| i + 1);
        if end == 0 && have == bytes.len() {
            return Err(io::Error::other("a line is too long"));
        }
        for line in String::from_utf8_lossy(&bytes[..end]).lines() {
            keyed.line(line);
            journal.turn_if_full(&mut keyed)?;
        }
        bytes.copy_within(end..have, 0);
        have -= end;
        write(&mut keyed, &mut journal)?;
    }
}

/// `holds FOLDER`: the folder.
fn folder_of_holds() -> Option<PathBuf> {
    let mut words = std::env::args().skip(1);
    words.next().filter(|word| word == "holds")?;
    words.next().filter(|_| words.next().is_none()).map(PathBuf::from)
}

/// Prints the holds of a folder.
fn print_holds(folder: &Path) -> io::Result<()> {
    io::stdout().lock().write_all(holds::of(folder)?.as_bytes())
}

fn main() {
    if let Some(folder) = folder_of_holds() {
        if let Err(fault) = print_holds(&folder) {
            eprintln!("engine-double: {fault}");
            std::process::exit(1);
        }
        return;
    }
    let Some(settings) = settings(std::env::args().skip(1)) else {
        eprintln!(
            "engine-double locks --journal FOLDER --locks NAME[:N[:K]],..[,*] [--most-names COUNT] [--segment LINES] [--faults] \
             [--sync | --no-sync] [--strict] [--holders FILE]"
        );
        std::process::exit(2);
    };
    if let Err(fault) = run(&settings) {
        eprintln!("engine-double: {fault}");
        std::process::exit(1);
    }
}
