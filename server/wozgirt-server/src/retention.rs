//! Old segments of the journal, of which only the last ones are kept.
//!
//! The digest of a segment is in the head of the next one. Before a segment is removed, that is noted in a file beside the
//! journal's folder, which the engine does not look at: so the chain can still be distinguished from another one.

use crate::files::{beside, create, refuse_link, replace};
use std::fs;
use std::io::{self, BufRead, BufReader};
use std::path::{Path, PathBuf};
use std::sync::mpsc::{channel, Receiver, Sender};
use std::thread;
use std::time::Duration;

/// How often old segments are looked for.
const PERIOD: Duration = Duration::from_secs(5);

/// A segment that was removed, by its name and digest; or why none can be.
pub type Removal = Result<(String, String), io::Error>;

/// Starts a thread that removes old segments, as long as the program runs, and reports what it does.
pub fn start(folder: PathBuf, kept: usize) -> io::Result<Receiver<Removal>> {
    let (tell, told) = channel();
    thread::Builder::new().name("retention".into()).spawn(move || watch(&folder, kept, &tell))?;
    Ok(told)
}

fn watch(folder: &Path, kept: usize, tell: &Sender<Removal>) {
    let mut has_failed = false;
    loop {
        match remove_oldest(folder, kept) {
            Ok(Some(removed)) => {
                has_failed = false;
                if tell.send(Ok(removed)).is_err() {
                    return;
                }
                continue; // there may be more
            }
            Ok(None) => {}
            Err(_) if has_failed => {} // it was reported
            Err(fault) => {
                has_failed = true;
                if tell.send(Err(fault)).is_err() {
                    return;
                }
            }
        }
        thread::sleep(PERIOD);
    }
}

/// Removes the oldest segment if there are more than these: its name and digest.
fn remove_oldest(folder: &Path, kept: usize) -> io::Result<Option<(String, String)>> {
    let mut names: Vec<String> = Vec::new();
    for file in fs::read_dir(folder)? {
        names.extend(file?.file_name().into_string().ok().filter(|name| is_segment(name)));
    }
    names.sort_unstable_by_key(|name| (name.len(), name.clone()));
    let [oldest, next, ..] = &names[..] else { return Ok(None) };
    if names.len() <= kept {
        return Ok(None);
    }
    let digest = digest_behind(&folder.join(next))?;
    note(&beside(folder, ".removed")?, &format!("{oldest} {digest}\n"))?;
    fs::remove_file(folder.join(oldest))?;
    Ok(Some((oldest.clone(), digest)))
}

fn is_segment(name: &str) -> bool {
    name.strip_suffix(".ring").is_some_and(|number| number.len() >= 10 && number.bytes().all(|b| b.is_ascii_digit()))
}

/// The digest of the segment before this one.
fn digest_behind(segment: &Path) -> io::Result<String> {
    let mut lines = BufReader::new(fs::File::open(segment)?).lines();
    let line = lines.nth(1).transpose()?.unwrap_or_default();
    let digest = line.strip_prefix("behind ").filter(|it| it.len() == 64 && it.bytes().all(|b| b.is_ascii_hexdigit()));
    digest.map(String::from).ok_or_else(|| io::Error::other(format!("{}: no digest in its head", segment.display())))
}

/// Puts the line at the end of the record, unless it is there already, and on the disk. Of a record without an end, as after a loss of
/// power, the last line goes; one that cannot be replaced stays as it is.
fn note(record: &Path, line: &str) -> io::Result<()> {
    refuse_link(record)?;
    let before = fs::read_to_string(record).or_else(|fault| match fault.kind() {
        io::ErrorKind::NotFound => Ok(String::new()),
        _ => Err(fault),
    })?;
    let whole = &before[..before.rfind('\n').map_or(0, |end| end + 1)];
    if whole.ends_with(line) {
        return Ok(());
    }
    replace(record, &record.with_extension("removed.part"), create, format!("{whole}{line}").as_bytes())?;
    Ok(())
}

#[cfg(test)]
mod tests {
    use super::*;

    #[test]
    fn the_oldest_go_and_their_digests_stay() {
        let top = std::env::temp_dir().join(format!("wozgirt-retention-{}", std::process::id()));
        let _ = fs::remove_dir_all(&top);
        let folder = top.join("journal");
        fs::create_dir_all(&folder).unwrap();
        let name = |number: u64| format!("{number:010}.ring");
        let digest = |number: u64| format!("{number:064x}");
        for number in 1..=4 {
            let text = format!("ringsegment 1 {number} 1\nbehind {}\n", digest(number - 1));
            fs::write(folder.join(name(number)), text).unwrap();
        }
        fs::write(folder.join("locks"), "a 8 8\n").unwrap();
        // a line that was noted before an interrupt is not noted again
        let (record, part) = (top.join("journal.removed"), top.join("journal.removed.part"));
        fs::write(&record, format!("{} {}\n", name(1), digest(1))).unwrap();
        assert_eq!(remove_oldest(&folder, 2).unwrap(), Some((name(1), digest(1))));
        // what cannot be noted is not removed, and the record stays as it is
        fs::create_dir(&part).unwrap();
        assert!(remove_oldest(&folder, 2).is_err() && folder.join(name(2)).exists());
        assert_eq!(fs::read_to_string(&record).unwrap(), format!("{} {}\n", name(1), digest(1)));
        fs::remove_dir(part).unwrap();
        // a line that a loss of power cut off does not stay
        fs::write(&record, format!("{} {}\n{} 00", name(1), digest(1), name(2))).unwrap();
        assert_eq!(remove_oldest(&folder, 2).unwrap(), Some((name(2), digest(2))));
        assert_eq!(remove_oldest(&folder, 2).unwrap(), None);
        let noted = format!("{} {}\n{} {}\n", name(1), digest(1), name(2), digest(2));
        assert_eq!(fs::read_to_string(top.join("journal.removed")).unwrap(), noted);
        assert!(folder.join(name(3)).exists() && folder.join(name(4)).exists() && folder.join("locks").exists());
        fs::write(folder.join(name(5)), "ringsegment 1 5 1\n").unwrap();
        fs::write(folder.join(name(4)), "ringsegment 1 4 1\nbehind none\n").unwrap();
        assert!(remove_oldest(&folder, 2).is_err());
        assert!(folder.join(name(3)).exists());
        fs::write(folder.join(name(4)), format!("ringsegment 1 4 1\nbehind {}\n", digest(3))).unwrap();
        fs::rename(&record, top.join("other")).unwrap();
        std::os::unix::fs::symlink(top.join("other"), &record).unwrap();
        assert!(remove_oldest(&folder, 2).is_err());
        assert_eq!(fs::read_to_string(top.join("other")).unwrap(), noted);
        fs::remove_dir_all(top).unwrap();
    }
}
