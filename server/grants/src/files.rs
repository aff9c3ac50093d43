//! The files of a record: the one that is written to, and those that it was before.

use crate::line::FIRST;
use std::ffi::OsString;
use std::fs::{self, File};
use std::io::{self, Read};
use std::path::{Path, PathBuf};

/// How many digits the number in the name of an earlier file has at least.
const DIGITS: usize = 10;

/// The name of the earlier file with this number: that of the record, a point, and ten digits. A later one has a greater number.
pub fn numbered(path: &Path, number: u64) -> PathBuf {
    let mut name = OsString::from(path);
    name.push(format!(".{number:0DIGITS$}"));
    name.into()
}

/// Whether the text is what a file of a record begins with: all of it, or as far as it goes.
pub fn is_begun(text: &[u8]) -> bool {
    let first = format!("{FIRST}\n");
    text.starts_with(first.as_bytes()) || first.as_bytes().starts_with(text)
}

/// What there is of a record.
#[derive(Debug, Default, PartialEq, Eq)]
pub struct Found {
    /// The files, the oldest first. The one that is written to is the last, if it is there.
    pub files: Vec<PathBuf>,
    /// Those that look like earlier ones, and are not: they may be compressed.
    pub others: Vec<PathBuf>,
}

/// The folder and the name of a path.
fn parts(path: &Path) -> io::Result<(&Path, &str)> {
    let folder = path.parent().filter(|folder| !folder.as_os_str().is_empty()).unwrap_or(Path::new("."));
    let name = path.file_name().and_then(|name| name.to_str());
    Ok((folder, name.ok_or_else(|| io::Error::from(io::ErrorKind::InvalidInput))?))
}

/// What follows the record's name in those of the same folder, where it is a point or a hyphen and a digit.
fn ends(path: &Path) -> io::Result<Vec<String>> {
    let (folder, name) = parts(path)?;
    let mut ends = Vec::new();
    for entry in fs::read_dir(folder)? {
        let entry = entry?.file_name();
        let end = entry.to_str().and_then(|entry| entry.strip_prefix(name));
        let is_one = |end: &&str| {
            let mut bytes = end.bytes();
            matches!(bytes.next(), Some(b'.' | b'-')) && bytes.next().is_some_and(|b| b.is_ascii_digit())
        };
        ends.extend(end.filter(is_one).map(String::from));
    }
    Ok(ends)
}

/// The number in the end of a name that the server gave.
fn number_of(end: &str) -> Option<u64> {
    end.strip_prefix('.').filter(|digits| digits.len() >= DIGITS)?.parse().ok()
}

/// The number of the next earlier file: above those of all that are there.
pub fn next_number(path: &Path) -> io::Result<u64> {
    let last = ends(path)?.iter().filter_map(|end| number_of(end)).max();
    Ok(last.unwrap_or(0).saturating_add(1))
}

/// All files of a record: those with numbers in their order; those that another program has given names, in the order in which they
/// begin; and the one that is written to.
pub fn record_files(path: &Path) -> io::Result<Found> {
    let (mut numbers, mut named, mut others) = (Vec::new(), Vec::new(), Vec::new());
    for end in ends(path)? {
        let mut file = OsString::from(path);
        file.push(&end);
        let file = PathBuf::from(file);
        match (begin_of(&file)?, number_of(&end)) {
            (None, _) => others.push(file),
            (Some(_), Some(number)) => numbers.push((number, file)),
            (Some(begin), None) => named.push((begin, file)),
        }
    }
    numbers.sort();
    named.sort();
    others.sort();
    let own = path.exists().then(|| path.to_owned());
    let files = named.into_iter().map(|(_, file)| file).chain(numbers.into_iter().map(|(_, file)| file)).chain(own);
    Ok(Found { files: files.collect(), others })
}

/// The second line of a file, which begins with a moment, as far as it is near; nothing if it is not a file of a record.
fn begin_of(path: &Path) -> io::Result<Option<Vec<u8>>> {
    let mut text = Vec::new();
    File::open(path)?.take(256).read_to_end(&mut text)?;
    Ok(is_begun(&text).then(|| text.split_off(text.len().min(FIRST.len() + 1))))
}

#[cfg(test)]
mod tests {
    use super::*;

    #[test]
    fn files_of_a_record() {
        let folder = std::env::temp_dir().join(format!("wozgirt-record-{}", std::process::id()));
        let _ = fs::remove_dir_all(&folder);
        fs::create_dir(&folder).unwrap();
        let path = folder.join("grants");
        assert_eq!((next_number(&path).unwrap(), record_files(&path).unwrap()), (1, Found::default()));
        let text = |year: u64| format!("{FIRST}\n{year}-11-24T14:08:09.000017Z began\n");
        for (name, text) in [
            ("grants", text(2026)),
            ("grants.0000000010", text(2025)),
            ("grants.0000000009", text(2026)),
            ("grants.1", text(2024)),
            ("grants-20231124", text(2023)),
            ("grants.2.gz", "\x1f".into()),
            ("grants.other", text(2022)),
            ("grantsmen.1", text(2022)),
            ("grants.0000000011", String::new()),
        ] {
            fs::write(folder.join(name), text).unwrap();
        }
        assert_eq!((next_number(&path).unwrap(), numbered(&path, 12)), (12, folder.join("grants.0000000012")));
        let found = record_files(&path).unwrap();
        let names = |files: &[PathBuf]| {
            files.iter().map(|it| it.file_name().unwrap().to_string_lossy().into_owned()).collect::<Vec<_>>()
        };
        let files =
            ["grants-20231124", "grants.1", "grants.0000000009", "grants.0000000010", "grants.0000000011", "grants"];
        assert_eq!(
            (names(&found.files), names(&found.others)),
            (files.map(String::from).into(), vec!["grants.2.gz".into()])
        );
        assert!(record_files(&folder.join("none/grants")).is_err());
        fs::remove_dir_all(folder).unwrap();
    }

    #[test]
    fn what_a_file_begins_with() {
        for (text, is_one) in
            [("", true), ("wozgirt-gr", true), ("wozgirt-grants 1\n", true), ("wozgirt-grants 1\nx", true)]
        {
            assert_eq!(is_begun(text.as_bytes()), is_one);
        }
        for text in ["x", "wozgirt-grants 2\n", "wozgirt-grants 11\n", "\n"] {
            assert!(!is_begun(text.as_bytes()), "{text}");
        }
    }
}
