//! The options of a program, in a table: the command line is read by it, and the help is made of it.
//!
//! Each option has an `id`, a variant of an enum of the program. So what the program does with its options is a `match` over that
//! enum, and the compiler says if the table has an option that is not read, or one is read that the table does not have.

mod own;

pub use own::OwnFolder;

use std::ffi::{OsStr, OsString};
use std::os::unix::ffi::{OsStrExt, OsStringExt};

/// An option.
#[derive(Debug, Clone, Copy, PartialEq, Eq)]
pub struct OptionWord<I: 'static> {
    /// What it is to the program.
    pub id: I,
    /// Its name, as `--wait`.
    pub name: &'static str,
    /// Its short name, as `-w`.
    pub short: Option<&'static str>,
    /// Names that are read too, and that the help does not show.
    pub others: &'static [&'static str],
    /// What the help calls its value, if it has one.
    pub value: Option<&'static str>,
    /// What it does, in lines of the help.
    pub help: &'static str,
}

impl<I: Copy> OptionWord<I> {
    /// One that is there or not.
    pub const fn flag(id: I, name: &'static str, help: &'static str) -> Self {
        OptionWord { id, name, short: None, others: &[], value: None, help }
    }

    /// One that has a value.
    pub const fn valued(id: I, name: &'static str, value: &'static str, help: &'static str) -> Self {
        OptionWord { id, name, short: None, others: &[], value: Some(value), help }
    }

    /// The same, with a short name too.
    pub const fn short(self, short: &'static str) -> Self {
        OptionWord { short: Some(short), ..self }
    }

    /// The same, with further names.
    pub const fn others(self, others: &'static [&'static str]) -> Self {
        OptionWord { others, ..self }
    }

    fn is_named(&self, word: &[u8]) -> bool {
        let names = [self.name].into_iter().chain(self.short).chain(self.others.iter().copied());
        names.into_iter().any(|name| name.as_bytes() == word)
    }

    /// As it is at the left of the help.
    fn left(&self) -> String {
        let short = self.short.map_or(String::new(), |short| format!("{short}, "));
        let value = self.value.map_or(String::new(), |value| format!(" {value}"));
        format!("  {short}{}{value}", self.name)
    }
}

/// A word of the command line.
#[derive(Debug, PartialEq, Eq)]
pub enum Word<I> {
    /// `--help` or `-h`.
    Help,
    /// `--version` or `-V`.
    Version,
    /// `--`.
    End,
    /// An option, by the name that was written, with its value. One that has none has an empty one.
    Option(I, String, OsString),
    /// A word that is not an option.
    Other(OsString),
}

/// A word that cannot be read.
#[derive(Debug, PartialEq, Eq)]
pub enum BadWord {
    /// There is no such option, or it takes no value.
    Unknown(OsString),
    /// The option has no value.
    NoValue(String),
}

/// The next of these words, and the value after it if it is an option that has one: `--wait 1`, `--wait=1`, `-w 1` and `-w1`.
pub fn next_word<'a, I: Copy + 'static>(
    words: &mut impl Iterator<Item = OsString>,
    options: impl IntoIterator<Item = &'a OptionWord<I>>,
) -> Option<Result<Word<I>, BadWord>> {
    let word = words.next()?;
    Some(match word.as_bytes() {
        b"--help" | b"-h" => Ok(Word::Help),
        b"--version" | b"-V" => Ok(Word::Version),
        b"--" => Ok(Word::End),
        [b'-', ..] => option(word, words, options),
        _ => Ok(Word::Other(word)),
    })
}

fn option<'a, I: Copy + 'static>(
    word: OsString,
    words: &mut impl Iterator<Item = OsString>,
    options: impl IntoIterator<Item = &'a OptionWord<I>>,
) -> Result<Word<I>, BadWord> {
    let (name, attached) = split(&word);
    let Some(found) = options.into_iter().find(|it| it.is_named(name)) else {
        return Err(BadWord::Unknown(word));
    };
    let written = String::from_utf8_lossy(name).into_owned();
    match (found.value, attached) {
        (None, None) => Ok(Word::Option(found.id, written, OsString::new())),
        (None, Some(_)) => Err(BadWord::Unknown(word)),
        (Some(_), Some(value)) => Ok(Word::Option(found.id, written, OsString::from_vec(value.into()))),
        (Some(_), None) => match words.next() {
            Some(value) => Ok(Word::Option(found.id, written, value)),
            None => Err(BadWord::NoValue(written)),
        },
    }
}

/// The name of an option, and the value that is part of its word.
fn split(word: &OsStr) -> (&[u8], Option<&[u8]>) {
    let bytes = word.as_bytes();
    match bytes {
        [b'-', b'-', ..] => match bytes.iter().position(|&b| b == b'=') {
            Some(at) => (&bytes[..at], Some(&bytes[at + 1..])),
            None => (bytes, None),
        },
        [_, _, value @ ..] if !value.is_empty() => (&bytes[..2], Some(value)),
        _ => (bytes, None),
    }
}

/// The lines of the help about these options: each option, and what it does at the right of the longest of `all`.
pub fn help<'a, I: Copy + 'static>(
    options: impl IntoIterator<Item = &'a OptionWord<I>>,
    all: impl IntoIterator<Item = &'a OptionWord<I>>,
) -> String {
    let width = all.into_iter().map(|it| it.left().len()).max().unwrap_or(0) + 2;
    let lines = |it: &OptionWord<I>| {
        let indented = it.help.replace('\n', &format!("\n{:width$}", ""));
        format!("{:width$}{indented}\n", it.left())
    };
    options.into_iter().map(lines).collect()
}

#[cfg(test)]
mod tests {
    use super::*;

    const TABLE: [OptionWord<u8>; 3] = [
        OptionWord::valued(1, "--wait", "SECONDS", "how long\nto wait").short("-w").others(&["--timeout"]),
        OptionWord::flag(2, "--close", "not inherited").short("-o"),
        OptionWord::valued(3, "--label", "NUMBER", "what is kept"),
    ];

    fn read(words: &[&[u8]]) -> Vec<Result<Word<u8>, BadWord>> {
        let mut words = words.iter().map(|word| OsString::from_vec(word.to_vec()));
        std::iter::from_fn(|| next_word(&mut words, &TABLE)).collect()
    }

    #[test]
    fn each_form_of_an_option() {
        let found = |name: &str, value: &str| Ok(Word::Option(1, name.into(), value.into()));
        let words =
            ["--wait", "1", "--wait=1", "--wait=", "-w", "1", "-w1", "-w=1", "--timeout", "--", "--timeout=a=b"];
        let values = [("--wait", "1"), ("--wait", "1"), ("--wait", ""), ("-w", "1"), ("-w", "1"), ("-w", "=1")];
        let values = values.into_iter().chain([("--timeout", "--"), ("--timeout", "a=b")]);
        assert_eq!(read(&words.map(str::as_bytes)), values.map(|(name, value)| found(name, value)).collect::<Vec<_>>());
        let flags = read(&[b"-o", b"--close"]);
        assert_eq!(flags, ["-o", "--close"].map(|name| Ok(Word::Option(2, name.into(), OsString::new()))));
    }

    #[test]
    fn words_that_are_no_options() {
        let words = read(&[b"--help", b"-h", b"--version", b"-V", b"--", b"a", b"", b"\xff"]);
        let other = |bytes: &[u8]| Ok(Word::Other(OsString::from_vec(bytes.into())));
        let known = [Word::Help, Word::Help, Word::Version, Word::Version, Word::End].map(Ok);
        assert_eq!(words, known.into_iter().chain([other(b"a"), other(b""), other(b"\xff")]).collect::<Vec<_>>());
    }

    #[test]
    fn values_that_are_no_text() {
        let value = OsString::from_vec(b"\xff".to_vec());
        for words in [&[&b"--label"[..], b"\xff"][..], &[b"--label=\xff"]] {
            assert_eq!(read(words), [Ok(Word::Option(3, "--label".into(), value.clone()))]);
        }
    }

    #[test]
    fn refusals() {
        for word in ["--jump", "-", "-x", "--close=1", "-o1", "--wai", "---wait=1"] {
            assert_eq!(read(&[word.as_bytes()]), [Err(BadWord::Unknown(word.into()))]);
        }
        assert_eq!(read(&[b"--lab\xff"]), [Err(BadWord::Unknown(OsString::from_vec(b"--lab\xff".to_vec())))]);
        for name in ["--wait", "-w", "--label"] {
            assert_eq!(read(&[name.as_bytes()]), [Err(BadWord::NoValue(name.into()))]);
        }
    }

    #[test]
    fn the_help_of_some() {
        let text =
            "  -w, --wait SECONDS  how long\n                      to wait\n  -o, --close         not inherited\n";
        assert_eq!(help(&TABLE[..2], &TABLE), text);
        assert_eq!(help(&TABLE[1..2], &TABLE[1..2]), "  -o, --close  not inherited\n");
    }
}
