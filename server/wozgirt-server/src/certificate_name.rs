//! The name of a client's certificate, written so that it is one word wherever it is shown: each byte but letters, digits and some marks
//! as `%` and two digits of base 16.

use std::fmt;
use std::rc::Rc;

/// How many bytes a name has at most: the 64 characters that a certificate may have, of four bytes each.
pub const LONGEST: usize = 256;
/// What is written as it is, with letters and digits of ASCII.
const MARKS: &[u8] = b"-._~@:/+=";

/// A name, as it is written: two are the same if their names are, byte by byte.
#[derive(Debug, Clone, PartialEq, Eq, Hash, PartialOrd, Ord)]
pub struct CertificateName(Rc<str>);

/// Why something is not a name.
#[derive(Debug, Clone, Copy, PartialEq, Eq)]
pub enum NotAName {
    /// It is empty.
    Empty,
    /// It is too long.
    Long,
    /// It is not text.
    NotText,
    /// It is not written as a name is.
    Syntax,
}

impl fmt::Display for NotAName {
    fn fmt(&self, f: &mut fmt::Formatter<'_>) -> fmt::Result {
        match self {
            NotAName::Empty => f.write_str("is empty"),
            NotAName::Long => write!(f, "has more than {LONGEST} bytes"),
            NotAName::NotText => f.write_str("is not text in UTF-8"),
            NotAName::Syntax => f.write_str("is not written as names are"),
        }
    }
}

impl CertificateName {
    /// The name that has these bytes.
    pub fn new(name: &[u8]) -> Result<CertificateName, NotAName> {
        if name.is_empty() {
            return Err(NotAName::Empty);
        }
        if name.len() > LONGEST {
            return Err(NotAName::Long);
        }
        std::str::from_utf8(name).map_err(|_| NotAName::NotText)?;
        Ok(CertificateName(written(name).into()))
    }

    /// The name that is written so, and no other way.
    pub fn parse(word: &str) -> Result<CertificateName, NotAName> {
        let name = CertificateName::new(&bytes_of(word).ok_or(NotAName::Syntax)?)?;
        (*name.0 == *word).then_some(name).ok_or(NotAName::Syntax)
    }

    /// The name itself, which may have any character.
    pub fn text(&self) -> String {
        bytes_of(&self.0).and_then(|bytes| String::from_utf8(bytes).ok()).unwrap_or_default()
    }

    /// As it is written.
    pub fn as_str(&self) -> &str {
        &self.0
    }
}

impl fmt::Display for CertificateName {
    fn fmt(&self, f: &mut fmt::Formatter<'_>) -> fmt::Result {
        f.write_str(&self.0)
    }
}

/// Bytes as they are written in a name. What a name begins with is written as the beginning of what it is written as.
pub fn written(bytes: &[u8]) -> String {
    let mut text = String::with_capacity(bytes.len());
    for &byte in bytes {
        if byte.is_ascii_alphanumeric() || MARKS.contains(&byte) {
            text.push(byte.into());
        } else {
            text.push_str(&format!("%{byte:02X}"));
        }
    }
    text
}

/// What these words mean: `%` and two digits a byte, all else itself. Nothing if a `%` is followed by something else.
pub fn bytes_of(word: &str) -> Option<Vec<u8>> {
    let mut parts = word.split('%');
    let mut bytes = parts.next()?.as_bytes().to_vec();
    for part in parts {
        let digits = part.get(..2).filter(|digits| digits.bytes().all(|digit| digit.is_ascii_hexdigit()))?;
        bytes.push(u8::from_str_radix(digits, 16).ok()?);
        bytes.extend_from_slice(part[2..].as_bytes());
    }
    Some(bytes)
}

#[cfg(test)]
mod tests {
    use super::*;

    fn name(text: &str) -> CertificateName {
        CertificateName::new(text.as_bytes()).unwrap()
    }

    #[test]
    fn names_are_one_word_and_no_two_are_written_alike() {
        for (text, word) in [
            ("build-1.example.org", "build-1.example.org"),
            ("René M", "Ren%C3%A9%20M"),
            ("a*b#c%20,<&>\"'\n\0", "a%2Ab%23c%2520%2C%3C%26%3E%22%27%0A%00"),
            ("alice@example.org/1:2+3=5~_", "alice@example.org/1:2+3=5~_"),
        ] {
            let name = name(text);
            assert_eq!((name.as_str(), name.to_string(), name.text()), (word, word.to_string(), text.into()));
            assert_eq!((CertificateName::parse(word), bytes_of(word)), (Ok(name), Some(text.into())));
        }
        assert_ne!(name("a b"), name("a%20b"));
    }

    #[test]
    fn what_does_not_fit() {
        assert_eq!(CertificateName::new(&[b'a'; LONGEST]).map(|it| it.as_str().len()), Ok(LONGEST));
        assert_eq!(CertificateName::new(&[b'a'; LONGEST + 1]), Err(NotAName::Long));
        assert_eq!(CertificateName::new(b""), Err(NotAName::Empty));
        assert_eq!(CertificateName::new(b"a\xff"), Err(NotAName::NotText));
        assert_eq!(NotAName::Long.to_string(), "has more than 256 bytes");
    }

    #[test]
    fn words_that_are_no_name() {
        for word in ["%", "a%2", "%GG", "%+1", "a%é", "a b", "a%2ab", "%41", "é", "a,b", "*"] {
            assert_eq!(CertificateName::parse(word), Err(NotAName::Syntax), "{word}");
        }
        assert_eq!(CertificateName::parse(""), Err(NotAName::Empty));
        assert_eq!(CertificateName::parse("%FF"), Err(NotAName::NotText));
    }

    #[test]
    fn what_a_name_begins_with_is_written_so() {
        for (text, beginning) in [("René", "Ren"), ("a b", "a "), ("a%b", "a%"), ("é", "\u{e9}")] {
            assert!(name(text).as_str().starts_with(&written(beginning.as_bytes())), "{text}");
        }
        assert!(!name("a%20b").as_str().starts_with(&written(b"a ")));
    }
}
