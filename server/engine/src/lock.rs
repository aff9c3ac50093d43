//! The name of a lock.

use crate::NotALine;
use std::borrow::Borrow;
use std::fmt;
use std::ops::Deref;
use std::rc::Rc;
use std::str::FromStr;

/// The longest name of a lock, in bytes.
pub const LONGEST_NAME: usize = 128;

/// The name of a lock: 1 to [`LONGEST_NAME`] of the bytes `A-Z a-z 0-9 . _ - /`. Clones share one text.
#[derive(Clone, Debug, PartialEq, Eq, PartialOrd, Ord, Hash)]
pub struct Lock(Rc<str>);

/// Of each byte, whether a name may have it.
const PARTS: [bool; 256] = parts();

const fn parts() -> [bool; 256] {
    let mut parts = [false; 256];
    let mut byte = 0;
    while byte < parts.len() {
        parts[byte] = matches!(byte as u8, b'A'..=b'Z' | b'a'..=b'z' | b'0'..=b'9' | b'.' | b'_' | b'-' | b'/');
        byte += 1;
    }
    parts
}

/// The text, if a lock may have that name.
pub(crate) fn name(text: &str) -> Result<&str, NotALine> {
    let is_name = (1..=LONGEST_NAME).contains(&text.len()) && text.bytes().all(|b| PARTS[usize::from(b)]);
    is_name.then_some(text).ok_or(NotALine::Syntax)
}

impl Lock {
    /// A name, where any is as good as another: of a question whose answer only shows that all before it is done.
    pub fn some() -> Lock {
        Lock("-".into())
    }
}

impl FromStr for Lock {
    type Err = NotALine;

    fn from_str(text: &str) -> Result<Lock, NotALine> {
        name(text).map(|name| Lock(name.into()))
    }
}

impl Deref for Lock {
    type Target = str;

    fn deref(&self) -> &str {
        &self.0
    }
}

impl Borrow<str> for Lock {
    fn borrow(&self) -> &str {
        &self.0
    }
}

impl PartialEq<&str> for Lock {
    fn eq(&self, name: &&str) -> bool {
        &*self.0 == *name
    }
}

impl fmt::Display for Lock {
    fn fmt(&self, f: &mut fmt::Formatter<'_>) -> fmt::Result {
        f.write_str(&self.0)
    }
}

#[cfg(test)]
mod tests {
    use super::*;

    #[test]
    fn names() {
        let longest = "n".repeat(LONGEST_NAME);
        for text in ["a", "0", "gpu/0", "A-z_9.x", &longest] {
            let lock: Lock = text.parse().unwrap();
            assert_eq!((lock.to_string().as_str(), lock == text), (text, true));
        }
        assert_eq!("-".parse(), Ok(Lock::some()));
        for text in ["", "a b", "é", "*", "a:8", "a\n", &format!("{longest}n")] {
            assert_eq!(text.parse::<Lock>(), Err(NotALine::Syntax), "{text:?}");
        }
    }
}
