//! Where servers are.

use std::ffi::{OsStr, OsString};
use std::fmt;
use std::os::unix::ffi::{OsStrExt, OsStringExt};
use std::path::PathBuf;

/// Where a server is.
#[derive(Debug, Clone, PartialEq, Eq)]
pub enum Place {
    /// A socket with a name.
    Path(PathBuf),
    /// A host and a port.
    Tcp(String),
}

impl fmt::Display for Place {
    fn fmt(&self, f: &mut fmt::Formatter<'_>) -> fmt::Result {
        match self {
            Place::Path(path) => path.display().fmt(f),
            Place::Tcp(address) => write!(f, "tcp:{address}"),
        }
    }
}

/// Why a text is not a place.
#[derive(Debug, PartialEq, Eq)]
pub enum NoPlace {
    /// It names a host by other bytes than text.
    NoText,
    /// It is of a server that speaks TLS, which this program does not.
    Tls(String),
}

impl Place {
    /// The place in a text.
    fn read(bytes: &[u8]) -> Result<Place, NoPlace> {
        if bytes.starts_with(b"tls:") {
            return Err(NoPlace::Tls(String::from_utf8_lossy(bytes).into()));
        }
        match bytes.strip_prefix(b"tcp:") {
            Some(address) => String::from_utf8(address.into()).map(Place::Tcp).map_err(|_| NoPlace::NoText),
            None => Ok(Place::Path(OsString::from_vec(bytes.into()).into())),
        }
    }
}

/// The places in a text, at least one. It is cut at each comma after which another place begins, with `tcp:`, `tls:`, `/` or `./`: a
/// path may have commas too.
pub fn places(text: &OsStr) -> Result<Vec<Place>, NoPlace> {
    let bytes = text.as_bytes();
    let begins =
        |at: usize| ["tcp:", "tls:", "/", "./"].iter().any(|start| bytes[at + 1..].starts_with(start.as_bytes()));
    let (mut found, mut start) = (Vec::new(), 0);
    for comma in (0..bytes.len()).filter(|&at| bytes[at] == b',' && begins(at)) {
        found.push(Place::read(&bytes[start..comma])?);
        start = comma + 1;
    }
    found.push(Place::read(&bytes[start..])?);
    Ok(found)
}

#[cfg(test)]
mod tests {
    use super::*;

    #[test]
    fn one_or_several() {
        for (text, parts) in [
            ("lock.sock", vec!["lock.sock"]),
            ("a,b", vec!["a,b"]),
            ("/run/a,b,/run/c", vec!["/run/a,b", "/run/c"]),
            ("a.sock,tcp:[::1]:7000,tcp:h:1", vec!["a.sock", "tcp:[::1]:7000", "tcp:h:1"]),
            ("tcp:h:1,./a", vec!["tcp:h:1", "./a"]),
            ("", vec![""]),
            ("/a,", vec!["/a,"]),
        ] {
            let found = places(text.as_ref()).unwrap();
            assert_eq!(found.iter().map(Place::to_string).collect::<Vec<_>>(), parts, "{text}");
            assert_eq!(matches!(found.last(), Some(Place::Tcp(_))), parts.last().unwrap().starts_with("tcp:"));
        }
    }

    #[test]
    fn names_that_are_no_text() {
        let path = OsStr::from_bytes(b"/a\xff,/b");
        assert_eq!(places(path).unwrap()[0], Place::Path(OsStr::from_bytes(b"/a\xff").into()));
        assert_eq!(places(OsStr::from_bytes(b"/a,tcp:\xff:1")), Err(NoPlace::NoText));
    }

    #[test]
    fn servers_that_speak_tls() {
        for text in ["tls:h:1", "/a,tls:h:1", "tls:h:1,tcp:h:2"] {
            assert_eq!(places(text.as_ref()), Err(NoPlace::Tls("tls:h:1".into())), "{text}");
        }
        assert_eq!(places("./tls:h:1".as_ref()).unwrap()[0].to_string(), "./tls:h:1");
    }
}
