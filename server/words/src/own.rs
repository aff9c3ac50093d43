//! The folder of a server that a user has started with no word that says where, in which the user's clients look for it.

use std::ffi::OsString;
use std::path::PathBuf;

/// The folder, with the journal and the sockets of such a server.
#[derive(Debug, Clone, PartialEq, Eq)]
pub struct OwnFolder(PathBuf);

impl OwnFolder {
    /// `wozgirt` in XDG_STATE_HOME, or in `.local/state` of HOME: `variable` has the environment. Nothing if neither is an absolute path.
    pub fn of(variable: impl Fn(&str) -> Option<OsString>) -> Option<OwnFolder> {
        let absolute = |name| variable(name).map(PathBuf::from).filter(|path| path.is_absolute());
        let state = absolute("XDG_STATE_HOME").or_else(|| absolute("HOME").map(|home| home.join(".local/state")));
        state.map(|state| OwnFolder(state.join("wozgirt")))
    }

    /// The folder of the journal.
    pub fn journal(&self) -> PathBuf {
        self.0.join("journal")
    }

    /// The socket of clients.
    pub fn socket(&self) -> PathBuf {
        self.0.join("lock.sock")
    }

    /// The socket of operators.
    pub fn operators(&self) -> PathBuf {
        self.0.join("operators.sock")
    }

    /// Whether a server was ever started there. One that is away for a while stays the one that clients look for: if they went to another
    /// one meanwhile, two could hold a lock.
    pub fn is_used(&self) -> bool {
        self.journal().is_dir()
    }
}

#[cfg(test)]
mod tests {
    use super::*;

    #[test]
    fn where_it_is() {
        let folder = |state: Option<&str>, home: Option<&str>| {
            OwnFolder::of(|name| if name == "HOME" { home } else { state }.map(Into::into)).map(|own| own.journal())
        };
        assert_eq!(folder(Some("/state"), Some("/home/a")), Some("/state/wozgirt/journal".into()));
        for state in [None, Some(""), Some("state")] {
            assert_eq!(folder(state, Some("/home/a")), Some("/home/a/.local/state/wozgirt/journal".into()));
            assert_eq!((folder(state, None), folder(state, Some("home"))), (None, None));
        }
    }

    #[test]
    fn one_that_is_used_has_a_journal() {
        let state = std::env::temp_dir().join(format!("wozgirt-own-{}", std::process::id()));
        let own = OwnFolder::of(|_| Some(state.clone().into_os_string())).unwrap();
        assert!(!own.is_used());
        std::fs::create_dir_all(own.journal()).unwrap();
        assert!(own.is_used() && own.socket().starts_with(&state) && own.operators().starts_with(&state));
        std::fs::remove_dir_all(state).unwrap();
    }
}
