//! Sockets that are listened to.

use crate::accounts::Accounts;
use crate::settings::Named;
use std::fmt;
use std::fs::{self, Permissions};
use std::io;
use std::net::{SocketAddr, TcpListener};
use std::os::unix::fs::{chown, FileTypeExt, MetadataExt, PermissionsExt};
use std::os::unix::net::{UnixListener, UnixStream};
use std::path::{Path, PathBuf};
use std::sync::mpsc::{channel, RecvTimeoutError};
use std::thread;
use std::time::Duration;

/// How often a place is tried where somebody listens, and the pause between: a server that was killed while it started its engine
/// listens a moment longer, by that child.
const TRIES: u32 = 6;
const PAUSE: Duration = Duration::from_millis(200);
/// A server that does not take a connection in this time listens, but hangs.
const LONGEST_CONNECT: Duration = Duration::from_secs(1);

/// Why a socket cannot be listened to.
#[derive(Debug)]
pub struct CannotListen {
    place: String,
    why: Why,
}

#[derive(Debug)]
enum Why {
    InUse,
    Standing,
    NoSocket,
    Group(String),
    System(io::Error),
}

impl Why {
    fn is_in_use(&self) -> bool {
        match self {
            Why::InUse => true,
            Why::System(fault) => fault.kind() == io::ErrorKind::AddrInUse,
            Why::Standing | Why::NoSocket | Why::Group(_) => false,
        }
    }
}

/// Tries again while somebody listens there.
fn patiently<T>(mut listen: impl FnMut() -> Result<T, Why>) -> Result<T, Why> {
    for _ in 1..TRIES {
        match listen() {
            Err(why) if why.is_in_use() => thread::sleep(PAUSE),
            other => return other,
        }
    }
    listen()
}

impl fmt::Display for CannotListen {
    fn fmt(&self, f: &mut fmt::Formatter<'_>) -> fmt::Result {
        write!(f, "cannot listen at {}: ", self.place)?;
        match &self.why {
            Why::InUse => f.write_str("another process listens there"),
            Why::Standing => f.write_str("another process listens there, and takes no connection"),
            Why::NoSocket => f.write_str("a file has this name, and is not a socket"),
            Why::Group(group) => write!(f, "there is no group {group}"),
            Why::System(fault) => fault.fmt(f),
        }
    }
}

impl std::error::Error for CannotListen {}

/// A socket with a name, which goes with it.
pub struct UnixDoor {
    /// The socket.
    pub listener: UnixListener,
    path: PathBuf,
    /// The file of its name: a later server may have made another one.
    file: (u64, u64),
}

impl UnixDoor {
    /// Listens there. The socket has its name only when it has its mode and group. One that nobody listens to is replaced.
    pub fn open(named: &Named, accounts: &mut Accounts) -> Result<UnixDoor, CannotListen> {
        let cannot = |why| CannotListen { place: named.path.display().to_string(), why };
        patiently(|| is_free(&named.path)).map_err(cannot)?;
        let group = match &named.group {
            None => None,
            Some(group) => Some(accounts.group(group).ok_or_else(|| cannot(Why::Group(group.clone())))?),
        };
        let (listener, file) = bind(&named.path, named.mode, group).map_err(|fault| cannot(Why::System(fault)))?;
        Ok(UnixDoor { listener, path: named.path.clone(), file })
    }
}

/// What distinguishes a file from all others.
fn file_at(path: &Path) -> io::Result<(u64, u64)> {
    fs::symlink_metadata(path).map(|data| (data.dev(), data.ino()))
}

impl Drop for UnixDoor {
    fn drop(&mut self) {
        if file_at(&self.path).is_ok_and(|file| file == self.file) {
            let _ = fs::remove_file(&self.path); // it may be gone
        }
    }
}

fn is_free(path: &Path) -> Result<(), Why> {
    match fs::symlink_metadata(path) {
        Err(fault) if fault.kind() == io::ErrorKind::NotFound => Ok(()),
        Err(fault) => Err(Why::System(fault)),
        Ok(data) if !data.file_type().is_socket() => Err(Why::NoSocket),
        Ok(_) => match connect(path) {
            Ok(()) => Err(Why::InUse),
            Err(Why::System(fault)) if fault.kind() == io::ErrorKind::ConnectionRefused => Ok(()),
            Err(why) => Err(why),
        },
    }
}

/// Connects to a socket, and closes that again. The system lets one wait for ever whose other end accepts nothing.
fn connect(path: &Path) -> Result<(), Why> {
    let (path, (tell, told)) = (path.to_owned(), channel());
    let connect = move || drop(tell.send(UnixStream::connect(path).map(drop)));
    thread::Builder::new().name("connect".into()).spawn(connect).map_err(Why::System)?;
    match told.recv_timeout(LONGEST_CONNECT) {
        Ok(connected) => connected.map_err(Why::System),
        Err(RecvTimeoutError::Timeout | RecvTimeoutError::Disconnected) => Err(Why::Standing),
    }
}

fn bind(path: &Path, mode: u32, group: Option<u32>) -> io::Result<(UnixListener, (u64, u64))> {
    let mut part = path.as_os_str().to_owned();
    part.push(".part");
    let part = PathBuf::from(part);
    let _ = fs::remove_file(&part); // of a start that was interrupted
    let listener = UnixListener::bind(&part)?;
    let file = file_at(&part);
    let prepared = fs::set_permissions(&part, Permissions::from_mode(0o600))
        .and_then(|()| group.map_or(Ok(()), |group| chown(&part, None, Some(group))))
        .and_then(|()| fs::set_permissions(&part, Permissions::from_mode(mode)))
        .and_then(|()| fs::rename(&part, path))
        .and_then(|()| listener.set_nonblocking(true));
    match prepared.and(file) {
        Ok(file) => Ok((listener, file)),
        Err(fault) => {
            let _ = fs::remove_file(&part);
            Err(fault)
        }
    }
}

/// Listens at an address.
pub fn open_tcp(address: SocketAddr) -> Result<TcpListener, CannotListen> {
    patiently(|| TcpListener::bind(address).map_err(Why::System))
        .and_then(|listener| listener.set_nonblocking(true).map(|()| listener).map_err(Why::System))
        .map_err(|why| CannotListen { place: address.to_string(), why })
}

#[cfg(test)]
mod tests {
    use super::*;
    use std::time::Instant;

    fn folder(name: &str) -> PathBuf {
        let folder = std::env::temp_dir().join(format!("wozgirt-doors-{name}-{}", std::process::id()));
        let _ = fs::remove_dir_all(&folder);
        fs::create_dir(&folder).unwrap();
        folder
    }

    #[test]
    fn a_socket_has_its_mode_and_goes() {
        let folder = folder("mode");
        let named = Named { path: folder.join("s"), mode: 0o660, group: Some("0".into()) };
        let mut accounts = Accounts::default();
        let door = UnixDoor::open(&named, &mut accounts).unwrap();
        assert_eq!(fs::metadata(&named.path).unwrap().permissions().mode() & 0o777, 0o660);
        let again = UnixDoor::open(&named, &mut accounts).err().unwrap().to_string();
        assert!(again.ends_with("another process listens there"), "{again}");
        drop(door);
        assert!(!named.path.exists());
        fs::remove_dir_all(folder).unwrap();
    }

    #[test]
    fn a_name_that_another_has_now_stays() {
        let folder = folder("another");
        let named = Named { path: folder.join("s"), mode: 0o600, group: None };
        let first = UnixDoor::open(&named, &mut Accounts::default()).unwrap();
        fs::remove_file(&named.path).unwrap();
        let second = UnixDoor::open(&named, &mut Accounts::default()).unwrap();
        drop(first);
        assert!(UnixStream::connect(&named.path).is_ok());
        drop(second);
        assert!(!named.path.exists());
        fs::remove_dir_all(folder).unwrap();
    }

    #[test]
    fn who_listens_a_moment_longer_is_waited_for() {
        let folder = folder("longer");
        let named = Named { path: folder.join("s"), mode: 0o600, group: None };
        let mut old = Some(UnixListener::bind(&named.path).unwrap());
        let begun = Instant::now();
        assert!(UnixDoor::open(&named, &mut Accounts::default()).is_err());
        assert!(begun.elapsed() >= (TRIES - 1) * PAUSE);
        let mut tries = 0;
        let found = patiently(|| {
            tries += 1;
            if tries == 3 {
                drop(old.take());
            }
            is_free(&named.path)
        });
        assert_eq!((found.is_ok(), tries), (true, 3));
        assert!(UnixDoor::open(&named, &mut Accounts::default()).is_ok());
        fs::remove_dir_all(folder).unwrap();
    }

    #[test]
    fn what_is_no_socket_stays() {
        let folder = folder("file");
        let named = Named { path: folder.join("s"), mode: 0o600, group: None };
        fs::write(&named.path, "mine").unwrap();
        let fault = UnixDoor::open(&named, &mut Accounts::default()).err().unwrap().to_string();
        assert!(fault.ends_with("a file has this name, and is not a socket"), "{fault}");
        assert_eq!(fs::read_to_string(&named.path).unwrap(), "mine");
        fs::remove_file(&named.path).unwrap();
        drop(UnixListener::bind(&named.path).unwrap()); // nobody listens any more
        assert!(UnixDoor::open(&named, &mut Accounts::default()).is_ok());
        let named = Named { group: Some("nobody-has-this".into()), ..named };
        let fault = UnixDoor::open(&named, &mut Accounts::default()).err().unwrap().to_string();
        assert!(fault.ends_with("there is no group nobody-has-this"), "{fault}");
        fs::remove_dir_all(folder).unwrap();
    }
}
