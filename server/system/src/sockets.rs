//! Connections to Unix sockets whose other end may not come.

use crate::calls::{connect_unix_socket, create_unix_socket, UnixAddress};
use std::io::{self, ErrorKind};
use std::os::fd::AsFd;
use std::os::unix::ffi::OsStrExt;
use std::os::unix::net::UnixStream;
use std::path::Path;
use std::time::{Duration, Instant};

/// The least time that the system takes for one: no time at all would be for ever.
const LEAST: Duration = Duration::from_millis(1);

/// Connects to the Unix socket with this name. If its queue is full, as at a server that hangs, this waits for a place until `until`: then
/// the error is `TimedOut`.
pub fn connect_within(path: &Path, until: Instant) -> io::Result<UnixStream> {
    let address = UnixAddress::new(path.as_os_str().as_bytes()).ok_or_else(|| {
        let why = "the name of a socket has 1 to 107 bytes, and none of them is zero";
        io::Error::new(ErrorKind::InvalidInput, why)
    })?;
    let stream = UnixStream::from(create_unix_socket()?);
    loop {
        // the time that a write may take is that of connecting too
        stream.set_write_timeout(Some(until.saturating_duration_since(Instant::now()).max(LEAST)))?;
        match connect_unix_socket(stream.as_fd(), &address) {
            Ok(()) => {
                stream.set_write_timeout(None)?;
                return Ok(stream);
            }
            Err(fault) if fault.kind() == ErrorKind::Interrupted => {}
            Err(fault) if fault.kind() == ErrorKind::WouldBlock => return Err(ErrorKind::TimedOut.into()),
            Err(fault) => return Err(fault),
        }
    }
}

#[cfg(test)]
mod tests {
    use super::*;
    use crate::calls::set_backlog;
    use std::io::{Read, Write};
    use std::os::unix::net::UnixListener;

    fn soon(milliseconds: u64) -> Instant {
        Instant::now() + Duration::from_millis(milliseconds)
    }

    #[test]
    fn a_listener_is_reached_and_one_that_takes_nobody_is_left_in_time() {
        let path = std::env::temp_dir().join(format!("wozgirt-full-{}", std::process::id()));
        let listener = UnixListener::bind(&path).unwrap();
        let mut stream = connect_within(&path, soon(10_000)).unwrap();
        stream.write_all(b"x").unwrap();
        let mut heard = [0];
        listener.accept().unwrap().0.read_exact(&mut heard).unwrap();
        assert_eq!((heard, stream.write_timeout().unwrap()), (*b"x", None));
        set_backlog(listener.as_fd(), 0).unwrap();
        let mut waiting = Vec::new();
        let (fault, begun) = loop {
            let begun = Instant::now();
            match connect_within(&path, soon(50)) {
                Ok(stream) => waiting.push(stream),
                Err(fault) => break (fault, begun),
            }
        };
        assert_eq!(fault.kind(), ErrorKind::TimedOut);
        assert!(begun.elapsed() >= Duration::from_millis(50));
        std::fs::remove_file(path).unwrap();
    }

    #[test]
    fn names_that_nobody_has() {
        let kind = |path: &str| connect_within(Path::new(path), soon(10)).unwrap_err().kind();
        assert_eq!(kind("/nonexistent/a"), ErrorKind::NotFound);
        for path in ["", "a\0b", &"n".repeat(108)] {
            assert_eq!(kind(path), ErrorKind::InvalidInput, "{path:?}");
        }
    }
}
