//! The way to a server, which may not be there yet, or not answer.

use crate::client::Fault;
use crate::places::Place;
use std::io::{self, ErrorKind};
use std::net::{SocketAddr, TcpStream, ToSocketAddrs};
use std::os::unix::net::UnixStream;
use std::sync::mpsc::channel;
use std::thread;
use std::time::{Duration, Instant};
use wozgirt_system::{connect_within, hear_nothing};

/// The least time that a connection over TCP may take: none at all is refused.
const LEAST: Duration = Duration::from_millis(1);

/// A connection to a server, as the system has it.
pub enum Stream {
    /// Over a Unix socket.
    Unix(UnixStream),
    /// Over TCP.
    Tcp(TcpStream),
}

impl Stream {
    /// Connects; `Late` if the other end does not take the connection until then.
    pub fn open(place: &Place, until: Instant) -> Result<Stream, Fault> {
        let stream = match place {
            Place::Path(path) => connect_within(path, until).map(Stream::Unix),
            Place::Tcp(address) => connect_tcp(address, until).map(Stream::Tcp),
        };
        stream.map_err(|fault| match fault.kind() {
            ErrorKind::TimedOut => Fault::At(place.clone(), Box::new(Fault::Late)),
            _ => Fault::Connect(place.clone(), fault),
        })
    }
}

/// Each address of the name has its share of the time.
fn connect_tcp(name: &str, until: Instant) -> io::Result<TcpStream> {
    let addresses = addresses(name, until)?;
    let mut fault = io::Error::new(ErrorKind::AddrNotAvailable, "the name has no address");
    for (i, address) in addresses.iter().enumerate() {
        let left = until.saturating_duration_since(Instant::now()) / u32::try_from(addresses.len() - i).unwrap_or(1);
        match TcpStream::connect_timeout(address, left.max(LEAST)) {
            Ok(stream) => return stream.set_nodelay(true).map(|()| stream),
            Err(other) => fault = other,
        }
    }
    Err(fault)
}

/// The addresses of `HOST:PORT`. The system looks names up in a time of its own, so that is done in another thread.
fn addresses(name: &str, until: Instant) -> io::Result<Vec<SocketAddr>> {
    if let Ok(address) = name.parse() {
        return Ok(vec![address]);
    }
    let (sender, result) = channel();
    let name = name.to_string();
    thread::Builder::new().spawn(move || {
        let _ = hear_nothing(); // it may outlive the wait, and signals are for those that read them
        let _ = sender.send(name.to_socket_addrs().map(Iterator::collect)); // else nobody wants it any more
    })?;
    let left = until.saturating_duration_since(Instant::now());
    result.recv_timeout(left).unwrap_or_else(|_| Err(ErrorKind::TimedOut.into()))
}

/// Tries again until then, as long as the fault is that of a server that is just starting.
pub fn while_starting<T>(until: Instant, mut attempt: impl FnMut() -> Result<T, Fault>) -> Result<T, Fault> {
    loop {
        let result = attempt();
        let left = until.saturating_duration_since(Instant::now());
        match result {
            Err(fault) if fault.is_of_a_start() && !left.is_zero() => thread::sleep(fault.pause().min(left)),
            other => return other,
        }
    }
}

#[cfg(test)]
mod tests {
    use super::*;

    fn fault(kind: ErrorKind) -> Fault {
        Fault::Connect(Place::Tcp("h:1".into()), kind.into())
    }

    #[test]
    fn only_a_server_that_may_be_starting_is_waited_for() {
        for (kind, attempts) in
            [(ErrorKind::NotFound, 3), (ErrorKind::ConnectionRefused, 3), (ErrorKind::PermissionDenied, 1)]
        {
            let mut count = 0;
            let until = Instant::now() + Duration::from_secs(60);
            let found = while_starting(until, || {
                count += 1;
                if count == 3 {
                    Ok(())
                } else {
                    Err(fault(kind))
                }
            });
            assert_eq!((count, found.is_ok()), (attempts, attempts == 3), "{kind:?}");
        }
        let ended = Fault::At(Place::Tcp("h:1".into()), Box::new(Fault::Closed.before_an_answer()));
        assert_eq!((ended.is_of_a_start(), ended.pause()), (true, 5 * fault(ErrorKind::NotFound).pause()));
        let begun = Instant::now();
        let until = begun + Duration::from_millis(120);
        assert!(while_starting(until, || Err::<(), _>(fault(ErrorKind::NotFound))).is_err());
        assert!(begun.elapsed() >= Duration::from_millis(120));
    }

    #[test]
    fn addresses_and_names() {
        let soon = Instant::now() + Duration::from_secs(10);
        assert_eq!(addresses("127.0.0.1:7", soon).unwrap(), ["127.0.0.1:7".parse().unwrap()]);
        assert!(addresses("no port", soon).is_err());
    }
}
