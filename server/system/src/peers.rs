//! The process at the other end of a Unix socket, as the kernel noted it when the connection was made.

use crate::calls::{peer_credentials, peer_groups};
use std::io;
use std::os::fd::{AsFd, BorrowedFd};

/// The kernel's own limit of supplementary groups.
const MOST_GROUPS: usize = 65_536;

/// The process at the other end of a connection, when it was made.
#[derive(Clone, Debug, PartialEq, Eq)]
pub struct Peer {
    /// The number of the process.
    pub process: i32,
    /// The number of its user.
    pub user: u32,
    /// The numbers of its groups, the effective one first.
    pub groups: Vec<u32>,
}

/// The process at the other end of a connected Unix socket.
pub fn peer_of(socket: impl AsFd) -> io::Result<Peer> {
    let credentials = peer_credentials(socket.as_fd())?;
    let mut groups = vec![credentials.gid];
    groups.extend(supplementary_groups(socket.as_fd())?);
    Ok(Peer { process: credentials.pid, user: credentials.uid, groups })
}

fn supplementary_groups(socket: BorrowedFd<'_>) -> io::Result<Vec<u32>> {
    let mut groups = vec![0; 32];
    loop {
        match peer_groups(socket, &mut groups) {
            (Ok(()), count) => {
                groups.truncate(count);
                return Ok(groups);
            }
            (Err(_), count) if count > groups.len() && groups.len() < MOST_GROUPS => groups.resize(count, 0),
            (Err(fault), _) => return Err(fault),
        }
    }
}

#[cfg(test)]
mod tests {
    use super::*;
    use std::os::unix::net::UnixStream;

    #[test]
    fn a_pair_is_this_process() {
        let (one, _other) = UnixStream::pair().unwrap();
        let peer = peer_of(&one).unwrap();
        assert_eq!(peer.process, std::process::id() as i32);
        let status = std::fs::read_to_string("/proc/self/status").unwrap();
        let numbers = |name: &str| -> Vec<u32> {
            let line = status.lines().find_map(|line| line.strip_prefix(name)).unwrap();
            line.split_whitespace().map(|word| word.parse().unwrap()).collect()
        };
        assert_eq!(peer.user, numbers("Uid:")[1]);
        assert_eq!(peer.groups[0], numbers("Gid:")[1]);
        assert_eq!(peer.groups[1..], numbers("Groups:"));
    }

    #[test]
    fn a_file_is_no_socket() {
        assert!(peer_of(std::fs::File::open("/dev/null").unwrap()).is_err());
    }
}
