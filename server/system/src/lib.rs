//! The calls of the system that the standard library has no stable form of, each inside a safe function.
//!
//! Unsafe code is in one module of this crate, `calls`, and nowhere else in the workspace. What is called:
//!
//! | Call | For |
//! |---|---|
//! | `getsockopt` | the process at the other end of a Unix socket ([`peer_of`]) |
//! | `epoll_create1`, `epoll_ctl`, `epoll_wait`, `ppoll` | one thread that serves all connections ([`Poller`]) |
//! | `sigemptyset`, `sigfillset`, `sigaddset`, `pthread_sigmask`, `signalfd` | signals as a file that is read ([`Signals`]) |
//! | `signal`, `raise` | what a signal does by default ([`Signal::reset`], [`Signal::end_program`]), or SIGPIPE in a program that is started ([`Inherited`]) |
//! | `socket`, `connect` | a Unix socket that is waited for with a deadline ([`connect_within`]) |
//! | `kill` | the end of a command, asked for ([`send_signal`]) |
//! | `getrlimit`, `setrlimit` | how many files may be open ([`permit_files`]) |
//! | `flock` | a folder that only one server has ([`try_lock`]) |
//! | `getpwnam_r`, `getpwuid_r`, `getgrnam_r` | names of users and groups ([`user_number`], [`user_name`], [`group_number`]) |
//! | `statvfs` | how much room the journal's disk has ([`free_bytes`]) |
//! | `umask` | files that nobody but their owner can write ([`create_for_owner`]) |
//! | `fcntl` | a file that a command inherits ([`inherit`]), a pipe that is not waited for ([`never_wait`]) |
//!
//! Every file is an `OwnedFd` or a `BorrowedFd`, so none is used after it was closed. Linux only.

#![deny(unsafe_code)]

mod accounts;
#[allow(unsafe_code)]
mod calls;
mod creating;
mod disks;
mod limits;
mod peers;
mod polling;
mod processes;
mod signals;
mod sockets;

pub use accounts::{group_number, user_name, user_number};
pub use creating::create_for_owner;
pub use disks::free_bytes;
pub use limits::permit_files;
pub use peers::{peer_of, Peer};
pub use polling::{Event, Interest, Poller};
pub use processes::{inherit, lacks_means, never_wait, open_at_once, send_signal, try_lock};
pub use signals::{hear_nothing, Heard, Inherited, Signal, Signals};
pub use sockets::connect_within;
