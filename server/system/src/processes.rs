//! Processes that are asked to end, and what they inherit.

use crate::calls::{self, FD_CLOEXEC, O_NONBLOCK};
use crate::Signal;
use std::fs::{File, OpenOptions};
use std::io;
use std::os::fd::AsFd;
use std::os::unix::fs::OpenOptionsExt;
use std::path::Path;

/// Sends a signal to a child that was not waited for yet, so that its number is still its own; or, with `is_group`, to
/// all processes of the group that has the child's number.
pub fn send_signal(child: &std::process::Child, signal: Signal, is_group: bool) -> io::Result<()> {
    let process = i32::try_from(child.id()).map_err(io::Error::other)?;
    calls::send(if is_group { -process } else { process }, signal.number())
}

/// Lets the programs that this one starts from now on have this file too.
pub fn inherit(file: impl AsFd) -> io::Result<()> {
    let flags = calls::descriptor_flags(file.as_fd())?;
    calls::set_descriptor_flags(file.as_fd(), flags & !FD_CLOEXEC)
}

/// Whether the system has no process, memory or file to spare for a program that is to be started.
pub fn lacks_means(fault: &io::Error) -> bool {
    matches!(fault.kind(), io::ErrorKind::WouldBlock | io::ErrorKind::OutOfMemory) || calls::is_out_of_files(fault)
}

/// Locks the file, as long as it is open here or in a program that inherited it: whether no other program has it.
pub fn try_lock(file: impl AsFd) -> io::Result<bool> {
    match calls::lock_file(file.as_fd()) {
        Err(fault) if fault.kind() == io::ErrorKind::WouldBlock => Ok(false),
        other => other.map(|()| true),
    }
}

/// Opens a file to be read, and waits for nobody: a pipe that has a name would else be opened when somebody writes into it.
pub fn open_at_once(path: &Path) -> io::Result<File> {
    OpenOptions::new().read(true).custom_flags(O_NONBLOCK).open(path)
}

/// From now on no read or write of this end of a pipe waits. The other end stays as it is.
pub fn never_wait(pipe: impl AsFd) -> io::Result<()> {
    let flags = calls::file_flags(pipe.as_fd())?;
    calls::set_file_flags(pipe.as_fd(), flags | O_NONBLOCK)
}

#[cfg(test)]
mod tests {
    use super::*;
    use std::os::fd::AsRawFd;
    use std::os::unix::process::ExitStatusExt;
    use std::process::Command;
    use std::sync::{Mutex, MutexGuard, PoisonError};

    /// Held by each test here: a child of one would inherit what another lets its own child inherit.
    fn alone() -> MutexGuard<'static, ()> {
        static ONE: Mutex<()> = Mutex::new(());
        ONE.lock().unwrap_or_else(PoisonError::into_inner)
    }

    #[test]
    fn a_child_ends_by_the_signal() {
        let _alone = alone();
        let mut child = Command::new("sleep").arg("60").spawn().unwrap();
        send_signal(&child, Signal::Terminate, false).unwrap();
        assert_eq!(child.wait().unwrap().signal(), Some(15));
    }

    #[test]
    fn an_inherited_file_is_there() {
        let _alone = alone();
        let (one, _other) = std::os::unix::net::UnixStream::pair().unwrap();
        let path = format!("/dev/fd/{}", one.as_fd().as_raw_fd());
        let is_there = || Command::new("test").args(["-e", &path]).status().unwrap().success();
        assert!(!is_there());
        inherit(&one).unwrap();
        assert!(is_there());
    }

    #[test]
    fn what_the_system_lacks() {
        let lacks = |number| lacks_means(&io::Error::from_raw_os_error(number));
        assert_eq!([11, 12, 23, 24].map(lacks), [true; 4]); // EAGAIN, ENOMEM, ENFILE, EMFILE
        assert_eq!([2, 13].map(lacks), [false; 2]); // ENOENT, EACCES
    }

    #[test]
    fn one_has_a_lock() {
        let _alone = alone();
        let path = std::env::temp_dir().join(format!("wozgirt-lock-{}", std::process::id()));
        let open = || std::fs::File::create(&path).unwrap();
        let one = open();
        assert!(try_lock(&one).unwrap() && !try_lock(open()).unwrap());
        inherit(&one).unwrap();
        let mut child = Command::new("sleep").arg("60").spawn().unwrap();
        drop(one);
        assert!(!try_lock(open()).unwrap()); // the child has it
        child.kill().unwrap();
        child.wait().unwrap();
        assert!(try_lock(open()).unwrap());
        std::fs::remove_file(path).unwrap();
    }

    #[test]
    fn a_pipe_that_has_nothing_is_not_waited_for() {
        let _alone = alone();
        use std::io::Read;
        let mut child = Command::new("sleep").arg("60").stdout(std::process::Stdio::piped()).spawn().unwrap();
        let mut pipe = child.stdout.take().unwrap();
        never_wait(&pipe).unwrap();
        assert_eq!(pipe.read(&mut [0]).unwrap_err().kind(), io::ErrorKind::WouldBlock);
        child.kill().unwrap();
        child.wait().unwrap();
    }
}
