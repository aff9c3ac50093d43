//! The calls of the system themselves: the only unsafe code of the workspace, each call inside a safe function that says why it is
//! sound. What it means is said in the modules that use it.

mod declarations;

pub use declarations::{Credentials, EpollEvent, Limit, LimitCount, SignalSet};
pub use declarations::{EPOLLERR, EPOLLHUP, EPOLLIN, EPOLLOUT, EPOLL_CTL_ADD, EPOLL_CTL_DEL, EPOLL_CTL_MOD};
pub use declarations::{FD_CLOEXEC, O_NONBLOCK, SI_KERNEL};
pub use declarations::{SIGCHLD, SIGHUP, SIGINT, SIGKILL, SIGPIPE, SIGQUIT, SIGTERM, SIG_BLOCK, SIG_SETMASK};

use declarations::*;
use std::ffi::{c_char, c_long, CStr, CString};
use std::io;
use std::mem::{size_of, size_of_val, MaybeUninit};
use std::os::fd::{AsRawFd, BorrowedFd, FromRawFd, OwnedFd};
use std::os::unix::process::CommandExt;
use std::process::Command;
use std::ptr;
use std::sync::atomic::{AtomicBool, Ordering};
use std::time::Duration;

/// The result of a call that answers -1 where it fails.
fn checked(result: i32) -> io::Result<i32> {
    if result == -1 {
        Err(io::Error::last_os_error())
    } else {
        Ok(result)
    }
}

pub fn create_epoll() -> io::Result<OwnedFd> {
    // SAFETY: no memory is passed; the new file is nobody else's.
    Ok(unsafe { OwnedFd::from_raw_fd(checked(epoll_create1(EPOLL_CLOEXEC))?) })
}

pub fn control_epoll(
    epoll: BorrowedFd<'_>,
    operation: i32,
    file: BorrowedFd<'_>,
    mut event: EpollEvent,
) -> io::Result<()> {
    // SAFETY: the event is valid, and the call keeps no pointer to it.
    checked(unsafe { epoll_ctl(epoll.as_raw_fd(), operation, file.as_raw_fd(), &mut event) }).map(drop)
}

/// How many events came, at the beginning of `events`.
pub fn wait_for_epoll(epoll: BorrowedFd<'_>, events: &mut [EpollEvent], milliseconds: i32) -> io::Result<usize> {
    let most = i32::try_from(events.len()).unwrap_or(i32::MAX);
    // SAFETY: there are `most` writable events, and any bytes are an event.
    checked(unsafe { epoll_wait(epoll.as_raw_fd(), events.as_mut_ptr(), most, milliseconds) })
        .map(|count| count as usize)
}

/// Waits until the file can be read, something is wrong with it, a signal comes, or for this time: it does not report which of these.
pub fn wait_until_readable(file: BorrowedFd<'_>, time: Duration) {
    let mut file = PollFile { fd: file.as_raw_fd(), events: POLLIN, revents: 0 };
    let seconds = c_long::try_from(time.as_secs()).unwrap_or(c_long::MAX);
    let time = Time { tv_sec: seconds, tv_nsec: c_long::from(time.subsec_nanos() as i32) };
    // SAFETY: `file` is one valid entry, the time is only read, and null means that the mask stays as it is.
    unsafe { ppoll(&mut file, 1, &time, ptr::null()) };
}

impl SignalSet {
    pub fn empty() -> io::Result<SignalSet> {
        let mut set = MaybeUninit::uninit();
        // SAFETY: the call writes the whole set.
        unsafe {
            checked(sigemptyset(set.as_mut_ptr()))?;
            Ok(set.assume_init())
        }
    }

    pub fn full() -> io::Result<SignalSet> {
        let mut set = MaybeUninit::uninit();
        // SAFETY: the call writes the whole set.
        unsafe {
            checked(sigfillset(set.as_mut_ptr()))?;
            Ok(set.assume_init())
        }
    }

    pub fn add(&mut self, signal: i32) -> io::Result<()> {
        // SAFETY: the set is valid, and a number that is not a signal is refused.
        checked(unsafe { sigaddset(self, signal) }).map(drop)
    }

    /// Changes which signals this thread does not hear.
    pub fn mask(&self, how: i32) -> io::Result<()> {
        // SAFETY: the set is valid, and the old one is not asked for.
        match unsafe { pthread_sigmask(how, self, ptr::null_mut()) } {
            0 => Ok(()),
            number => Err(io::Error::from_raw_os_error(number)),
        }
    }

    /// The signals that this thread does not hear.
    pub fn current() -> io::Result<SignalSet> {
        let mut set = SignalSet::empty()?;
        // SAFETY: nothing is changed, and the call writes the whole set.
        match unsafe { pthread_sigmask(SIG_BLOCK, ptr::null(), &mut set) } {
            0 => Ok(set),
            number => Err(io::Error::from_raw_os_error(number)),
        }
    }

    /// Has the program that the command starts begin with this mask, and ignore SIGPIPE or not.
    pub fn mask_program(self, command: &mut Command, ignores_pipe: bool) {
        // SAFETY: between fork and exec the closure makes two calls that may be made there, and allocates nothing.
        unsafe {
            command.pre_exec(move || {
                if ignores_pipe {
                    signal(SIGPIPE, SIG_IGN);
                }
                self.mask(SIG_SETMASK)
            });
        }
    }

    /// A file from which these signals are read.
    pub fn file(&self) -> io::Result<OwnedFd> {
        // SAFETY: the set is valid; the new file is nobody else's.
        Ok(unsafe { OwnedFd::from_raw_fd(checked(signalfd(-1, self, SFD_CLOEXEC | SFD_NONBLOCK))?) })
    }
}

/// Whether SIGPIPE was ignored when this program was started.
static PIPE_WAS_IGNORED: AtomicBool = AtomicBool::new(false);

/// The runtime of Rust ignores SIGPIPE before `main`, so the system calls this before that.
extern "C" fn look_at_pipe() {
    // SAFETY: the default is not a function of this program; the runtime sets what it wants after this.
    let before = unsafe { signal(SIGPIPE, SIG_DFL) };
    PIPE_WAS_IGNORED.store(before == SIG_IGN, Ordering::Relaxed);
}

/// What the system calls before the runtime.
#[used]
#[link_section = ".init_array"]
static BEFORE_THE_RUNTIME: extern "C" fn() = look_at_pipe;

/// Whether this program's parent had it ignore SIGPIPE.
pub fn ignored_pipe() -> bool {
    PIPE_WAS_IGNORED.load(Ordering::Relaxed)
}

/// Whether the system had no file to spare.
pub fn is_out_of_files(fault: &io::Error) -> bool {
    matches!(fault.raw_os_error(), Some(ENFILE | EMFILE))
}

/// Has the signal do to this program what it does by default.
pub fn reset_signal(number: i32) -> io::Result<()> {
    // SAFETY: the default is not a function of this program.
    match unsafe { signal(number, SIG_DFL) } {
        SIG_ERR => Err(io::Error::last_os_error()),
        _ => Ok(()),
    }
}

/// Sends the signal to this thread.
pub fn raise_signal(number: i32) -> io::Result<()> {
    // SAFETY: no memory is passed.
    checked(unsafe { raise(number) }).map(drop)
}

/// Sends the signal to a process, or to those of the group that has the number without its sign.
pub fn send(process: i32, signal: i32) -> io::Result<()> {
    // SAFETY: no memory is passed.
    checked(unsafe { kill(process, signal) }).map(drop)
}

/// The flags of the descriptor, which no other has.
pub fn descriptor_flags(file: BorrowedFd<'_>) -> io::Result<i32> {
    // SAFETY: no memory is passed, and this command takes no further argument.
    checked(unsafe { fcntl(file.as_raw_fd(), F_GETFD) })
}

pub fn set_descriptor_flags(file: BorrowedFd<'_>, flags: i32) -> io::Result<()> {
    // SAFETY: no memory is passed, and this command takes a number.
    checked(unsafe { fcntl(file.as_raw_fd(), F_SETFD, flags) }).map(drop)
}

/// Sets which modes what is created from now on lacks. Returns those that it lacked until now.
pub fn set_umask(without: u32) -> u32 {
    // SAFETY: no memory is passed, and the call cannot fail.
    unsafe { umask(without) }
}

/// The flags of the open file, which all its descriptors have.
pub fn file_flags(file: BorrowedFd<'_>) -> io::Result<i32> {
    // SAFETY: no memory is passed, and this command takes no further argument.
    checked(unsafe { fcntl(file.as_raw_fd(), F_GETFL) })
}

pub fn set_file_flags(file: BorrowedFd<'_>, flags: i32) -> io::Result<()> {
    // SAFETY: no memory is passed, and this command takes a number.
    checked(unsafe { fcntl(file.as_raw_fd(), F_SETFL, flags) }).map(drop)
}

/// Locks the file without waiting.
pub fn lock_file(file: BorrowedFd<'_>) -> io::Result<()> {
    // SAFETY: no memory is passed.
    checked(unsafe { flock(file.as_raw_fd(), LOCK_EX | LOCK_NB) }).map(drop)
}

/// How many files may be open.
pub fn limit_of_files() -> io::Result<Limit> {
    let mut limit = Limit { rlim_cur: 0, rlim_max: 0 };
    // SAFETY: the limit is valid, and the call writes only to it.
    checked(unsafe { getrlimit(RLIMIT_NOFILE, &mut limit) })?;
    Ok(limit)
}

pub fn set_limit_of_files(limit: &Limit) -> io::Result<()> {
    // SAFETY: the limit is valid, and the call only reads it.
    checked(unsafe { setrlimit(RLIMIT_NOFILE, limit) }).map(drop)
}

/// What the call finds, with more room for its texts until that is enough. `call` gets an entry, room, its size, and where the found
/// entry is put; `read` may follow the entry's pointers.
fn found<T, R>(
    call: impl Fn(*mut T, *mut c_char, usize, *mut *mut T) -> i32,
    read: impl Fn(&T) -> R,
) -> io::Result<Option<R>> {
    const ROOM: usize = 1 << 10;
    const MOST_ROOM: usize = 1 << 24; // a group may have many members
    let mut room: Vec<c_char> = vec![0; ROOM];
    loop {
        let (mut entry, mut found) = (MaybeUninit::uninit(), ptr::null_mut());
        match call(entry.as_mut_ptr(), room.as_mut_ptr(), room.len(), &mut found) {
            0 if found.is_null() => return Ok(None),
            // SAFETY: the call found an entry, wrote it to `entry`, and its texts to `room`, which is there until it is read.
            0 => return Ok(Some(read(unsafe { entry.assume_init_ref() }))),
            ERANGE if room.len() < MOST_ROOM => room.resize(2 * room.len(), 0),
            number => return Err(io::Error::from_raw_os_error(number)),
        }
    }
}

/// The number of the user with this name, if there is one.
pub fn user_number(name: &CStr) -> io::Result<Option<u32>> {
    // SAFETY: the name ends with a zero, and `found` passes an entry, and room of that size, that can be written.
    let call = |it, text, size, found| unsafe { getpwnam_r(name.as_ptr(), it, text, size, found) };
    found(call, |user| user.pw_uid)
}

/// The name of the user with this number, if there is one.
pub fn user_name(number: u32) -> io::Result<Option<CString>> {
    // SAFETY: `found` passes an entry, and room of that size, that can be written.
    let call = |it, text, size, found| unsafe { getpwuid_r(number, it, text, size, found) };
    // SAFETY: the name of an entry that was found ends with a zero.
    found(call, |user| unsafe { CStr::from_ptr(user.pw_name) }.to_owned())
}

/// The number of the group with this name, if there is one.
pub fn group_number(name: &CStr) -> io::Result<Option<u32>> {
    // SAFETY: the name ends with a zero, and `found` passes an entry, and room of that size, that can be written.
    let call = |it, text, size, found| unsafe { getgrnam_r(name.as_ptr(), it, text, size, found) };
    found(call, |group| group.gr_gid)
}

/// How many bytes a user may still add to the disk on which this is: blocks, and the size of one.
pub fn free_bytes(path: &CStr) -> io::Result<u64> {
    let mut disk = MaybeUninit::<Disk>::zeroed();
    // SAFETY: the path ends with a zero, there is room for what the call writes, and any bytes are a `Disk`.
    let disk = unsafe {
        checked(statvfs(path.as_ptr(), disk.as_mut_ptr()))?;
        disk.assume_init()
    };
    #[allow(clippy::useless_conversion)] // the counts are shorter on some processors
    Ok(u64::from(disk.f_bavail).saturating_mul(u64::from(disk.f_frsize)))
}

/// The process that made the other end of a socket.
pub fn peer_credentials(socket: BorrowedFd<'_>) -> io::Result<Credentials> {
    let mut credentials = Credentials { pid: 0, uid: 0, gid: 0 };
    let (value, mut length) = (ptr::addr_of_mut!(credentials).cast(), size_of::<Credentials>() as u32);
    // SAFETY: `value` points to `length` writable bytes, and any bytes are a `Credentials`.
    checked(unsafe { getsockopt(socket.as_raw_fd(), SOL_SOCKET, SO_PEERCRED, value, &mut length) })?;
    Ok(credentials)
}

/// The supplementary groups of the process that made the other end of a socket, at the beginning of `groups`; and how many there are, also
/// if the call fails because there is no room for them.
pub fn peer_groups(socket: BorrowedFd<'_>, groups: &mut [u32]) -> (io::Result<()>, usize) {
    let mut length = u32::try_from(size_of_val(groups)).unwrap_or(u32::MAX);
    let value = groups.as_mut_ptr().cast();
    // SAFETY: `value` points to `length` writable bytes, and any bytes are numbers.
    let result = checked(unsafe { getsockopt(socket.as_raw_fd(), SOL_SOCKET, SO_PEERGROUPS, value, &mut length) });
    (result.map(drop), length as usize / size_of::<u32>())
}

/// The name of a Unix socket.
pub struct UnixAddress {
    name: UnixName,
    length: u32,
}

impl UnixAddress {
    /// None where no socket can have this name: it is empty, too long, or has a zero.
    pub fn new(path: &[u8]) -> Option<UnixAddress> {
        let mut name = UnixName { sun_family: AF_UNIX, sun_path: [0; 108] };
        if path.is_empty() || path.len() >= name.sun_path.len() || path.contains(&0) {
            return None;
        }
        for (to, from) in name.sun_path.iter_mut().zip(path) {
            *to = *from as c_char;
        }
        Some(UnixAddress { name, length: (size_of::<u16>() + path.len() + 1) as u32 })
    }
}

pub fn create_unix_socket() -> io::Result<OwnedFd> {
    // SAFETY: no memory is passed; the new file is nobody else's.
    Ok(unsafe { OwnedFd::from_raw_fd(checked(socket(AF_UNIX.into(), SOCK_STREAM | SOCK_CLOEXEC, 0))?) })
}

pub fn connect_unix_socket(socket: BorrowedFd<'_>, address: &UnixAddress) -> io::Result<()> {
    // SAFETY: the name has `length` readable bytes.
    checked(unsafe { connect(socket.as_raw_fd(), &address.name, address.length) }).map(drop)
}

/// How many may wait at a socket that listens.
#[cfg(test)]
pub fn set_backlog(socket: BorrowedFd<'_>, waiting: i32) -> io::Result<()> {
    extern "C" {
        fn listen(socket: i32, waiting: i32) -> i32;
    }
    // SAFETY: no memory is passed.
    checked(unsafe { listen(socket.as_raw_fd(), waiting) }).map(drop)
}
