//! What is declared of the system: numbers, structs and functions. They are those of the processors below; some others have other
//! numbers. `server/tests/test_declarations.py` compares each with the system's headers.

use std::ffi::{c_char, c_long, c_ulong, c_void};

#[cfg(not(all(
    target_os = "linux",
    any(
        target_arch = "x86_64",
        target_arch = "x86",
        target_arch = "aarch64",
        target_arch = "arm",
        target_arch = "riscv64",
        target_arch = "s390x"
    )
)))]
compile_error!("wozgirt-system has the numbers of Linux on x86-64, x86, ARM, RISC-V and s390x only");

pub const EPOLLIN: u32 = 0x001;
pub const EPOLLOUT: u32 = 0x004;
pub const EPOLLERR: u32 = 0x008;
pub const EPOLLHUP: u32 = 0x010;
pub const EPOLL_CTL_ADD: i32 = 1;
pub const EPOLL_CTL_DEL: i32 = 2;
pub const EPOLL_CTL_MOD: i32 = 3;
pub const EPOLL_CLOEXEC: i32 = 0o2_000_000;
pub const POLLIN: i16 = 1;

pub const SIGHUP: i32 = 1;
pub const SIGINT: i32 = 2;
pub const SIGQUIT: i32 = 3;
pub const SIGKILL: i32 = 9;
pub const SIGPIPE: i32 = 13;
pub const SIGTERM: i32 = 15;
pub const SIGCHLD: i32 = 17;
/// The code of a signal that the kernel sent of its own accord, as it does for a key of the terminal.
pub const SI_KERNEL: i32 = 0x80;
pub const SIG_BLOCK: i32 = 0;
pub const SIG_SETMASK: i32 = 2;
pub const SIG_DFL: usize = 0;
pub const SIG_IGN: usize = 1;
pub const SIG_ERR: usize = usize::MAX;
pub const SFD_CLOEXEC: i32 = 0o2_000_000;
pub const SFD_NONBLOCK: i32 = 0o4_000;

pub const ENFILE: i32 = 23;
pub const EMFILE: i32 = 24;

pub const F_GETFD: i32 = 1;
pub const F_SETFD: i32 = 2;
pub const F_GETFL: i32 = 3;
pub const F_SETFL: i32 = 4;
pub const FD_CLOEXEC: i32 = 1;
pub const O_NONBLOCK: i32 = 0o4_000;
pub const LOCK_EX: i32 = 2;
pub const LOCK_NB: i32 = 4;
pub const RLIMIT_NOFILE: i32 = 7;
pub const ERANGE: i32 = 34;

pub const AF_UNIX: u16 = 1;
pub const SOCK_STREAM: i32 = 1;
pub const SOCK_CLOEXEC: i32 = 0o2_000_000;
pub const SOL_SOCKET: i32 = 1;
pub const SO_PEERCRED: i32 = 17;
pub const SO_PEERGROUPS: i32 = 59;

/// `struct epoll_event`, which is packed on this one kind of processor.
#[cfg_attr(target_arch = "x86_64", repr(C, packed))]
#[cfg_attr(not(target_arch = "x86_64"), repr(C))]
#[derive(Clone, Copy)]
pub struct EpollEvent {
    pub events: u32,
    pub data: u64,
}

impl EpollEvent {
    pub const NONE: EpollEvent = EpollEvent { events: 0, data: 0 };
}

/// `struct pollfd`.
#[repr(C)]
pub struct PollFile {
    pub fd: i32,
    pub events: i16,
    pub revents: i16,
}

/// `struct timespec`.
#[repr(C)]
pub struct Time {
    pub tv_sec: c_long,
    pub tv_nsec: c_long,
}

/// `sigset_t`: 1,024 bits, in glibc and in musl.
#[repr(C)]
#[derive(Clone, Copy)]
pub struct SignalSet {
    pub bits: [c_ulong; 1024 / c_ulong::BITS as usize],
}

/// `struct ucred`.
#[repr(C)]
pub struct Credentials {
    pub pid: i32,
    pub uid: u32,
    pub gid: u32,
}

/// `struct sockaddr_un`.
#[repr(C)]
pub struct UnixName {
    pub sun_family: u16,
    pub sun_path: [c_char; 108],
}

/// `struct passwd`.
#[repr(C)]
pub struct User {
    pub pw_name: *mut c_char,
    pub pw_passwd: *mut c_char,
    pub pw_uid: u32,
    pub pw_gid: u32,
    pub pw_gecos: *mut c_char,
    pub pw_dir: *mut c_char,
    pub pw_shell: *mut c_char,
}

/// `struct group`.
#[repr(C)]
pub struct Group {
    pub gr_name: *mut c_char,
    pub gr_passwd: *mut c_char,
    pub gr_gid: u32,
    pub gr_mem: *mut *mut c_char,
}

/// `rlim_t`.
#[cfg(not(target_env = "musl"))]
pub type LimitCount = c_ulong;
/// `rlim_t`.
#[cfg(target_env = "musl")]
pub type LimitCount = u64;

/// `fsblkcnt_t`.
#[cfg(not(target_env = "musl"))]
pub type BlockCount = c_ulong;
/// `fsblkcnt_t`.
#[cfg(target_env = "musl")]
pub type BlockCount = u64;

/// `struct statvfs`: its beginning, and room for the rest, which no two libraries have alike.
#[repr(C)]
pub struct Disk {
    pub f_bsize: c_ulong,
    pub f_frsize: c_ulong,
    pub f_blocks: BlockCount,
    pub f_bfree: BlockCount,
    pub f_bavail: BlockCount,
    pub rest: [c_ulong; 32],
}

/// `struct rlimit`: the limit that holds, and how far the process may raise it.
#[repr(C)]
pub struct Limit {
    pub rlim_cur: LimitCount,
    pub rlim_max: LimitCount,
}

extern "C" {
    pub fn epoll_create1(flags: i32) -> i32;
    pub fn epoll_ctl(epoll: i32, operation: i32, file: i32, event: *mut EpollEvent) -> i32;
    pub fn epoll_wait(epoll: i32, events: *mut EpollEvent, most: i32, milliseconds: i32) -> i32;
    pub fn ppoll(files: *mut PollFile, count: c_ulong, time: *const Time, mask: *const SignalSet) -> i32;
    pub fn sigemptyset(set: *mut SignalSet) -> i32;
    pub fn sigfillset(set: *mut SignalSet) -> i32;
    pub fn sigaddset(set: *mut SignalSet, signal: i32) -> i32;
    pub fn pthread_sigmask(how: i32, set: *const SignalSet, old: *mut SignalSet) -> i32;
    pub fn signalfd(file: i32, set: *const SignalSet, flags: i32) -> i32;
    pub fn signal(signal: i32, handler: usize) -> usize;
    pub fn raise(signal: i32) -> i32;
    pub fn kill(process: i32, signal: i32) -> i32;
    pub fn fcntl(file: i32, command: i32, ...) -> i32;
    pub fn flock(file: i32, operation: i32) -> i32;
    pub fn umask(without: u32) -> u32;
    pub fn getrlimit(of: i32, limit: *mut Limit) -> i32;
    pub fn setrlimit(of: i32, limit: *const Limit) -> i32;
    pub fn getpwnam_r(name: *const c_char, it: *mut User, text: *mut c_char, size: usize, found: *mut *mut User)
        -> i32;
    pub fn getpwuid_r(user: u32, it: *mut User, text: *mut c_char, size: usize, found: *mut *mut User) -> i32;
    pub fn getgrnam_r(
        name: *const c_char,
        it: *mut Group,
        text: *mut c_char,
        size: usize,
        found: *mut *mut Group,
    ) -> i32;
    pub fn statvfs(path: *const c_char, disk: *mut Disk) -> i32;
    pub fn getsockopt(socket: i32, level: i32, name: i32, value: *mut c_void, length: *mut u32) -> i32;
    pub fn socket(family: i32, kind: i32, protocol: i32) -> i32;
    pub fn connect(socket: i32, address: *const UnixName, length: u32) -> i32;
}
