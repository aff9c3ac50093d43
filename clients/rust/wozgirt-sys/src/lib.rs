//! The C library of Wozgirt as its header, `wozgirt.h`, declares it. The header says what each function returns, and which rules
//! a caller has to keep; the crate `wozgirt` keeps them.
#![no_std]
#![allow(non_camel_case_types)] // the names are those of the header

use core::ffi::c_void;

/// A ring: `{null}` before one of the functions `wozgirt_open..` opens it.
#[repr(C)]
#[derive(Debug)]
pub struct wozgirt_ring {
    /// The library's memory.
    pub at: *mut c_void,
}

/// The answer to a call.
#[repr(C)]
#[derive(Clone, Copy, Debug, Default, PartialEq, Eq)]
pub struct wozgirt_answer {
    /// How many events of the history are before it.
    pub position: u64,
    /// Of a granted pass: which grant of the ring it is, from 1.
    pub number: u64,
    /// Of a granted pass: the resource's answer; of a fault: the value that was written over.
    pub result: u64,
}

/// The answer to a group.
#[repr(C)]
#[derive(Clone, Copy, Debug, Default, PartialEq, Eq)]
pub struct wozgirt_group {
    /// How many events are before its first member.
    pub first: u64,
    /// Which grant that member's is; those of the others follow.
    pub number: u64,
    /// The resource's answer to that member.
    pub result: u64,
    /// How many members it has.
    pub count: u32,
    /// With [`WOZGIRT_NOT_PRIVILEGED`]: the least machine that is not privileged.
    pub machine: u32,
}

/// A survey of a ring.
#[repr(C)]
#[derive(Clone, Copy, Debug, Default, PartialEq, Eq)]
pub struct wozgirt_sight {
    /// How many events the history has.
    pub position: u64,
    /// How many passes were granted since the last fault.
    pub calm: u64,
    /// At most this many granted passes are left until one machine is privileged.
    pub rest: u64,
    /// How many machines are privileged.
    pub privileged: u32,
    /// The least of them.
    pub first: u32,
}

/// The sums of a legal text; of any other its first bad line, and 0 elsewhere.
#[repr(C)]
#[derive(Clone, Copy, Debug, Default, PartialEq, Eq)]
pub struct wozgirt_sums {
    /// The events of all rings.
    pub events: u64,
    /// The granted passes among them.
    pub granted: u64,
    /// The faults among them.
    pub corrupted: u64,
    /// The surveys.
    pub surveys: u64,
    /// The first bad line, from 1, or 0.
    pub line: u64,
    /// The rings.
    pub rings: u32,
}

/// What [`wozgirt_event::kind`] is of a pass that was granted.
pub const WOZGIRT_PASSED: u32 = 0;
/// What [`wozgirt_event::kind`] is of a pass by a machine that was not privileged.
pub const WOZGIRT_WAITED: u32 = 1;
/// What [`wozgirt_event::kind`] is of the pass of one machine of a group.
pub const WOZGIRT_MEMBER: u32 = 2;
/// What [`wozgirt_event::kind`] is of a value that was written into a machine.
pub const WOZGIRT_FAULT: u32 = 3;

/// An event of a history; what does not belong to its kind is 0.
#[repr(C)]
#[derive(Clone, Copy, Debug, Default, PartialEq, Eq)]
pub struct wozgirt_event {
    /// Of a pass.
    pub order: u64,
    /// Of a granted pass: which grant it is.
    pub number: u64,
    /// Of a granted pass: the resource's answer; of a fault: the value that was written over.
    pub result: u64,
    /// [`WOZGIRT_PASSED`], [`WOZGIRT_WAITED`], [`WOZGIRT_MEMBER`] or [`WOZGIRT_FAULT`].
    pub kind: u32,
    /// The seat that asked.
    pub seat: u32,
    /// The machine.
    pub machine: u32,
    /// Of a fault: the value that was written; of a member: how many of its group are still to come.
    pub value: u32,
}

/// Locks: `{null}` before `wozgirt_locks_open` opens them.
#[repr(C)]
#[derive(Debug)]
pub struct wozgirt_locks {
    /// The library's memory.
    pub at: *mut c_void,
}

/// The answer to a client that acquires a lock.
#[repr(C)]
#[derive(Clone, Copy, Debug, Default, PartialEq, Eq)]
pub struct wozgirt_hold {
    /// Of a grant: its fencing token.
    pub token: u64,
    /// With [`WOZGIRT_WAITS`]: how many clients wait before this one.
    pub ahead: u64,
}

/// A lock that was granted to a client that waited.
#[repr(C)]
#[derive(Clone, Copy, Debug, Default, PartialEq, Eq)]
pub struct wozgirt_grant {
    /// The client that holds it now.
    pub client: u64,
    /// Its fencing token.
    pub token: u64,
    /// The lock.
    pub lock: u32,
}

macro_rules! codes {
    ($($name:ident = $value:literal, $text:literal;)*) => {
        $(#[doc = $text] pub const $name: u32 = $value;)*

        /// What a code means, in English.
        pub const fn text(code: u32) -> &'static str {
            match code {
                $($name => $text,)*
                _ => "no code of this library",
            }
        }
    };
}

codes! {
    WOZGIRT_DONE = 0, "done";
    WOZGIRT_WAITS = 1, "the machine is not privileged";
    WOZGIRT_BUSY = 2, "somebody holds the lock";
    WOZGIRT_NO_MORE = 3, "there is no further grant";
    WOZGIRT_NO_SEAT = 16, "there is no such seat";
    WOZGIRT_NO_MACHINE = 17, "there is no such machine";
    WOZGIRT_NO_VALUE = 18, "the value is not below K";
    WOZGIRT_NOT_RISING = 19, "the machines of the group do not rise, or there are none";
    WOZGIRT_WHOLE_RING = 20, "the group is the whole ring";
    WOZGIRT_NOT_PRIVILEGED = 21, "a machine of the group is not privileged";
    WOZGIRT_HISTORY_FULL = 22, "the history is full";
    WOZGIRT_NO_MEMORY = 23, "out of memory";
    WOZGIRT_CLOSED = 24, "it is closed";
    WOZGIRT_BAD_SEATS = 32, "a ring has 1 to 10 seats";
    WOZGIRT_BAD_MACHINES = 33, "a ring has 2 to 1,024 machines";
    WOZGIRT_BAD_VALUES = 34, "a ring has at least as many values as machines, and at most 65,536";
    WOZGIRT_BAD_LENGTH = 35, "there is not one start value for each machine";
    WOZGIRT_BAD_START = 36, "a start value is not below K";
    WOZGIRT_OPEN = 37, "it is open already";
    WOZGIRT_BAD_LOCKS = 38, "there are 1 to 1,000,000 locks";
    WOZGIRT_SYNTAX = 48, "a line cannot be in a saved text";
    WOZGIRT_TRUNCATED = 49, "the saved text is cut short";
    WOZGIRT_NO_RING = 50, "the saved text has no ring at this place";
    WOZGIRT_NO_CHAIN = 52, "no chain of files ends with this one";
    WOZGIRT_MANY_RINGS = 53, "the file is not of one ring";
    WOZGIRT_PARAMETER = 64, "parameter";
    WOZGIRT_RANGE = 65, "range";
    WOZGIRT_REPLY = 66, "reply";
    WOZGIRT_COUNT = 67, "count";
    WOZGIRT_SURVEY = 68, "survey";
    WOZGIRT_GROUP = 69, "group";
    WOZGIRT_NO_TILL = 80, "the ring is over no till, so it has no saved text";
    WOZGIRT_TOO_SMALL = 81, "the buffer is too small";
    WOZGIRT_NO_EVENT = 82, "there is no such event";
    WOZGIRT_NO_JOURNAL = 83, "no journal is kept";
    WOZGIRT_NO_LOCK = 96, "there is no such lock";
    WOZGIRT_HOLDS = 97, "the client holds the lock already";
    WOZGIRT_STANDS = 98, "the client waits already";
    WOZGIRT_CIRCLE = 99, "the client would wait for itself";
    WOZGIRT_NOT_HELD = 100, "the client does not hold the lock with this token";
    WOZGIRT_NOT_WAITING = 101, "the client does not wait for the lock";
    WOZGIRT_GRANTS_LEFT = 102, "grants were not taken";
}

/// The version of the header that this crate is of; [`wozgirt_version`] has the library's.
pub const WOZGIRT_VERSION: u32 = 100;

extern "C" {
    /// Opens a ring of n machines and K values over a till.
    pub fn wozgirt_open(
        ring: *mut wozgirt_ring,
        n: u32,
        k: u32,
        start: *const u32,
        start_length: usize,
        seats: u32,
    ) -> u32;
    /// The same over a resource that does no work.
    pub fn wozgirt_open_idle(
        ring: *mut wozgirt_ring,
        n: u32,
        k: u32,
        start: *const u32,
        start_length: usize,
        seats: u32,
    ) -> u32;
    /// Opens a ring that resumes the one at this place of a saved text; the sums are those of the check of the text.
    pub fn wozgirt_open_saved(
        ring: *mut wozgirt_ring,
        text: *const u8,
        length: usize,
        place: u32,
        seats: u32,
        sums: *mut wozgirt_sums,
    ) -> u32;
    /// A seat asks for a machine's pass.
    pub fn wozgirt_pass(
        ring: *mut wozgirt_ring,
        seat: u32,
        machine: u32,
        order: u64,
        answer: *mut wozgirt_answer,
    ) -> u32;
    /// The same, but nothing is recorded where the machine is not privileged.
    pub fn wozgirt_try(
        ring: *mut wozgirt_ring,
        seat: u32,
        machine: u32,
        order: u64,
        answer: *mut wozgirt_answer,
    ) -> u32;
    /// A seat asks for the passes of machines whose numbers rise.
    pub fn wozgirt_pass_group(
        ring: *mut wozgirt_ring,
        seat: u32,
        machines: *const u32,
        count: usize,
        order: u64,
        answer: *mut wozgirt_group,
    ) -> u32;
    /// A fault.
    pub fn wozgirt_corrupt(
        ring: *mut wozgirt_ring,
        seat: u32,
        machine: u32,
        value: u32,
        answer: *mut wozgirt_answer,
    ) -> u32;
    /// A survey, which the seat's log keeps.
    pub fn wozgirt_survey(ring: *mut wozgirt_ring, seat: u32, sight: *mut wozgirt_sight) -> u32;
    /// A survey that nothing keeps.
    pub fn wozgirt_glance(ring: *const wozgirt_ring, sight: *mut wozgirt_sight) -> u32;
    /// How many events there were.
    pub fn wozgirt_history_length(ring: *const wozgirt_ring, length: *mut u64) -> u32;
    /// How many of them are before the segment.
    pub fn wozgirt_events_before(ring: *const wozgirt_ring, count: *mut u64) -> u32;
    /// The event of this number, from 0.
    pub fn wozgirt_event_at(ring: *const wozgirt_ring, number: u64, event: *mut wozgirt_event) -> u32;
    /// Copies the saved text into the buffer, if it has room, and returns its size.
    pub fn wozgirt_save(ring: *const wozgirt_ring, buffer: *mut u8, length: usize, size: *mut u64) -> u32;
    /// The beginning of the journal of the segment, which is kept from then on.
    pub fn wozgirt_open_journal(ring: *mut wozgirt_ring, buffer: *mut u8, length: usize, size: *mut u64) -> u32;
    /// What was recorded since.
    pub fn wozgirt_take_journal(ring: *mut wozgirt_ring, buffer: *mut u8, length: usize, size: *mut u64) -> u32;
    /// Seals the segment: its whole file. The ring continues in the next one.
    pub fn wozgirt_cut(ring: *mut wozgirt_ring, buffer: *mut u8, length: usize, size: *mut u64) -> u32;
    /// Opens a ring that resumes where the last file of a chain ends.
    pub fn wozgirt_open_segment(
        ring: *mut wozgirt_ring,
        file: *const u8,
        length: usize,
        seats: u32,
        line: *mut u64,
    ) -> u32;
    /// Closes the ring, if it is open.
    pub fn wozgirt_close(ring: *mut wozgirt_ring);
    /// The separate checker.
    pub fn wozgirt_check(text: *const u8, length: usize, sums: *mut wozgirt_sums) -> u32;
    /// The library's version.
    pub fn wozgirt_version() -> u32;

    /// Opens locks that no client holds, each over a ring of `machines` machines.
    pub fn wozgirt_locks_open(locks: *mut wozgirt_locks, count: u32, machines: u32) -> u32;
    /// A client acquires a lock: it holds it now, or waits.
    pub fn wozgirt_locks_acquire(
        locks: *mut wozgirt_locks,
        client: u64,
        lock: u32,
        order: u64,
        hold: *mut wozgirt_hold,
    ) -> u32;
    /// The same, but the client does not wait.
    pub fn wozgirt_locks_try(
        locks: *mut wozgirt_locks,
        client: u64,
        lock: u32,
        order: u64,
        hold: *mut wozgirt_hold,
    ) -> u32;
    /// A client ends its hold, which has this token.
    pub fn wozgirt_locks_release(locks: *mut wozgirt_locks, client: u64, lock: u32, token: u64) -> u32;
    /// A client waits no more.
    pub fn wozgirt_locks_cancel(locks: *mut wozgirt_locks, client: u64, lock: u32) -> u32;
    /// A client leaves all locks.
    pub fn wozgirt_locks_leave(locks: *mut wozgirt_locks, client: u64) -> u32;
    /// A grant to a client that waited.
    pub fn wozgirt_locks_next(locks: *mut wozgirt_locks, grant: *mut wozgirt_grant) -> u32;
    /// Begins a new segment of each lock's history.
    pub fn wozgirt_locks_cut(locks: *mut wozgirt_locks) -> u32;
    /// Closes the locks, if they are open.
    pub fn wozgirt_locks_close(locks: *mut wozgirt_locks);
}
