//! A ring, and its calls.

use crate::{NotResumed, Reason, Refused};
use alloc::vec::Vec;
use core::cell::UnsafeCell;
use core::{fmt, ptr};
use wozgirt_sys as sys;

/// A pass that was granted.
#[derive(Clone, Copy, Debug, PartialEq, Eq, Hash)]
pub struct Grant {
    /// How many events are before it, over all segments of the history, as all numbers are counted.
    pub position: u64,
    /// Which grant of the ring it is, from 1 and without a gap: a fencing token.
    pub number: u64,
    /// The resource's answer: over a till the sum of all orders so far, at most 2^64 - 1.
    pub result: u64,
}

/// Passes of a group that were granted.
#[derive(Clone, Copy, Debug, PartialEq, Eq, Hash)]
pub struct Group {
    /// How many events are before its first member.
    pub first: u64,
    /// Which grant that member's is; those of the others follow.
    pub number: u64,
    /// The resource's answer to that member; over a till each further one is more by the order.
    pub result: u64,
    /// How many members it has.
    pub count: u32,
}

/// A survey of a ring.
#[derive(Clone, Copy, Debug, PartialEq, Eq, Hash)]
pub struct Survey {
    /// How many events there were.
    pub position: u64,
    /// How many passes were granted since the last fault.
    pub calm: u64,
    /// At most this many granted passes are left until one machine is privileged.
    pub rest: u64,
    /// How many machines are privileged.
    pub privileged: u32,
    /// The least of them.
    pub first: u32,
}

/// An event of a ring's history.
#[derive(Clone, Copy, Debug, PartialEq, Eq, Hash)]
pub struct Event {
    /// The seat that asked.
    pub seat: u32,
    /// The machine.
    pub machine: u32,
    /// What came of it.
    pub step: Step,
}

/// What an event is.
#[derive(Clone, Copy, Debug, PartialEq, Eq, Hash)]
#[non_exhaustive]
pub enum Step {
    /// A pass was granted.
    Passed {
        /// What the seat asked with.
        order: u64,
        /// Which grant of the ring it is.
        number: u64,
        /// The resource's answer.
        result: u64,
    },
    /// The machine was not privileged.
    Waited {
        /// What the seat asked with.
        order: u64,
    },
    /// The pass of one machine of a group was granted.
    Member {
        /// What the seat asked with.
        order: u64,
        /// Which grant of the ring it is.
        number: u64,
        /// The resource's answer.
        result: u64,
        /// How many of its group are still to come.
        left: u32,
    },
    /// A value was written into the machine.
    Fault {
        /// The value.
        value: u32,
        /// The one that it was written over.
        old: u64,
    },
    /// A kind that this crate does not know.
    Other(u32),
}

/// A ring of machines that pass a privilege, with its history. It is freed when it is dropped.
///
/// It is `Send`, and not `Sync`: threads share a `Mutex<Ring>`. In a forked child a ring gives the same numbers again.
///
/// ```compile_fail
/// fn shared<T: Sync>() {}
/// shared::<wozgirt::Ring>();
/// ```
pub struct Ring {
    raw: UnsafeCell<sys::wozgirt_ring>,
}

// SAFETY: the library keeps nothing of a thread. The memory that the pointer leads to belongs only to this ring, and is malloc's.
unsafe impl Send for Ring {}

const NONE: sys::wozgirt_ring = sys::wozgirt_ring { at: ptr::null_mut() };

fn done(code: u32) -> Result<(), Refused> {
    match code {
        sys::WOZGIRT_DONE => Ok(()),
        code => Err(Refused::by(code)),
    }
}

fn granted(code: u32, answer: sys::wozgirt_answer) -> Result<Option<Grant>, Refused> {
    match code {
        sys::WOZGIRT_DONE => {
            Ok(Some(Grant { position: answer.position, number: answer.number, result: answer.result }))
        }
        sys::WOZGIRT_WAITS => Ok(None),
        code => Err(Refused::by(code)),
    }
}

/// The text that a call writes into a buffer, which is as large as is needed.
fn text(call: impl Fn(*mut u8, usize, *mut u64) -> u32) -> Result<Vec<u8>, Refused> {
    let (mut text, mut size) = (Vec::new(), 0);
    loop {
        match call(text.as_mut_ptr(), text.len(), &mut size) {
            sys::WOZGIRT_DONE => return Ok(text),
            sys::WOZGIRT_TOO_SMALL => {
                let size = size as usize;
                text.try_reserve_exact(size).map_err(|_| Refused::by(sys::WOZGIRT_NO_MEMORY))?;
                text.resize(size, 0);
            }
            code => return Err(Refused::by(code)),
        }
    }
}

fn surveyed(sight: sys::wozgirt_sight) -> Survey {
    let sys::wozgirt_sight { position, calm, rest, privileged, first } = sight;
    Survey { position, calm, rest, privileged, first }
}

fn told(event: sys::wozgirt_event) -> Event {
    let sys::wozgirt_event { order, number, result, kind, seat, machine, value } = event;
    let step = match kind {
        sys::WOZGIRT_PASSED => Step::Passed { order, number, result },
        sys::WOZGIRT_WAITED => Step::Waited { order },
        sys::WOZGIRT_MEMBER => Step::Member { order, number, result, left: value },
        sys::WOZGIRT_FAULT => Step::Fault { value, old: result },
        kind => Step::Other(kind),
    };
    Event { seat, machine, step }
}

impl Ring {
    fn opened(open: impl FnOnce(*mut sys::wozgirt_ring) -> u32) -> Result<Ring, Refused> {
        let mut raw = NONE;
        done(open(&mut raw))?;
        Ok(Ring { raw: UnsafeCell::new(raw) })
    }

    /// Opens a ring of `n` machines with `k` values that starts so, with seats 0 to `seats` - 1, over a till: each granted pass adds
    /// its order, and the answer is the new sum. The numbers of its grants begin at 1.
    ///
    /// # Errors
    ///
    /// The first that applies: [`Reason::BadSeats`] (1 to 10), [`Reason::BadMachines`] (2 to 1,024), [`Reason::BadValues`] (`n` to
    /// 65,536), [`Reason::BadLength`], [`Reason::BadStart`], [`Reason::NoMemory`].
    pub fn open(n: u32, k: u32, start: &[u32], seats: u32) -> Result<Ring, Refused> {
        // SAFETY: the struct is empty, and the list has this length
        Ring::opened(|raw| unsafe { sys::wozgirt_open(raw, n, k, start.as_ptr(), start.len(), seats) })
    }

    /// The same over a resource that does no work: it cannot be saved.
    ///
    /// # Errors
    ///
    /// Those of [`Ring::open`].
    pub fn open_idle(n: u32, k: u32, start: &[u32], seats: u32) -> Result<Ring, Refused> {
        // SAFETY: as in `open`
        Ring::opened(|raw| unsafe { sys::wozgirt_open_idle(raw, n, k, start.as_ptr(), start.len(), seats) })
    }

    /// Opens a ring that resumes the one at this place, from 0, of a saved text, with its surveys and the numbers of its grants.
    ///
    /// # Errors
    ///
    /// [`NotResumed::NotLegal`] with what [`check`](crate::check) says of the text; else [`NotResumed::Refused`] with
    /// [`Reason::NoRing`], [`Reason::BadSeats`], [`Reason::NoSeat`] where the text names a seat that the ring would not have,
    /// [`Reason::HistoryFull`], [`Reason::NoMemory`].
    pub fn from_saved(text: &[u8], place: u32, seats: u32) -> Result<Ring, NotResumed> {
        let (mut raw, mut sums) = (NONE, sys::wozgirt_sums::default());
        // SAFETY: the struct is empty, and the text has this length
        match unsafe { sys::wozgirt_open_saved(&mut raw, text.as_ptr(), text.len(), place, seats, &mut sums) } {
            sys::WOZGIRT_DONE => Ok(Ring { raw: UnsafeCell::new(raw) }),
            code => Err(NotResumed::by(code, sums.line)),
        }
    }

    /// Opens a ring that resumes where the last file of a chain ends, whatever was cut off of it.
    ///
    /// # Errors
    ///
    /// [`NotResumed::NotLegal`] with the first bad line; else [`NotResumed::Refused`] with [`Reason::NoChain`],
    /// [`Reason::HistoryFull`], [`Reason::ManyRings`], [`Reason::BadSeats`], [`Reason::NoSeat`] where the file names a seat that
    /// the ring would not have, [`Reason::NoMemory`].
    pub fn from_segment(file: &[u8], seats: u32) -> Result<Ring, NotResumed> {
        let (mut raw, mut line) = (NONE, 0);
        // SAFETY: the struct is empty, and the file has this length
        match unsafe { sys::wozgirt_open_segment(&mut raw, file.as_ptr(), file.len(), seats, &mut line) } {
            sys::WOZGIRT_DONE => Ok(Ring { raw: UnsafeCell::new(raw) }),
            code => Err(NotResumed::by(code, line)),
        }
    }

    /// A seat asks for a machine's pass: none where the machine is not privileged, which the history records too.
    ///
    /// # Errors
    ///
    /// [`Reason::NoSeat`], [`Reason::NoMachine`], [`Reason::HistoryFull`] (4,000,000 events), [`Reason::NoMemory`].
    pub fn pass(&mut self, seat: u32, machine: u32, order: u64) -> Result<Option<Grant>, Refused> {
        let mut answer = Default::default();
        // SAFETY: the ring is open, and nobody else has it
        granted(unsafe { sys::wozgirt_pass(self.raw.get_mut(), seat, machine, order, &mut answer) }, answer)
    }

    /// The same, but nothing is recorded where the machine is not privileged: the call to poll with.
    ///
    /// # Errors
    ///
    /// Those of [`Ring::pass`], but a full history only where the machine is privileged.
    pub fn try_pass(&mut self, seat: u32, machine: u32, order: u64) -> Result<Option<Grant>, Refused> {
        let mut answer = Default::default();
        // SAFETY: as in `pass`
        granted(unsafe { sys::wozgirt_try(self.raw.get_mut(), seat, machine, order, &mut answer) }, answer)
    }

    /// A seat asks for the passes of machines whose numbers rise, all at once: all are granted, or none.
    ///
    /// # Errors
    ///
    /// [`Reason::NoSeat`], [`Reason::NotRising`], [`Reason::WholeRing`], [`Reason::NotPrivileged`] with the least such machine,
    /// [`Reason::HistoryFull`], [`Reason::NoMemory`].
    pub fn pass_group(&mut self, seat: u32, machines: &[u32], order: u64) -> Result<Group, Refused> {
        let mut group = sys::wozgirt_group::default();
        // SAFETY: as in `pass`, and the list has this length
        match unsafe {
            sys::wozgirt_pass_group(self.raw.get_mut(), seat, machines.as_ptr(), machines.len(), order, &mut group)
        } {
            sys::WOZGIRT_DONE => {
                let sys::wozgirt_group { first, number, result, count, .. } = group;
                Ok(Group { first, number, result, count })
            }
            sys::WOZGIRT_NOT_PRIVILEGED => Err(Refused { reason: Reason::NotPrivileged, machine: Some(group.machine) }),
            code => Err(Refused::by(code)),
        }
    }

    /// A fault: writes a value into a machine, and returns the old one.
    ///
    /// # Errors
    ///
    /// [`Reason::NoSeat`], [`Reason::NoMachine`], [`Reason::NoValue`], [`Reason::HistoryFull`], [`Reason::NoMemory`].
    pub fn corrupt(&mut self, seat: u32, machine: u32, value: u32) -> Result<u64, Refused> {
        let mut answer = sys::wozgirt_answer::default();
        // SAFETY: as in `pass`
        done(unsafe { sys::wozgirt_corrupt(self.raw.get_mut(), seat, machine, value, &mut answer) })?;
        Ok(answer.result)
    }

    /// The survey of the ring, which the seat's log keeps.
    ///
    /// # Errors
    ///
    /// [`Reason::NoSeat`], [`Reason::NoMemory`].
    pub fn survey(&mut self, seat: u32) -> Result<Survey, Refused> {
        let mut sight = Default::default();
        // SAFETY: as in `pass`
        done(unsafe { sys::wozgirt_survey(self.raw.get_mut(), seat, &mut sight) })?;
        Ok(surveyed(sight))
    }

    /// The same, which nothing keeps.
    pub fn glance(&self) -> Survey {
        let mut sight = Default::default();
        // SAFETY: a ring is not shared between threads, and no call is made within another one
        unsafe { sys::wozgirt_glance(self.raw.get(), &mut sight) };
        surveyed(sight)
    }

    /// How many events there were, over all segments of the history.
    pub fn history_length(&self) -> u64 {
        let mut length = 0;
        // SAFETY: as in `glance`
        unsafe { sys::wozgirt_history_length(self.raw.get(), &mut length) };
        length
    }

    /// How many of them are before the segment.
    fn events_before(&self) -> u64 {
        let mut count = 0;
        // SAFETY: as in `glance`
        unsafe { sys::wozgirt_events_before(self.raw.get(), &mut count) };
        count
    }

    /// The event of this number, from 0; none of those before the segment.
    pub fn event(&self, number: u64) -> Option<Event> {
        let mut event = Default::default();
        // SAFETY: as in `glance`
        let code = unsafe { sys::wozgirt_event_at(self.raw.get(), number, &mut event) };
        (code == sys::WOZGIRT_DONE).then(|| told(event))
    }

    /// The events of the segment, from its first.
    pub fn events(&self) -> impl Iterator<Item = Event> + '_ {
        (self.events_before()..self.history_length()).map_while(|number| self.event(number))
    }

    /// The saved text of the ring's segment as it is now.
    ///
    /// # Errors
    ///
    /// [`Reason::NoTill`] for a ring over a resource that does no work, [`Reason::NoMemory`].
    pub fn save(&self) -> Result<Vec<u8>, Refused> {
        // SAFETY: as in `glance`, and the buffer has this length
        text(|buffer, length, size| unsafe { sys::wozgirt_save(self.raw.get(), buffer, length, size) })
    }

    /// The beginning of a journal: the file of the ring's segment, with all of it so far. The journal is kept from then on.
    ///
    /// # Errors
    ///
    /// Those of [`Ring::save`].
    pub fn open_journal(&mut self) -> Result<Vec<u8>, Refused> {
        let ring = self.raw.get();
        // SAFETY: nobody else has the ring, and the buffer has this length
        text(|buffer, length, size| unsafe { sys::wozgirt_open_journal(ring, buffer, length, size) })
    }

    /// What was recorded since the journal was opened or taken from, each line once: to be appended to the file, and synced, before
    /// anybody acts on the answers.
    ///
    /// # Errors
    ///
    /// [`Reason::NoJournal`], and those of [`Ring::save`].
    pub fn take_journal(&mut self) -> Result<Vec<u8>, Refused> {
        let ring = self.raw.get();
        // SAFETY: as in `open_journal`
        text(|buffer, length, size| unsafe { sys::wozgirt_take_journal(ring, buffer, length, size) })
    }

    /// Seals the segment: its whole file, which replaces the file. The ring continues in the next segment, with its
    /// numbers, and no journal of that is kept yet.
    ///
    /// # Errors
    ///
    /// [`Reason::HistoryFull`] where the numbers of a further segment would not have 64 bits, and those of [`Ring::save`].
    pub fn cut(&mut self) -> Result<Vec<u8>, Refused> {
        let ring = self.raw.get();
        // SAFETY: as in `open_journal`
        text(|buffer, length, size| unsafe { sys::wozgirt_cut(ring, buffer, length, size) })
    }
}

impl fmt::Debug for Ring {
    fn fmt(&self, out: &mut fmt::Formatter<'_>) -> fmt::Result {
        out.debug_struct("Ring").field("history_length", &self.history_length()).finish_non_exhaustive()
    }
}

impl Drop for Ring {
    fn drop(&mut self) {
        // SAFETY: the ring is open, and nobody else has it
        unsafe { sys::wozgirt_close(self.raw.get_mut()) }
    }
}
