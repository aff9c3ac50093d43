//! Locks over rings, for clients that the caller names.

use crate::Refused;
use core::{fmt, ptr};
use wozgirt_sys as sys;

/// The answer to a client that acquires a lock.
#[derive(Clone, Copy, Debug, PartialEq, Eq, Hash)]
pub enum Acquired {
    /// It holds the lock, with this token, which is greater than all earlier tokens of the lock.
    Held(u64),
    /// It waits, and this many clients wait before it.
    Waits(u64),
}

/// A lock that was granted to a client that waited.
#[derive(Clone, Copy, Debug, PartialEq, Eq, Hash)]
pub struct Granted {
    /// The client that holds it now.
    pub client: u64,
    /// The lock.
    pub lock: u32,
    /// The token of the hold.
    pub token: u64,
}

/// Locks over rings: holders, and queues of waiting clients. They use no clock and no thread: a client that waits gets the lock by the
/// grants of a later call. They are freed when they are dropped. Like [`Ring`](crate::Ring) they are `Send` and not `Sync`.
///
/// ```
/// use wozgirt::{Acquired, Granted, Locks};
///
/// let mut locks = Locks::open(2, 8)?;
/// assert_eq!(locks.acquire(7, 0, 0)?, Acquired::Held(1));
/// assert_eq!(locks.acquire(8, 0, 0)?, Acquired::Waits(0));
/// let next = locks.release(7, 0, 1)?.next();
/// assert_eq!(next, Some(Granted { client: 8, lock: 0, token: 2 }));
/// # Ok::<(), wozgirt::Refused>(())
/// ```
pub struct Locks {
    raw: sys::wozgirt_locks,
}

// SAFETY: the library keeps nothing of a thread. The memory that the pointer leads to belongs only to these locks, and is malloc's.
unsafe impl Send for Locks {}

/// The locks that were granted to clients that waited. What is not taken keeps the locks from another input, which is refused
/// with [`Reason::GrantsLeft`](crate::Reason::GrantsLeft), and is handed out by [`Locks::grants`].
#[derive(Debug)]
#[must_use = "a client that does not learn of its grant waits for ever"]
pub struct Grants<'a> {
    locks: &'a mut Locks,
}

impl Iterator for Grants<'_> {
    type Item = Granted;

    fn next(&mut self) -> Option<Granted> {
        let mut grant = sys::wozgirt_grant::default();
        // SAFETY: the locks are open, and nobody else has them
        let code = unsafe { sys::wozgirt_locks_next(&mut self.locks.raw, &mut grant) };
        let sys::wozgirt_grant { client, token, lock } = grant;
        (code == sys::WOZGIRT_DONE).then_some(Granted { client, lock, token })
    }
}

impl Locks {
    /// Opens `count` locks, from 0, that no client holds, each over a ring of `machines` machines.
    ///
    /// # Errors
    ///
    /// The first that applies: [`Reason::BadLocks`](crate::Reason::BadLocks) (1 to 1,000,000),
    /// [`Reason::BadMachines`](crate::Reason::BadMachines) (2 to 1,024), [`Reason::NoMemory`](crate::Reason::NoMemory).
    pub fn open(count: u32, machines: u32) -> Result<Locks, Refused> {
        let mut raw = sys::wozgirt_locks { at: ptr::null_mut() };
        // SAFETY: the struct is empty
        match unsafe { sys::wozgirt_locks_open(&mut raw, count, machines) } {
            sys::WOZGIRT_DONE => Ok(Locks { raw }),
            code => Err(Refused::by(code)),
        }
    }

    /// A client acquires a lock, or waits for it. The history keeps the order, which is the caller's.
    ///
    /// # Errors
    ///
    /// The first that applies: `GrantsLeft`, `NoLock`, `Holds`, `Stands` if it waits already, `Circle` if it would wait for
    /// itself; `HistoryFull`, after which [`Locks::cut`] makes room; `NoMemory`.
    pub fn acquire(&mut self, client: u64, lock: u32, order: u64) -> Result<Acquired, Refused> {
        let mut hold = sys::wozgirt_hold::default();
        // SAFETY: the locks are open, and nobody else has them
        match unsafe { sys::wozgirt_locks_acquire(&mut self.raw, client, lock, order, &mut hold) } {
            sys::WOZGIRT_DONE => Ok(Acquired::Held(hold.token)),
            sys::WOZGIRT_WAITS => Ok(Acquired::Waits(hold.ahead)),
            code => Err(Refused::by(code)),
        }
    }

    /// A client acquires a lock if no client holds it, and does not wait: the token, or none.
    ///
    /// # Errors
    ///
    /// Those of [`Locks::acquire`], but `Stands` only of this lock, and no `Circle`.
    pub fn try_acquire(&mut self, client: u64, lock: u32, order: u64) -> Result<Option<u64>, Refused> {
        let mut hold = sys::wozgirt_hold::default();
        // SAFETY: as in `acquire`
        match unsafe { sys::wozgirt_locks_try(&mut self.raw, client, lock, order, &mut hold) } {
            sys::WOZGIRT_DONE => Ok(Some(hold.token)),
            sys::WOZGIRT_BUSY => Ok(None),
            code => Err(Refused::by(code)),
        }
    }

    /// A client ends its hold, which has this token. The grants are to who waited.
    ///
    /// # Errors
    ///
    /// The first that applies: `GrantsLeft`, `NoLock`, `NotHeld`.
    pub fn release(&mut self, client: u64, lock: u32, token: u64) -> Result<Grants<'_>, Refused> {
        // SAFETY: as in `acquire`
        let code = unsafe { sys::wozgirt_locks_release(&mut self.raw, client, lock, token) };
        self.granted(code)
    }

    /// A client waits for a lock no more.
    ///
    /// # Errors
    ///
    /// The first that applies: `GrantsLeft`, `NoLock`, `NotWaiting`.
    pub fn cancel(&mut self, client: u64, lock: u32) -> Result<(), Refused> {
        // SAFETY: as in `acquire`
        match unsafe { sys::wozgirt_locks_cancel(&mut self.raw, client, lock) } {
            sys::WOZGIRT_DONE => Ok(()),
            code => Err(Refused::by(code)),
        }
    }

    /// A client holds no lock any more, and waits for none. The grants are to who waited.
    ///
    /// # Errors
    ///
    /// `GrantsLeft`.
    pub fn leave(&mut self, client: u64) -> Result<Grants<'_>, Refused> {
        // SAFETY: as in `acquire`
        let code = unsafe { sys::wozgirt_locks_leave(&mut self.raw, client) };
        self.granted(code)
    }

    /// The grants that were not taken yet.
    pub fn grants(&mut self) -> Grants<'_> {
        Grants { locks: self }
    }

    /// Begins a new segment of each lock's history: holds, waits and tokens continue.
    ///
    /// # Errors
    ///
    /// `GrantsLeft`; `HistoryFull` if numbers would have more than 64 bits; `NoMemory`.
    pub fn cut(&mut self) -> Result<(), Refused> {
        // SAFETY: as in `acquire`
        match unsafe { sys::wozgirt_locks_cut(&mut self.raw) } {
            sys::WOZGIRT_DONE => Ok(()),
            code => Err(Refused::by(code)),
        }
    }

    fn granted(&mut self, code: u32) -> Result<Grants<'_>, Refused> {
        match code {
            sys::WOZGIRT_DONE => Ok(self.grants()),
            code => Err(Refused::by(code)),
        }
    }
}

impl fmt::Debug for Locks {
    fn fmt(&self, out: &mut fmt::Formatter<'_>) -> fmt::Result {
        out.debug_struct("Locks").finish_non_exhaustive()
    }
}

impl Drop for Locks {
    fn drop(&mut self) {
        // SAFETY: the locks are open, and nobody else has them
        unsafe { sys::wozgirt_locks_close(&mut self.raw) }
    }
}
