//! Why a call is refused, and why a text is not legal.

use core::fmt;
use wozgirt_sys as sys;

macro_rules! kinds {
    ($(#[$doc:meta])* $name:ident { $($(#[$about:meta])* $kind:ident = $code:ident,)* }) => {
        $(#[$doc])*
        #[derive(Clone, Copy, Debug, PartialEq, Eq, Hash)]
        #[non_exhaustive]
        pub enum $name {
            $($(#[$about])* $kind,)*
            /// A code that this crate does not know.
            Other(u32),
        }

        impl $name {
            /// The code, as `wozgirt.h` has it.
            pub const fn code(self) -> u32 {
                match self {
                    $($name::$kind => sys::$code,)*
                    $name::Other(code) => code,
                }
            }

            pub(crate) const fn of(code: u32) -> $name {
                match code {
                    $(sys::$code => $name::$kind,)*
                    code => $name::Other(code),
                }
            }
        }

        impl fmt::Display for $name {
            fn fmt(&self, out: &mut fmt::Formatter<'_>) -> fmt::Result {
                out.write_str(sys::text(self.code()))
            }
        }
    };
}

kinds! {
    /// The reason for a refusal.
    Reason {
        /// There is no such seat.
        NoSeat = WOZGIRT_NO_SEAT,
        /// There is no such machine.
        NoMachine = WOZGIRT_NO_MACHINE,
        /// The value is not below `k`.
        NoValue = WOZGIRT_NO_VALUE,
        /// The machines of a group do not rise below `n`, or there are none.
        NotRising = WOZGIRT_NOT_RISING,
        /// The group is the whole ring.
        WholeRing = WOZGIRT_WHOLE_RING,
        /// A machine of the group is not privileged; [`Refused::machine`] is the least such one.
        NotPrivileged = WOZGIRT_NOT_PRIVILEGED,
        /// A segment of a history has at most 4,000,000 events: [`Ring::cut`](crate::Ring::cut) begins the next.
        HistoryFull = WOZGIRT_HISTORY_FULL,
        /// Out of memory.
        NoMemory = WOZGIRT_NO_MEMORY,
        /// A ring has 1 to 10 seats.
        BadSeats = WOZGIRT_BAD_SEATS,
        /// A ring has 2 to 1,024 machines.
        BadMachines = WOZGIRT_BAD_MACHINES,
        /// A ring has at least as many values as machines, and at most 65,536.
        BadValues = WOZGIRT_BAD_VALUES,
        /// There is not one start value for each machine.
        BadLength = WOZGIRT_BAD_LENGTH,
        /// A start value is not below `k`.
        BadStart = WOZGIRT_BAD_START,
        /// There are 1 to 1,000,000 locks.
        BadLocks = WOZGIRT_BAD_LOCKS,
        /// The saved text has no ring at this place.
        NoRing = WOZGIRT_NO_RING,
        /// The ring is over a resource that does no work, and a saved text is of tills.
        NoTill = WOZGIRT_NO_TILL,
        /// No journal is kept of the segment.
        NoJournal = WOZGIRT_NO_JOURNAL,
        /// No chain of files ends with this one: what it says of those before it cannot be.
        NoChain = WOZGIRT_NO_CHAIN,
        /// The file is not of one ring.
        ManyRings = WOZGIRT_MANY_RINGS,
        /// There is no such lock.
        NoLock = WOZGIRT_NO_LOCK,
        /// The client holds the lock already.
        Holds = WOZGIRT_HOLDS,
        /// The client waits already.
        Stands = WOZGIRT_STANDS,
        /// The client would wait, step by step, for itself.
        Circle = WOZGIRT_CIRCLE,
        /// The client does not hold the lock with this token.
        NotHeld = WOZGIRT_NOT_HELD,
        /// The client does not wait for the lock.
        NotWaiting = WOZGIRT_NOT_WAITING,
        /// Grants of an earlier input were not taken.
        GrantsLeft = WOZGIRT_GRANTS_LEFT,
    }
}

kinds! {
    /// The reason why a text is not legal.
    Fault {
        /// The line cannot be in a saved text.
        Syntax = WOZGIRT_SYNTAX,
        /// The text is cut short.
        Truncated = WOZGIRT_TRUNCATED,
        /// The line has the numbers of a ring, and there is none of these.
        Parameter = WOZGIRT_PARAMETER,
        /// A number of the line is not one that its ring has.
        Range = WOZGIRT_RANGE,
        /// The reply is not the ring's.
        Reply = WOZGIRT_REPLY,
        /// The line counts wrongly.
        Count = WOZGIRT_COUNT,
        /// The survey is not the ring's.
        Survey = WOZGIRT_SURVEY,
        /// The line begins no group.
        Group = WOZGIRT_GROUP,
        /// There was not enough memory to judge it.
        NoMemory = WOZGIRT_NO_MEMORY,
    }
}

/// A call was refused, and nothing has changed.
#[derive(Clone, Copy, Debug, PartialEq, Eq, Hash)]
pub struct Refused {
    /// Why.
    pub reason: Reason,
    /// With [`Reason::NotPrivileged`]: the least machine of the group that is not privileged.
    pub machine: Option<u32>,
}

impl Refused {
    pub(crate) const fn by(code: u32) -> Refused {
        Refused { reason: Reason::of(code), machine: None }
    }
}

impl fmt::Display for Refused {
    fn fmt(&self, out: &mut fmt::Formatter<'_>) -> fmt::Result {
        match self.machine {
            Some(machine) => write!(out, "{}: machine {machine}", self.reason),
            None => self.reason.fmt(out),
        }
    }
}

impl core::error::Error for Refused {}

/// A text is not the text of a legal history.
#[derive(Clone, Copy, Debug, PartialEq, Eq, Hash)]
pub struct NotLegal {
    /// What is wrong.
    pub fault: Fault,
    /// The first bad line, from 1, if it is the fault of a line.
    pub line: Option<u64>,
}

impl fmt::Display for NotLegal {
    fn fmt(&self, out: &mut fmt::Formatter<'_>) -> fmt::Result {
        match self.line {
            Some(line) => write!(out, "line {line}: {}", self.fault),
            None => self.fault.fmt(out),
        }
    }
}

impl core::error::Error for NotLegal {}

impl NotLegal {
    pub(crate) fn by(code: u32, line: u64) -> NotLegal {
        NotLegal { fault: Fault::of(code), line: (line > 0).then_some(line) }
    }
}

/// A ring does not resume from a text.
#[derive(Clone, Copy, Debug, PartialEq, Eq, Hash)]
#[non_exhaustive]
pub enum NotResumed {
    /// The text is not legal.
    NotLegal(NotLegal),
    /// The text is legal, but the ring that was asked for cannot be opened from it.
    Refused(Refused),
}

impl NotResumed {
    pub(crate) fn by(code: u32, line: u64) -> NotResumed {
        match Fault::of(code) {
            Fault::Other(_) | Fault::NoMemory => NotResumed::Refused(Refused::by(code)),
            _ => NotResumed::NotLegal(NotLegal::by(code, line)),
        }
    }
}

impl fmt::Display for NotResumed {
    fn fmt(&self, out: &mut fmt::Formatter<'_>) -> fmt::Result {
        match self {
            NotResumed::NotLegal(text) => text.fmt(out),
            NotResumed::Refused(refused) => refused.fmt(out),
        }
    }
}

impl core::error::Error for NotResumed {
    fn source(&self) -> Option<&(dyn core::error::Error + 'static)> {
        match self {
            NotResumed::NotLegal(text) => Some(text),
            NotResumed::Refused(refused) => Some(refused),
        }
    }
}
