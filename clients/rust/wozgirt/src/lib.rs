#![doc = include_str!("../README.md")]
#![no_std]

extern crate alloc;

mod errors;
mod locks;
mod ring;

pub use errors::{Fault, NotLegal, NotResumed, Reason, Refused};
pub use locks::{Acquired, Granted, Grants, Locks};
pub use ring::{Event, Grant, Group, Ring, Step, Survey};

use wozgirt_sys as sys;

/// The sums of a legal text.
#[derive(Clone, Copy, Debug, PartialEq, Eq, Hash)]
pub struct Sums {
    /// The rings.
    pub rings: u32,
    /// The events of all rings.
    pub events: u64,
    /// The granted passes among them.
    pub granted: u64,
    /// The faults among them.
    pub corrupted: u64,
    /// The surveys.
    pub surveys: u64,
}

/// The separate checker: the sums of a saved text, if it is the text of a legal history. Any threads may call it at once.
///
/// # Errors
///
/// The first bad line and its fault.
pub fn check(text: &[u8]) -> Result<Sums, NotLegal> {
    let mut sums = sys::wozgirt_sums::default();
    // SAFETY: the text has this length
    match unsafe { sys::wozgirt_check(text.as_ptr(), text.len(), &mut sums) } {
        sys::WOZGIRT_DONE => {
            let sys::wozgirt_sums { events, granted, corrupted, surveys, rings, .. } = sums;
            Ok(Sums { rings, events, granted, corrupted, surveys })
        }
        code => Err(NotLegal::by(code, sums.line)),
    }
}

/// The library's version: 10,000 times its first number, 100 times its second, and its third.
pub fn version() -> u32 {
    // SAFETY: it takes nothing
    unsafe { sys::wozgirt_version() }
}
