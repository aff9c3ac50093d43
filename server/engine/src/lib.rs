//! The lines of the lock engine, `ring_tool locks`: what it is asked and what it answers, as types.
//!
//! Each line begins with the number of the client that asks or is answered:
//!
//! ```text
//! 1 acquire deploy 77          1 granted deploy 1
//! 2 acquire deploy 78          2 waiting deploy 0
//! 1 release deploy 1           1 released deploy
//!                              2 granted deploy 2
//! ```
//!
//! `Display` writes a line without its end, and `FromStr` reads it back, or `parse` what borrows from the line. Numbers are
//! decimals below 2^64, without signs or leading zeros.

mod answers;
mod inputs;
mod lock;
mod states;
mod words;

pub use answers::{Answer, Answered, Refusal, Stats};
pub use inputs::{Asked, Input};
pub use lock::{Lock, LONGEST_NAME};
pub use states::StateLine;
pub use words::{decimal, NotALine};

/// The number of a client. [`NOBODY`] holds what was held when the engine started.
pub type Client = u64;
/// The number of a hold: a fencing token. Those of a lock rise.
pub type Token = u64;
/// A number that a client chooses for a hold; the journal keeps it.
pub type Label = u64;

/// The client that is not a connection.
pub const NOBODY: Client = 0;
