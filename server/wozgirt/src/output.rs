//! What the program prints, and what becomes of it if no program reads it, or there is no room.

use std::fmt::Display;
use std::io::{self, ErrorKind, Write};
use std::thread::{self, JoinHandle};
use std::time::{Duration, Instant};
use wozgirt_system::Signal;

/// How long a message may take that was sent aside, once the program could end.
const SOON: Duration = Duration::from_millis(100);
const LOOK: Duration = Duration::from_millis(1);

/// Prints on standard output. If no program reads that any more, this one ends, as SIGPIPE ends others.
pub fn print(text: &str) -> io::Result<()> {
    let mut output = io::stdout().lock();
    match output.write_all(text.as_bytes()).and_then(|()| output.flush()) {
        Err(fault) if fault.kind() == ErrorKind::BrokenPipe => Signal::Pipe.end_program(),
        other => other,
    }
}

/// Says something on standard error, if that can be written.
pub fn complain(what: impl Display) {
    let _ = writeln!(io::stderr().lock(), "wozgirt: {what}"); // there is no other place to report it
}

/// A message on standard error that may not hold anything up.
pub struct Aside(Option<JoinHandle<()>>);

impl Aside {
    /// Begins to say it.
    pub fn complain(what: String) -> Aside {
        Aside(thread::Builder::new().spawn(move || complain(what)).ok())
    }
}

impl Drop for Aside {
    /// Waits a little, so that it is said, if somebody reads it.
    fn drop(&mut self) {
        let end = Instant::now() + SOON;
        while self.0.as_ref().is_some_and(|thread| !thread.is_finished()) && Instant::now() < end {
            thread::sleep(LOOK);
        }
    }
}
