//! Signals, read from a file instead of breaking into the program.

use crate::calls::{self, SignalSet, SIG_BLOCK, SIG_SETMASK};
use std::fs::File;
use std::io::{self, Read};
use std::os::fd::{AsFd, BorrowedFd};
use std::process::Command;

/// The size of `struct signalfd_siginfo`. It begins with three numbers of 32 bits: the signal, an error, the code that says who
/// sent it.
const RECORD: usize = 128;

/// The signals that this program hears.
#[derive(Clone, Copy, Debug, PartialEq, Eq)]
pub enum Signal {
    /// SIGHUP: the terminal is gone, or the settings are to be read again.
    HangUp,
    /// SIGINT: a key of the terminal.
    Interrupt,
    /// SIGQUIT: another key of the terminal.
    Quit,
    /// SIGKILL: cannot be heard, only sent.
    Kill,
    /// SIGPIPE: no program reads what this one writes.
    Pipe,
    /// SIGTERM: the program is asked to end.
    Terminate,
    /// SIGCHLD: a child ended.
    Child,
}

impl Signal {
    const ALL: [Signal; 7] =
        [Signal::HangUp, Signal::Interrupt, Signal::Quit, Signal::Kill, Signal::Pipe, Signal::Terminate, Signal::Child];

    /// The system's number of it.
    pub fn number(self) -> i32 {
        match self {
            Signal::HangUp => calls::SIGHUP,
            Signal::Interrupt => calls::SIGINT,
            Signal::Quit => calls::SIGQUIT,
            Signal::Kill => calls::SIGKILL,
            Signal::Pipe => calls::SIGPIPE,
            Signal::Terminate => calls::SIGTERM,
            Signal::Child => calls::SIGCHLD,
        }
    }

    /// From now on this signal does to this program what it does by default. A program begins with what its parent ignored.
    pub fn reset(self) -> io::Result<()> {
        calls::reset_signal(self.number())
    }

    /// Ends this program as the signal does by default. It returns only if the system refuses that, or the signal ends nothing.
    pub fn end_program(self) -> io::Result<()> {
        self.reset()?;
        SignalSet::empty()?.mask(SIG_SETMASK)?;
        calls::raise_signal(self.number())
    }
}

/// A signal that came.
#[derive(Clone, Copy, Debug, PartialEq, Eq)]
pub struct Heard {
    /// Which one.
    pub signal: Signal,
    /// Whether the kernel sent it, as for a key of the terminal, to all processes of its group; else a process did.
    pub is_of_kernel: bool,
}

/// Signals that no longer interrupt the program: they are read here.
pub struct Signals {
    file: File,
}

impl Signals {
    /// From now on these signals are read here, in this thread and in those that it starts afterwards. So do programs that
    /// it starts, which do not read them: see [`Signals::hear_all`].
    pub fn new(signals: &[Signal]) -> io::Result<Signals> {
        let mut set = SignalSet::empty()?;
        signals.iter().try_for_each(|signal| set.add(signal.number()))?;
        set.mask(SIG_BLOCK)?;
        Ok(Signals { file: File::from(set.file()?) })
    }

    /// Lets the program that this command starts hear every signal.
    pub fn hear_all(command: &mut Command) -> io::Result<()> {
        SignalSet::empty()?.mask_program(command, false);
        Ok(())
    }

    /// The next signal that has come, without waiting.
    pub fn next_signal(&mut self) -> Option<Signal> {
        self.next_heard().map(|heard| heard.signal)
    }

    /// The same, with what is known of its sender.
    pub fn next_heard(&mut self) -> Option<Heard> {
        let mut record = [0; RECORD];
        match self.file.read(&mut record) {
            Ok(RECORD) => {
                let [number, _, code] = [0, 4, 8]
                    .map(|at| i32::from_ne_bytes([record[at], record[at + 1], record[at + 2], record[at + 3]]));
                let signal = Signal::ALL.into_iter().find(|signal| signal.number() == number)?;
                Some(Heard { signal, is_of_kernel: code == calls::SI_KERNEL })
            }
            _ => None,
        }
    }
}

/// What this program's parent had it not hear: signals that it blocked, and SIGPIPE, if it ignored that. (What else it ignored, a
/// program that this one starts ignores too.)
#[derive(Clone, Copy)]
pub struct Inherited {
    blocked: SignalSet,
    ignores_pipe: bool,
}

impl Inherited {
    /// To be looked at before [`Signals::new`].
    pub fn look() -> io::Result<Inherited> {
        Ok(Inherited { blocked: SignalSet::current()?, ignores_pipe: calls::ignored_pipe() })
    }

    /// Has the program that this command starts begin as this one did.
    pub fn pass_on(self, command: &mut Command) {
        self.blocked.mask_program(command, self.ignores_pipe);
    }
}

/// From now on this thread hears no signal: they are for others of the program.
pub fn hear_nothing() -> io::Result<()> {
    SignalSet::full()?.mask(SIG_SETMASK)
}

impl AsFd for Signals {
    fn as_fd(&self) -> BorrowedFd<'_> {
        self.file.as_fd()
    }
}
