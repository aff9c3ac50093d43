//! The engine's process, or another that speaks lines: started, asked, heard, and started again when it ended.

mod answers;
mod starts;

use answers::Answers;
pub use answers::{Unheard, ROOM};
use starts::Starts;

use crate::notify;
use crate::outbox::Outbox;
use crate::remarks::Remarks;
use std::fmt;
use std::fs::File;
use std::io;
use std::os::unix::process::CommandExt;
use std::process::{Child, ChildStderr, ChildStdin, ChildStdout, Command, ExitStatus, Stdio};
use std::time::{Duration, Instant};
use wozgirt_system::{lacks_means, never_wait, Interest, Signals};

/// How many files are kept for a start, which needs pipes and reads the journal; and how long it waits where the system has none.
const SPARE: usize = 12;
const LACK_PAUSE: Duration = Duration::from_secs(1);
/// How long the engine may take to end when its input has ended, or its output.
const LONGEST_END: Duration = Duration::from_secs(10);
/// How often is looked whether it has ended.
const LOOK: Duration = Duration::from_millis(5);

/// The engine.
pub struct Engine {
    program: String,
    words: Vec<String>,
    state: State,
    inputs: Outbox,
    /// Whether it is waited for that it takes more.
    is_awaited: bool,
    answers: Answers,
    /// What it says to people, and the last line of that.
    remarks: Option<Remarks>,
    last_remark: Option<String>,
    starts: Starts,
    /// Files that are kept for the next start, and what that lacked.
    spare: Vec<File>,
    lack: Option<io::Error>,
}

enum State {
    /// To be started at this time.
    Away(Instant),
    /// It runs; these are its input, until that ended, and its output.
    Running(Child, Option<ChildStdin>, ChildStdout),
    /// It says nothing more, and should end until this time.
    Ending(Child, Instant),
    /// It is not started any more.
    Over,
}

/// What became of an engine that was to end.
pub enum Outcome {
    /// It has not ended yet.
    NotYet,
    /// It ended, and will be started again.
    Again(ExitStatus),
    /// It ended, and is not started any more.
    Over(ExitStatus),
}

/// Why there is no engine.
#[derive(Debug)]
pub enum CannotStart {
    /// The program cannot be run.
    Program(String, io::Error),
    /// The system gives no pipes.
    Pipes(io::Error),
}

impl fmt::Display for CannotStart {
    fn fmt(&self, f: &mut fmt::Formatter<'_>) -> fmt::Result {
        match self {
            CannotStart::Program(program, fault) => write!(f, "cannot run the engine {program}: {fault}"),
            CannotStart::Pipes(fault) => write!(f, "cannot make pipes for the engine: {fault}"),
        }
    }
}

impl std::error::Error for CannotStart {}

impl Engine {
    /// An engine that is to be started now. Its lines are shorter than `most_room`.
    pub fn new(program: String, words: Vec<String>, most_room: usize, now: Instant) -> Engine {
        Engine {
            program,
            words,
            state: State::Away(now),
            inputs: Outbox::default(),
            is_awaited: false,
            answers: Answers::new(most_room),
            remarks: None,
            last_remark: None,
            starts: Starts::new(now),
            spare: Vec::new(),
            lack: None,
        }
    }

    /// The words with which it is started next.
    pub fn set_words(&mut self, words: Vec<String>) {
        self.words = words;
    }

    /// Whether it takes inputs.
    pub fn is_running(&self) -> bool {
        matches!(self.state, State::Running(..))
    }

    /// Whether it ended for good.
    pub fn is_over(&self) -> bool {
        matches!(self.state, State::Over)
    }

    /// Its output, if it runs.
    pub fn output(&self) -> Option<&ChildStdout> {
        match &self.state {
            State::Running(_, _, output) => Some(output),
            _ => None,
        }
    }

    /// Its input, if it takes some, and what is now to be waited for there, if that has changed.
    pub fn awaited_input(&mut self) -> Option<(&ChildStdin, Interest)> {
        let State::Running(_, Some(input), _) = &self.state else { return None };
        let writes = !self.inputs.is_empty();
        let is_new = std::mem::replace(&mut self.is_awaited, writes) != writes;
        is_new.then_some((input, Interest { reads: false, writes }))
    }

    /// Its input, if it takes some.
    pub fn input(&self) -> Option<&ChildStdin> {
        match &self.state {
            State::Running(_, input, _) => input.as_ref(),
            _ => None,
        }
    }

    /// Where it says something to people, as long as it does.
    pub fn complaints(&self) -> Option<&ChildStderr> {
        self.remarks.as_ref().map(Remarks::pipe)
    }

    /// The lines that it has said there; if it has ended, all that are left.
    pub fn remarks(&mut self) -> Vec<String> {
        let mut lines = Vec::new();
        let has_ended = matches!(self.state, State::Away(_) | State::Over);
        if let Some(mut remarks) = self.remarks.take() {
            if has_ended {
                remarks.read_last(&mut lines);
            } else if remarks.read(&mut lines) {
                self.remarks = Some(remarks);
            }
        }
        self.last_remark = lines.last().cloned().or(self.last_remark.take());
        lines
    }

    /// The last of them since it was started.
    pub fn last_remark(&self) -> Option<&str> {
        self.last_remark.as_deref()
    }

    /// It has answered how all locks are.
    pub fn note_ready(&mut self) {
        self.starts.is_ready = true;
    }

    /// How often it was started.
    pub fn starts(&self) -> u64 {
        self.starts.count
    }

    /// When something is to be done at it without an event.
    pub fn next_look(&self, now: Instant) -> Option<Instant> {
        match self.state {
            State::Away(start) => Some(start),
            State::Ending(..) => Some(now + LOOK),
            _ => None,
        }
    }

    /// Whether it is time to start it.
    pub fn is_due(&self, now: Instant) -> bool {
        matches!(self.state, State::Away(start) if start <= now)
    }

    /// Starts it if it is time: the number of its process.
    pub fn start(&mut self, now: Instant) -> Result<Option<u32>, CannotStart> {
        if !self.is_due(now) {
            return Ok(None);
        }
        let mut command = Command::new(&self.program);
        command.args(&self.words).stdin(Stdio::piped()).stdout(Stdio::piped()).stderr(Stdio::piped());
        // a key of the terminal is only for the server, which has this one answer what it was asked
        command.process_group(0);
        command.env_remove(notify::SOCKET);
        Signals::hear_all(&mut command).map_err(CannotStart::Pipes)?;
        self.lend_files();
        let mut child = match command.spawn() {
            Err(fault) if self.starts.count > 0 && lacks_means(&fault) => {
                self.postpone(fault, now);
                return Ok(None);
            }
            other => other.map_err(|fault| CannotStart::Program(self.program.clone(), fault))?,
        };
        let (input, remarks) = (child.stdin.take(), child.stderr.take());
        let Some(output) = child.stdout.take() else { return Ok(None) };
        let never_waits = input.as_ref().map_or(Ok(()), never_wait).and_then(|()| never_wait(&output));
        never_waits.and_then(|()| remarks.as_ref().map_or(Ok(()), never_wait)).map_err(CannotStart::Pipes)?;
        let process = child.id();
        (self.remarks, self.last_remark) = (remarks.map(Remarks::new), None);
        self.state = State::Running(child, input, output);
        self.inputs.clear();
        self.answers.clear();
        self.is_awaited = false;
        self.starts.begin(now);
        self.spare.extend((0..SPARE).map_while(|_| File::open("/dev/null").ok()));
        Ok(Some(process))
    }

    /// Lets go of the files that are kept for a start: it needs some where the system may have no other to spare.
    pub fn lend_files(&mut self) {
        self.spare.clear();
    }

    /// The system has not what it needs to start: that is tried again.
    pub fn postpone(&mut self, fault: io::Error, now: Instant) {
        self.state = State::Away(now + LACK_PAUSE);
        self.lack = Some(fault);
    }

    /// What the system lacked, if it did since this was asked last.
    pub fn take_lack(&mut self) -> Option<io::Error> {
        self.lack.take()
    }

    /// Puts a line among those that are written at the end of the round.
    pub fn ask_line(&mut self, line: impl fmt::Display) {
        use io::Write;
        if self.is_running() {
            let _ = writeln!(self.inputs.bytes(), "{line}"); // a list takes whatever is written
        }
    }

    /// How many bytes wait to be written.
    pub fn waiting(&self) -> usize {
        self.inputs.len()
    }

    /// Writes what it takes. That it is gone shows where it is read.
    pub fn write(&mut self) {
        if let State::Running(_, Some(input), _) = &mut self.state {
            if !self.inputs.is_empty() && self.inputs.write_to(input).is_err() {
                self.inputs.clear();
            }
        }
    }

    /// Reads the whole lines that are there.
    pub fn read(&mut self) -> Result<String, Unheard> {
        let State::Running(_, _, output) = &mut self.state else { return Ok(String::new()) };
        self.answers.read(output)
    }

    /// Starts it without a pause, if it is to be started at all: it ended because it had to.
    pub fn start_at_once(&mut self, now: Instant) {
        if let State::Away(start) = &mut self.state {
            *start = now;
            self.starts.shorts = 0;
        }
    }

    /// Ends its input when all is written: it answers what it was asked, and ends. One that does not run stays so.
    pub fn end(&mut self) {
        match &mut self.state {
            State::Running(_, input, _) if self.inputs.is_empty() => *input = None,
            State::Away(_) => self.state = State::Over,
            _ => {}
        }
    }

    /// It is heard no more, and is to end.
    pub fn give_up(&mut self, is_ended: bool, now: Instant) {
        let state = std::mem::replace(&mut self.state, State::Over);
        self.state = match state {
            State::Running(mut child, _, _) => {
                if !is_ended {
                    let _ = child.kill(); // it may be gone
                }
                State::Ending(child, now + LONGEST_END)
            }
            other => other,
        };
        self.inputs.clear();
    }

    /// Looks whether it has ended. It is started again, unless the server ends or it keeps failing.
    pub fn look(&mut self, is_stopping: bool, now: Instant) -> io::Result<Outcome> {
        let State::Ending(child, latest) = &mut self.state else { return Ok(Outcome::NotYet) };
        let Some(status) = child.try_wait()? else {
            if now > *latest {
                child.kill()?;
            }
            return Ok(Outcome::NotYet);
        };
        let pause = self.starts.end(now);
        let Some(pause) = pause.filter(|_| !is_stopping) else {
            self.state = State::Over;
            return Ok(Outcome::Over(status));
        };
        self.state = State::Away(now + pause);
        Ok(Outcome::Again(status))
    }
}
