//! `wozgirt lock`: a command that runs while a lock is held.

use crate::alone::Alone;
use crate::client::Fault;
use crate::output::{complain, Aside};
use crate::places::Place;
use crate::session::Session;
use crate::words::{Hold, Patience};
use std::ffi::OsString;
use std::fmt;
use std::io::{self, ErrorKind, Read};
use std::os::unix::net::UnixStream;
use std::os::unix::process::{CommandExt, ExitStatusExt};
use std::process::{Child, Command, ExitStatus};
use std::time::{Duration, Instant};
use wozgirt_system::{inherit, lacks_means, send_signal, Event, Heard, Inherited, Interest, Poller, Signal, Signals};

/// The lease over TCP, and of several servers, if none is asked for.
pub const LEASE: Duration = Duration::from_secs(30);
/// How long a server may take, when the time is over, to say that nothing is waited for any more; and then, that a session is over.
pub const GRACE: Duration = Duration::from_millis(120);
const LAST_GRACE: Duration = Duration::from_millis(160);
/// How long it may take else, when this client leaves.
const FAREWELL: Duration = Duration::from_secs(1);
const SIGNALS: u64 = 0;
/// How long at least something is waited for.
const LEAST: Duration = Duration::from_millis(1);

/// How it ended.
#[derive(Debug)]
pub enum Ending {
    /// The command ended by itself, or by a signal that was not of this program.
    Command(ExitStatus),
    /// Timed out waiting for the lock.
    Conflict,
    /// The same, and the server did not say so.
    Unanswered(Unanswered),
    /// The lock was lost while the command ran, and the command was ended.
    Lost,
    /// A signal came before the lock was had.
    Signal(Signal),
}

/// What became of the question when the time was over, and the server did not answer.
#[derive(Debug)]
pub enum Unanswered {
    /// The lock was not asked for.
    NotAsked,
    /// The connection is closed, and with it what was asked on it.
    Closed,
    /// It is the session's, which is over after a silence of this length.
    Lease(Duration),
}

impl fmt::Display for Unanswered {
    fn fmt(&self, f: &mut fmt::Formatter<'_>) -> fmt::Result {
        f.write_str("not in time: the server does not answer; ")?;
        match self {
            Unanswered::NotAsked => f.write_str("the lock was not asked for"),
            Unanswered::Closed => f.write_str("the connection is closed, so nothing waits for the lock"),
            Unanswered::Lease(lease) => {
                write!(f, "what was asked is withdrawn at the end of the lease, of {} s", lease.as_secs_f64())
            }
        }
    }
}

/// Why the command was not run.
#[derive(Debug)]
pub enum NotRun {
    /// The server cannot be asked, or refuses.
    Server(Fault),
    /// The command cannot be run.
    Command(OsString, io::Error),
    /// The system starts no process, for lack of means.
    Fork(io::Error),
    /// The system refused something else.
    System(io::Error),
}

impl fmt::Display for NotRun {
    fn fmt(&self, f: &mut fmt::Formatter<'_>) -> fmt::Result {
        match self {
            NotRun::Server(fault) => fault.fmt(f),
            NotRun::Command(command, fault) => write!(f, "{}: {fault}", command.to_string_lossy()),
            NotRun::Fork(fault) => write!(f, "COMMAND cannot be started: {fault}"),
            NotRun::System(fault) => fault.fmt(f),
        }
    }
}

impl std::error::Error for NotRun {}

impl From<Fault> for NotRun {
    fn from(fault: Fault) -> NotRun {
        NotRun::Server(fault)
    }
}

impl From<io::Error> for NotRun {
    fn from(fault: io::Error) -> NotRun {
        NotRun::System(fault)
    }
}

/// What came of asking for the lock.
pub enum Got {
    /// It is held, with this token.
    Token(u64),
    /// It is not, and this is how it ended.
    Not(Ending),
}

/// One server or several that keep the lock while COMMAND runs.
pub trait Link {
    /// What it waits with; signals have the key 0 there.
    fn poller(&mut self) -> &mut Poller;
    /// The lease, if there is one.
    fn lease(&self) -> Option<Duration>;
    /// Has COMMAND inherit what keeps the lock, if that is wanted: whether nothing else keeps it.
    fn share(&self) -> io::Result<bool>;
    /// When something is to be done without an event.
    fn next_time(&self) -> Option<Instant>;
    /// Does what is due. Why the lock is lost, if it is.
    fn look(&mut self, events: &[Event], now: Instant) -> Option<Fault>;
    /// Nothing is heard any more.
    fn give_up(&mut self) -> io::Result<()>;
    /// Gives the lock back.
    fn release(&mut self, token: u64) -> Result<(), Fault>;
}

/// Runs the command while the lock is held, by this server or by these.
pub fn run(places: &[Place], hold: &Hold) -> Result<Ending, NotRun> {
    let inherited = Inherited::look()?;
    Signal::Child.reset()?; // where the parent ignores it, no status would be known
    let deadline = match hold.patience {
        Patience::For(time) => Some(Instant::now() + time),
        Patience::Endless | Patience::None => None,
    };
    let opened = match (Session::open(places, hold, deadline), places) {
        // it has no such sessions
        (Err(Fault::Refused(why)), [place]) if why == "session" || why == "syntax" => {
            Alone::open(place, hold, deadline).map(Opened::Alone)
        }
        (opened, _) => opened.map(Opened::Session),
    };
    match opened {
        Ok(Opened::Alone(alone)) => run_alone(alone, hold, deadline, inherited),
        Ok(Opened::Session(session)) => run_in_session(session, hold, deadline, inherited),
        Err(fault) if fault.is_late() && deadline.is_some_and(|deadline| deadline <= Instant::now()) => {
            Ok(Ending::Unanswered(Unanswered::NotAsked))
        }
        Err(fault) => Err(fault.into()),
    }
}

enum Opened {
    Alone(Alone),
    Session(Session),
}

fn run_alone(mut alone: Alone, hold: &Hold, deadline: Option<Instant>, inherited: Inherited) -> Result<Ending, NotRun> {
    match alone.acquire(hold, deadline)? {
        Got::Token(token) => {
            let signals = heard(alone.poller())?;
            command(hold, token, &mut alone, signals, inherited)
        }
        Got::Not(ending) => Ok(ending),
    }
}

fn run_in_session(
    mut session: Session,
    hold: &Hold,
    deadline: Option<Instant>,
    inherited: Inherited,
) -> Result<Ending, NotRun> {
    if session.is_attached() {
        return match session.acquire(hold, deadline, None)? {
            Got::Token(token) => {
                let signals = heard(session.poller())?;
                command(hold, token, &mut session, signals, inherited)
            }
            Got::Not(ending) => Ok(ending),
        };
    }
    let ending = (|| {
        let mut signals = heard(session.poller())?;
        match session.acquire(hold, deadline, Some(&mut signals))? {
            Got::Token(token) => command(hold, token, &mut session, signals, inherited),
            Got::Not(ending) => Ok(ending),
        }
    })();
    let is_late = matches!(ending, Ok(Ending::Conflict | Ending::Unanswered(_)));
    let until = deadline.filter(|_| is_late).map(|deadline| deadline + LAST_GRACE);
    match (session.leave(until.unwrap_or_else(|| Instant::now() + FAREWELL)), ending) {
        (true, Ok(Ending::Unanswered(_))) => Ok(Ending::Conflict),
        (_, ending) => ending,
    }
}

/// The signals that are heard from here on.
fn heard(poller: &Poller) -> io::Result<Signals> {
    let signals = Signals::new(&[Signal::Child, Signal::Terminate, Signal::HangUp, Signal::Interrupt, Signal::Quit])?;
    poller.add(&signals, SIGNALS, Interest::READS)?;
    Ok(signals)
}

fn command(
    hold: &Hold,
    token: u64,
    link: &mut impl Link,
    mut signals: Signals,
    inherited: Inherited,
) -> Result<Ending, NotRun> {
    let pair = if link.share()? && !hold.is_of_command_only { Some(LeftBehind::new()?) } else { None };
    let child = start(hold, token, inherited)?;
    let left_behind = pair.map(|(here, _)| here);
    let kill_after = link.lease().map_or(hold.kill_after, |lease| hold.kill_after.min(lease / 4));
    let mut guard = Guard { child, is_group: hold.is_group, ends_at: None, said: Vec::new() };
    let status = guard.watch(link, &mut signals, kill_after)?;
    if guard.ends_at.is_some() {
        return Ok(Ending::Lost);
    }
    if left_behind.is_some_and(LeftBehind::has_both) {
        return Ok(Ending::Command(status)); // a program that COMMAND left running keeps the lock
    }
    if let Err(fault) = link.release(token) {
        complain(format_args!("after COMMAND had ended: {fault}"));
    }
    Ok(Ending::Command(status))
}

/// One end of a pair, of which COMMAND inherits the other with the connection. So it shows whether a program that COMMAND left
/// running has both.
struct LeftBehind(UnixStream);

impl LeftBehind {
    /// With the end that is to be closed here when COMMAND has it.
    fn new() -> io::Result<(LeftBehind, UnixStream)> {
        let (here, there) = UnixStream::pair()?;
        here.set_nonblocking(true)?;
        inherit(&there)?;
        Ok((LeftBehind(here), there))
    }

    /// Whether there is one.
    fn has_both(mut self) -> bool {
        matches!(self.0.read(&mut [0]), Err(fault) if fault.kind() == ErrorKind::WouldBlock)
    }
}

/// COMMAND hears what this program's parent had it hear.
fn start(hold: &Hold, token: u64, inherited: Inherited) -> Result<Child, NotRun> {
    let program = hold.command.first().cloned().unwrap_or_default();
    let mut command = Command::new(&program);
    command.args(&hold.command[1..]);
    command.env("WOZGIRT_TOKEN", token.to_string()).env("WOZGIRT_LOCK", &hold.name);
    if hold.is_group {
        command.process_group(0);
    }
    inherited.pass_on(&mut command);
    command
        .spawn()
        .map_err(|fault| if lacks_means(&fault) { NotRun::Fork(fault) } else { NotRun::Command(program, fault) })
}

/// The command while it runs.
struct Guard {
    child: Child,
    is_group: bool,
    /// After the loss of the lock: when the command is killed.
    ends_at: Option<Instant>,
    /// What was said meanwhile: nobody may read it, and the command is to be watched.
    said: Vec<Aside>,
}

impl Guard {
    fn watch(
        &mut self,
        link: &mut impl Link,
        signals: &mut Signals,
        kill_after: Duration,
    ) -> Result<ExitStatus, NotRun> {
        let mut events = Vec::new();
        loop {
            if let Some(status) = self.child.try_wait()? {
                return Ok(status);
            }
            let until = self.ends_at.or(link.next_time());
            let time = until.map(|until| until.saturating_duration_since(Instant::now()).max(LEAST));
            link.poller().wait(time, &mut events)?;
            while let Some(heard) = signals.next_heard() {
                self.pass_on(heard);
            }
            let now = Instant::now();
            if self.ends_at.is_none() {
                if let Some(why) = link.look(&events, now) {
                    self.send(Signal::Terminate);
                    self.said.push(Aside::complain(format!("the lock is lost ({why}); COMMAND is ended")));
                    self.ends_at = Some(now + kill_after);
                    link.give_up()?;
                }
            } else if self.ends_at.is_some_and(|end| end <= now) {
                self.send(Signal::Kill);
            }
        }
    }

    /// A key of the terminal sends its signal to the command too, unless that has a group of its own; a process, only to this program.
    fn pass_on(&mut self, Heard { signal, is_of_kernel }: Heard) {
        match signal {
            Signal::Terminate | Signal::HangUp => self.send(signal),
            Signal::Interrupt | Signal::Quit if self.is_group || !is_of_kernel => self.send(signal),
            _ => {}
        }
    }

    fn send(&mut self, signal: Signal) {
        if let Err(fault) = send_signal(&self.child, signal, self.is_group) {
            self.said.push(Aside::complain(format!("{signal:?} cannot be sent to COMMAND: {fault}")));
        }
    }
}

/// The status of this program.
pub fn status(ended: ExitStatus) -> u8 {
    let number = ended.code().or(ended.signal().map(|signal| 128 + signal)).unwrap_or(255);
    u8::try_from(number).unwrap_or(255)
}
