//! `wozgirt bench`: clients that take and release locks without a pause. What is measured begins when each has been granted its
//! lock once: until then some have no rivals, which a busy machine makes long.

use crate::answers::{Answer, Verb};
use crate::client::{fault_of, question, soon, Client, Fault};
use crate::places::Place;
use crate::status::GONE;
use crate::words::Load;
use std::sync::atomic::{AtomicBool, AtomicU64, AtomicUsize, Ordering};
use std::sync::Mutex;
use std::thread::{self, ScopedJoinHandle};
use std::time::{Duration, Instant};

const STACK: usize = 256 << 10;
/// How often is looked whether all have begun.
const LOOK: Duration = Duration::from_millis(1);

/// One lock: the client inside, and its last token.
#[derive(Default)]
struct Inside {
    count: AtomicU64,
    token: AtomicU64,
}

/// How far the measure is.
struct Run {
    /// While a client has it, no other one begins.
    gate: Mutex<()>,
    /// How many clients were never granted their lock.
    away: AtomicUsize,
    is_over: AtomicBool,
}

/// What went wrong, if something did.
#[derive(Debug)]
pub enum Wrong {
    /// The server.
    Server(Fault),
    /// There are fewer locks.
    Locks(usize),
    /// Two were inside at once, or a token did not rise: the lock's name.
    Broken(String),
}

impl std::fmt::Display for Wrong {
    fn fmt(&self, f: &mut std::fmt::Formatter<'_>) -> std::fmt::Result {
        match self {
            Wrong::Server(fault) => fault.fmt(f),
            Wrong::Locks(count) => write!(f, "the server has {count} locks"),
            Wrong::Broken(name) => write!(f, "two hold {name}, or its token does not rise"),
        }
    }
}

impl std::error::Error for Wrong {}

impl From<Fault> for Wrong {
    fn from(fault: Fault) -> Wrong {
        Wrong::Server(fault)
    }
}

/// Measures: one line.
pub fn run(place: &Place, load: &Load) -> Result<String, Wrong> {
    let names = names(place, load.locks)?;
    let clients = (0..load.clients).map(|_| Client::open(place, soon(None))).collect::<Result<Vec<_>, _>>()?;
    let inside: Vec<Inside> = (0..load.locks).map(|_| Inside::default()).collect();
    let run = Run { gate: Mutex::new(()), away: AtomicUsize::new(load.clients), is_over: AtomicBool::new(false) };
    let (each, took) = thread::scope(|scope| {
        let gate = run.gate.lock();
        let mut threads = Vec::new();
        for (c, client) in clients.into_iter().enumerate() {
            let (l, run) = (c % load.locks, &run);
            let (name, inside) = (names[l].as_str(), &inside[l]);
            let work = move || {
                drop(run.gate.lock());
                if run.is_over.load(Ordering::Relaxed) {
                    return Ok(Vec::new());
                }
                hand_over(client, name, c, inside, run)
            };
            match thread::Builder::new().stack_size(STACK).spawn_scoped(scope, work) {
                Ok(thread) => threads.push(thread),
                Err(fault) => {
                    run.is_over.store(true, Ordering::Relaxed); // a client that waits at the gate begins nothing
                    return Err(Wrong::Server(Fault::System(fault)));
                }
            }
        }
        drop(gate);
        measure(&run, threads, load.time)
    })?;
    Ok(summary(load, &each, took) + "\n")
}

/// The server's first locks. If it has fewer, and takes any name, there are others after them.
fn names(place: &Place, count: usize) -> Result<Vec<String>, Wrong> {
    let mut client = Client::open(place, soon(None))?;
    let lines = client.list("status", soon(None))?;
    let there = lines.iter().filter_map(|line| line.split(' ').nth(1)).filter(|name| *name != GONE);
    let mut names: Vec<String> = there.take(count).map(String::from).collect();
    let mut others = 0..;
    while names.len() < count {
        let Some(name) = others.next().map(|i| format!("bench/{i}")) else { break };
        client.send(&format!("stats {name}"))?;
        if !client.line(Some(soon(None)))?.starts_with("stats ") {
            return Err(Wrong::Locks(names.len()));
        }
        if !names.contains(&name) {
            names.push(name);
        }
    }
    Ok(names)
}

/// The times of each client, and how long all took part.
fn measure(
    run: &Run,
    threads: Vec<ScopedJoinHandle<'_, Result<Vec<u32>, Wrong>>>,
    time: Duration,
) -> Result<(Vec<Vec<u32>>, Duration), Wrong> {
    while run.away.load(Ordering::Relaxed) > 0 && !threads.iter().any(|it| it.is_finished()) {
        thread::sleep(LOOK);
    }
    let begun = Instant::now();
    thread::sleep(time);
    run.is_over.store(true, Ordering::Relaxed);
    let each: Result<Vec<_>, Wrong> = threads.into_iter().map(|it| it.join().unwrap_or(Err(Wrong::Locks(0)))).collect();
    Ok((each?, begun.elapsed()))
}

/// The times of one client's acquires while all take part, in tenths of microseconds.
fn hand_over(mut client: Client, name: &str, number: usize, inside: &Inside, run: &Run) -> Result<Vec<u32>, Wrong> {
    let mut times = Vec::with_capacity(1 << 12);
    let acquire = question(Verb::Acquire, name, Some(number as u64)); // so the journal distinguishes the clients
    let mut is_new = true;
    while !run.is_over.load(Ordering::Relaxed) {
        let begun = Instant::now();
        client.send(&acquire)?;
        let mut line = client.line(None)?;
        if Answer::read(&line, name) == Some(Answer::Waiting) {
            line = client.line(None)?;
        }
        if std::mem::take(&mut is_new) {
            run.away.fetch_sub(1, Ordering::Relaxed);
        } else if run.away.load(Ordering::Relaxed) == 0 {
            times.push(u32::try_from(begun.elapsed().as_nanos() / 100).unwrap_or(u32::MAX));
        }
        let Some(Answer::Granted(token)) = Answer::read(&line, name) else { return Err(fault_of(line, name).into()) };
        let is_first = inside.count.fetch_add(1, Ordering::SeqCst) == 0;
        if !is_first || inside.token.swap(token, Ordering::SeqCst) >= token {
            return Err(Wrong::Broken(name.into()));
        }
        inside.count.fetch_sub(1, Ordering::SeqCst);
        client.send(&question(Verb::Release, name, Some(token)))?;
        let line = client.line(None)?;
        if Answer::read(&line, name) != Some(Answer::Released) {
            return Err(fault_of(line, name).into());
        }
    }
    Ok(times)
}

fn summary(load: &Load, each: &[Vec<u32>], took: Duration) -> String {
    let mut all: Vec<u32> = each.iter().flatten().copied().collect();
    all.sort_unstable();
    let at =
        |part: f64| all.get((all.len().saturating_sub(1) as f64 * part) as usize).map_or(0.0, |&t| f64::from(t) / 10.0);
    let least = each.iter().map(Vec::len).min().unwrap_or(0);
    let most = each.iter().map(Vec::len).max().unwrap_or(0);
    format!(
        "clients {} locks {} seconds {:.2} handovers/s {:.0} acquire p50 {:.1} us p99 {:.1} us max {:.1} us grants max {most} min {least} ratio {:.2}",
        load.clients,
        load.locks,
        took.as_secs_f64(),
        all.len() as f64 / took.as_secs_f64(),
        at(0.5),
        at(0.99),
        at(1.0),
        most as f64 / least.max(1) as f64
    )
}

#[cfg(test)]
mod tests {
    use super::*;

    #[test]
    fn a_summary() {
        let load = Load { clients: 2, locks: 1, time: Duration::from_secs(2) };
        let text = summary(&load, &[vec![10, 30, 20], vec![40, 50, 1000]], Duration::from_secs(2));
        let wanted = "clients 2 locks 1 seconds 2.00 handovers/s 3 acquire p50 3.0 us p99 5.0 us max 100.0 us grants max 3 min 3 ratio 1.00";
        assert_eq!(text, wanted);
    }
}
