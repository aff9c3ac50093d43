//! lock_bench PEER CLIENTS LOCKS SECONDS ADDRESS [RATE]: each client, a thread with a connection of its own, takes and releases one
//! lock, again and again, without a pause; or all together RATE times a second, if the peer is quick enough. Prints hand-overs a
//! second, how long an acquire takes, and how fair the peer is. It measures from when each client was granted its lock once, or
//! from a second on if a peer leaves some out. Of a peer whose name ends with `-new` each client takes a new name each time, and
//! LOCKS has to be CLIENTS. A peer that fails ends the measure: this program is for `bench/peers.sh` and `bench/any_name.py` alone.
//!
//! lock_bench commands RUNS COMMAND ..: how long each command takes.

mod commands;
mod peers;

use std::sync::atomic::{AtomicBool, AtomicU64, AtomicUsize, Ordering};
use std::sync::Barrier;
use std::thread;
use std::time::{Duration, Instant};

const STACK: usize = 256 << 10;
/// How long is waited for clients that are not granted their lock.
const LATEST_BEGIN: Duration = Duration::from_secs(1);

/// A client of some lock service.
pub trait Peer: Send {
    /// Returns when the lock is held: a fencing token if there is one, else 0.
    fn acquire(&mut self) -> u64;
    fn release(&mut self);
}

/// One lock: how many are inside, and the last token.
#[derive(Default)]
struct Inside {
    count: AtomicU64,
    token: AtomicU64,
}

/// How far the measure is.
#[derive(Default)]
struct Run {
    /// How many clients were never granted their lock.
    away: AtomicUsize,
    is_measured: AtomicBool,
    is_over: AtomicBool,
}

fn main() {
    // the other threads would wait for the one that failed
    std::panic::set_hook(Box::new(|fault| {
        eprintln!("lock_bench: {fault}");
        std::process::exit(1);
    }));
    let words: Vec<String> = std::env::args().skip(1).collect();
    if let [word, runs, commands @ ..] = &words[..] {
        if word == "commands" {
            return commands::compare(runs.parse().unwrap(), commands);
        }
    }
    let [peer, clients, locks, seconds, address, rate @ ..] = &words[..] else {
        eprintln!("lock_bench PEER CLIENTS LOCKS SECONDS ADDRESS [RATE]");
        std::process::exit(2);
    };
    let (clients, locks): (usize, usize) = (clients.parse().unwrap(), locks.parse().unwrap());
    let each = rate.first().map(|rate| Duration::from_secs_f64(clients as f64 / rate.parse::<f64>().unwrap()));
    let time = Duration::from_secs_f64(seconds.parse().unwrap());
    peers::prepare(peer, address, locks);
    let inside: Vec<Inside> = (0..locks).map(|_| Inside::default()).collect();
    let (run, barrier) = (Run { away: AtomicUsize::new(clients), ..Run::default() }, Barrier::new(clients + 1));
    let (each, took) = thread::scope(|scope| {
        let work = |c: usize| {
            let mut client = peers::connect(peer, address, c % locks, c).expect("no such peer");
            barrier.wait();
            let pace = each.map(|each| (Instant::now() + each.mul_f64(c as f64 / clients as f64), each));
            hand_over(&mut *client, &inside[c % locks], &run, pace)
        };
        let start = |c: usize| thread::Builder::new().stack_size(STACK).spawn_scoped(scope, move || work(c)).unwrap();
        let threads: Vec<_> = (0..clients).map(start).collect();
        barrier.wait();
        let latest = Instant::now() + LATEST_BEGIN;
        while run.away.load(Ordering::Relaxed) > 0 && Instant::now() < latest {
            thread::sleep(Duration::from_millis(1));
        }
        let begun = Instant::now();
        run.is_measured.store(true, Ordering::Relaxed);
        thread::sleep(time);
        run.is_over.store(true, Ordering::Relaxed);
        let each: Vec<Vec<u32>> = threads.into_iter().map(|thread| thread.join().unwrap()).collect();
        (each, begun.elapsed())
    });
    println!("{peer:11} clients {clients:3} locks {locks:3} {}", summary(&each, took));
}

/// How long each acquire that was measured took, in tenths of microseconds. A pace is when the first one is due, and how long after it
/// the next one is; of those that are late each begins at once.
fn hand_over(client: &mut dyn Peer, inside: &Inside, run: &Run, mut pace: Option<(Instant, Duration)>) -> Vec<u32> {
    let (mut times, mut is_new) = (Vec::with_capacity(1 << 16), true);
    while !run.is_over.load(Ordering::Relaxed) {
        if let Some((due, each)) = &mut pace {
            thread::sleep(due.saturating_duration_since(Instant::now()));
            *due += *each;
        }
        let begun = Instant::now();
        let token = client.acquire();
        if run.is_measured.load(Ordering::Relaxed) {
            times.push(u32::try_from(begun.elapsed().as_nanos() / 100).unwrap_or(u32::MAX));
        }
        if std::mem::take(&mut is_new) {
            run.away.fetch_sub(1, Ordering::Relaxed);
        }
        assert_eq!(inside.count.fetch_add(1, Ordering::SeqCst), 0, "two hold one lock");
        if token > 0 {
            assert!(inside.token.swap(token, Ordering::SeqCst) < token, "a token does not rise");
        }
        inside.count.fetch_sub(1, Ordering::SeqCst);
        client.release();
    }
    times
}

fn summary(each: &[Vec<u32>], took: Duration) -> String {
    let mut all: Vec<u32> = each.iter().flatten().copied().collect();
    all.sort_unstable();
    let at = |part: f64| f64::from(all[((all.len() - 1) as f64 * part) as usize]) / 10.0;
    let (least, most) = (each.iter().map(Vec::len).min().unwrap(), each.iter().map(Vec::len).max().unwrap());
    format!(
        "handovers/s {:8.0} p50_us {:8.1} p99_us {:9.1} max_us {:9.1} max/min {:.2}",
        all.len() as f64 / took.as_secs_f64(),
        at(0.5),
        at(0.99),
        at(1.0),
        most as f64 / least.max(1) as f64
    )
}
