//! Four threads share one ring, a fault is injected in the middle, and the history is saved: four_threads HISTORY

use std::error::Error;
use std::sync::Mutex;
use wozgirt::{check, Fault, Reason, Refused, Ring};

const MACHINES: u32 = 5;
const VALUES: u32 = 6;
const THREADS: u32 = 4;
const CALLS: u32 = 50_000;

/// The work of one client; returns how many of its calls were granted.
fn serve(ring: &Mutex<Ring>, seat: u32) -> Result<u64, Refused> {
    let mut granted = 0;
    for turn in 0..CALLS {
        let mut ring = ring.lock().expect("no thread panics");
        if ring.pass(seat, (seat + turn) % MACHINES, 1)?.is_some() {
            granted += 1;
        }
        if seat == 0 && turn == CALLS / 2 {
            ring.corrupt(seat, 3, 2)?;
        }
    }
    Ok(granted)
}

fn main() -> Result<(), Box<dyn Error>> {
    let history = std::env::args_os().nth(1).ok_or("usage: four_threads HISTORY")?;
    let ring = Mutex::new(Ring::open(MACHINES, VALUES, &[0, 2, 4, 1, 3], THREADS)?);
    let granted = std::thread::scope(|scope| {
        let ring = &ring;
        let clients: Vec<_> = (0..THREADS).map(|seat| scope.spawn(move || serve(ring, seat))).collect();
        clients.into_iter().map(|client| client.join().expect("no thread panics")).sum::<Result<u64, Refused>>()
    })?;
    let mut ring = ring.into_inner()?;
    ring.survey(0)?;
    assert_eq!(ring.pass(THREADS, 0, 1).map_err(|refused| refused.reason), Err(Reason::NoSeat));
    let text = ring.save()?;
    std::fs::write(history, &text)?;
    assert_eq!(Ring::from_saved(&text, 0, THREADS)?.history_length(), ring.history_length());
    assert_eq!(check(&text[..text.len() - 1]).map_err(|text| text.fault), Err(Fault::Truncated));
    let sums = check(&text)?;
    let told = if sums.granted == granted { "as told" } else { "otherwise" };
    println!(
        "events {} granted {told} corrupted {} surveys {} verdict legal",
        sums.events, sums.corrupted, sums.surveys
    );
    Ok(())
}
