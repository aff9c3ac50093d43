//! How long commands take, run in turns.

use std::process::Command;
use std::time::{Duration, Instant};

/// Runs each command so many times, one after the other in turns, and prints the middle of its times and the longest but one in a
/// hundred.
pub fn compare(runs: usize, commands: &[String]) {
    let mut times = vec![Vec::with_capacity(runs); commands.len()];
    for _ in 0..runs {
        for (command, times) in commands.iter().zip(&mut times) {
            times.push(time_of(command));
        }
    }
    for (command, mut times) in commands.iter().zip(times) {
        times.sort_unstable();
        let at = |share: f64| times[(share * (runs - 1) as f64) as usize].as_micros();
        let program = command.split(' ').next().and_then(|path| path.rsplit('/').next()).unwrap_or("");
        println!("command {program:8} runs {runs} p50_us {} p99_us {}", at(0.5), at(0.99));
    }
}

fn time_of(command: &str) -> Duration {
    let mut words = command.split(' ');
    let begun = Instant::now();
    let status = Command::new(words.next().unwrap_or("")).args(words).status().expect("the command does not start");
    assert!(status.success(), "{command}: {status}");
    begun.elapsed()
}
