//! Repairs as `ring_tool repairs` counts them, with no proof: `repairs_peer N[:K] .. --from any|faults:F|all --daemon D --trials T
//! --seed S --threads P` prints the same lines.

mod pcg;
mod ring;
mod trials;

use std::env;
use std::process::exit;
use trials::{Daemon, Start, Study};

fn quantile(counts: &[u64], part: u64, whole: u64) -> usize {
    let total: u64 = counts.iter().sum();
    let mut below = 0;
    counts
        .iter()
        .position(|count| {
            below += count;
            whole * below >= part * total
        })
        .expect("some trial was counted")
}

fn line(n: usize, k: u32, start: &str, daemon: &str, counts: &[u64]) -> String {
    let total: u64 = counts.iter().sum();
    let sum: u64 = counts
        .iter()
        .enumerate()
        .map(|(number, count)| number as u64 * count)
        .sum();
    let mean = 100 * sum / total;
    let (bound, long) = (3 * n * (n - 1) / 2, (n - 2) * (3 * n + 1) / 2);
    let least = counts
        .iter()
        .position(|&count| count > 0)
        .expect("some trial was counted");
    let greatest = counts
        .iter()
        .rposition(|&count| count > 0)
        .expect("some trial was counted");
    let sharp = if n >= 4 { "sharp" } else { "long" };
    let [median, p90, p99, p999] = [500, 900, 990, 999].map(|part| quantile(counts, part, 1000));
    format!(
        "repairs {n} {k} daemon {daemon} from {start} trials {total} bound {bound} {sharp} {long} least {least} mean {}.{:02} \
         median {median} p90 {p90} p99 {p99} p999 {p999} greatest {greatest}",
        mean / 100,
        mean % 100
    )
}

fn wrong(word: &str) -> ! {
    eprintln!("repairs_peer: {word}");
    exit(1)
}

fn number<T: std::str::FromStr>(word: &str) -> T {
    word.parse().unwrap_or_else(|_| wrong(word))
}

fn main() {
    let (mut sizes, mut start, mut daemon) = (Vec::new(), "any".to_owned(), "random".to_owned());
    let (mut trials, mut seed, mut threads) = (None, 0, 1);
    let mut words = env::args().skip(1);
    while let Some(word) = words.next() {
        let mut next = || words.next().unwrap_or_else(|| wrong(&word));
        match word.as_str() {
            "--from" => start = next(),
            "--daemon" => daemon = next(),
            "--trials" => trials = Some(number(&next())),
            "--seed" => seed = number(&next()),
            "--threads" => threads = number(&next()),
            size => {
                let (n, k) = size.split_once(':').unwrap_or((size, size));
                sizes.push((number::<usize>(n), number::<u32>(k)));
            }
        }
    }
    let from = match start.split_once(':') {
        Some(("faults", faults)) => Start::Faults(number(faults)),
        None if start == "any" => Start::Any,
        None if start == "all" => Start::All,
        _ => wrong(&start),
    };
    let by = match daemon.as_str() {
        "first" => Daemon::First,
        "last" => Daemon::Last,
        "random" => Daemon::Random,
        "turn" => Daemon::Turn,
        "slow" => Daemon::Slow,
        "groups" => Daemon::Groups,
        other => wrong(other),
    };
    let trials = trials.unwrap_or(if start == "all" { 1 } else { 1000 });
    let study = Study {
        start: from,
        daemon: by,
        trials,
        seed,
        threads,
    };
    for (n, k) in sizes {
        println!("{}", line(n, k, &start, &daemon, &study.measure(n, k)));
    }
}
