//! Trials: a start, and a daemon that chooses until one machine is privileged.

use crate::pcg::Pcg32;
use crate::ring::Ring;
use std::ops::Range;
use std::thread;

#[derive(Clone, Copy)]
pub enum Start {
    Any,
    Faults(u32),
    All,
}

#[derive(Clone, Copy)]
pub enum Daemon {
    First,
    Last,
    Random,
    Turn,
    Slow,
    Groups,
}

pub struct Study {
    pub start: Start,
    pub daemon: Daemon,
    pub trials: u64,
    pub seed: u64,
    pub threads: u64,
}

impl Study {
    /// How often each number of passes occurs: each thread counts an equal part of the trials.
    pub fn measure(&self, n: usize, k: u32) -> Vec<u64> {
        let states = match self.start {
            Start::All => u64::from(k).pow(n as u32 - 1),
            _ => 1,
        };
        let begin = |part| self.trials * states * part / self.threads;
        thread::scope(|scope| {
            let others: Vec<_> = (1..self.threads)
                .map(|part| scope.spawn(move || self.count(n, k, begin(part)..begin(part + 1))))
                .collect();
            let counts = self.count(n, k, 0..begin(1));
            others.into_iter().fold(counts, |counts, other| {
                let more = other.join().expect("no thread panics");
                counts.iter().zip(more).map(|(a, b)| a + b).collect()
            })
        })
    }

    fn count(&self, n: usize, k: u32, trials: Range<u64>) -> Vec<u64> {
        let mut counts = vec![0; (n - 2) * (3 * n + 1) / 2 + 1];
        let mut ring = Ring::new(n, k);
        for trial in trials {
            let mut words = Pcg32::new(self.seed, trial);
            self.begin(trial, &mut words, &mut ring);
            counts[repair(self.daemon, &mut words, &mut ring)] += 1;
        }
        counts
    }

    fn begin(&self, trial: u64, words: &mut Pcg32, ring: &mut Ring) {
        let (n, k) = (ring.n() as u32, ring.k());
        match self.start {
            Start::Any => ring.start(|_| words.below(k)),
            Start::Faults(faults) => {
                let place = words.below(n) as usize;
                let mut left = faults;
                ring.start(|machine| {
                    if words.below(n - machine as u32) < left {
                        left -= 1;
                        words.below(k)
                    } else {
                        u32::from(machine <= place)
                    }
                });
            }
            Start::All => {
                let mut number = trial / self.trials;
                ring.start(|machine| {
                    if machine == 0 {
                        return 0;
                    }
                    let digit = number % u64::from(k);
                    number /= u64::from(k);
                    digit as u32
                });
            }
        }
    }
}

fn repair(daemon: Daemon, words: &mut Pcg32, ring: &mut Ring) -> usize {
    match daemon {
        Daemon::First => settle(ring, |ring| ring.first()),
        Daemon::Last => settle(ring, |ring| ring.last()),
        Daemon::Random => settle(ring, |ring| ring.nth(words.below(ring.count()))),
        Daemon::Turn => {
            let mut asked = 0;
            settle(ring, |ring| {
                let machine = ring.next(asked);
                asked = if machine + 1 == ring.n() {
                    0
                } else {
                    machine + 1
                };
                machine
            })
        }
        Daemon::Slow => settle(ring, Ring::slowest),
        Daemon::Groups => {
            let mut left = Vec::new();
            settle(ring, |ring| {
                if left.is_empty() {
                    draw_group(words, ring, &mut left);
                }
                left.pop().expect("a group has a member")
            })
        }
    }
}

/// Draws a group, the machine that passes next behind. Each member passes before the one to its left, so all take the values from before.
fn draw_group(words: &mut Pcg32, ring: &Ring, members: &mut Vec<usize>) {
    let is_group = |count| 0 < count && count < ring.n();
    if !(0..64).any(|_| is_group(ring.choose(|| words.word(), members))) {
        members.push(ring.first());
    }
    let left_out = (0..).zip(&*members).find(|&(at, &member)| at != member);
    let below = left_out.map_or(members.len(), |(at, _)| at);
    members.rotate_left(below);
}

/// Lets machines pass until one is privileged, and answers how many passed.
fn settle(ring: &mut Ring, mut choose: impl FnMut(&mut Ring) -> usize) -> usize {
    let mut passes = 0;
    while ring.count() > 1 {
        let machine = choose(ring);
        ring.pass(machine);
        passes += 1;
    }
    passes
}
