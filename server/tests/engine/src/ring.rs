//! A ring of machines as the journal has it: the plain rules, without any proof.

use std::fmt::Write as _;

/// The seats that the journal names: a hold, its end by a release or by a leave, one that is carried on, a fault, a repair.
pub const HOLD: u64 = 0;
pub const RELEASED: u64 = 1;
pub const LEFT: u64 = 2;
/// That of a hold which is open when a segment begins.
pub const CARRIED: u64 = 3;
const FAULT: u64 = 8;
const REPAIR: u64 = 9;

pub struct Ring {
    pub number: usize,
    pub k: u64,
    values: Vec<u64>,
    /// The first privileged machine, and whether there is no other.
    pub first: usize,
    is_settled: bool,
    events: u64,
    pub passes: u64,
    calm: u64,
    pub amount: u64,
}

impl Ring {
    pub fn new(number: usize, n: usize, k: u64) -> Ring {
        let values = vec![0; n];
        Ring { number, k, values, first: 0, is_settled: true, events: 0, passes: 0, calm: 0, amount: 0 }
    }

    pub fn n(&self) -> usize {
        self.values.len()
    }

    /// The values as the journal has them, each with a space in front.
    pub fn values_text(&self) -> String {
        self.values.iter().map(|value| format!(" {value}")).collect()
    }

    fn is_privileged(&self, i: usize) -> bool {
        let left = self.values[if i == 0 { self.n() - 1 } else { i - 1 }];
        (left == self.values[i]) == (i == 0)
    }

    /// The least machine that is not privileged.
    pub fn idle(&self) -> usize {
        (0..self.n()).find(|&i| !self.is_privileged(i)).unwrap_or(0)
    }

    fn look(&mut self) {
        let mut found = (0..self.n()).filter(|&i| self.is_privileged(i));
        let first = found.next().unwrap_or(0); // some machine always is
        self.is_settled = found.next().is_none();
        self.first = first;
    }

    /// The move of the first privileged machine, without its line.
    pub fn move_first(&mut self, order: u64) {
        let m = self.first;
        self.values[m] = if m == 0 { (self.values[0] + 1) % self.k } else { self.values[m - 1] };
        self.events += 1;
        self.passes += 1;
        self.calm += 1;
        self.amount = self.amount.saturating_add(order);
        self.look();
    }

    /// The same with its line, for a hold: the number of the grant.
    pub fn grant(&mut self, order: u64, journal: &mut String) -> u64 {
        self.pass(HOLD, order, journal);
        self.passes
    }

    fn pass(&mut self, seat: u64, order: u64, journal: &mut String) {
        let m = self.first;
        self.move_first(order);
        let _ = writeln!(journal, "{} p {seat} {m} {order} g {} {}", self.number, self.passes, self.amount);
    }

    pub fn repair(&mut self, journal: &mut String) {
        while !self.is_settled {
            self.pass(REPAIR, 0, journal);
        }
    }

    /// Writes a value, without its line: the old one.
    pub fn write(&mut self, machine: usize, value: u64) -> u64 {
        let old = std::mem::replace(&mut self.values[machine], value);
        self.events += 1;
        self.calm = 0;
        self.look();
        old
    }

    pub fn corrupt(&mut self, machine: usize, value: u64, journal: &mut String) -> u64 {
        let old = self.write(machine, value);
        let _ = writeln!(journal, "{} c {FAULT} {machine} {value} {old}", self.number);
        self.repair(journal);
        old
    }

    pub fn survey(&self, seat: u64, journal: &mut String) {
        let _ = writeln!(journal, "{} s {seat} {} 1 {} {} 0", self.number, self.events, self.first, self.calm);
    }
}
