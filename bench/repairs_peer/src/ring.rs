//! A ring of machines, and the set of those that are privileged, kept up to date with each move.

pub struct Ring {
    values: Vec<u16>,
    k: u32,
    /// A bit for each machine.
    privileged: Vec<u64>,
    count: u32,
}

impl Ring {
    pub fn new(n: usize, k: u32) -> Self {
        let values = vec![0; n];
        let privileged = vec![0; n.div_ceil(64)];
        Ring {
            values,
            k,
            privileged,
            count: 0,
        }
    }

    pub fn n(&self) -> usize {
        self.values.len()
    }

    pub fn k(&self) -> u32 {
        self.k
    }

    /// How many machines are privileged.
    pub fn count(&self) -> u32 {
        self.count
    }

    /// Begins anew with these values.
    pub fn start(&mut self, mut value_of: impl FnMut(usize) -> u32) {
        for (machine, value) in self.values.iter_mut().enumerate() {
            *value = value_of(machine) as u16;
        }
        self.privileged.fill(0);
        self.count = 0;
        let mut left = None;
        for (machine, &value) in self.values.iter().enumerate() {
            let is_privileged = match left {
                None => self.values[self.values.len() - 1] == value,
                Some(left) => left != value,
            };
            self.privileged[machine / 64] |= u64::from(is_privileged) << (machine % 64);
            self.count += u32::from(is_privileged);
            left = Some(value);
        }
    }

    pub fn is_privileged(&self, machine: usize) -> bool {
        self.privileged[machine / 64] >> (machine % 64) & 1 == 1
    }

    /// Moves a machine that is privileged. Then it is not, and the one to its right may be.
    pub fn pass(&mut self, machine: usize) {
        let value = match machine.checked_sub(1) {
            None => {
                let next = u32::from(self.values[0]) + 1;
                if next == self.k { 0 } else { next as u16 }
            }
            Some(left) => self.values[left],
        };
        self.values[machine] = value;
        self.privileged[machine / 64] &= !(1 << (machine % 64));
        self.count -= 1;
        let (right, is_privileged) = match self.values.get(machine + 1) {
            Some(&right) => (machine + 1, right != value),
            None => (0, self.values[0] == value),
        };
        let (word, bit) = (&mut self.privileged[right / 64], 1 << (right % 64));
        let was_privileged = *word & bit != 0;
        if is_privileged != was_privileged {
            *word ^= bit;
            if is_privileged {
                self.count += 1
            } else {
                self.count -= 1
            }
        }
    }

    pub fn first(&self) -> usize {
        self.from_word(0).expect("a machine is always privileged")
    }

    pub fn last(&self) -> usize {
        let word = self
            .privileged
            .iter()
            .rposition(|&word| word != 0)
            .expect("a machine is always privileged");
        word * 64 + 63 - self.privileged[word].leading_zeros() as usize
    }

    /// The privileged machine with this many of them below it.
    pub fn nth(&self, mut place: u32) -> usize {
        for (at, &word) in self.privileged.iter().enumerate() {
            let ones = word.count_ones();
            if place < ones {
                return at * 64 + nth_bit(word, place);
            }
            place -= ones;
        }
        unreachable!("fewer machines are privileged")
    }

    /// Those of the privileged machines whose bit is set, of 32 machines in each word. Returns how many there are.
    pub fn choose(&self, mut next_word: impl FnMut() -> u32, members: &mut Vec<usize>) -> usize {
        members.clear();
        for (at, &word) in self.privileged.iter().enumerate() {
            let mut bits = u64::from(next_word());
            if at * 64 + 32 < self.n() {
                bits |= u64::from(next_word()) << 32;
            }
            let mut chosen = word & bits;
            while chosen != 0 {
                members.push(at * 64 + chosen.trailing_zeros() as usize);
                chosen &= chosen - 1;
            }
        }
        members.len()
    }

    /// The first privileged machine that is met from this one on, around the ring.
    pub fn next(&self, machine: usize) -> usize {
        let word = self.privileged[machine / 64] >> (machine % 64);
        if word != 0 {
            return machine + word.trailing_zeros() as usize;
        }
        self.from_word(machine / 64 + 1)
            .unwrap_or_else(|| self.first())
    }

    fn from_word(&self, from: usize) -> Option<usize> {
        let at = from
            + self
                .privileged
                .get(from..)?
                .iter()
                .position(|&word| word != 0)?;
        Some(at * 64 + self.privileged[at].trailing_zeros() as usize)
    }

    /// The privileged machine whose move leaves the greatest rest; the least of these.
    pub fn slowest(&mut self) -> usize {
        let (mut slowest, mut most) = (0, None);
        for machine in 0..self.values.len() {
            if self.is_privileged(machine) {
                let rest = self.rest_after(machine);
                if most.is_none_or(|most| most < rest) {
                    (slowest, most) = (machine, Some(rest));
                }
            }
        }
        slowest
    }

    fn rest_after(&mut self, machine: usize) -> u64 {
        let (old, count) = (self.values[machine], self.count);
        let right = (machine + 1) % self.n();
        let was_privileged = self.is_privileged(right);
        self.pass(machine);
        let rest = self.rest();
        self.values[machine] = old;
        self.privileged[machine / 64] |= 1 << (machine % 64);
        if self.is_privileged(right) != was_privileged {
            self.privileged[right / 64] ^= 1 << (right % 64);
        }
        self.count = count;
        rest
    }

    /// The potential: the weight, and n times the lead; 0 if the ring is settled.
    fn rest(&self) -> u64 {
        if self.count == 1 {
            return 0;
        }
        self.weight() + self.n() as u64 * self.lead()
    }

    fn weight(&self) -> u64 {
        let mut weight = 0;
        for (at, &word) in self.privileged.iter().enumerate() {
            let mut word = if at == 0 { word & !1 } else { word };
            while word != 0 {
                weight += self.n() - at * 64 - word.trailing_zeros() as usize;
                word &= word - 1;
            }
        }
        weight as u64
    }

    fn lead(&self) -> u64 {
        let first = self.values[0];
        let prefix = self
            .values
            .iter()
            .position(|&value| value != first)
            .unwrap_or(self.n());
        if !self.values[prefix..].contains(&first) {
            return 0;
        }
        let absent =
            |step: &u32| !self.values[1..].contains(&(((u32::from(first) + step) % self.k) as u16));
        (1..self.k)
            .find(absent)
            .expect("fewer values are held than there are")
            .into()
    }
}

/// The set bit with this many set bits below it.
fn nth_bit(mut word: u64, place: u32) -> usize {
    for _ in 0..place {
        word &= word - 1;
    }
    word.trailing_zeros() as usize
}
