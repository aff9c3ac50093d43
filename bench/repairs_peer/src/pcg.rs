//! PCG32 (O'Neill), and numbers below a bound, each as likely as each other.

const MULTIPLIER: u64 = 6_364_136_223_846_793_005;
const REDRAW_LIMIT: u32 = 63;

pub struct Pcg32 {
    state: u64,
    increment: u64,
}

impl Pcg32 {
    pub fn new(seed: u64, stream: u64) -> Self {
        let increment = stream << 1 | 1;
        let state = seed.wrapping_add(increment);
        let mut words = Pcg32 { state, increment };
        words.step();
        words
    }

    fn step(&mut self) {
        self.state = self
            .state
            .wrapping_mul(MULTIPLIER)
            .wrapping_add(self.increment);
    }

    pub fn word(&mut self) -> u32 {
        let old = self.state;
        self.step();
        (((old >> 18 ^ old) >> 27) as u32).rotate_right((old >> 59) as u32)
    }

    /// A number below `count`: the rest of a word, where words of a block that is not whole are passed over.
    pub fn below(&mut self, count: u32) -> u32 {
        for _ in 0..REDRAW_LIMIT {
            let word = self.word();
            let rest = word % count;
            if (word - rest).checked_add(count - 1).is_some() {
                return rest;
            }
        }
        self.word() % count
    }
}
