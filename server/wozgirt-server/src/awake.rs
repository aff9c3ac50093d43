//! Whether the server stays awake for a moment before it sleeps: to be woken takes longer than a quick engine takes to answer.

use std::thread;
use std::time::Duration;

/// How long it looks before it sleeps.
const MOMENT: Duration = Duration::from_micros(20);
/// A look in vain takes as much of the processor as some that find something save, so it loses what these earn. With nothing left, one
/// is tried each time after this many sleeps.
const MOST_EARNED: u32 = 16;
const LOSS: u32 = 4;
const BETWEEN_TRIES: u32 = 256;

/// For whom it looks.
#[derive(Debug, Clone, Copy, PartialEq, Eq)]
pub enum For {
    /// The engine, which has lines.
    Engine,
    /// Clients that got an answer.
    Clients,
}

/// What looks have found lately.
#[derive(Debug, Clone, Copy)]
struct Worth {
    earned: u32,
    sleeps: u32,
}

impl Worth {
    const FIRST: Worth = Worth { earned: MOST_EARNED, sleeps: 0 };

    fn is_any(&mut self) -> bool {
        self.sleeps = if self.earned > 0 { 0 } else { (self.sleeps + 1) % BETWEEN_TRIES };
        self.sleeps == 0
    }

    fn note(&mut self, is_found: bool) {
        let earned = if is_found { self.earned + 1 } else { self.earned.saturating_sub(LOSS) };
        self.earned = earned.min(MOST_EARNED);
    }
}

/// Whether a look is worth its time.
#[derive(Debug)]
pub struct Awake {
    /// On one processor nobody gets on while the server looks.
    has_others: bool,
    engine: Worth,
    clients: Worth,
}

impl Awake {
    /// Nothing was looked for yet.
    pub fn new() -> Awake {
        Awake::on(thread::available_parallelism().map_or(1, usize::from))
    }

    fn on(processors: usize) -> Awake {
        Awake { has_others: processors > 1, engine: Worth::FIRST, clients: Worth::FIRST }
    }

    fn worth(&mut self, whom: For) -> &mut Worth {
        match whom {
            For::Engine => &mut self.engine,
            For::Clients => &mut self.clients,
        }
    }

    /// How long is looked, if at all, before a sleep of at most this time.
    pub fn look(&mut self, whom: For, sleep: Duration) -> Option<Duration> {
        (self.has_others && sleep >= MOMENT && self.worth(whom).is_any()).then_some(MOMENT)
    }

    /// What came of it.
    pub fn note(&mut self, whom: For, is_found: bool) {
        self.worth(whom).note(is_found);
    }
}

#[cfg(test)]
mod tests {
    use super::*;

    const LONG: Duration = Duration::from_secs(1);

    /// How many of this many sleeps begin with a look, none of which finds anything.
    fn in_vain(awake: &mut Awake, whom: For, sleeps: u32) -> usize {
        (0..sleeps).filter(|_| awake.look(whom, LONG).map(|_| awake.note(whom, false)).is_some()).count()
    }

    #[test]
    fn looks_that_find_nothing_end() {
        let mut awake = Awake::on(2);
        assert_eq!(in_vain(&mut awake, For::Engine, 100), 4);
        assert_eq!(in_vain(&mut awake, For::Engine, 10 * BETWEEN_TRIES), 10);
        assert_eq!(awake.look(For::Clients, LONG), Some(MOMENT));
    }

    #[test]
    fn those_that_find_something_begin_them_anew() {
        let mut awake = Awake::on(2);
        in_vain(&mut awake, For::Engine, 100);
        (0..9).for_each(|_| awake.note(For::Engine, true));
        assert_eq!(in_vain(&mut awake, For::Engine, 100), 3);
    }

    #[test]
    fn one_in_four_in_vain_is_too_many() {
        let mut awake = Awake::on(2);
        let mut looks = 0;
        for sleep in 0..1000 {
            if awake.look(For::Clients, LONG).is_some() {
                looks += 1;
                awake.note(For::Clients, sleep % 4 > 0);
            }
        }
        assert!(looks < 100);
    }

    #[test]
    fn one_processor_is_for_others() {
        let mut awake = Awake::on(1);
        assert_eq!(in_vain(&mut awake, For::Engine, 10), 0);
        assert_eq!(Awake::on(2).look(For::Engine, MOMENT / 2), None);
    }
}
