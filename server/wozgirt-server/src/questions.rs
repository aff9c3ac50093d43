//! How far the engine is with what it was asked, and what the server itself asks it.
//!
//! The engine answers in order. So a question of the server's own, a *mark*, shows that all lines before it are done, whosever they
//! were, of clients that are gone too. One goes to it each second, and one after each some hundred lines. A leave is one of these: each
//! lock that it frees took a line to acquire.

use crate::turns::Turns;
use std::collections::VecDeque;
use std::time::{Duration, Instant};
use wozgirt_engine::{Answer, Client, Lock, Token};

/// How many lines of all clients together should wait for the engine: what each may have there is its part of this. A new client
/// waits for as many; so there are fewer, between these, if a mark takes longer than it should, and more if half of them take a
/// small part of that.
const MOST_WANTED: usize = 1024;
const FIRST_WANTED: usize = 128;
const LEAST_WANTED: usize = 32;
const LONG: Duration = Duration::from_millis(5);
/// How many lines lie between marks at most, and how many times at least a mark comes in as many as are wanted.
const BETWEEN_MARKS: usize = 128;
const LEAST_MARKS: usize = 4;
/// How long it takes at most to the next mark.
const PERIOD: Duration = Duration::from_secs(1);

/// A question of the server's own, which the engine has not answered.
#[derive(Debug, PartialEq, Eq)]
pub enum Own {
    /// How this lock is, when the engine starts.
    Begin(Lock),
    /// Which locks are held that are not in the list, when it starts: its state, of which each line comes by itself.
    State,
    /// Whether it is there: how many lines were asked by then, how many it had before it, and when.
    Mark(u64, usize, Instant),
    /// An operator ends a hold that was open when the engine started, and since when.
    End(Client, Lock, Token, Instant),
}

impl Own {
    fn is_of_a_start(&self) -> bool {
        matches!(self, Own::Begin(_) | Own::State)
    }

    /// When it was asked. Those of a start were when the engine was started.
    fn asked(&self) -> Option<Instant> {
        match self {
            Own::Mark(_, _, asked) | Own::End(.., asked) => Some(*asked),
            Own::Begin(_) | Own::State => None,
        }
    }
}

/// What the engine was asked since it started.
#[derive(Debug)]
pub struct Questions {
    own: VecDeque<Own>,
    asked: u64,
    done: u64,
    marked: u64,
    last_mark: Instant,
    wanted: usize,
    wanted_since: Instant,
    /// The clients that ask when there is room for more.
    pub turns: Turns,
    /// How many of these are beginnings.
    begins: usize,
    /// How many clients have lines there.
    pub askers: usize,
}

impl Questions {
    /// Nothing was asked.
    pub fn new(now: Instant) -> Questions {
        Questions {
            turns: Turns::default(),
            own: VecDeque::new(),
            asked: 0,
            done: 0,
            marked: 0,
            last_mark: now,
            wanted: FIRST_WANTED,
            wanted_since: now,
            begins: 0,
            askers: 0,
        }
    }

    /// A line goes to the engine: whether a mark is to go after it.
    pub fn ask(&mut self) -> bool {
        self.asked += 1;
        self.asked - self.marked >= self.between_marks() as u64
    }

    fn between_marks(&self) -> usize {
        BETWEEN_MARKS.min(self.wanted / LEAST_MARKS)
    }

    /// What it was asked, in lines.
    pub fn asked(&self) -> u64 {
        self.asked
    }

    /// A question of the server's own goes to the engine.
    pub fn put(&mut self, own: Own) {
        self.begins += usize::from(own.is_of_a_start());
        self.own.push_back(own);
    }

    /// A mark goes to the engine now.
    pub fn mark(&mut self, now: Instant) {
        self.put(Own::Mark(self.asked, self.waiting(), now));
        (self.marked, self.last_mark) = (self.asked, now);
    }

    /// When the next mark is due, unless a question of the server's own is unanswered, which shows the same. Nobody waits for it: fewer lines than lie between marks were asked
    /// since the last one, so there is room.
    pub fn next_mark(&self) -> Option<Instant> {
        self.own.is_empty().then_some(self.last_mark + PERIOD)
    }

    /// What the engine's answer to client 0 is the answer to, if it can be one.
    pub fn answered(&mut self, answer: &Answer<'_>, now: Instant) -> Option<Own> {
        if self.is_for_state() {
            return None; // each line of that is heard by itself
        }
        let own = self.own.pop_front()?;
        let is_right = match (&own, answer) {
            (Own::Begin(lock), Answer::Stats(stats)) => *lock == stats.lock,
            (Own::Mark(..), Answer::Stats(_)) => true,
            (Own::End(_, lock, ..), Answer::Released { lock: released }) => lock == released,
            (Own::Mark(..) | Own::End(..), Answer::Refused { .. }) => true,
            _ => false,
        };
        if let Own::Mark(lines, before, asked) = own {
            self.done = lines;
            if asked >= self.wanted_since {
                self.note_time(before, now.saturating_duration_since(asked), now);
            }
        }
        self.begins -= usize::from(own.is_of_a_start());
        is_right.then_some(own)
    }

    /// Whether the engine reports its state now.
    pub fn is_for_state(&self) -> bool {
        matches!(self.own.front(), Some(Own::State))
    }

    /// The engine has reported all of it.
    pub fn state_is_over(&mut self) {
        if self.is_for_state() {
            self.own.pop_front();
            self.begins -= 1;
        }
    }

    /// A mark that had this many lines before it took this long.
    fn note_time(&mut self, before: usize, took: Duration, now: Instant) {
        let wanted = match took {
            _ if took > LONG => (self.wanted / 2).max(LEAST_WANTED),
            _ if took < LONG / 4 && before >= self.wanted / 2 => (self.wanted * 2).min(MOST_WANTED),
            _ => return,
        };
        (self.wanted, self.wanted_since) = (wanted, now);
    }

    /// Whether the engine has reported how all locks are.
    pub fn has_begun(&self) -> bool {
        self.begins == 0
    }

    /// How many lines it may have before it.
    pub fn waiting(&self) -> usize {
        usize::try_from(self.asked - self.done).unwrap_or(usize::MAX)
    }

    /// Whether it has so little that it may have one more line.
    pub fn has_room(&self) -> bool {
        self.waiting() < self.wanted
    }

    /// Whether a client that has this many lines there has less than its part, and never more than `most`.
    pub fn has_part(&self, asked: usize, most: usize) -> bool {
        asked < (self.wanted / self.askers.max(1)).clamp(1, most)
    }

    /// Whether a client with this tag, and this many lines there, may have one more now: one that has none there, and asks no more than
    /// its part, always.
    pub fn permits(&self, asked: usize, tag: u64) -> bool {
        asked == 0 && self.turns.is_light(tag) || self.has_room() && self.turns.is_next(tag)
    }

    /// Since when the oldest question of the server's own is unanswered.
    pub fn oldest(&self) -> Option<Instant> {
        self.own.iter().find_map(Own::asked)
    }

    /// The engine is gone.
    pub fn forget(&mut self, now: Instant) {
        let mut turns = std::mem::take(&mut self.turns);
        turns.forget_leaving();
        *self = Questions { askers: self.askers, turns, ..Questions::new(now) };
    }
}

#[cfg(test)]
mod tests {
    use super::*;
    use crate::turns::Turn;
    use wozgirt_engine::Stats;

    fn lock(name: &str) -> Lock {
        name.parse().unwrap()
    }

    fn stats(lock: &str) -> Answer<'_> {
        Answer::Stats(Stats { lock, machines: 8, waiters: 0, passes: 0, holder: 0, token: 0 })
    }

    #[test]
    fn a_mark_shows_what_is_done() {
        let now = Instant::now();
        let mut questions = Questions::new(now);
        assert_eq!(questions.next_mark(), Some(now + PERIOD));
        assert_eq!((1..=32).filter(|_| questions.ask()).count(), 1);
        questions.mark(now);
        assert!(!questions.ask());
        assert_eq!((questions.waiting(), questions.next_mark(), questions.oldest()), (33, None, Some(now)));
        assert_eq!(questions.answered(&stats("a"), now), Some(Own::Mark(32, 32, now)));
        assert_eq!((questions.waiting(), questions.oldest()), (1, None));
        assert_eq!(questions.answered(&stats("a"), now), None);
    }

    #[test]
    fn each_question_of_its_own_shows_whether_the_engine_answers() {
        let now = Instant::now();
        let later = now + PERIOD;
        let mut questions = Questions::new(now);
        questions.put(Own::End(7, lock("a"), 3, now));
        assert_eq!((questions.next_mark(), questions.oldest()), (None, Some(now)));
        questions.mark(later);
        assert_eq!(questions.oldest(), Some(now));
        assert!(questions.answered(&Answer::Released { lock: "a" }, later).is_some());
        assert_eq!(questions.oldest(), Some(later));
    }

    #[test]
    fn the_beginning_is_over_with_the_last_lock() {
        let now = Instant::now();
        let mut questions = Questions::new(now);
        questions.put(Own::Begin(lock("a")));
        questions.put(Own::Begin(lock("b")));
        assert!(questions.answered(&stats("a"), now).is_some() && !questions.has_begun());
        assert!(questions.answered(&stats("b"), now).is_some() && questions.has_begun());
        questions.put(Own::Begin(lock("b")));
        assert!(questions.answered(&stats("a"), now).is_none());
    }

    #[test]
    fn a_state_is_over_when_all_of_it_was_reported() {
        let now = Instant::now();
        let mut questions = Questions::new(now);
        questions.put(Own::Begin(lock("a")));
        questions.put(Own::State);
        assert!(!questions.is_for_state() && questions.answered(&stats("a"), now).is_some());
        assert!(questions.is_for_state() && !questions.has_begun() && questions.next_mark().is_none());
        assert_eq!(questions.answered(&stats("a"), now), None);
        questions.state_is_over();
        questions.state_is_over();
        assert!(questions.has_begun() && !questions.is_for_state());
    }

    #[test]
    fn who_asks_has_a_part() {
        let mut questions = Questions::new(Instant::now());
        for (askers, part) in [(0, 100), (1, 100), (20, 6), (5000, 1)] {
            questions.askers = askers;
            assert_eq!((0..1000).filter(|&asked| questions.has_part(asked, 100)).count(), part);
        }
        let newcomer = questions.turns.newcomer();
        assert!(questions.permits(1, 0) && questions.permits(0, newcomer));
        for _ in 0..FIRST_WANTED {
            assert!(questions.has_room());
            questions.ask();
        }
        assert!(!questions.has_room());
        let permits = [(0, 0), (1, 0), (0, newcomer)].map(|(asked, tag)| questions.permits(asked, tag));
        assert_eq!(permits, [true, false, false]);
    }

    #[test]
    fn of_a_slow_engine_less_is_wanted() {
        let now = Instant::now();
        let mut questions = Questions::new(now);
        (0..9).for_each(|_| questions.note_time(1, 2 * LONG, now));
        assert_eq!(questions.wanted, LEAST_WANTED);
        questions.note_time(LEAST_WANTED / 2, LONG / 8, now);
        assert_eq!(questions.wanted, 2 * LEAST_WANTED);
        (0..9).for_each(|_| questions.note_time(LEAST_WANTED / 2, LONG / 8, now));
        assert_eq!(questions.wanted, 2 * LEAST_WANTED);
        (0..9).for_each(|_| questions.note_time(MOST_WANTED, LONG / 8, now));
        assert_eq!(questions.wanted, MOST_WANTED);
    }

    #[test]
    fn when_all_marks_are_answered_there_is_room() {
        let now = Instant::now();
        let mut questions = Questions::new(now);
        questions.mark(now);
        (1..FIRST_WANTED / LEAST_MARKS).for_each(|_| assert!(!questions.ask()));
        questions.answered(&stats("a"), now + 2 * LONG);
        assert_eq!((questions.waiting(), questions.wanted, questions.has_room()), (31, 64, true));
        questions.turns.line_up(7, 0, Turn::Gone(None));
        assert_eq!(questions.next_mark(), Some(now + PERIOD));
    }

    #[test]
    fn one_change_is_waited_for_before_the_next() {
        let begun = Instant::now();
        let mut questions = Questions::new(begun);
        (0..4).for_each(|_| {
            questions.mark(begun);
        });
        for _ in 0..4 {
            questions.answered(&stats("a"), begun + 2 * LONG);
        }
        assert_eq!(questions.wanted, FIRST_WANTED / 2);
    }
}
