//! The lines by which an engine is one of several that read one log: keys with numbers, positions with digests, and the state.

use crate::locks::Locks;
use std::collections::BTreeMap;
use std::fmt::Write as _;
use std::hash::{DefaultHasher, Hasher};
use std::mem;
use wozgirt_engine::decimal;

/// What is known of a key: the last number, and the first line of its answer, if it is for the client that asked.
struct Last {
    number: u64,
    answer: String,
}

/// 64 hexadecimal digits that depend on all bytes. The proved engine has SHA-256.
pub fn digest(bytes: &[u8]) -> String {
    let part = |number: u8| {
        let mut hasher = DefaultHasher::new();
        hasher.write_u8(number);
        hasher.write(bytes);
        format!("{:016x}", hasher.finish())
    };
    (0..4).map(part).collect()
}

/// The connection with which a call or an answer begins, if a space follows it.
fn connection_of(line: &str) -> Option<u64> {
    line.split_once(' ').and_then(|(connection, _)| decimal(connection).ok())
}

pub struct Keyed {
    pub locks: Locks,
    keys: BTreeMap<u64, Last>,
    /// What was told since the last digest.
    told: String,
    /// The last position, and its digest.
    at: Option<(u64, String)>,
    /// What is to be told.
    pub output: String,
}

impl Keyed {
    pub fn new(locks: Locks) -> Keyed {
        Keyed { locks, keys: BTreeMap::new(), told: String::new(), at: None, output: String::new() }
    }

    /// One line of standard input.
    pub fn line(&mut self, line: &str) {
        let mut words = line.splitn(3, ' ');
        let (one, two, rest) = (words.next().unwrap_or(""), words.next(), words.next());
        if (one, two) == ("state", None) {
            return self.state();
        }
        let Some(Ok(number)) = two.map(decimal) else { return self.tell_all(|it| it.locks.line(line)) };
        match (one, decimal(one), rest) {
            ("at", _, None) => self.tell_digest(number),
            ("at", _, Some(digest)) => self.stand_at(number, digest.into()),
            (_, Ok(key), Some("forget")) => {
                if self.keys.get(&key).is_some_and(|last| last.number == number) {
                    self.keys.remove(&key);
                    self.note(line);
                }
            }
            (_, Ok(key), Some(rest)) => match rest.strip_prefix("did ") {
                Some(answer) => self.keep(key, number, answer.into()),
                None if connection_of(rest).is_some() => self.tell_all(|it| it.input(key, number, rest)),
                None => self.tell_all(|it| it.locks.line(line)),
            },
            _ => self.tell_all(|it| it.locks.line(line)),
        }
    }

    /// The journal gets the remark of a line that brings keys or the position back.
    fn note(&mut self, line: &str) {
        let _ = writeln!(self.locks.journal, "# {line}");
    }

    fn keep(&mut self, key: u64, number: u64, answer: String) {
        self.note(&format!("{key} {number} did {answer}"));
        self.keys.insert(key, Last { number, answer });
    }

    fn stand_at(&mut self, position: u64, digest: String) {
        self.note(&format!("at {position} {digest}"));
        self.told.clear();
        self.at = Some((position, digest));
    }

    /// The lines that bring the keys and the last position back.
    fn own_lines(&self) -> Vec<String> {
        let keys = self.keys.iter().map(|(key, last)| format!("{key} {} did {}", last.number, last.answer));
        keys.chain(self.at.iter().map(|(position, digest)| format!("at {position} {digest}"))).collect()
    }

    /// The remarks of these lines.
    pub fn remarks(&self) -> String {
        self.own_lines().iter().map(|line| format!("# {line}\n")).collect()
    }

    /// What this tells belongs to the next digest.
    fn tell_all(&mut self, does: impl FnOnce(&mut Keyed)) {
        does(self);
        let answers = mem::take(&mut self.locks.answers);
        self.told.push_str(&answers);
        self.output.push_str(&answers);
    }

    fn input(&mut self, key: u64, number: u64, input: &str) {
        match self.keys.get(&key) {
            Some(last) if number < last.number => {
                let _ = writeln!(self.locks.answers, "{key} refused past {}", last.number);
            }
            Some(last) if number == last.number => {
                if !last.answer.is_empty() {
                    let _ = writeln!(self.locks.answers, "{}", last.answer);
                }
            }
            _ => {
                self.locks.line(input);
                let first = self.locks.answers.lines().next();
                let answer = first.filter(|first| connection_of(first) == connection_of(input)).unwrap_or("").into();
                self.keep(key, number, answer);
            }
        }
    }

    fn tell_digest(&mut self, position: u64) {
        let digest = match &self.at {
            None => "0".repeat(64),
            Some((_, last)) => digest(format!("{last}{}", self.told).as_bytes()),
        };
        let _ = writeln!(self.output, "at {position} {digest}");
        self.stand_at(position, digest);
    }

    fn state(&mut self) {
        let mut lines = Vec::new();
        for lock in &self.locks.locks {
            let name = lock.name.iter();
            lines.extend(name.zip(lock.holder).map(|(name, it)| format!("hold {name} {} {}", it.token, it.client)));
        }
        for lock in &self.locks.locks {
            let Some(name) = &lock.name else { continue };
            lines.extend(lock.line.iter().map(|it| format!("{} acquire {name} {}", it.client, it.label)));
        }
        lines.extend(self.own_lines());
        for line in &lines {
            let _ = writeln!(self.output, "{line}");
        }
        let _ = writeln!(self.output, "state {}", lines.len());
    }
}

#[cfg(test)]
mod tests {
    use super::*;

    fn asked(keyed: &mut Keyed, line: &str) -> String {
        keyed.line(line);
        mem::take(&mut keyed.output)
    }

    #[test]
    fn what_was_done_is_not_done_again() {
        let mut keyed = Keyed::new(Locks::new(&[("a".parse().unwrap(), 8, 8)], None, false));
        for (line, told) in [
            ("at 0", format!("at 0 {}\n", "0".repeat(64))),
            ("7 1 7 acquire a 5", "7 granted a 1\n".into()),
            ("7 1 7 acquire a 5", "7 granted a 1\n".into()),
            ("9 1 9 acquire a 6", "9 waiting a 0\n".into()),
            ("7 2 7 release a 1", "7 released a\n9 granted a 2\n".into()),
            ("7 2 7 release a 1", "7 released a\n".into()),
            ("7 1 7 acquire a 5", "7 refused past 2\n".into()),
            ("state", {
                let zeros = "0".repeat(64);
                format!("hold a 2 9\n7 2 did 7 released a\n9 1 did 9 waiting a 0\nat 0 {zeros}\nstate 4\n")
            }),
            ("7 3 acquire a 5", "7 refused syntax\n".into()),
            ("7 3 did", "7 refused syntax\n".into()),
            ("7 2 7 release a 1", "7 released a\n".into()),
            ("8 1 9 leave", String::new()),
            ("5 1 5 acquire a 7", "5 granted a 3\n".into()),
            ("3 1 3 acquire a 8", "3 waiting a 0\n".into()),
            ("8 2 5 leave", "3 granted a 4\n".into()),
            ("8 2 5 leave", String::new()),
            ("7 2 forget", String::new()),
            ("7 1 7 cancel a", "7 refused waiter a\n".into()),
            ("7 2 7 cancel b", "7 refused lock b\n".into()),
            ("8 cancel é", "8 refused syntax\n".into()),
        ] {
            assert_eq!(asked(&mut keyed, line), told, "{line}");
        }
        assert_ne!(asked(&mut keyed, "at 4"), asked(&mut keyed, "at 4"));
        assert_eq!(asked(&mut keyed, &format!("at 9 {}", "1".repeat(64))), "");
        let digest = digest("1".repeat(64).as_bytes());
        assert_eq!(asked(&mut keyed, "at 10"), format!("at 10 {digest}\n"));
    }

    #[test]
    fn what_brings_keys_and_positions_back_is_noted() {
        let mut keyed = Keyed::new(Locks::new(&[("a".parse().unwrap(), 8, 8)], None, false));
        let lines = "7 1 7 cancel a\n7 1 7 cancel a\n9 3 did 9 busy a\n8 2 did \n9 2 forget\n9 3 forget\nstate\nat 5\n";
        for line in lines.lines() {
            keyed.line(line);
        }
        let (key, place) = ("# 7 1 did 7 refused waiter a\n", format!("# at 5 {}\n", "0".repeat(64)));
        assert_eq!(keyed.locks.journal, format!("{key}# 9 3 did 9 busy a\n# 8 2 did \n# 9 3 forget\n{place}"));
        assert_eq!(keyed.remarks(), format!("{key}# 8 2 did \n{place}"));
    }
}
