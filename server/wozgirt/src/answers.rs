//! What the server says, compared with what it was asked: the verb, and the lock.

/// What is asked about a lock.
#[derive(Debug, Clone, Copy, PartialEq, Eq)]
pub enum Verb {
    /// To hold it.
    Acquire,
    /// To hold it at once or not at all.
    Try,
    /// To wait no longer.
    Cancel,
    /// To end the hold.
    Release,
}

impl Verb {
    /// The word of the line that asks.
    pub fn word(self) -> &'static str {
        match self {
            Verb::Acquire => "acquire",
            Verb::Try => "try",
            Verb::Cancel => "cancel",
            Verb::Release => "release",
        }
    }
}

/// A line about one lock, or about the connection.
#[derive(Debug, Clone, Copy, PartialEq, Eq)]
pub enum Answer<'a> {
    /// It is held, with this token.
    Granted(u64),
    /// It will be granted later.
    Waiting,
    /// Another holds it.
    Busy,
    /// It is waited for no longer.
    Cancelled,
    /// It is held no longer.
    Released,
    /// The first word is why.
    Refused(&'a str),
    /// The server heard a ping.
    Pong,
}

impl<'a> Answer<'a> {
    /// Reads a line that can only be about this lock, or about none. Nothing if it is about another, or no such line.
    pub fn read(line: &'a str, lock: &str) -> Option<Answer<'a>> {
        let (word, rest) = line.split_once(' ').unwrap_or((line, ""));
        if word == "refused" {
            return refused(rest, lock);
        }
        if line == "pong" {
            return Some(Answer::Pong);
        }
        let rest = rest.strip_prefix(lock)?;
        let number = || rest.strip_prefix(' ').and_then(|number| number.parse().ok());
        match word {
            "granted" => number().map(Answer::Granted),
            "waiting" => number().map(|_| Answer::Waiting),
            "busy" if rest.is_empty() => Some(Answer::Busy),
            "cancelled" if rest.is_empty() => Some(Answer::Cancelled),
            "released" if rest.is_empty() => Some(Answer::Released),
            _ => None,
        }
    }

    /// Whether this can be the answer to such a question.
    pub fn is_to(self, verb: Verb) -> bool {
        match self {
            Answer::Granted(_) => matches!(verb, Verb::Acquire | Verb::Try),
            Answer::Waiting => verb == Verb::Acquire,
            Answer::Busy => verb == Verb::Try,
            Answer::Cancelled => verb == Verb::Cancel,
            Answer::Released => verb == Verb::Release,
            Answer::Refused(_) => true,
            Answer::Pong => false,
        }
    }
}

/// `WHY`, `WHY NAME`, or `past NUMBER`, where a number comes too late.
fn refused<'a>(rest: &'a str, lock: &str) -> Option<Answer<'a>> {
    let (why, about) = rest.split_once(' ').unwrap_or((rest, lock));
    (about == lock || why == "past").then_some(Answer::Refused(why))
}

#[cfg(test)]
mod tests {
    use super::*;

    #[test]
    fn lines_of_this_lock() {
        for (line, answer, verb) in [
            ("granted a 7", Answer::Granted(7), Some(Verb::Acquire)),
            ("granted a 18446744073709551615", Answer::Granted(u64::MAX), Some(Verb::Try)),
            ("waiting a 0", Answer::Waiting, Some(Verb::Acquire)),
            ("busy a", Answer::Busy, Some(Verb::Try)),
            ("cancelled a", Answer::Cancelled, Some(Verb::Cancel)),
            ("released a", Answer::Released, Some(Verb::Release)),
            ("refused waiter a", Answer::Refused("waiter"), Some(Verb::Cancel)),
            ("refused syntax", Answer::Refused("syntax"), Some(Verb::Try)),
            ("refused many a", Answer::Refused("many"), Some(Verb::Acquire)),
            ("refused names a", Answer::Refused("names"), Some(Verb::Try)),
            ("refused past 9", Answer::Refused("past"), Some(Verb::Release)),
            ("pong", Answer::Pong, None),
        ] {
            assert_eq!(Answer::read(line, "a"), Some(answer), "{line}");
            let verbs = [Verb::Acquire, Verb::Try, Verb::Cancel, Verb::Release];
            assert!(verb.map_or(!verbs.iter().any(|verb| answer.is_to(*verb)), |verb| answer.is_to(verb)), "{line}");
        }
        assert!(!Answer::Granted(1).is_to(Verb::Release) && !Answer::Waiting.is_to(Verb::Try));
    }

    #[test]
    fn other_lines() {
        for line in [
            "granted b 7",
            "granted ab 7",
            "granted a",
            "granted a x",
            "granted a 7 8",
            "granted a 18446744073709551616",
            "waiting a",
            "busy b",
            "busy a 1",
            "released",
            "cancelled ab",
            "refused holds b",
            "pong a",
            "stats a 8 0 1 0 1",
            "",
        ] {
            assert_eq!(Answer::read(line, "a"), None, "{line}");
        }
    }
}
