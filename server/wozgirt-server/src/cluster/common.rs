//! What all servers of a log have in common: `VERSION CHECKPOINT SEGMENT FAULTS LOCKS`, as the log has it. The list of locks may become longer:
//! a server that begins with more locks after those of the log adds them for all. Where `*` ends the list, ` MOST` follows: how many
//! locks of other names may be held. That list has its full length.

/// Whether these settings are the others with more locks after theirs.
pub fn extends(these: &str, others: &str) -> bool {
    these.strip_prefix(others).is_some_and(|more| more.starts_with(','))
}

/// Whether a server with its own settings may be in a log with these.
pub fn agrees(own: &str, log: &str) -> bool {
    own == log || extends(own, log) || extends(log, own)
}

/// The list of locks in these settings.
pub fn list(settings: &str) -> &str {
    settings.split(' ').nth(4).unwrap_or("")
}

/// How many locks of other names may be held, in these settings, if there may be any.
pub fn most_names(settings: &str) -> Option<u32> {
    settings.split(' ').nth(5)?.parse().ok()
}

#[cfg(test)]
mod tests {
    use super::*;

    #[test]
    fn longer_lists() {
        let log = "2 100 - 0 a:8:8,b:8:8";
        assert_eq!(list(log), "a:8:8,b:8:8");
        for (own, is_longer, is_agreed) in [
            ("2 100 - 0 a:8:8,b:8:8", false, true),
            ("2 100 - 0 a:8:8,b:8:8,c:8:8", true, true),
            ("2 100 - 0 a:8:8", false, true),
            ("2 100 - 0 a:8:8,b:8:80", false, false),
            ("2 100 - 0 b:8:8,a:8:8", false, false),
            ("2 100 - 1 a:8:8,b:8:8,c:8:8", false, false),
            ("2 10 - 0 a:8:8", false, false),
            ("100 - 0 a:8:8,b:8:8", false, false),
        ] {
            assert_eq!((extends(own, log), agrees(own, log)), (is_longer, is_agreed), "{own}");
        }
    }

    #[test]
    fn lists_that_end_with_any_name() {
        let log = "2 100 - 0 a:8:8,*:2:2 65536";
        assert_eq!((list(log), most_names(log), most_names("2 100 - 0 a:8:8")), ("a:8:8,*:2:2", Some(65536), None));
        for (own, is_shorter, is_agreed) in [
            ("2 100 - 0 a:8:8,*:2:2 65536", false, true),
            ("2 100 - 0 a:8:8", true, true),
            ("2 100 - 0 a:8:8,b:8:8", false, false),
            ("2 100 - 0 a:8:8,*:2:2 65535", false, false),
            ("2 100 - 0 a:8:8,*:2:2 6553", false, false),
            ("2 100 - 0 a:8:8,b:8:8,*:2:2 65536", false, false),
            ("2 100 - 0 *:2:2 65536", false, false),
        ] {
            assert_eq!(
                (extends(log, own), extends(own, log), agrees(own, log)),
                (is_shorter, false, is_agreed),
                "{own}"
            );
        }
    }
}
