//! How the memory of `--memory` is shared out.
//!
//! A fixed part is for the lines on their way to the engine and into the log, and for visitors of the page, each of which has a bound
//! of its own. All else is divided among the places of connections: so whatever somebody sends, and however slowly somebody reads,
//! the part of the others is there. What the locks and their names take, and the program itself, comes on top.

use crate::places::Places;
use crate::settings::Settings;

const MIB: usize = 1 << 20;
/// For the engine, the log and the page.
const FIXED: usize = 8 * MIB;
/// What a connection takes in addition to what it leaves unread: what it said and was not taken yet, lines that wait for the engine.
const PLACE: usize = 36 << 10;
/// How much a connection may leave unread. The list that has it grows by doubling, so it takes twice that.
const LEAST_UNREAD: usize = 4 << 10;
const MOST_UNREAD: usize = 64 << 10;
/// What is taken if nothing is said, in MiB, unless the connections need more.
const USUAL: usize = 128;

/// How many bytes a connection may leave unread; or how many MiB `--memory` has to have at least.
pub fn most_unread(settings: &Settings) -> Result<usize, usize> {
    let places = Places::count(settings);
    let needed = FIXED.saturating_add(places.saturating_mul(PLACE + 2 * LEAST_UNREAD)).div_ceil(MIB);
    let memory = settings.limits.memory.unwrap_or(USUAL.max(needed));
    if memory < needed {
        return Err(needed);
    }
    let each = (memory.saturating_mul(MIB) - FIXED) / places;
    Ok(((each - PLACE) / 2).clamp(LEAST_UNREAD, MOST_UNREAD))
}

#[cfg(test)]
mod tests {
    use super::*;
    use crate::settings::{parse, Words};

    fn most(words: &str) -> Result<usize, usize> {
        match parse(format!("--journal j {words}").split(' ').filter(|word| !word.is_empty()).map(String::from), None) {
            Ok(Words::Run(settings)) => most_unread(&settings),
            other => panic!("{other:?}"),
        }
    }

    #[test]
    fn each_place_has_its_part() {
        assert!(most("").unwrap() > 32 << 10);
        assert!(most("").unwrap() > most("--tcp 127.0.0.1:0").unwrap());
        assert_eq!(most("--connections 20"), Ok(MOST_UNREAD));
        assert!((LEAST_UNREAD..2 * LEAST_UNREAD).contains(&most("--connections 20000").unwrap()));
        let needed = most("--connections 20000 --memory 9").unwrap_err();
        assert!(most(&format!("--connections 20000 --memory {needed}")).is_ok());
        assert!(most(&format!("--connections 20000 --memory {}", needed - 1)).is_err());
    }
}
