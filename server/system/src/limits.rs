//! How many files may be open.

use crate::calls::{limit_of_files, set_limit_of_files, LimitCount};
use std::io;

/// Lets this process have this many files open, or as many as it may: how many that are. One that may have more keeps that.
pub fn permit_files(wanted: u64) -> io::Result<u64> {
    let wanted = LimitCount::try_from(wanted).unwrap_or(LimitCount::MAX);
    let mut limit = limit_of_files()?;
    if limit.rlim_cur < wanted.min(limit.rlim_max) {
        limit.rlim_cur = wanted.min(limit.rlim_max);
        set_limit_of_files(&limit)?;
    }
    #[allow(clippy::useless_conversion)] // of 64 bits already, on most machines
    Ok(limit.rlim_cur.into())
}

#[cfg(test)]
mod tests {
    use super::*;

    #[test]
    fn it_is_raised_as_far_as_it_may_be_and_never_lowered() {
        let before = permit_files(0).unwrap();
        let most = permit_files(u64::MAX).unwrap();
        assert!(before > 0 && most >= before);
        assert_eq!(permit_files(1).unwrap(), most);
    }
}
