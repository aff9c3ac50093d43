//! Moments, in UTC.

use std::fmt;
use std::str::FromStr;
use std::time::{SystemTime, UNIX_EPOCH};

/// How many seconds a day has: UTC leaves leap seconds out, as the system's clock does.
pub const SECONDS_OF_DAY: u64 = 86_400;
const MICROS: u64 = 1_000_000;
/// Days of 400 years, and those from the first of March of the year 0 to the beginning of 1970.
const DAYS_OF_ERA: u64 = 146_097;
const DAYS_BEFORE: u64 = 719_468;
/// The last year whose moments are read and written: it has four digits.
const LAST_YEAR: u64 = 9999;

/// A moment, in microseconds since the beginning of 1970. It is written `2026-11-24T14:08:09.000017Z`, or with `{:.0}` without parts of a
/// second.
#[derive(Debug, Clone, Copy, PartialEq, Eq, PartialOrd, Ord, Hash)]
pub struct Moment(u64);

impl Moment {
    /// Now, as the system's clock has it.
    pub fn now() -> Moment {
        let since = SystemTime::now().duration_since(UNIX_EPOCH).unwrap_or_default();
        Moment(u64::try_from(since.as_micros()).unwrap_or(u64::MAX))
    }

    /// This many seconds, and microseconds, after the beginning of 1970.
    pub fn of(seconds: u64, micros: u64) -> Moment {
        Moment(seconds.saturating_mul(MICROS).saturating_add(micros))
    }

    /// Whole seconds since the beginning of 1970.
    pub fn seconds(self) -> u64 {
        self.0 / MICROS
    }

    /// This many seconds earlier.
    pub fn earlier(self, seconds: u64) -> Moment {
        Moment(self.0.saturating_sub(seconds.saturating_mul(MICROS)))
    }
}

/// Whole days from the beginning of 1970 to a day of the calendar, if there is one.
pub fn days_of(year: u64, month: u64, day: u64) -> Option<u64> {
    let is_leap = year % 4 == 0 && (year % 100 > 0 || year % 400 == 0);
    let length = match month {
        2 => 28 + u64::from(is_leap),
        4 | 6 | 9 | 11 => 30,
        _ => 31,
    };
    if !(1970..=LAST_YEAR).contains(&year) || !(1..=12).contains(&month) || !(1..=length).contains(&day) {
        return None;
    }
    // years begin with March here, so that a leap day is the last of its year
    let (year, march) = if month > 2 { (year, month - 3) } else { (year - 1, month + 9) };
    let (era, of_era) = (year / 400, year % 400);
    let of_year = (153 * march + 2) / 5 + day - 1;
    Some(era * DAYS_OF_ERA + of_era * 365 + of_era / 4 - of_era / 100 + of_year - DAYS_BEFORE)
}

impl fmt::Display for Moment {
    fn fmt(&self, f: &mut fmt::Formatter<'_>) -> fmt::Result {
        let (days, second) = (self.seconds() / SECONDS_OF_DAY, self.seconds() % SECONDS_OF_DAY);
        let day = days + DAYS_BEFORE;
        let (era, of_era) = (day / DAYS_OF_ERA, day % DAYS_OF_ERA);
        let year_of_era = (of_era - of_era / 1_460 + of_era / 36_524 - of_era / 146_096) / 365;
        let of_year = of_era - (365 * year_of_era + year_of_era / 4 - year_of_era / 100);
        let march = (5 * of_year + 2) / 153;
        let day_of_month = of_year - (153 * march + 2) / 5 + 1;
        let month = if march < 10 { march + 3 } else { march - 9 };
        let year = year_of_era + era * 400 + u64::from(month <= 2);
        let (hour, minute, second) = (second / 3600, second / 60 % 60, second % 60);
        write!(f, "{year:04}-{month:02}-{day_of_month:02}T{hour:02}:{minute:02}:{second:02}")?;
        match f.precision() {
            Some(0) => f.write_str("Z"),
            _ => write!(f, ".{:06}Z", self.0 % MICROS),
        }
    }
}

/// The text is not a moment.
#[derive(Debug, Clone, Copy, PartialEq, Eq)]
pub struct NotAMoment;

impl FromStr for Moment {
    type Err = NotAMoment;

    /// What `Display` writes without `{:.0}`, and nothing else.
    fn from_str(text: &str) -> Result<Moment, NotAMoment> {
        let bytes = text.as_bytes();
        let pattern = b"dddd-dd-ddTdd:dd:dd.ddddddZ";
        let fits = |(byte, form): (&u8, &u8)| if *form == b'd' { byte.is_ascii_digit() } else { byte == form };
        if bytes.len() != pattern.len() || !bytes.iter().zip(pattern).all(fits) {
            return Err(NotAMoment);
        }
        let number = |from: usize, to: usize| text[from..to].bytes().fold(0, |sum, b| 10 * sum + u64::from(b - b'0'));
        let (hour, minute, second) = (number(11, 13), number(14, 16), number(17, 19));
        let days = days_of(number(0, 4), number(5, 7), number(8, 10)).ok_or(NotAMoment)?;
        if hour > 23 || minute > 59 || second > 59 {
            return Err(NotAMoment);
        }
        Ok(Moment::of(days * SECONDS_OF_DAY + 3600 * hour + 60 * minute + second, number(20, 26)))
    }
}

#[cfg(test)]
mod tests {
    use super::*;

    #[test]
    fn written_and_read() {
        for (seconds, text) in [
            (0, "1970-01-01T00:00:00Z"),
            (951_782_399, "2000-02-28T23:59:59Z"),
            (951_782_400, "2000-02-29T00:00:00Z"),
            (951_868_800, "2000-03-01T00:00:00Z"),
            (1_735_689_599, "2024-12-31T23:59:59Z"),
            (1_795_688_100, "2026-11-26T10:15:00Z"),
            (4_107_542_400, "2100-03-01T00:00:00Z"),
        ] {
            let moment = Moment::of(seconds, 17);
            let long = text.replace('Z', ".000017Z");
            assert_eq!((format!("{moment:.0}"), moment.to_string(), long.parse()), (text.into(), long, Ok(moment)));
        }
    }

    #[test]
    fn what_is_not_a_moment() {
        for text in [
            "",
            "2026-11-26T10:15:00Z",
            "2026-11-26 10:15:00.000000Z",
            "2026-11-26T10:15:00.00000Z",
            "2026-11-26T10:15:00.0000000Z",
            "2026-02-29T10:15:00.000000Z",
            "2026-13-01T10:15:00.000000Z",
            "2026-11-00T10:15:00.000000Z",
            "1969-11-26T10:15:00.000000Z",
            "2026-11-26T24:15:00.000000Z",
            "2026-11-26T10:60:00.000000Z",
            "2026-11-26T10:15:60.000000Z",
            "2026-11-26T10:15:0x.000000Z",
        ] {
            assert_eq!(text.parse::<Moment>(), Err(NotAMoment), "{text}");
        }
    }

    #[test]
    fn days() {
        assert_eq!((days_of(1970, 1, 1), days_of(2026, 11, 24)), (Some(0), Some(20_781)));
        assert_eq!((days_of(2000, 2, 29), days_of(1900, 2, 29), days_of(2100, 2, 29)), (Some(11_016), None, None));
        let now = Moment::now();
        assert_eq!(now.to_string().parse(), Ok(now));
        assert_eq!(
            (Moment::of(9, 5).earlier(4), Moment::of(9, 5).earlier(u64::MAX)),
            (Moment::of(5, 5), Moment::of(0, 0))
        );
    }
}
