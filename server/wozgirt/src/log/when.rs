//! Moments as people write them. All are in UTC, unless another offset from it is given.

use wozgirt_grants::{days_of, Moment, SECONDS_OF_DAY};

/// The days of a week, from the first day of 1970 on.
const WEEKDAYS: [&str; 7] = ["thursday", "friday", "saturday", "sunday", "monday", "tuesday", "wednesday"];

/// How the moments are written that [`moment`] reads.
pub const FORMS: &str =
    "90s, 15m, 2h, 3d, 1w, today, yesterday, tuesday, 2026-11-24, 14:10, tuesday 14:10, 2026-11-24 14:10:08, 2026-11-24T14:10+01:00";

/// The moment that is written so; it is this one now.
pub fn moment(text: &str, now: Moment) -> Option<Moment> {
    if let Some(seconds) = span(text) {
        return Some(now.earlier(seconds));
    }
    let today = now.seconds() / SECONDS_OF_DAY;
    if let Some(days) = day(text, today) {
        return Some(Moment::of(days * SECONDS_OF_DAY, 0));
    }
    let (days, time) = match text.split_once([' ', 'T']) {
        Some((first, time)) => (day(first, today)?, time),
        None => (today, text),
    };
    let (time, east) = offset(time)?;
    let (seconds, micros) = time_of_day(time)?;
    let seconds = i64::try_from(days * SECONDS_OF_DAY + seconds).ok()? - east;
    Some(Moment::of(seconds.try_into().ok()?, micros))
}

/// The seconds of `2h` and the like.
fn span(text: &str) -> Option<u64> {
    let (unit, seconds) = [("s", 1), ("m", 60), ("h", 3600), ("d", SECONDS_OF_DAY), ("w", 7 * SECONDS_OF_DAY)]
        .into_iter()
        .find(|(unit, _)| text.ends_with(unit))?;
    number(text.strip_suffix(unit)?)?.checked_mul(seconds)
}

/// The day, in days since the beginning of 1970: of a weekday the last one, which may be today.
fn day(text: &str, today: u64) -> Option<u64> {
    match text {
        "today" => return Some(today),
        "yesterday" => return today.checked_sub(1),
        _ => {}
    }
    let is_it = |name: &&str| *name == text || name[..3] == *text;
    if let Some(weekday) = WEEKDAYS.iter().position(is_it) {
        return today.checked_sub((today + 7 - weekday as u64) % 7);
    }
    let mut parts = text.splitn(3, '-').map(number);
    let (year, month, day) = (parts.next()??, parts.next()??, parts.next()??);
    days_of(year, month, day)
}

/// The time of the day without the offset from UTC, and that in seconds.
fn offset(text: &str) -> Option<(&str, i64)> {
    if let Some(time) = text.strip_suffix('Z') {
        return Some((time, 0));
    }
    let Some(at) = text.find(['+', '-']) else { return Some((text, 0)) };
    let (seconds, micros) = time_of_day(&text[at + 1..])?;
    let sign = if text[at..].starts_with('+') { 1 } else { -1 };
    (micros == 0).then_some((&text[..at], sign * i64::try_from(seconds).ok()?))
}

/// The seconds and microseconds of `HH:MM`, `HH:MM:SS` or `HH:MM:SS.ffffff`.
fn time_of_day(text: &str) -> Option<(u64, u64)> {
    let (whole, fraction) = text.split_once('.').unwrap_or((text, ""));
    let micros = if fraction.is_empty() {
        0
    } else {
        number(fraction)?.checked_mul(10u64.checked_pow(6u32.checked_sub(fraction.len() as u32)?)?)?
    };
    let parts = whole.split(':').map(|part| number(part).filter(|_| part.len() == 2)).collect::<Option<Vec<u64>>>()?;
    match parts[..] {
        [hour @ 0..=23, minute @ 0..=59] if !text.contains('.') => Some((3600 * hour + 60 * minute, 0)),
        [hour @ 0..=23, minute @ 0..=59, second @ 0..=59] if !text.ends_with('.') => {
            Some((3600 * hour + 60 * minute + second, micros))
        }
        _ => None,
    }
}

fn number(text: &str) -> Option<u64> {
    // `parse` would take a sign too
    (!text.is_empty() && text.bytes().all(|b| b.is_ascii_digit())).then(|| text.parse().ok()).flatten()
}

#[cfg(test)]
mod tests {
    use super::*;

    /// Thursday.
    const NOW: &str = "2026-11-26T10:15:00.000500Z";

    fn read(text: &str) -> Option<String> {
        moment(text, NOW.parse().unwrap()).map(|moment| moment.to_string())
    }

    #[test]
    fn each_form() {
        for (text, expected) in [
            ("90s", "2026-11-26T10:13:30.000500Z"),
            ("15m", "2026-11-26T10:00:00.000500Z"),
            ("2h", "2026-11-26T08:15:00.000500Z"),
            ("1d", "2026-11-25T10:15:00.000500Z"),
            ("1w", "2026-11-19T10:15:00.000500Z"),
            ("2026-11-24", "2026-11-24T00:00:00.000000Z"),
            ("today", "2026-11-26T00:00:00.000000Z"),
            ("yesterday", "2026-11-25T00:00:00.000000Z"),
            ("thursday", "2026-11-26T00:00:00.000000Z"),
            ("friday", "2026-11-20T00:00:00.000000Z"),
            ("tuesday", "2026-11-24T00:00:00.000000Z"),
            ("tue", "2026-11-24T00:00:00.000000Z"),
            ("wed", "2026-11-25T00:00:00.000000Z"),
            ("14:10", "2026-11-26T14:10:00.000000Z"),
            ("tuesday 14:10", "2026-11-24T14:10:00.000000Z"),
            ("2026-11-24 14:10:08", "2026-11-24T14:10:08.000000Z"),
            ("2026-11-24T14:10:08.25Z", "2026-11-24T14:10:08.250000Z"),
            ("2026-11-24T14:10:08.000017Z", "2026-11-24T14:10:08.000017Z"),
            ("2026-11-24T14:10+01:00", "2026-11-24T13:10:00.000000Z"),
            ("2026-11-24T23:10:00-05:30", "2026-11-25T04:40:00.000000Z"),
        ] {
            assert_eq!(read(text).as_deref(), Some(expected), "{text}");
        }
        FORMS.split(", ").for_each(|form| assert!(read(form).is_some(), "{form}"));
    }

    #[test]
    fn what_is_no_moment() {
        for text in [
            "",
            "2",
            "h",
            "-2h",
            "2.5h",
            "2 h",
            "tomorrow",
            "tuesd",
            "2026-11",
            "2026-02-30",
            "26-11-24",
            "24:00",
            "14:60",
            "14:1",
            "1410",
            "14:10:08.",
            "14:10.5",
            "14:10:08.1234567",
            "tuesday 14",
            "2026-11-24T",
            "2026-11-24T14:10+1",
            "99999999999999999999s",
            "2026-11-24 14:10 ",
            "1970-01-01T00:00+01:00",
        ] {
            assert_eq!(read(text), None, "{text}");
        }
    }
}
