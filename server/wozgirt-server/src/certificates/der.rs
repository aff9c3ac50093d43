//! Until when a certificate holds, read from its DER: no more is read of it than leads there.

/// Kinds of what DER has.
const INTEGER: u8 = 0x02;
const UTC_TIME: u8 = 0x17;
const GENERALIZED_TIME: u8 = 0x18;
const SEQUENCE: u8 = 0x30;
/// The version of a certificate, which those of the first have not.
const VERSION: u8 = 0xa0;

/// The seconds since 1970 at which this certificate ends.
pub(super) fn ends(certificate: &[u8]) -> Option<u64> {
    let mut whole = certificate;
    let mut outer = take(&mut whole, SEQUENCE)?;
    let mut body = take(&mut outer, SEQUENCE)?;
    if body.first() == Some(&VERSION) {
        take(&mut body, VERSION)?;
    }
    take(&mut body, INTEGER)?; // its number
    take(&mut body, SEQUENCE)?; // how it is signed
    take(&mut body, SEQUENCE)?; // by whom
    let mut validity = take(&mut body, SEQUENCE)?;
    time(&mut validity)?;
    time(&mut validity)
}

/// Takes the next value out of the bytes, if it is of this kind and whole.
fn take<'a>(bytes: &mut &'a [u8], kind: u8) -> Option<&'a [u8]> {
    let (&its, rest) = bytes.split_first()?;
    let (&first, mut rest) = rest.split_first()?;
    let length = if first < 0x80 {
        usize::from(first)
    } else {
        let count = usize::from(first & 0x7f);
        let digits = rest.get(..count).filter(|_| (1..=4).contains(&count))?;
        rest = &rest[count..];
        digits.iter().fold(0, |length, &digit| length << 8 | usize::from(digit))
    };
    let value = rest.get(..length).filter(|_| its == kind)?;
    *bytes = &rest[length..];
    Some(value)
}

/// A time, in seconds since 1970: `YYMMDDhhmmssZ`, of 1950 to 2049, or `YYYYMMDDhhmmssZ`.
fn time(bytes: &mut &[u8]) -> Option<u64> {
    let is_short = *bytes.first()? == UTC_TIME;
    let text = take(bytes, if is_short { UTC_TIME } else { GENERALIZED_TIME })?;
    let text = std::str::from_utf8(text).ok()?.strip_suffix('Z')?;
    let digits = if is_short { 2 } else { 4 };
    let (year, rest) = (text.get(..digits)?, text.get(digits..)?);
    let mut year = number(year)?;
    if is_short {
        year += if year < 50 { 2000 } else { 1900 };
    }
    let parts: Vec<u64> = (0..5).map(|i| rest.get(2 * i..2 * i + 2).and_then(number)).collect::<Option<_>>()?;
    let [month, day, hour, minute, second] = parts[..] else { return None };
    let is_right = rest.len() == 10
        && (1..=12).contains(&month)
        && (1..=31).contains(&day)
        && hour < 24
        && minute < 60
        && second < 60;
    let days = days(year, month, day).filter(|_| is_right)?;
    Some(days * 86_400 + hour * 3600 + minute * 60 + second)
}

fn number(text: &str) -> Option<u64> {
    text.bytes().all(|digit| digit.is_ascii_digit()).then(|| text.parse().ok()).flatten()
}

/// The days since 1970; nothing before.
fn days(year: u64, month: u64, day: u64) -> Option<u64> {
    // years that begin in March, so that the day that leap years have more is the last
    let (year, month) = if month > 2 { (year, month - 3) } else { (year.checked_sub(1)?, month + 9) };
    let leaps = year / 4 - year / 100 + year / 400;
    let day_of_year = (153 * month + 2) / 5 + day - 1;
    (365 * year + leaps + day_of_year).checked_sub(719_468)
}

#[cfg(test)]
mod tests {
    use super::*;

    #[test]
    fn days_of_the_calendar() {
        for (date, seconds) in [
            ("700101000000Z", 0),
            ("700301000000Z", 59 * 86_400),
            ("000229235959Z", 951_868_799),
            ("261130163646Z", 1_796_056_606),
            ("491231235959Z", 2_524_607_999),
        ] {
            let bytes = [&[UTC_TIME, date.len() as u8], date.as_bytes()].concat();
            assert_eq!(time(&mut &bytes[..]), Some(seconds), "{date}");
        }
        for (date, seconds) in [("20500101000000Z", 2_524_608_000), ("99991231235959Z", 253_402_300_799)] {
            let bytes = [&[GENERALIZED_TIME, date.len() as u8], date.as_bytes()].concat();
            assert_eq!(time(&mut &bytes[..]), Some(seconds), "{date}");
        }
    }

    #[test]
    fn what_is_no_time() {
        for date in [
            "",
            "Z",
            "700101000000",
            "7001010000Z",
            "701301000000Z",
            "700100000000Z",
            "700101240000Z",
            "70010100000aZ",
            "+00101000000Z",
            "690101000000Z",
            "7001010000000Z",
        ] {
            let bytes = [&[UTC_TIME, date.len() as u8], date.as_bytes()].concat();
            assert_eq!(time(&mut &bytes[..]), None, "{date}");
        }
        assert_eq!(time(&mut &b"\x16\x0d700101000000Z"[..]), None);
    }

    #[test]
    fn lengths() {
        let long = [&[SEQUENCE, 0x82, 1, 0][..], &[7; 256]].concat();
        let mut bytes = &long[..];
        assert_eq!((take(&mut bytes, SEQUENCE), bytes.len()), (Some(&[7; 256][..]), 0));
        for wrong in [
            &[SEQUENCE, 2, 7][..],
            &[SEQUENCE],
            &[SEQUENCE, 0x80, 7],
            &[SEQUENCE, 0x85, 0, 0, 0, 0, 0],
            &[SEQUENCE, 0x81],
            &[INTEGER, 0],
            &[],
        ] {
            assert_eq!(take(&mut &wrong[..], SEQUENCE), None, "{wrong:?}");
        }
    }
}
