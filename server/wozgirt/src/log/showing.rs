//! The holds as they are printed: a table, or JSON, an object a line.

use super::joining::Hold;
use super::record::Gap;
use crate::table::table;
use std::fmt::Write;
use wozgirt_grants::{Escaped, Who};

const HEAD: [&str; 8] = ["LOCK", "TOKEN", "LABEL", "FROM", "TO", "WHO", "AT", "END"];
/// In place of a moment that should have a line.
const NO_LINE: &str = "no line";

/// The table, what holds have no line, and the gaps.
pub fn for_people(holds: &[Hold], gaps: &[Gap]) -> String {
    let mut text = table(&HEAD, &holds.iter().map(row).collect::<Vec<_>>());
    let without = holds.iter().filter(|it| it.granted.is_none()).count();
    let lacking = holds.iter().filter(|it| it.lacks_end()).count();
    if without + lacking > 0 {
        let _ = writeln!(
            text,
            "no line: {without} of these {} have none of their grant, {lacking} none of their end",
            holds.len()
        );
        // a String takes all
    }
    for gap in gaps {
        let _ = writeln!(text, "gap: {} lines could not be written from {} to {}", gap.lines, gap.from, gap.to);
    }
    text
}

fn row(hold: &Hold) -> Vec<String> {
    let or_none = |text: Option<String>| text.unwrap_or_else(|| "-".into());
    let from = hold.granted.as_ref().map_or_else(|| NO_LINE.into(), |it| it.at.to_string());
    let to = hold.ended.as_ref().map(|it| it.at.to_string());
    let to = if hold.lacks_end() { NO_LINE.into() } else { or_none(to) };
    let who = hold.who();
    let label = or_none(hold.label.map(|label| label.to_string()));
    let (name, at) = (or_none(who.and_then(name)), or_none(who.and_then(place)));
    vec![hold.lock.clone(), hold.token.to_string(), label, from, to, name, at, or_none(end(hold).map(String::from))]
}

/// Why it ended; where no line says it, what the journal has.
fn end(hold: &Hold) -> Option<&str> {
    let of_record = hold.ended.as_ref().map(|it| it.why.as_str());
    of_record.or(hold.ending.map(|it| it.word()))
}

fn name(who: &Who<'_>) -> Option<String> {
    // a name of a certificate may have any character
    let certificate = who.certificate.as_ref().map(|name| format!("cert:{}", Escaped(name)));
    certificate.or(who.user.as_ref().map(|name| Escaped(name).to_string()))
}

fn place(who: &Who<'_>) -> Option<String> {
    who.address.as_ref().map(ToString::to_string).or(who.process.map(|process| format!("process {process}")))
}

/// An object for each hold, and then for each gap. What is not known is null.
pub fn for_programs(holds: &[Hold], gaps: &[Gap]) -> String {
    let mut text = String::new();
    for hold in holds {
        object(&mut text, hold);
    }
    for gap in gaps {
        let _ = writeln!(text, "{{\"gap\":{},\"from\":\"{}\",\"to\":\"{}\"}}", gap.lines, gap.from, gap.to);
    }
    text
}

fn object(text: &mut String, hold: &Hold) {
    let (granted, ended) = (hold.granted.as_ref(), hold.ended.as_ref());
    let who = hold.who();
    let number = |number: Option<String>| number.unwrap_or_else(|| "null".into());
    let fields = [
        ("lock", quoted(Some(&hold.lock))),
        ("token", hold.token.to_string()),
        ("label", number(hold.label.map(|it| it.to_string()))),
        ("from", quoted(granted.map(|it| it.at.to_string()).as_deref())),
        ("to", quoted(ended.map(|it| it.at.to_string()).as_deref())),
        ("client", number(who.map(|it| it.client.to_string()))),
        ("user", quoted(who.and_then(|it| it.user.as_deref()))),
        ("certificate", quoted(who.and_then(|it| it.certificate.as_deref()))),
        ("process", number(who.and_then(|it| it.process).map(|it| it.to_string()))),
        ("address", quoted(who.and_then(|it| it.address.as_deref()))),
        ("server", quoted(granted.and_then(|it| it.server.as_deref()))),
        ("end", quoted(ended.map(|it| it.why.as_str()))),
        ("journal", quoted(hold.ending.map(|it| it.word()))),
    ];
    let fields: Vec<String> = fields.iter().map(|(key, value)| format!("\"{key}\":{value}")).collect();
    let _ = writeln!(text, "{{{}}}", fields.join(","));
}

/// A text as JSON has it, or null.
fn quoted(text: Option<&str>) -> String {
    let Some(text) = text else { return "null".into() };
    let mut quoted = String::from("\"");
    for c in text.chars() {
        let _ = match c {
            '"' | '\\' => write!(quoted, "\\{c}"),
            c if (c as u32) < 0x20 || c as u32 == 0x7f => write!(quoted, "\\u{:04x}", c as u32),
            c => write!(quoted, "{c}"),
        };
    }
    quoted + "\""
}

#[cfg(test)]
mod tests {
    use super::super::joining::join;
    use super::super::journal::tests::journal_of;
    use super::super::record::tests::record_of;
    use super::*;

    fn holds() -> (Vec<Hold>, Vec<Gap>) {
        let journal = journal_of(
            &[
                "lock a token 1 label 7 from 0 to 1 released",
                "lock a token 2 label 8 from 1 to 2 left",
                "lock a token 3 label 9 from 2 to - open",
                "lock b token 1 label 9 from 2 to 3 released",
            ],
            "a 8 8\nb 8 8\n",
            &[0, 0],
        );
        let record = record_of(&[
            "2026-11-24T14:00:00.000000Z began server=h1",
            "2026-11-24T14:00:01.000000Z granted a 1 label=7 client=3 user=al%20ice process=4711",
            "2026-11-24T14:00:02.000000Z ended a 1 operator",
            "2026-11-24T14:00:03.000000Z granted a 3 label=9 client=4 certificate=b%22%07%C3%A9 address=10.0.0.2:50122",
            "2026-11-24T14:00:03.500000Z kept b 1 client=5 user=bob process=4712",
            "2026-11-24T14:00:04.000000Z ended b 1 released",
            "2026-11-24T14:00:05.000000Z gap 6 2026-11-24T14:00:02.500000Z",
        ]);
        let gaps = record.gaps.clone();
        (join(record, &journal), gaps)
    }

    #[test]
    fn a_table() {
        let text = "\
LOCK  TOKEN  LABEL  FROM                         TO                           WHO                AT               END
b     1      9      no line                      2026-11-24T14:00:04.000000Z  bob                process 4712     released
a     1      7      2026-11-24T14:00:01.000000Z  2026-11-24T14:00:02.000000Z  al%20ice           process 4711     operator
a     2      8      no line                      no line                      -                  -                left
a     3      9      2026-11-24T14:00:03.000000Z  -                            cert:b%22%07%C3%A9  10.0.0.2:50122   open
no line: 2 of these 4 have none of their grant, 1 none of their end
gap: 6 lines could not be written from 2026-11-24T14:00:02.500000Z to 2026-11-24T14:00:05.000000Z
";
        let (holds, gaps) = holds();
        let squeezed = |text: &str| {
            text.lines().map(|line| line.split_whitespace().collect::<Vec<_>>().join(" ")).collect::<Vec<_>>()
        };
        assert_eq!(squeezed(&for_people(&holds, &gaps)), squeezed(text));
        assert!(for_people(&[], &[]).starts_with("LOCK  TOKEN  LABEL"));
    }

    #[test]
    fn json() {
        let (holds, gaps) = holds();
        let text = for_programs(&holds, &gaps);
        let lines: Vec<&str> = text.lines().collect();
        assert_eq!(lines.len(), 5);
        assert_eq!(
            lines[1],
            r#"{"lock":"a","token":1,"label":7,"from":"2026-11-24T14:00:01.000000Z","to":"2026-11-24T14:00:02.000000Z","client":3,"user":"al ice","certificate":null,"process":4711,"address":null,"server":"h1","end":"operator","journal":"released"}"#
        );
        assert_eq!(
            lines[2],
            r#"{"lock":"a","token":2,"label":8,"from":null,"to":null,"client":null,"user":null,"certificate":null,"process":null,"address":null,"server":null,"end":null,"journal":"left"}"#
        );
        assert!(
            lines[3].contains(r#""certificate":"b\"\u0007é","process":null,"address":"10.0.0.2:50122""#),
            "{}",
            lines[3]
        );
        assert_eq!(lines[4], r#"{"gap":6,"from":"2026-11-24T14:00:02.500000Z","to":"2026-11-24T14:00:05.000000Z"}"#);
    }
}
