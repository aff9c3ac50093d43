//! The codes, texts and functions are those of the header. It is not in the package of this crate: then nothing is compared.

use std::fs::read_to_string;
use wozgirt_sys::{text, WOZGIRT_VERSION};

fn header() -> Option<String> {
    read_to_string(concat!(env!("CARGO_MANIFEST_DIR"), "/../../c/wozgirt.h")).ok()
}

/// The names that a line of the header has for a code, with its number.
fn code(line: &str) -> Option<(&str, u32)> {
    let (name, rest) = line.trim_start().strip_prefix("WOZGIRT_")?.split_once(" = ")?;
    let digits = rest.split(|it: char| !it.is_ascii_digit()).next()?;
    Some((name, digits.parse().ok()?))
}

#[test]
fn codes_have_the_texts_of_the_header() {
    let Some(header) = header() else { return };
    let (_, behind) = header.split_once("enum wozgirt_code {").expect("there are codes");
    let (codes, _) = behind.split_once("};").expect("they end");
    let mut count = 0;
    for (name, number) in codes.lines().filter_map(code) {
        let case = format!("case WOZGIRT_{name}: return \"{}\";", text(number));
        assert!(header.contains(&case), "{case}");
        count += 1;
    }
    assert!(count > 25, "{count} codes");
    assert_eq!(text(9), "no code of this library");
    assert!(header.contains(&format!("#define WOZGIRT_VERSION {WOZGIRT_VERSION}\n")));
}

#[test]
fn each_function_is_declared() {
    let Some(header) = header() else { return };
    let here = include_str!("../src/lib.rs");
    let declared = |line: &str| {
        let (before, _) = line.split_once('(')?;
        let name = before.rsplit([' ', '*']).next()?;
        (name.starts_with("wozgirt_") && name != "wozgirt_text" && !line.starts_with(' ')).then(|| name.to_owned())
    };
    let names: Vec<_> = header.lines().filter_map(declared).collect();
    assert!(names.len() > 13, "{names:?}");
    for name in names {
        assert!(here.contains(&format!("pub fn {name}(")), "{name}");
    }
}
