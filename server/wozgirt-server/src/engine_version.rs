//! Which engine is run: what the program says of itself.

use std::io::Read;
use std::process::{Child, Command, Stdio};
use std::thread;
use std::time::{Duration, Instant};

/// How long it may take to say so, and how often is looked whether it has.
const PATIENCE: Duration = Duration::from_secs(1);
const LOOK: Duration = Duration::from_millis(1);
/// The longest name that is shown.
const LONGEST: usize = 60;
/// A program that was proved names the logic in which it was, in a line that begins so.
const LOGIC: &str = "rattle logic ";

/// An engine's name and version.
#[derive(Debug, Clone, PartialEq, Eq)]
pub struct EngineVersion {
    /// As `ring_tool 0.1.0`; of one that does not say it, the name of its file.
    pub name: String,
    /// Whether it says that it was proved.
    pub is_proved: bool,
}

impl EngineVersion {
    /// Of this program, by its `--version`.
    pub fn of(program: &str) -> EngineVersion {
        let mut command = Command::new(program);
        command.arg("--version").stdin(Stdio::null()).stdout(Stdio::piped()).stderr(Stdio::null());
        // (that it cannot be run is said where it has to be)
        let text = command.spawn().ok().and_then(said).unwrap_or_default();
        EngineVersion::parse(&text, program)
    }

    fn parse(text: &str, program: &str) -> EngineVersion {
        let file = program.rsplit('/').next().unwrap_or(program);
        let first = text.lines().next().map(str::trim).filter(|line| !line.is_empty()).unwrap_or(file);
        let name = first.chars().filter(|it| matches!(it, ' '..='~') && !matches!(it, '"' | '\\' | '<' | '>' | '&'));
        EngineVersion {
            name: name.take(LONGEST).collect(),
            is_proved: text.lines().any(|line| line.starts_with(LOGIC)),
        }
    }
}

/// What the child has said when it has ended, if it does so in time; then it is no more.
fn said(mut child: Child) -> Option<String> {
    let end = Instant::now() + PATIENCE;
    while child.try_wait().ok()?.is_none() {
        if Instant::now() >= end {
            child.kill().ok()?;
            child.wait().ok()?;
            return None;
        }
        thread::sleep(LOOK);
    }
    let mut text = Vec::new();
    child.stdout.take()?.take(4096).read_to_end(&mut text).ok()?;
    String::from_utf8(text).ok()
}

#[cfg(test)]
mod tests {
    use super::*;

    #[test]
    fn what_programs_say() {
        for (text, name, is_proved) in [
            ("ring_tool 0.1.0\nrattle logic dac8208d650f15bf\n", "ring_tool 0.1.0", true),
            ("ring_tool 0.1.0\nnothing was proved\n", "ring_tool 0.1.0", false),
            ("", "double", false),
            ("a \"b\" \u{7}\n", "a b ", false),
        ] {
            let version = EngineVersion { name: name.into(), is_proved };
            assert_eq!(EngineVersion::parse(text, "/some/double"), version);
        }
    }

    #[test]
    fn a_program_that_cannot_be_run() {
        assert_eq!(EngineVersion::of("/none/engine"), EngineVersion { name: "engine".into(), is_proved: false });
    }
}
