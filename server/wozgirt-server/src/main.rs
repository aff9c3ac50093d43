//! The server's program: see `--help`.

use std::fmt;
use std::io::{self, ErrorKind, Write};
use std::process::ExitCode;
use std::sync::mpsc::channel;
use std::thread;
use std::time::Duration;
use wozgirt_server::settings::{help, parse, Words};
use wozgirt_server::Server;
use wozgirt_system::{create_for_owner, Signal};
use wozgirt_words::OwnFolder;

/// Wrong words, as `sysexits.h` has it.
const USAGE_STATUS: u8 = 64;

/// How long standard error may take to be written.
const LONGEST_COMPLAINT: Duration = Duration::from_secs(1);

fn main() -> ExitCode {
    let settings = match parse(std::env::args_os().skip(1), OwnFolder::of(|name| std::env::var_os(name))) {
        Ok(Words::Run(settings)) => *settings,
        Ok(Words::Help) => return print(&help()),
        Ok(Words::Version) => return print(concat!("wozgirt-server ", env!("CARGO_PKG_VERSION"), "\n")),
        Err(fault) => {
            complain(format_args!("{fault}\nTry --help."));
            return ExitCode::from(USAGE_STATUS);
        }
    };
    create_for_owner(); // the engine's files too, whatever umask this was started with
    match Server::open(settings).and_then(Server::run) {
        Ok(()) => ExitCode::SUCCESS,
        Err(fault) => {
            complain(format_args!("{fault}"));
            ExitCode::from(fault.status())
        }
    }
}

/// Prints on standard output. If no program reads that any more, this one ends, as SIGPIPE ends others.
fn print(text: &str) -> ExitCode {
    let mut output = io::stdout().lock();
    let written = match output.write_all(text.as_bytes()).and_then(|()| output.flush()) {
        Err(fault) if fault.kind() == ErrorKind::BrokenPipe => Signal::Pipe.end_program(),
        other => other,
    };
    match written {
        Ok(()) => ExitCode::SUCCESS,
        Err(fault) => {
            complain(format_args!("standard output: {fault}"));
            ExitCode::FAILURE
        }
    }
}

/// Says why on standard error, in one write: the engine and `wozgirt-log` write there too, and nothing gets between its words. If
/// no program takes it, this one ends all the same.
fn complain(why: fmt::Arguments<'_>) {
    let (text, (tell, told)) = (format!("wozgirt-server: {why}\n"), channel());
    // (if it cannot be written, there is no other place to report it)
    let write = move || drop(tell.send(io::stderr().write_all(text.as_bytes())));
    if thread::Builder::new().spawn(write).is_ok() {
        let _ = told.recv_timeout(LONGEST_COMPLAINT);
    }
}
