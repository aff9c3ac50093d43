//! A program of its own, since signals are heard by all threads of a program: this one has only one.

use std::os::unix::process::ExitStatusExt;
use std::process::Command;
use std::time::Duration;
use wozgirt_system::{hear_nothing, Heard, Interest, Poller, Signal, Signals};

fn main() {
    if std::env::args().any(|word| word == "deaf") {
        return a_deaf_thread();
    }
    let mut signals = Signals::new(&[Signal::Child, Signal::Terminate]).unwrap();
    assert_eq!(signals.next_signal(), None);
    let mut command = Command::new("sh");
    command.args(["-c", "kill -TERM $$; exit 9"]);
    Signals::hear_all(&mut command).unwrap();
    let mut child = command.spawn().unwrap();
    let (mut poller, mut events) = (Poller::new().unwrap(), Vec::new());
    poller.add(&signals, 0, Interest::READS).unwrap();
    poller.wait(Some(Duration::from_secs(10)), &mut events).unwrap();
    assert_eq!(signals.next_signal(), Some(Signal::Child));
    assert_eq!(signals.next_signal(), None);
    // SIGTERM ended the shell: there it was not blocked
    assert_eq!(child.wait().unwrap().code(), None);
    println!("test a_childs_end_is_read_and_children_hear_signals ... ok");
    senders_and_defaults(&mut signals);
    println!("test senders_are_told_and_a_signal_ends_a_program ... ok");
    assert!(again("deaf").success());
    println!("test a_deaf_thread_leaves_signals_to_others ... ok\n\ntest result: ok. 3 passed; 0 failed");
}

/// This program again, with such a word.
fn again(word: &str) -> std::process::ExitStatus {
    let this = std::env::current_exe().unwrap();
    Command::new(this).arg(word).stdout(std::process::Stdio::null()).status().unwrap()
}

fn terminate_this() {
    let itself = format!("kill -TERM {}", std::process::id());
    Command::new("sh").args(["-c", &itself]).status().unwrap();
}

/// Begun before the signal is read from a file, the thread would have it, and the program would end.
fn a_deaf_thread() {
    let (sender, is_deaf) = std::sync::mpsc::channel();
    std::thread::spawn(move || {
        sender.send(hear_nothing()).unwrap();
        std::thread::park();
    });
    is_deaf.recv().unwrap().unwrap();
    let mut signals = Signals::new(&[Signal::Terminate]).unwrap();
    terminate_this();
    assert_eq!(signals.next_signal(), Some(Signal::Terminate));
}

/// Run as a child of this program too, with a word.
fn senders_and_defaults(signals: &mut Signals) {
    if std::env::args().any(|word| word == "ends") {
        Signal::Pipe.end_program().unwrap(); // std ignores it in every program
        unreachable!();
    }
    assert_eq!(again("ends").signal(), Some(13));
    while signals.next_signal().is_some() {}
    terminate_this();
    let heard: Vec<Heard> = std::iter::from_fn(|| signals.next_heard()).collect();
    assert!(heard.contains(&Heard { signal: Signal::Terminate, is_of_kernel: false }), "{heard:?}");
}
