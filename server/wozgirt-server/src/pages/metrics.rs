//! `GET /metrics`: the text format of Prometheus.

use super::{InLog, View};
use crate::board::{Any, Sight, Waits, WAITS};
use crate::certificates::Watched;
use crate::engine_version::EngineVersion;
use crate::figures::Figures;
use crate::grants::Grants;
use crate::log::{End, Of};
use std::fmt::{Display, Write};
use std::time::{Duration, Instant};

/// A family of values, with its help and type in front.
struct Family<'a> {
    text: &'a mut String,
    name: &'a str,
}

impl<'a> Family<'a> {
    fn new(text: &'a mut String, name: &'a str, kind: &str, help: &str) -> Family<'a> {
        let _ = writeln!(text, "# HELP {name} {help}\n# TYPE {name} {kind}");
        Family { text, name }
    }

    fn value(&mut self, value: impl Display) {
        let _ = writeln!(self.text, "{} {value}", self.name);
    }

    fn end_of_range(&mut self, end: &str, count: u64) {
        let _ = writeln!(self.text, "{}_bucket{{le=\"{end}\"}} {count}", self.name);
    }

    /// Names of locks and reasons need no escapes: see `lock.rs` and `answers.rs` of `wozgirt-engine`.
    fn labelled(&mut self, label: &str, of: &str, value: impl Display) {
        let _ = writeln!(self.text, "{}{{{label}=\"{of}\"}} {value}", self.name);
    }
}

/// What is not of one lock.
pub fn head(text: &mut String, view: &View<'_>) {
    build(text, view.engine.version);
    server(text, view);
    process(text, view.figures);
    waits(text, view.board.all_waits());
    certificates(text, view.certificates);
    view.in_log.iter().for_each(|it| log(text, it));
    view.grants.iter().for_each(|it| grants(text, it));
}

/// Which server and engine these are. The engine's name has no byte that would need an escape.
fn build(text: &mut String, engine: &EngineVersion) {
    let name = "wozgirt_build_info";
    let proved = if engine.is_proved { "yes" } else { "no" };
    let family = Family::new(
        text,
        name,
        "gauge",
        "1, with the server's version, the engine's, and whether it says that it was proved.",
    );
    let version = env!("CARGO_PKG_VERSION");
    let _ = writeln!(family.text, "{name}{{version=\"{version}\",engine=\"{}\",proved=\"{proved}\"}} 1", engine.name);
}

/// The disk; and what Prometheus's own libraries show of a process, by the same names.
fn process(text: &mut String, it: &Figures) {
    let values: [(&str, &str, &str, &dyn Display); 7] = [
        ("wozgirt_journal_free_bytes", "gauge", "Room that the journal's disk has.", &it.free),
        ("process_cpu_seconds_total", "counter", "Processor time of the server, in seconds.", &it.seconds),
        ("process_resident_memory_bytes", "gauge", "Memory of the server.", &it.resident),
        ("process_virtual_memory_bytes", "gauge", "Address space of the server.", &it.virtual_size),
        ("process_open_fds", "gauge", "Open files of the server.", &it.open_files),
        ("process_max_fds", "gauge", "How many files it may have open.", &it.most_files),
        ("process_start_time_seconds", "gauge", "When the server started, since 1970.", &it.started),
    ];
    for (name, kind, help, value) in values {
        Family::new(text, name, kind, help).value(value);
    }
}

/// Of a file that cannot be read the time is 0, so that one rule of an alert is for both.
fn certificates(text: &mut String, files: &[Watched]) {
    let help = "When the first certificate in a file that is watched ends, since 1970; 0 if that is not known.";
    let mut family = Family::new(text, "wozgirt_certificate_end_time_seconds", "gauge", help);
    for file in files {
        family.labelled("file", &label(&file.path().to_string_lossy()), file.ends().unwrap_or(0));
    }
}

/// A text as the value of a label.
fn label(text: &str) -> String {
    text.replace('\\', "\\\\").replace('"', "\\\"").replace('\n', "\\n")
}

fn waits(text: &mut String, waits: &Waits) {
    let mut family =
        Family::new(text, "wozgirt_wait_seconds", "histogram", "How long clients waited for grants, of all locks.");
    let mut count = 0;
    for (i, of_range) in waits.counts.iter().enumerate() {
        count += of_range;
        family.end_of_range(WAITS.get(i).map_or("+Inf".into(), f64::to_string).as_str(), count);
    }
    let _ = writeln!(family.text, "{0}_sum {1}\n{0}_count {count}", family.name, waits.sum.as_secs_f64());
}

fn server(text: &mut String, view: &View<'_>) {
    let uptime = view.now.saturating_duration_since(view.started).as_secs_f64();
    let is_up = u8::from(view.is_well());
    let silence = view.engine.silence.as_secs_f64();
    let values: [(&str, &str, &str, &dyn Display); 12] = [
        ("wozgirt_uptime_seconds", "gauge", "Seconds since the server started.", &uptime),
        ("wozgirt_engine_up", "gauge", "1 if the engine answers.", &is_up),
        (
            "wozgirt_engine_oldest_question_seconds",
            "gauge",
            "Age of the oldest question that the engine has not answered; it is asked one each second.",
            &silence,
        ),
        (
            "wozgirt_engine_lines_waiting",
            "gauge",
            "Lines that the engine may not have done.",
            &view.engine.waiting_lines,
        ),
        ("wozgirt_engine_starts_total", "counter", "How often the engine was started.", &view.engine.starts),
        ("wozgirt_connections", "gauge", "Open connections.", &view.connected),
        ("wozgirt_sessions", "gauge", "Sessions, those of clients that are away included.", &view.sessions),
        ("wozgirt_connections_total", "counter", "Connections that were let in.", &view.sums.connections),
        ("wozgirt_connections_refused_total", "counter", "Connections over the limit.", &view.sums.turned_away),
        ("wozgirt_inputs_total", "counter", "Inputs that went to the engine.", &view.sums.inputs),
        ("wozgirt_journal_bytes", "gauge", "Size of the journal.", &view.journal.bytes),
        ("wozgirt_journal_segments", "gauge", "Files of the journal.", &view.journal.segments),
    ];
    for (name, kind, help, value) in values {
        Family::new(text, name, kind, help).value(value);
    }
    let mut refusals = Family::new(text, "wozgirt_refusals_total", "counter", "Refusals by their reason.");
    for (why, count) in view.sums.refusals() {
        refusals.labelled("reason", why, count);
    }
    let mut parts = Family::new(
        text,
        "wozgirt_part_refusals_total",
        "counter",
        "Refusals of one more, since a user, address or certificate has its part of this, or all have theirs.",
    );
    for of in Of::ALL {
        parts.labelled("of", of.word(), view.sums.parts(of));
    }
    let mut ends =
        Family::new(text, "wozgirt_connections_ended_total", "counter", "Ends of connections by their reason.");
    for end in End::ALL {
        ends.labelled("reason", end.word(), view.sums.ends(end));
    }
}

fn log(text: &mut String, it: &InLog) {
    let values: [(&str, &str, &str, &dyn Display); 6] = [
        ("wozgirt_in_log", "gauge", "1 if this server is in the log of all servers.", &u8::from(it.is_in_log)),
        ("wozgirt_log_full", "gauge", "1 if etcd has no room for entries.", &u8::from(it.is_full)),
        ("wozgirt_log_position", "gauge", "The last entry of the log that the engine has done.", &it.position),
        ("wozgirt_checkpoint_position", "gauge", "The entry of the last checkpoint.", &it.checkpoint),
        ("wozgirt_servers_alive", "gauge", "Servers whose lease in etcd is valid.", &it.alive),
        ("wozgirt_contradictions_total", "counter", "How often another server had other answers.", &it.contradictions),
    ];
    for (name, kind, help, value) in values {
        Family::new(text, name, kind, help).value(value);
    }
}

/// The record of grants.
fn grants(text: &mut String, it: &Grants) {
    let (is_written, sums) = (u8::from(it.is_well()), it.sums());
    let values: [(&str, &str, &str, &dyn Display); 3] = [
        ("wozgirt_grants_written", "gauge", "1 if the record of grants can be written.", &is_written),
        ("wozgirt_grants_lines_total", "counter", "Lines that were written to the record of grants.", &sums.written),
        ("wozgirt_grants_lines_lost_total", "counter", "Lines that are not there, or not for sure.", &sums.lost),
    ];
    for (name, kind, help, value) in values {
        Family::new(text, name, kind, help).value(value);
    }
}

/// A family with a value of each lock of the list, and one of all others together.
pub struct OfLocks {
    name: &'static str,
    kind: &'static str,
    help: &'static str,
    of_lock: fn(&Sight, Instant) -> f64,
    of_others: fn(&Any, Instant) -> f64,
}

fn since(begun: Option<Instant>, now: Instant) -> f64 {
    begun.map_or(Duration::ZERO, |begun| now.saturating_duration_since(begun)).as_secs_f64()
}

/// All of them.
pub static OF_LOCKS: [OfLocks; 8] = [
    OfLocks {
        name: "wozgirt_held",
        kind: "gauge",
        help: "1 if the lock is held.",
        of_lock: |it, _| f64::from(u8::from(it.holder.is_some())),
        of_others: |any, _| any.sums().held as f64,
    },
    OfLocks {
        name: "wozgirt_held_seconds",
        kind: "gauge",
        help: "Age of the hold.",
        of_lock: |it, now| since(it.holder.map(|holder| holder.since), now),
        of_others: |any, now| since(any.oldest_hold(), now),
    },
    OfLocks {
        name: "wozgirt_waiting",
        kind: "gauge",
        help: "Clients that wait.",
        of_lock: |it, _| it.line.len() as f64,
        of_others: |any, _| any.sums().waiting as f64,
    },
    OfLocks {
        name: "wozgirt_oldest_wait_seconds",
        kind: "gauge",
        help: "How long the first client in the queue has waited.",
        of_lock: |it, now| since(it.line.front().map(|waiter| waiter.since), now),
        of_others: |any, now| since(any.oldest_wait(), now),
    },
    OfLocks {
        name: "wozgirt_grants_total",
        kind: "counter",
        help: "Grants.",
        of_lock: |it, _| it.past.grants as f64,
        of_others: |any, _| any.sums().grants as f64,
    },
    OfLocks {
        name: "wozgirt_waited_seconds_total",
        kind: "counter",
        help: "Time that clients waited.",
        of_lock: |it, _| it.past.waited.as_secs_f64(),
        of_others: |any, _| any.sums().waited.as_secs_f64(),
    },
    OfLocks {
        name: "wozgirt_longest_wait_seconds",
        kind: "gauge",
        help: "The longest wait for a grant.",
        of_lock: |it, _| it.past.longest_wait.as_secs_f64(),
        of_others: |any, _| any.sums().longest_wait.as_secs_f64(),
    },
    OfLocks {
        name: "wozgirt_faults_total",
        kind: "counter",
        help: "Faults that were written.",
        of_lock: |it, _| it.past.faults as f64,
        of_others: |any, _| any.sums().faults as f64,
    },
];

/// For which lock the value of all other names is: no lock of the list has this name.
const OTHERS: &str = "*";

fn family<'a>(text: &'a mut String, it: &'static OfLocks, is_first: bool) -> Family<'a> {
    if is_first {
        Family::new(text, it.name, it.kind, it.help)
    } else {
        Family { text, name: it.name }
    }
}

/// The value of one lock, after the head of its family if it is the first.
pub fn of_lock(text: &mut String, view: &View<'_>, it: &'static OfLocks, sight: &Sight, is_first: bool) {
    family(text, it, is_first).labelled("lock", &sight.lock, (it.of_lock)(sight, view.now));
}

/// The value of all whose names are not in the list.
pub fn of_others(text: &mut String, view: &View<'_>, it: &'static OfLocks, any: &Any, is_first: bool) {
    family(text, it, is_first).labelled("lock", OTHERS, (it.of_others)(any, view.now));
}
