//! `GET /`: one page without a script, which a browser asks for again every other second.

use super::{InLog, View};
use crate::board::{Holder, Sight};
use crate::certificate_name::CertificateName;
use std::fmt::Write;
use std::time::{Duration, Instant};
use wozgirt_engine::NOBODY;

const HEAD: &str = "<!doctype html>
<html lang=\"en\"><head><meta charset=\"utf-8\"><meta http-equiv=\"refresh\" content=\"2\">
<meta name=\"viewport\" content=\"width=device-width\"><title>Wozgirt: locks</title><style>
body { font: 15px/1.5 system-ui, sans-serif; margin: 2em auto; max-width: 70em; padding: 0 1em; color: #222; }
table { border-collapse: collapse; width: 100%; font-variant-numeric: tabular-nums; }
th, td { text-align: left; padding: .3em .8em .3em 0; border-bottom: 1px solid #ddd; vertical-align: top; }
td:not(:last-child), th { white-space: nowrap; } td.n, th.n { text-align: right; }
.free { color: #777; } .held { color: #063; font-weight: 600; }
.before { color: #a40; font-weight: 600; } .down { color: #b00; font-weight: 600; }
@media (prefers-color-scheme: dark) { body { background: #181818; color: #ddd; } th, td { border-color: #444; }
.held { color: #6d9; } .before { color: #fb6; } .free { color: #999; } .down { color: #f77; } }
</style></head><body>
";

/// How many clients of a queue are named.
const NAMED: usize = 5;

/// What is above the rows.
pub fn head(text: &mut String, view: &View<'_>) {
    text.push_str(HEAD);
    summary(text, view);
    view.in_log.iter().for_each(|it| log(text, it));
    text.push_str(
        "<table><thead><tr><th>Lock</th><th>Held by</th><th class=\"n\">Label</th><th class=\"n\">Token</th>\
         <th class=\"n\">For</th><th>Queue</th><th class=\"n\">Hand-overs</th><th class=\"n\">Longest wait</th>\
         <th>Last fault</th></tr></thead><tbody>\n",
    );
}

/// What is below them.
pub const TAIL: &str = "</tbody></table>
<p>This page shows what the engine answered to the server. The journal has what was granted.</p>
</body></html>
";

fn summary(text: &mut String, view: &View<'_>) {
    let engine = match view.engine.is_ready {
        false => "<span class=\"down\">is away</span>".into(),
        true if view.engine.is_silent => {
            format!("<span class=\"down\">has not answered for {}</span>", time(view.engine.silence))
        }
        true => String::from("answers"),
    };
    let locks = view.board.locks();
    let held = locks.iter().filter(|sight| sight.holder.is_some()).count();
    let others = view.board.any().map(|any| *any.sums());
    let waiting = locks.iter().map(|sight| sight.line.len()).sum::<usize>() + others.map_or(0, |sums| sums.waiting);
    let others = others.map_or(String::new(), |sums| format!(", and {} of other names", sums.held));
    let _ = writeln!(
        text,
        "<h1>Locks</h1>\n<p>The engine {engine} (start {}). Clients: {}, locks held: {held} of {}{others}, waiting: {waiting}. \
         Up for {}. Journal: {} bytes, segments: {}, the last is {}.</p>",
        view.engine.starts,
        view.connected,
        locks.len(),
        time(view.now.saturating_duration_since(view.started)),
        view.journal.bytes,
        view.journal.segments,
        if view.journal.last.is_empty() { "none" } else { escaped(&view.journal.last) },
    );
}

fn log(text: &mut String, it: &InLog) {
    let log = if it.is_in_log { "is in the log" } else { "<span class=\"down\">is not in the log</span>" };
    let _ = write!(
        text,
        "<p>This server {log} of all servers, of which {} are alive. Position: {}, last checkpoint: {}.",
        it.alive, it.position, it.checkpoint
    );
    if it.is_full {
        text.push_str(" <span class=\"down\">etcd has no room for entries.</span>");
    }
    if it.contradictions > 0 {
        let _ = write!(text, " <span class=\"down\">Another had other answers {} times.</span>", it.contradictions);
    }
    text.push_str("</p>\n");
}

/// A file's name, if it is one of a segment.
fn escaped(name: &str) -> &str {
    let is_plain = name.bytes().all(|b| b.is_ascii_alphanumeric() || b == b'.');
    if is_plain {
        name
    } else {
        "?"
    }
}

/// One lock. Names of locks need no escapes (see `lock.rs` of `wozgirt-engine`), and everything else is a number.
pub fn row(text: &mut String, sight: &Sight, now: Instant) {
    let _ = write!(text, "<tr><td>{}</td>", sight.lock);
    match sight.holder {
        None => text.push_str("<td class=\"free\">free</td><td></td><td></td><td></td>"),
        Some(holder) => held(text, &holder, sight.certificate(), now),
    }
    let _ = write!(text, "<td>{}", sight.line.len());
    for waiter in sight.line.iter().take(NAMED) {
        let _ = write!(
            text,
            "<br>client {}{} label {} for {}",
            waiter.client,
            named(waiter.guest.certificate()),
            waiter.label,
            time(now.saturating_duration_since(waiter.since))
        );
    }
    if sight.line.len() > NAMED {
        text.push_str("<br>..");
    }
    let _ = write!(
        text,
        "</td><td class=\"n\">{}</td><td class=\"n\">{}</td><td>",
        sight.past.grants,
        time(sight.past.longest_wait)
    );
    if let Some(fault) = sight.past.last_fault {
        let _ = write!(
            text,
            "{}: machine {}, {} over {}; repaired before it was answered",
            fault.at, fault.machine, fault.value, fault.old
        );
    }
    text.push_str("</td></tr>\n");
}

/// Instead of these rows, if there are any.
pub fn more(text: &mut String, count: usize) {
    if count > 0 {
        let _ = writeln!(text, "<tr><td colspan=\"9\">and {count} more that are in use</td></tr>");
    }
}

fn held(text: &mut String, holder: &Holder, certificate: Option<&CertificateName>, now: Instant) {
    if holder.client == NOBODY {
        text.push_str("<td class=\"before\">a client of before</td>");
    } else {
        let _ = write!(text, "<td class=\"held\">client {}{}</td>", holder.client, named(certificate));
    }
    let label = holder.label.map(|label| label.to_string()).unwrap_or_default();
    let age = time(now.saturating_duration_since(holder.since));
    let _ = write!(text, "<td class=\"n\">{label}</td><td class=\"n\">{}</td><td class=\"n\">{age}</td>", holder.token);
}

/// Whose certificate it is, where one is known; it is written without what a page would need escapes for.
fn named(certificate: Option<&CertificateName>) -> String {
    certificate.map(|name| format!(" (cert:{name})")).unwrap_or_default()
}

fn time(time: Duration) -> String {
    match time.as_secs() {
        0 => format!("{:.1} ms", time.as_secs_f64() * 1000.0),
        1..=119 => format!("{:.1} s", time.as_secs_f64()),
        seconds @ 120..=7199 => format!("{} min", seconds / 60),
        seconds => format!("{} h {} min", seconds / 3600, seconds / 60 % 60),
    }
}

#[cfg(test)]
mod tests {
    use super::*;
    use crate::board::Board;
    use crate::engine_version::EngineVersion;
    use crate::figures::Figures;
    use crate::journal::JournalSize;
    use crate::names::Names;
    use crate::pages::http::Wanted;
    use crate::pages::{EngineView, Telling};
    use crate::sums::Sums;

    /// Two locks.
    fn listed(started: Instant) -> Board {
        let mut board = Board::new(&Names::parse("deploy,gpu").unwrap());
        board.granted("deploy", 7, 12, Some(77), started);
        board.waits("deploy", 8, 78, started + Duration::from_secs(1));
        board.fault("deploy", 2, 1, 0);
        board
    }

    /// Some of any name.
    fn others(started: Instant, list: &str) -> Board {
        let mut board = Board::new(&Names::parse(list).unwrap());
        for i in 0..1200 {
            board.granted(&format!("x/{i}"), 7, 12, Some(77), started + Duration::from_millis(i));
        }
        board.waits("x/3", 8, 78, started + Duration::from_secs(1));
        (0..2).for_each(|i| board.released(&format!("x/{i}"), 7));
        board
    }

    fn shown(wanted: Wanted, most: usize) -> String {
        let started = Instant::now();
        shown_of(wanted, most, &listed(started), started)
    }

    /// The text, sent in parts of at least this many bytes.
    fn shown_of(wanted: Wanted, most: usize, board: &Board, started: Instant) -> String {
        let mut sums = Sums::default();
        sums.refused("circle");
        let mut telling = Telling::new(wanted);
        let mut figures = Figures::default();
        (figures.seconds, figures.open_files) = (1.5, 9);
        let view = View {
            board,
            sums: &sums,
            connected: 2,
            sessions: 3,
            engine: EngineView {
                version: &EngineVersion { name: "ring_tool 0.1.0".into(), is_proved: false },
                starts: 1,
                is_ready: true,
                silence: Duration::from_millis(500),
                is_silent: false,
                waiting_lines: 7,
            },
            in_log: Some(InLog {
                is_in_log: true,
                is_full: false,
                position: 40,
                checkpoint: 30,
                alive: 3,
                contradictions: 1,
            }),
            grants: None,
            journal: &JournalSize { bytes: 99, segments: 1, last: "0000000001.ring".into() },
            figures: &figures,
            certificates: &[],
            started,
            now: started + Duration::from_secs(3),
        };
        let mut whole = String::new();
        loop {
            let mut part = String::new();
            let is_done = telling.go_on(&mut part, &view, most, Instant::now() + Duration::from_secs(60));
            whole.push_str(&part);
            if is_done {
                return whole;
            }
        }
    }

    #[test]
    fn a_text_in_parts_is_the_same_text() {
        for wanted in [Wanted::Page, Wanted::Metrics] {
            assert_eq!(shown(wanted, 1), shown(wanted, 1 << 20));
        }
    }

    #[test]
    fn the_page_has_holder_queue_and_fault() {
        let page = shown(Wanted::Page, 1 << 20);
        for part in [
            "client 7</td><td class=\"n\">77</td><td class=\"n\">12</td><td class=\"n\">3.0 s</td>",
            "<td>1<br>client 8 label 78 for 2.0 s</td><td class=\"n\">1</td>",
            "machine 2, 1 over 0; repaired",
            "<td>gpu</td><td class=\"free\">free</td>",
            "99 bytes, segments: 1, the last is 0000000001.ring",
            "is in the log of all servers, of which 3 are alive. Position: 40, last checkpoint: 30.",
            "Another had other answers 1 times.",
        ] {
            assert!(page.contains(part), "{part} in {page}");
        }
        assert!(!page.contains("<script"));
    }

    #[test]
    fn the_metrics_have_a_value_for_each_lock() {
        let text = shown(Wanted::Metrics, 1 << 20);
        for line in [
            "wozgirt_build_info{version=\"0.1.0\",engine=\"ring_tool 0.1.0\",proved=\"no\"} 1",
            "process_cpu_seconds_total 1.5",
            "process_open_fds 9",
            "wozgirt_engine_up 1",
            "wozgirt_engine_oldest_question_seconds 0.5",
            "wozgirt_engine_lines_waiting 7",
            "wozgirt_refusals_total{reason=\"circle\"} 1",
            "# TYPE wozgirt_wait_seconds histogram",
            "wozgirt_wait_seconds_bucket{le=\"0.001\"} 1",
            "wozgirt_wait_seconds_bucket{le=\"+Inf\"} 1",
            "wozgirt_wait_seconds_sum 0",
            "wozgirt_wait_seconds_count 1",
            "wozgirt_in_log 1",
            "wozgirt_log_position 40",
            "wozgirt_checkpoint_position 30",
            "wozgirt_servers_alive 3",
            "wozgirt_contradictions_total 1",
            "wozgirt_held{lock=\"deploy\"} 1",
            "wozgirt_held{lock=\"gpu\"} 0",
            "wozgirt_held_seconds{lock=\"deploy\"} 3",
            "wozgirt_oldest_wait_seconds{lock=\"deploy\"} 2",
            "wozgirt_grants_total{lock=\"deploy\"} 1",
            "wozgirt_faults_total{lock=\"deploy\"} 1",
            "# TYPE wozgirt_grants_total counter",
        ] {
            assert!(text.lines().any(|it| it == line), "{line} in {text}");
        }
    }
    #[test]
    fn of_other_names_the_page_has_those_in_use_and_the_metrics_sums() {
        let started = Instant::now();
        for list in ["deploy,*", "*"] {
            let board = others(started, list);
            let [page, text] = [Wanted::Page, Wanted::Metrics].map(|wanted| shown_of(wanted, 1 << 20, &board, started));
            for part in [
                ", and 1198 of other names, waiting: 1.",
                "<td>x/3</td><td class=\"held\">client 7</td>",
                "<td>x/1001</td>",
                "<tr><td colspan=\"9\">and 198 more that are in use</td></tr>",
                "<td>x/1</td><td class=\"free\">free</td>",
            ] {
                assert!(page.contains(part), "{part} in {page}");
            }
            assert_eq!((page.matches("<tr><td>x/").count(), page.contains("<td>x/1002</td>")), (1002, false));
            for line in [
                "wozgirt_held{lock=\"*\"} 1198",
                "wozgirt_held_seconds{lock=\"*\"} 2.998",
                "wozgirt_waiting{lock=\"*\"} 1",
                "wozgirt_oldest_wait_seconds{lock=\"*\"} 2",
                "wozgirt_grants_total{lock=\"*\"} 1200",
                "# TYPE wozgirt_grants_total counter",
            ] {
                assert_eq!(text.lines().filter(|it| *it == line).count(), 1, "{line} in {text}");
            }
            assert!(!text.contains("x/"));
            assert_eq!(shown_of(Wanted::Page, 1, &board, started), page);
            assert_eq!(shown_of(Wanted::Metrics, 1, &board, started), text);
        }
    }
}
