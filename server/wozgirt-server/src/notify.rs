//! What the server reports to systemd: that it serves, that it still runs its rounds, that it ends. Nothing without NOTIFY_SOCKET.

use std::os::linux::net::SocketAddrExt;
use std::os::unix::net::{SocketAddr, UnixDatagram};
use std::time::{Duration, Instant};

/// Where to send it.
pub const SOCKET: &str = "NOTIFY_SOCKET";

/// The way to systemd.
#[derive(Debug)]
pub struct Notify {
    socket: Option<UnixDatagram>,
    /// How often it wants to hear of this process, and when it does next.
    period: Option<Duration>,
    next: Instant,
    is_ready: bool,
}

impl Notify {
    /// As the environment says. A socket that cannot be had is none.
    pub fn from_environment(now: Instant) -> Notify {
        let word = |name| std::env::var(name).ok();
        let socket = word(SOCKET).and_then(|name| connect(&name));
        let is_mine = word("WATCHDOG_PID").map_or(true, |pid| pid == std::process::id().to_string());
        let watchdog = word("WATCHDOG_USEC").filter(|_| is_mine).and_then(|time| time.parse().ok());
        let period = watchdog.filter(|&time| time > 0).map(|time| Duration::from_micros(time) / 3);
        Notify { socket, period, next: now, is_ready: false }
    }

    /// The server serves, or did.
    pub fn note_ready(&mut self) {
        if !std::mem::replace(&mut self.is_ready, true) {
            self.say("READY=1\nSTATUS=serves");
        }
    }

    /// A round is over.
    pub fn note_round(&mut self, now: Instant) {
        if let Some(period) = self.period.filter(|_| self.next <= now) {
            self.next = now + period;
            self.say("WATCHDOG=1");
        }
    }

    /// The server ends.
    pub fn note_stopping(&self) {
        self.say("STOPPING=1");
    }

    fn say(&self, text: &str) {
        if let Some(socket) = &self.socket {
            let _ = socket.send(text.as_bytes()); // if systemd does not take it, it does not need it
        }
    }
}

fn connect(name: &str) -> Option<UnixDatagram> {
    let address = match name.strip_prefix('@') {
        Some(name) => SocketAddr::from_abstract_name(name).ok()?,
        None => SocketAddr::from_pathname(name).ok()?,
    };
    let socket = UnixDatagram::unbound().ok()?;
    socket.set_nonblocking(true).ok()?;
    socket.connect_addr(&address).ok()?;
    Some(socket)
}

#[cfg(test)]
mod tests {
    use super::*;

    #[test]
    fn it_is_told_in_both_kinds_of_names() {
        let path = std::env::temp_dir().join(format!("wozgirt-notify-{}", std::process::id()));
        let _ = std::fs::remove_file(&path);
        let name = format!("wozgirt-notify-{}", std::process::id());
        let abstract_name = SocketAddr::from_abstract_name(&name).unwrap();
        let sockets = [
            (UnixDatagram::bind(&path).unwrap(), path.display().to_string()),
            (UnixDatagram::bind_addr(&abstract_name).unwrap(), format!("@{name}")),
        ];
        for (socket, name) in sockets {
            let now = Instant::now();
            let period = Some(Duration::from_secs(1));
            let mut notify = Notify { socket: connect(&name), period, next: now, is_ready: false };
            (0..2).for_each(|_| notify.note_ready());
            (0..2).for_each(|_| notify.note_round(now));
            notify.note_stopping();
            let told = || {
                let mut bytes = [0; 100];
                let count = socket.recv(&mut bytes).unwrap();
                String::from_utf8(bytes[..count].to_vec()).unwrap()
            };
            assert_eq!([told(), told(), told()], ["READY=1\nSTATUS=serves", "WATCHDOG=1", "STOPPING=1"]);
        }
        std::fs::remove_file(path).unwrap();
        assert!(connect("/nonexistent/socket").is_none());
    }
}
