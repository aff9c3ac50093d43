//! What the system says of this process and of its disk, for the metrics.

use std::fs;
use std::path::Path;
use std::time::{Duration, Instant, SystemTime, UNIX_EPOCH};
use wozgirt_system::free_bytes;

/// How long figures may be shown.
const FRESH: Duration = Duration::from_secs(1);
/// How many ticks a second has in what Linux shows of processor time, on all processors.
const TICKS: f64 = 100.0;

/// Figures of this process as they were a short while ago; 0 where the system does not say.
#[derive(Debug, Default)]
pub struct Figures {
    /// Seconds of processor time.
    pub seconds: f64,
    /// Bytes of memory, and of address space.
    pub resident: u64,
    pub virtual_size: u64,
    /// How many files are open, and how many may be.
    pub open_files: usize,
    pub most_files: u64,
    /// How many bytes may be added to the journal's disk.
    pub free: u64,
    /// When the process started, in seconds since 1970.
    pub started: f64,
    next_look: Option<Instant>,
}

impl Figures {
    /// Nothing is known but when it started, which is now.
    pub fn new() -> Figures {
        let started = SystemTime::now().duration_since(UNIX_EPOCH).map_or(0.0, |since| since.as_secs_f64());
        Figures { started, ..Figures::default() }
    }

    /// Looks them up if it is time; those of the disk are of the one with this journal.
    pub fn look(&mut self, journal: &Path, now: Instant) {
        if self.next_look.is_some_and(|next| now < next) {
            return;
        }
        let read = |name: &str| fs::read_to_string(format!("/proc/self/{name}")).unwrap_or_default();
        let status = read("status");
        *self = Figures {
            seconds: seconds(&read("stat")).unwrap_or_default(),
            resident: kilobytes(&status, "VmRSS:").unwrap_or_default(),
            virtual_size: kilobytes(&status, "VmSize:").unwrap_or_default(),
            open_files: fs::read_dir("/proc/self/fd").map_or(0, |files| files.count().saturating_sub(1)),
            most_files: most_files(&read("limits")).unwrap_or_default(),
            free: free_bytes(journal).unwrap_or_default(),
            started: self.started,
            next_look: Some(now + FRESH),
        };
    }
}

/// Processor time: fields 14 and 15, counted from the name in parentheses, which is field 2 and may have blanks.
fn seconds(stat: &str) -> Option<f64> {
    let mut fields = stat.rsplit_once(')')?.1.split_whitespace().skip(11);
    let mut ticks = || fields.next()?.parse::<f64>().ok();
    Some((ticks()? + ticks()?) / TICKS)
}

fn kilobytes(status: &str, name: &str) -> Option<u64> {
    let line = status.lines().find_map(|line| line.strip_prefix(name))?;
    line.trim().strip_suffix(" kB")?.parse::<u64>().ok().map(|count| count << 10)
}

fn most_files(limits: &str) -> Option<u64> {
    limits.lines().find_map(|line| line.strip_prefix("Max open files"))?.split_whitespace().next()?.parse().ok()
}

#[cfg(test)]
mod tests {
    use super::*;

    #[test]
    fn texts_of_the_system() {
        let stat = "7 (a ) b) S 1 7 7 0 -1 4194560 1 0 0 0 250 50 0 0 20 0 3 0 100 1000 200 18446744073709551615 1";
        assert_eq!((seconds(stat), seconds("7 (a")), (Some(3.0), None));
        let status = "Name:\ta\nVmSize:\t    2000 kB\nVmRSS:\t     10 kB\n";
        assert_eq!((kilobytes(status, "VmRSS:"), kilobytes(status, "VmPeak:")), (Some(10 << 10), None));
        assert_eq!(most_files("Limit Soft Hard Units\nMax open files            1024   4096   files\n"), Some(1024));
    }

    #[test]
    fn of_this_process() {
        let mut figures = Figures::new();
        let (folder, now) = (std::env::temp_dir(), Instant::now());
        figures.look(&folder, now);
        assert!(figures.resident > 0 && figures.virtual_size > figures.resident && figures.most_files > 0);
        let files: Vec<_> = (0..20).map(|_| fs::File::open("/dev/null").unwrap()).collect();
        let open = figures.open_files;
        figures.look(&folder, now);
        assert_eq!(figures.open_files, open); // not yet
        figures.look(&folder, now + FRESH);
        assert!(figures.open_files >= files.len() && figures.started > 1e9 && figures.free > 0);
    }
}
