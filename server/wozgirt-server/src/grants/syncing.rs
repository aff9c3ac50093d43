//! The thread that has the record synced, so that the server's loop never waits for its disk: of all that came while it waited, once.

use super::file::Lost;
use std::fs::File;
use std::io::{self, Read, Write};
use std::os::unix::net::UnixStream;
use std::path::PathBuf;
use std::sync::atomic::{AtomicU64, Ordering};
use std::sync::mpsc::{channel, Receiver, Sender, TryRecvError};
use std::sync::Arc;
use std::thread;
use std::time::{Duration, Instant};

/// How long the thread looks for more before it sleeps: to be woken takes longer.
const MOMENT: Duration = Duration::from_micros(50);

/// The number of a block. Blocks are synced in their order.
pub type Ticket = u64;

/// A block that was written.
#[derive(Debug)]
pub struct Ask {
    /// Its number.
    pub ticket: Ticket,
    /// The file that has it.
    pub file: Arc<File>,
    /// What is lost if that cannot be synced.
    pub lines: Lost,
}

/// The way to the thread.
pub struct Syncing {
    asks: Sender<Ask>,
    faults: Receiver<(io::Error, Lost)>,
    done: Arc<AtomicU64>,
    bell: UnixStream,
}

impl Syncing {
    /// Starts the thread. The folder is synced with each file that is new.
    pub fn start(folder: PathBuf) -> io::Result<Syncing> {
        let ((asks, asked), (tell, faults)) = (channel(), channel());
        let (bell, rings) = UnixStream::pair()?;
        bell.set_nonblocking(true)?;
        rings.set_nonblocking(true)?;
        let done = Arc::new(AtomicU64::new(0));
        let thread = Thread { folder, asked, tell, done: done.clone(), rings, last: None };
        thread::Builder::new().name("grants".into()).spawn(move || thread.run())?;
        Ok(Syncing { asks, faults, done, bell })
    }

    /// One whose thread never answers, as where the disk does not.
    #[cfg(test)]
    pub fn never() -> Syncing {
        let ((asks, _), (_, faults)) = (channel(), channel());
        let (bell, _) = UnixStream::pair().unwrap();
        Syncing { asks, faults, done: Arc::new(AtomicU64::new(0)), bell }
    }

    /// Has a block synced.
    pub fn ask(&self, ask: Ask) {
        let _ = self.asks.send(ask); // the thread lasts as long as this side
    }

    /// The last block that is synced, or cannot be.
    pub fn done(&self) -> Ticket {
        self.done.load(Ordering::Acquire)
    }

    /// What could not be synced.
    pub fn faults(&self) -> impl Iterator<Item = (io::Error, Lost)> + '_ {
        self.faults.try_iter()
    }

    /// It can be read when a block is synced.
    pub fn bell(&self) -> &UnixStream {
        &self.bell
    }

    /// The bell is heard.
    pub fn hear(&self) {
        let mut rings = [0; 64];
        while matches!((&self.bell).read(&mut rings), Ok(count) if count > 0) {}
    }
}

struct Thread {
    folder: PathBuf,
    asked: Receiver<Ask>,
    tell: Sender<(io::Error, Lost)>,
    done: Arc<AtomicU64>,
    rings: UnixStream,
    /// The file that was synced last, whose name is on the disk.
    last: Option<Arc<File>>,
}

impl Thread {
    fn run(mut self) {
        while let Some(mut block) = self.next() {
            for more in self.asked.try_iter().collect::<Vec<_>>() {
                if Arc::ptr_eq(&more.file, &block.file) {
                    block = Ask { ticket: more.ticket, lines: block.lines.and(Some(more.lines)), ..block };
                } else {
                    self.sync(&std::mem::replace(&mut block, more));
                }
            }
            self.sync(&block);
            self.done.store(block.ticket, Ordering::Release);
            let _ = (&self.rings).write(&[0]); // if there is no room, it rings already
        }
    }

    /// The next block, unless the server is over.
    fn next(&self) -> Option<Ask> {
        let end = Instant::now() + MOMENT;
        loop {
            match self.asked.try_recv() {
                Ok(ask) => return Some(ask),
                Err(TryRecvError::Disconnected) => return None,
                Err(TryRecvError::Empty) if Instant::now() >= end => return self.asked.recv().ok(),
                Err(TryRecvError::Empty) => std::hint::spin_loop(),
            }
        }
    }

    fn sync(&mut self, ask: &Ask) {
        let is_new = !self.last.as_ref().is_some_and(|last| Arc::ptr_eq(last, &ask.file));
        let synced = ask.file.sync_data();
        let synced = if is_new { synced.and_then(|()| File::open(&self.folder)?.sync_all()) } else { synced };
        match synced {
            Ok(()) => self.last = Some(ask.file.clone()),
            Err(fault) => {
                self.last = None;
                let _ = self.tell.send((fault, ask.lines)); // else nobody wants to know
            }
        }
    }
}

#[cfg(test)]
mod tests {
    use super::*;
    use wozgirt_grants::Moment;

    fn lines(lines: u64) -> Lost {
        Lost { lines, since: Moment::of(9, 0) }
    }

    /// Waits until this one is done.
    fn wait_for(syncing: &Syncing, ticket: Ticket) {
        let end = Instant::now() + Duration::from_secs(50);
        while syncing.done() < ticket {
            assert!(Instant::now() < end);
            thread::sleep(Duration::from_millis(1));
        }
    }

    #[test]
    fn blocks_are_synced_in_order() {
        let folder = std::env::temp_dir().join(format!("wozgirt-syncing-{}", std::process::id()));
        std::fs::create_dir_all(&folder).unwrap();
        let [one, two] = ["one", "two"].map(|name| Arc::new(File::create(folder.join(name)).unwrap()));
        let syncing = Syncing::start(folder.clone()).unwrap();
        for (ticket, file) in [(1, &one), (2, &one), (3, &two), (4, &two)] {
            syncing.ask(Ask { ticket, file: file.clone(), lines: lines(1) });
        }
        wait_for(&syncing, 4);
        assert_eq!((syncing.done(), syncing.faults().count()), (4, 0));
        syncing.hear();
        assert!(syncing.bell().read(&mut [0]).is_err()); // nothing rings any more
        std::fs::remove_dir_all(folder).unwrap();
    }

    #[test]
    fn what_cannot_be_synced_is_told() {
        let (one, _other) = UnixStream::pair().unwrap();
        let socket: std::os::fd::OwnedFd = one.into();
        let socket = Arc::new(File::from(socket));
        let syncing = Syncing::start(std::env::temp_dir()).unwrap();
        syncing.ask(Ask { ticket: 7, file: socket.clone(), lines: lines(2) });
        wait_for(&syncing, 7);
        assert_eq!(syncing.faults().map(|(_, lost)| lost).collect::<Vec<_>>(), [lines(2)]);
    }
}
