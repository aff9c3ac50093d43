//! Files with certificates that are watched: until when they hold. Each is read again from time to time, since a certificate is replaced
//! while the server runs; a thread does that, since the loop waits for no disk.

mod der;
mod pem;

use std::fmt;
use std::fs;
use std::io;
use std::path::{Path, PathBuf};
use std::sync::mpsc::{channel, Receiver};
use std::thread;
use std::time::{Duration, Instant, SystemTime, UNIX_EPOCH};

/// How often the files are read.
const PERIOD: Duration = Duration::from_secs(3600);
/// A certificate that ends sooner than this is logged, and then no more for a while.
const SOON: Duration = Duration::from_secs(7 * 86_400);
const PAUSE: Duration = Duration::from_secs(86_400);

/// Why a file says nothing of certificates.
#[derive(Debug)]
pub enum Unread {
    /// It cannot be read.
    File(io::Error),
    /// It has none.
    None,
    /// One of those that it has is not of a form that is known.
    Form,
}

impl fmt::Display for Unread {
    fn fmt(&self, f: &mut fmt::Formatter<'_>) -> fmt::Result {
        match self {
            Unread::File(fault) => fault.fmt(f),
            Unread::None => f.write_str("it has no certificate in PEM"),
            Unread::Form => f.write_str("a certificate in it cannot be read"),
        }
    }
}

/// What there is to say of a file.
#[derive(Debug)]
pub enum News {
    /// It cannot be read.
    Unread(Unread),
    /// The certificate of it that ends first does so after this time, or did.
    Ends(Option<Duration>),
}

/// When the first of the certificates in this file ends, in seconds since 1970.
fn first_end(path: &Path) -> Result<u64, Unread> {
    let bytes = fs::read(path).map_err(Unread::File)?;
    let certificates = pem::certificates(&String::from_utf8_lossy(&bytes)).ok_or(Unread::Form)?;
    let ends: Option<Vec<u64>> = certificates.iter().map(|certificate| der::ends(certificate)).collect();
    ends.ok_or(Unread::Form)?.into_iter().min().ok_or(Unread::None)
}

/// One file.
#[derive(Debug)]
pub struct Watched {
    path: PathBuf,
    ends: Option<u64>,
    said: Option<Instant>,
}

impl Watched {
    /// The name of the file.
    pub fn path(&self) -> &Path {
        &self.path
    }

    /// When the first certificate in it ends, in seconds since 1970, if that is known.
    pub fn ends(&self) -> Option<u64> {
        self.ends
    }

    /// The file was read: what there is to say of it now. `time`: since 1970.
    fn note(&mut self, found: Result<u64, Unread>, time: Duration, now: Instant) -> Option<News> {
        self.ends = found.as_ref().ok().copied();
        let news = match found {
            Err(why) => News::Unread(why),
            Ok(ends) => match Duration::from_secs(ends).checked_sub(time) {
                Some(left) if left >= SOON => {
                    self.said = None; // of the next one it is said at once
                    return None;
                }
                left => News::Ends(left),
            },
        };
        if self.said.is_some_and(|said| now.saturating_duration_since(said) < PAUSE) {
            return None;
        }
        self.said = Some(now);
        Some(news)
    }
}

/// All files that are watched.
pub struct Certificates {
    files: Vec<Watched>,
    found: Option<Receiver<(usize, Result<u64, Unread>)>>,
}

impl Certificates {
    /// Starts to watch these.
    pub fn watch(paths: &[PathBuf]) -> io::Result<Certificates> {
        let files = paths.iter().map(|path| Watched { path: path.clone(), ends: None, said: None }).collect();
        if paths.is_empty() {
            return Ok(Certificates { files, found: None });
        }
        let (tell, found) = channel();
        let paths = paths.to_vec();
        let read_all = move || loop {
            for (place, path) in paths.iter().enumerate() {
                if tell.send((place, first_end(path))).is_err() {
                    return;
                }
            }
            thread::sleep(PERIOD);
        };
        thread::Builder::new().name("certificates".into()).spawn(read_all)?;
        Ok(Certificates { files, found: Some(found) })
    }

    /// The files.
    pub fn files(&self) -> &[Watched] {
        &self.files
    }

    /// What there is to say, and of which file.
    pub fn news(&mut self, now: Instant) -> Vec<(PathBuf, News)> {
        let Some(found) = &self.found else { return Vec::new() };
        let mut news = Vec::new();
        for (place, result) in found.try_iter() {
            let time = SystemTime::now().duration_since(UNIX_EPOCH).unwrap_or_default();
            let file = &mut self.files[place];
            news.extend(file.note(result, time, now).map(|it| (file.path.clone(), it)));
        }
        news
    }
}

#[cfg(test)]
mod tests;
