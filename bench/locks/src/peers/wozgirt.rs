//! This server. Its locks are l0, l1 ..; or, where it takes any name, a new one each time.

use crate::peers::fresh::Fresh;
use crate::Peer;
use std::io::{BufRead, BufReader, Write};
use std::os::unix::net::UnixStream;

pub struct Wozgirt {
    stream: BufReader<UnixStream>,
    name: String,
    fresh: Option<Fresh>,
    line: String,
    token: u64,
}

impl Wozgirt {
    pub fn open(path: &str, l: usize) -> Wozgirt {
        let stream = BufReader::new(UnixStream::connect(path).unwrap());
        Wozgirt { stream, name: format!("l{l}"), fresh: None, line: String::new(), token: 0 }
    }

    pub fn of_new_names(path: &str, c: usize) -> Wozgirt {
        Wozgirt { fresh: Some(Fresh::of(c)), ..Wozgirt::open(path, c) }
    }

    fn ask(&mut self, line: String) {
        self.stream.get_mut().write_all(line.as_bytes()).unwrap();
        self.answer();
    }

    fn answer(&mut self) {
        self.line.clear();
        self.stream.read_line(&mut self.line).unwrap();
    }
}

impl Peer for Wozgirt {
    fn acquire(&mut self) -> u64 {
        if let Some(fresh) = &mut self.fresh {
            self.name = fresh.name();
        }
        self.ask(format!("acquire {} 7\n", self.name));
        while self.line.starts_with("waiting") {
            self.answer();
        }
        assert!(self.line.starts_with("granted"), "{}", self.line);
        self.token = self.line.trim_end().rsplit(' ').next().unwrap().parse().unwrap();
        self.token
    }

    fn release(&mut self) {
        self.ask(format!("release {} {}\n", self.name, self.token));
        assert!(self.line.starts_with("released"), "{}", self.line);
    }
}
