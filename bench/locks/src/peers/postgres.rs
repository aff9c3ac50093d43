//! PostgreSQL: advisory locks, by prepared statements.

use crate::Peer;
use std::io::{BufReader, Read, Write};
use std::os::unix::net::UnixStream;

pub struct Postgres(BufReader<UnixStream>);

impl Postgres {
    pub fn open(path: &str, l: usize) -> Postgres {
        let mut it = Postgres(BufReader::new(UnixStream::connect(path).unwrap()));
        let words = b"user\0postgres\0database\0postgres\0\0";
        let mut start = (words.len() as u32 + 8).to_be_bytes().to_vec();
        start.extend_from_slice(&196_608u32.to_be_bytes());
        start.extend_from_slice(words);
        it.0.get_mut().write_all(&start).unwrap();
        it.until_ready();
        for (name, what) in [("l", "pg_advisory_lock"), ("u", "pg_advisory_unlock")] {
            let mut text = Vec::new();
            message(&mut text, b'P', format!("{name}\0SELECT {what}({l})\0\0\0").as_bytes());
            message(&mut text, b'S', b"");
            it.0.get_mut().write_all(&text).unwrap();
            it.until_ready();
        }
        it
    }

    fn run(&mut self, name: &str) {
        let mut text = Vec::new();
        message(&mut text, b'B', format!("\0{name}\0\0\0\0\0\0\0").as_bytes());
        message(&mut text, b'E', b"\0\0\0\0\0");
        message(&mut text, b'S', b"");
        self.0.get_mut().write_all(&text).unwrap();
        self.until_ready();
    }

    fn until_ready(&mut self) {
        loop {
            let mut head = [0; 5];
            self.0.read_exact(&mut head).unwrap();
            let mut body = vec![0; u32::from_be_bytes(head[1..].try_into().unwrap()) as usize - 4];
            self.0.read_exact(&mut body).unwrap();
            match head[0] {
                b'E' => panic!("{}", String::from_utf8_lossy(&body)),
                b'Z' => return,
                _ => {}
            }
        }
    }
}

fn message(text: &mut Vec<u8>, kind: u8, body: &[u8]) {
    text.push(kind);
    text.extend_from_slice(&(body.len() as u32 + 4).to_be_bytes());
    text.extend_from_slice(body);
}

impl Peer for Postgres {
    fn acquire(&mut self) -> u64 {
        self.run("l");
        0
    }

    fn release(&mut self) {
        self.run("u");
    }
}
