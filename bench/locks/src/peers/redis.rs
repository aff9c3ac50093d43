//! Redis: a key that is set if it is not there, asked for again each millisecond; and a list that is popped.

use crate::peers::fresh::Fresh;
use crate::Peer;
use std::io::{BufRead, BufReader, Read, Write};
use std::os::unix::net::UnixStream;
use std::time::Duration;

pub struct Redis(BufReader<UnixStream>);

impl Redis {
    pub fn open(path: &str) -> Redis {
        Redis(BufReader::new(UnixStream::connect(path).unwrap()))
    }

    pub fn call(&mut self, words: &[&[u8]]) -> String {
        let mut text = format!("*{}\r\n", words.len()).into_bytes();
        for word in words {
            text.extend_from_slice(format!("${}\r\n", word.len()).as_bytes());
            text.extend_from_slice(word);
            text.extend_from_slice(b"\r\n");
        }
        self.0.get_mut().write_all(&text).unwrap();
        self.reply()
    }

    fn reply(&mut self) -> String {
        let mut line = String::new();
        self.0.read_line(&mut line).unwrap();
        let line = line.trim_end();
        match line.as_bytes()[0] {
            b'$' => {
                let length: i64 = line[1..].parse().unwrap();
                if length < 0 {
                    return "nil".into();
                }
                let mut bytes = vec![0; length as usize + 2];
                self.0.read_exact(&mut bytes).unwrap();
                String::from_utf8_lossy(&bytes[..length as usize]).into_owned()
            }
            b'*' => (0..line[1..].parse::<i64>().unwrap()).map(|_| self.reply()).collect::<Vec<_>>().join(" "),
            b'-' => panic!("{line}"),
            _ => line[1..].into(),
        }
    }
}

pub struct RedisPoll {
    redis: Redis,
    name: String,
    fresh: Option<Fresh>,
    mine: String,
    script: String,
}

impl RedisPoll {
    pub fn open(path: &str, l: usize, c: usize) -> RedisPoll {
        let mut redis = Redis::open(path);
        let script = redis.call(&[
            b"SCRIPT",
            b"LOAD",
            b"if redis.call('get',KEYS[1])==ARGV[1] then return redis.call('del',KEYS[1]) else return 0 end",
        ]);
        RedisPoll { redis, name: format!("lock{l}"), fresh: None, mine: format!("client{c}"), script }
    }

    pub fn of_new_names(path: &str, c: usize) -> RedisPoll {
        RedisPoll { fresh: Some(Fresh::of(c)), ..RedisPoll::open(path, c, c) }
    }
}

impl Peer for RedisPoll {
    fn acquire(&mut self) -> u64 {
        if let Some(fresh) = &mut self.fresh {
            self.name = fresh.name();
        }
        while self.redis.call(&[b"SET", self.name.as_bytes(), self.mine.as_bytes(), b"NX", b"PX", b"30000"]) != "OK" {
            std::thread::sleep(Duration::from_millis(1));
        }
        0
    }

    fn release(&mut self) {
        let answer =
            self.redis.call(&[b"EVALSHA", self.script.as_bytes(), b"1", self.name.as_bytes(), self.mine.as_bytes()]);
        assert_eq!(answer, "1");
    }
}

pub struct RedisList {
    pub redis: Redis,
    pub name: String,
}

impl Peer for RedisList {
    fn acquire(&mut self) -> u64 {
        assert!(self.redis.call(&[b"BLPOP", self.name.as_bytes(), b"0"]).ends_with('1'));
        0
    }

    fn release(&mut self) {
        self.redis.call(&[b"RPUSH", self.name.as_bytes(), b"1"]);
    }
}
