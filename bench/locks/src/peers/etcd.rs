//! etcd, over its JSON gateway: the lock service; and a key of a new name with the client's lease, made if it is not there, and removed.

use crate::peers::fresh::Fresh;
use crate::Peer;
use std::io::{BufRead, BufReader, Read, Write};
use std::net::TcpStream;

/// A connection, with a lease.
struct Gateway {
    stream: BufReader<TcpStream>,
    lease: String,
}

pub struct Etcd {
    gateway: Gateway,
    lock: String,
    key: String,
}

pub struct EtcdKeys {
    gateway: Gateway,
    fresh: Fresh,
    key: String,
}

fn base64(bytes: &[u8]) -> String {
    const TABLE: &[u8] = b"ABCDEFGHIJKLMNOPQRSTUVWXYZabcdefghijklmnopqrstuvwxyz0123456789+/";
    let mut text = String::new();
    for part in bytes.chunks(3) {
        let word = part.iter().fold(0u32, |w, &b| w << 8 | u32::from(b)) << (8 * (3 - part.len()));
        for i in 0..4 {
            text.push(if i <= part.len() { TABLE[(word >> (18 - 6 * i) & 63) as usize] as char } else { '=' });
        }
    }
    text
}

fn field(text: &str, name: &str) -> String {
    let from = text.find(&format!("\"{name}\":\"")).unwrap_or_else(|| panic!("{text}")) + name.len() + 4;
    text[from..].split('"').next().unwrap().into()
}

impl Gateway {
    fn open(address: &str, seconds: u32) -> Gateway {
        let stream = TcpStream::connect(address).unwrap();
        stream.set_nodelay(true).unwrap();
        let mut it = Gateway { stream: BufReader::new(stream), lease: String::new() };
        it.lease = field(&it.post("/v3/lease/grant", &format!("{{\"TTL\":{seconds}}}")), "ID");
        it
    }

    fn post(&mut self, path: &str, body: &str) -> String {
        let text = format!(
            "POST {path} HTTP/1.1\r\nHost: x\r\nContent-Type: application/json\r\nContent-Length: {}\r\n\r\n{body}",
            body.len()
        );
        self.stream.get_mut().write_all(text.as_bytes()).unwrap();
        let (mut length, mut chunked) = (0, false);
        loop {
            let mut line = String::new();
            self.stream.read_line(&mut line).unwrap();
            let line = line.trim_end().to_lowercase();
            if line.is_empty() {
                break;
            }
            if let Some(value) = line.strip_prefix("content-length: ") {
                length = value.parse().unwrap();
            }
            chunked |= line == "transfer-encoding: chunked";
        }
        let mut bytes = Vec::new();
        loop {
            if chunked {
                let mut line = String::new();
                self.stream.read_line(&mut line).unwrap();
                length = usize::from_str_radix(line.trim_end(), 16).unwrap();
            }
            let begin = bytes.len();
            bytes.resize(begin + length + if chunked { 2 } else { 0 }, 0);
            self.stream.read_exact(&mut bytes[begin..]).unwrap();
            bytes.truncate(begin + length);
            if !chunked || length == 0 {
                return String::from_utf8_lossy(&bytes).into_owned();
            }
        }
    }
}

impl Etcd {
    pub fn open(address: &str, l: usize) -> Etcd {
        let gateway = Gateway::open(address, 60);
        let lock =
            format!("{{\"name\":\"{}\",\"lease\":\"{}\"}}", base64(format!("lock{l}").as_bytes()), gateway.lease);
        Etcd { gateway, lock, key: String::new() }
    }
}

impl Peer for Etcd {
    fn acquire(&mut self) -> u64 {
        self.key = field(&self.gateway.post("/v3/lock/lock", &self.lock), "key");
        0
    }

    fn release(&mut self) {
        let key = format!("{{\"key\":\"{}\"}}", self.key);
        let answer = self.gateway.post("/v3/lock/unlock", &key);
        assert!(answer.contains("header"), "{answer}");
    }
}

impl EtcdKeys {
    pub fn open(address: &str, c: usize) -> EtcdKeys {
        EtcdKeys { gateway: Gateway::open(address, 3600), fresh: Fresh::of(c), key: String::new() }
    }
}

/// Whether it could not answer in time: then what was asked may be done, or not.
fn is_late(answer: &str) -> bool {
    answer.contains("request timed out")
}

impl Peer for EtcdKeys {
    fn acquire(&mut self) -> u64 {
        loop {
            self.key = base64(self.fresh.name().as_bytes());
            let (key, lease) = (&self.key, &self.gateway.lease);
            let body = format!(
                "{{\"compare\":[{{\"key\":\"{key}\",\"target\":\"CREATE\",\"result\":\"EQUAL\",\"create_revision\":\"0\"}}],\
                 \"success\":[{{\"request_put\":{{\"key\":\"{key}\",\"lease\":\"{lease}\"}}}}]}}"
            );
            let answer = self.gateway.post("/v3/kv/txn", &body);
            if answer.contains("\"succeeded\":true") {
                // the revision of the key, which is the token
                return field(&answer, "revision").parse().unwrap();
            }
            assert!(is_late(&answer), "{answer}");
        }
    }

    fn release(&mut self) {
        let key = format!("{{\"key\":\"{}\"}}", self.key);
        loop {
            let answer = self.gateway.post("/v3/kv/deleterange", &key);
            if !is_late(&answer) {
                return assert!(answer.contains("header"), "{answer}");
            }
        }
    }
}
