//! ZooKeeper: the recipe for locks, as its library does it.

use crate::Peer;
use std::io::{BufReader, Read, Write};
use std::net::TcpStream;

pub struct ZooKeeper {
    stream: BufReader<TcpStream>,
    xid: i32,
    gone: Vec<String>,
}

struct Packet(Vec<u8>, usize);

impl Packet {
    fn int(&mut self) -> i32 {
        self.1 += 4;
        i32::from_be_bytes(self.0[self.1 - 4..self.1].try_into().unwrap())
    }

    fn text(&mut self) -> String {
        let length = self.int() as usize;
        self.1 += length;
        String::from_utf8_lossy(&self.0[self.1 - length..self.1]).into_owned()
    }
}

fn put_text(body: &mut Vec<u8>, text: &str) {
    body.extend_from_slice(&(text.len() as i32).to_be_bytes());
    body.extend_from_slice(text.as_bytes());
}

impl ZooKeeper {
    pub fn open(address: &str) -> ZooKeeper {
        let stream = TcpStream::connect(address).unwrap();
        stream.set_nodelay(true).unwrap();
        let mut it = ZooKeeper { stream: BufReader::new(stream), xid: 0, gone: Vec::new() };
        let mut body = vec![0; 12];
        body.extend_from_slice(&30_000i32.to_be_bytes());
        body.extend_from_slice(&[0; 8]);
        body.extend_from_slice(&16i32.to_be_bytes());
        body.extend_from_slice(&[0; 17]);
        it.send(&body);
        it.packet();
        it
    }

    fn send(&mut self, body: &[u8]) {
        let mut text = (body.len() as i32).to_be_bytes().to_vec();
        text.extend_from_slice(body);
        self.stream.get_mut().write_all(&text).unwrap();
    }

    fn packet(&mut self) -> Packet {
        let mut length = [0; 4];
        self.stream.read_exact(&mut length).unwrap();
        let mut body = vec![0; i32::from_be_bytes(length) as usize];
        self.stream.read_exact(&mut body).unwrap();
        Packet(body, 0)
    }

    /// A reply, or a watch's event, which is kept: (is a reply, error, the rest).
    fn hear(&mut self) -> Option<(i32, Packet)> {
        let mut packet = self.packet();
        let xid = packet.int();
        packet.1 += 8;
        let error = packet.int();
        if xid == -1 {
            packet.1 += 8;
            self.gone.push(packet.text());
            return None;
        }
        Some((error, packet))
    }

    fn call(&mut self, kind: i32, body: &[u8]) -> (i32, Packet) {
        self.xid += 1;
        let mut text = self.xid.to_be_bytes().to_vec();
        text.extend_from_slice(&kind.to_be_bytes());
        text.extend_from_slice(body);
        self.send(&text);
        loop {
            if let Some(reply) = self.hear() {
                return reply;
            }
        }
    }

    pub fn create(&mut self, path: &str, flags: i32) -> String {
        let mut body = Vec::new();
        put_text(&mut body, path);
        body.extend_from_slice(&0i32.to_be_bytes());
        body.extend_from_slice(&1i32.to_be_bytes());
        body.extend_from_slice(&31i32.to_be_bytes());
        put_text(&mut body, "world");
        put_text(&mut body, "anyone");
        body.extend_from_slice(&flags.to_be_bytes());
        let (error, mut packet) = self.call(1, &body);
        if error != 0 {
            String::new()
        } else {
            packet.text()
        }
    }
}

pub struct ZooLock {
    pub zk: ZooKeeper,
    pub folder: String,
    pub mine: String,
}

impl Peer for ZooLock {
    fn acquire(&mut self) -> u64 {
        self.mine = self.zk.create(&format!("{}/n-", self.folder), 3);
        let name = self.mine.rsplit('/').next().unwrap().to_string();
        loop {
            let mut body = Vec::new();
            put_text(&mut body, &self.folder);
            body.push(0);
            let (_, mut packet) = self.zk.call(8, &body);
            let before = (0..packet.int()).map(|_| packet.text()).filter(|child| *child < name).max();
            let Some(before) = before else { return name[2..].parse::<u64>().unwrap() + 1 };
            let path = format!("{}/{before}", self.folder);
            body.clear();
            put_text(&mut body, &path);
            body.push(1);
            self.zk.gone.clear();
            let (error, _) = self.zk.call(3, &body);
            while error == 0 && !self.zk.gone.contains(&path) {
                self.zk.hear();
            }
        }
    }

    fn release(&mut self) {
        let mut body = Vec::new();
        put_text(&mut body, &self.mine);
        body.extend_from_slice(&(-1i32).to_be_bytes());
        assert_eq!(self.zk.call(2, &body).0, 0);
    }
}
