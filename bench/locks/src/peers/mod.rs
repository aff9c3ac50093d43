//! Each peer's own way to lock, by its plainest fast client: one socket, no library.

mod etcd;
mod files;
mod fresh;
mod postgres;
mod redis;
mod wozgirt;
mod zookeeper;

use crate::Peer;
use redis::{Redis, RedisList, RedisPoll};
use zookeeper::{ZooKeeper, ZooLock};

/// What a peer needs before the first client comes.
pub fn prepare(peer: &str, address: &str, locks: usize) {
    match peer {
        "redis-list" => {
            let mut redis = Redis::open(address);
            for l in 0..locks {
                redis.call(&[b"DEL", format!("list{l}").as_bytes()]);
                redis.call(&[b"RPUSH", format!("list{l}").as_bytes(), b"1"]);
            }
        }
        "redis-poll" => {
            let mut redis = Redis::open(address);
            for l in 0..locks {
                redis.call(&[b"DEL", format!("lock{l}").as_bytes()]);
            }
        }
        "zookeeper" => {
            let mut zk = ZooKeeper::open(address);
            zk.create("/locks", 0);
            for l in 0..locks {
                zk.create(&format!("/locks/{l}"), 0);
            }
        }
        _ => {}
    }
}

/// A client of a peer, for lock l, as number c.
pub fn connect(peer: &str, address: &str, l: usize, c: usize) -> Option<Box<dyn Peer>> {
    Some(match peer {
        "wozgirt" => Box::new(wozgirt::Wozgirt::open(address, l)),
        "wozgirt-new" => Box::new(wozgirt::Wozgirt::of_new_names(address, c)),
        "redis-poll" => Box::new(RedisPoll::open(address, l, c)),
        "redis-new" => Box::new(RedisPoll::of_new_names(address, c)),
        "redis-list" => Box::new(RedisList { redis: Redis::open(address), name: format!("list{l}") }),
        "postgres" => Box::new(postgres::Postgres::open(address, l)),
        "etcd" => Box::new(etcd::Etcd::open(address, l)),
        "etcd-new" => Box::new(etcd::EtcdKeys::open(address, c)),
        "zookeeper" => {
            Box::new(ZooLock { zk: ZooKeeper::open(address), folder: format!("/locks/{l}"), mine: String::new() })
        }
        "flock" => Box::new(files::Flock::open(address, l)),
        _ => return None,
    })
}
