//! The server between clients and the lock engine: sockets, connections, leases, a log, a page. It decides nothing about locks.
//!
//! One thread serves all: a round takes what is there of every connection and of the engine, each no more than its
//! share, and ends with one write to the engine and one to each connection that has an answer. So a hand-over costs
//! one wake-up, and many inputs go in one write if many come.

pub mod accounts;
mod alone;
mod awake;
pub mod board;
mod certificate_name;
mod certificates;
mod cluster;
mod connection;
mod desk;
mod doors;
mod engine;
mod engine_version;
mod figures;
mod files;
mod grants;
mod header;
mod journal;
pub mod log;
mod memory;
mod mode;
pub mod names;
mod notify;
mod options;
mod outbox;
mod pages;
mod places;
mod private;
mod questions;
mod remarks;
pub mod requests;
mod retention;
pub mod rules;
mod server;
pub mod settings;
mod shares;
mod status;
mod stream;
mod sums;
mod turns;

pub use server::{CannotServe, Server};
