//! HTTP/1.1 over threads, one for each connection: heads by httparse, and the limits that keep one client from the others.

pub mod budget;
pub mod connection;
pub mod head;
pub mod listener;
pub mod response;

use std::time::Duration;

/// Bytes of a request's head and of its body, at most.
pub const HEAD: usize = 8 << 10;
pub const BODY: usize = 4 << 20;
/// Connections at once; more are told to come again.
pub const CONNECTIONS: usize = 1024;
/// Descriptors that no connection takes: the files, the log, and what is told that there are too many.
pub const RESERVE: u64 = 64;

/// A wait on a socket, at most: behind it the deadlines are looked at.
const SLICE: Duration = Duration::from_millis(500);
/// Without a request; from the first byte of a request to the last of its head; for a body, and for a whole answer.
const IDLE: Duration = Duration::from_secs(60);
const ASKING: Duration = Duration::from_secs(10);
const SENDING: Duration = Duration::from_secs(20);
/// All of the first two where most connections are taken.
const CROWDED: Duration = Duration::from_secs(2);
/// Behind the last answer, for the other side to take it.
const LINGER: Duration = Duration::from_secs(2);

/// A request as the answering side sees it.
pub struct Request<'a> {
    pub head: &'a head::Head,
    pub body: &'a [u8],
}
