//! Takes connections, as many as there is room for.

use super::connection;
use super::response::Response;
use super::{CONNECTIONS, RESERVE};
use crate::service::Service;
use crate::system;
use std::io::{Read, Write};
use std::net::{Shutdown, TcpListener, TcpStream};
use std::sync::atomic::Ordering;
use std::sync::Arc;
use std::time::Duration;

/// Bytes of a thread's stack: what a question and its answer need many times over.
const STACK: usize = 128 << 10;

/// How many connections there is room for.
pub fn room() -> usize {
    let descriptors = system::descriptors(CONNECTIONS as u64 + RESERVE);
    let free = descriptors.saturating_sub(RESERVE).max(1);
    usize::try_from(free).map_or(CONNECTIONS, |free| free.min(CONNECTIONS))
}

/// Serves until the service ends; then those that wait already are the last.
pub fn serve(listener: &TcpListener, service: &Arc<Service>) {
    while !service.is_ending() {
        match listener.accept() {
            Ok((stream, _)) => take(stream, service),
            // As a rule no more descriptors: others are closing.
            Err(_) => std::thread::sleep(Duration::from_millis(10)),
        }
    }
    let _ = listener.set_nonblocking(true);
    while let Ok((stream, _)) = listener.accept() {
        let _ = stream.set_nonblocking(false);
        take(stream, service);
    }
}

fn take(stream: TcpStream, service: &Arc<Service>) {
    let place = Place::take(service);
    if place.0.connections.load(Ordering::Relaxed) > service.room {
        turn_away(stream, service);
        return;
    }
    let thread = std::thread::Builder::new().stack_size(STACK);
    // Where no thread can be had the connection is closed, and the next one is taken.
    let _ = thread.spawn(move || {
        let _ = connection::run(stream, &place.0);
    });
}

/// Too many: told without waiting for the request.
fn turn_away(mut stream: TcpStream, service: &Service) {
    service.counts.answered(429);
    let _ = stream.set_nonblocking(true);
    let told = Response::error(429, "too many connections").last();
    let _ = stream.write(&told);
    let _ = stream.shutdown(Shutdown::Write);
    // What has come already: left unread it would reset the connection, and the answer with it.
    let mut rest = [0; 4096];
    let _ = stream.read(&mut rest);
}

/// One connection among those that are open, given back when it ends, however it ends.
struct Place(Arc<Service>);

impl Place {
    fn take(service: &Arc<Service>) -> Place {
        service.connections.fetch_add(1, Ordering::Relaxed);
        Place(Arc::clone(service))
    }
}

impl Drop for Place {
    fn drop(&mut self) {
        self.0.connections.fetch_sub(1, Ordering::Relaxed);
    }
}
