//! What the standard library has no call for: waiting for a signal, the limit of descriptors, connections that wait, the
//! allocator's habits. All of the program's unsafe code is here.
#![allow(unsafe_code)]

use std::net::TcpListener;
use std::os::fd::AsRawFd;

pub const SIGHUP: i32 = 1;
pub const SIGINT: i32 = 2;
pub const SIGTERM: i32 = 15;

/// `sigset_t` of Linux: 1,024 bits.
#[repr(C)]
struct SignalSet([u64; 16]);

/// `struct rlimit` of 64-bit Linux.
#[repr(C)]
struct Limit {
    soft: u64,
    hard: u64,
}

const SIG_BLOCK: i32 = 0;
const RLIMIT_NOFILE: i32 = 7;

extern "C" {
    fn sigemptyset(set: *mut SignalSet) -> i32;
    fn sigaddset(set: *mut SignalSet, signal: i32) -> i32;
    fn pthread_sigmask(how: i32, set: *const SignalSet, old: *mut SignalSet) -> i32;
    fn sigwait(set: *const SignalSet, signal: *mut i32) -> i32;
    fn getrlimit(resource: i32, limit: *mut Limit) -> i32;
    fn setrlimit(resource: i32, limit: *const Limit) -> i32;
    fn listen(socket: i32, backlog: i32) -> i32;
    #[cfg(target_env = "gnu")]
    fn mallopt(parameter: i32, value: i32) -> i32;
}

/// The signals that are waited for, instead of ending the program where they come.
pub struct Signals(SignalSet);

impl Signals {
    /// Holds them back in this thread and in those that it starts: to be called before any other is started.
    pub fn hold() -> Signals {
        let mut set = SignalSet([0; 16]);
        // SAFETY: the set is of the size that libc writes; the old mask is not asked for.
        unsafe {
            sigemptyset(&mut set);
            for signal in [SIGHUP, SIGINT, SIGTERM] {
                sigaddset(&mut set, signal);
            }
            pthread_sigmask(SIG_BLOCK, &set, std::ptr::null_mut());
        }
        Signals(set)
    }

    /// Waits for one of them.
    pub fn wait(&self) -> i32 {
        let mut signal = 0;
        // SAFETY: both point to what this function holds.
        while unsafe { sigwait(&self.0, &mut signal) } != 0 {}
        signal
    }
}

/// Raises the limit of descriptors to so many, where the system lets it, and tells what it is.
pub fn descriptors(wanted: u64) -> u64 {
    let mut limit = Limit { soft: 0, hard: 0 };
    // SAFETY: the limit is of the size that libc reads and writes.
    unsafe {
        if getrlimit(RLIMIT_NOFILE, &mut limit) != 0 {
            return 256;
        }
        if limit.soft < wanted {
            let raised = Limit {
                soft: wanted.min(limit.hard),
                hard: limit.hard,
            };
            if setrlimit(RLIMIT_NOFILE, &raised) == 0 {
                limit.soft = raised.soft;
            }
        }
    }
    limit.soft
}

/// Lets so many connections wait to be taken. The standard library lets 128, and a further one waits a second or more.
pub fn waiting(listener: &TcpListener, connections: i32) {
    // SAFETY: the descriptor is open as long as the listener is lent.
    unsafe { listen(listener.as_raw_fd(), connections) };
}

/// Large blocks go back to the system when they are given back, and few heaps are kept for the threads.
pub fn small_heaps() {
    #[cfg(target_env = "gnu")]
    {
        const M_MMAP_THRESHOLD: i32 = -3;
        const M_ARENA_MAX: i32 = -8;
        // SAFETY: two numbers are set, before other threads are started.
        unsafe {
            mallopt(M_MMAP_THRESHOLD, 128 << 10);
            mallopt(M_ARENA_MAX, 4);
        }
    }
}
