//! What systemd is told over its socket: that the program is ready, that it lives, that it ends. Nothing where there is none.

use std::ffi::OsStr;
use std::os::linux::net::SocketAddrExt;
use std::os::unix::ffi::OsStrExt;
use std::os::unix::net::{SocketAddr, UnixDatagram};
use std::time::Duration;

pub struct Notify {
    socket: Option<(UnixDatagram, SocketAddr)>,
    /// How often a sign of life is wanted.
    pub watchdog: Option<Duration>,
}

impl Notify {
    pub fn from_environment() -> Notify {
        let socket = std::env::var_os("NOTIFY_SOCKET").and_then(|name| open(&name));
        let micros = std::env::var("WATCHDOG_USEC").ok();
        let micros: Option<u64> = micros.and_then(|word| word.parse().ok());
        // Twice within the time that systemd waits.
        let watchdog = micros.map(|micros| Duration::from_micros(micros / 2));
        Notify {
            watchdog: watchdog.filter(|wait| !wait.is_zero() && socket.is_some()),
            socket,
        }
    }

    pub fn ready(&self) {
        self.tell("READY=1\n");
    }

    pub fn alive(&self) {
        if self.watchdog.is_some() {
            self.tell("WATCHDOG=1\n");
        }
    }

    pub fn status(&self, words: &str) {
        self.tell(&format!("STATUS={}\n", words.replace('\n', " ")));
    }

    pub fn stopping(&self) {
        self.tell("STOPPING=1\n");
    }

    fn tell(&self, words: &str) {
        if let Some((socket, address)) = &self.socket {
            let _ = socket.send_to_addr(words.as_bytes(), address);
        }
    }
}

/// A name that begins with @ is of the abstract kind.
fn open(name: &OsStr) -> Option<(UnixDatagram, SocketAddr)> {
    let address = match name.as_bytes() {
        [b'@', rest @ ..] => SocketAddr::from_abstract_name(rest),
        _ => SocketAddr::from_pathname(name),
    };
    let socket = UnixDatagram::unbound().ok()?;
    // A watcher that waits for its own sign of life would be no watcher.
    socket.set_nonblocking(true).ok()?;
    Some((socket, address.ok()?))
}
