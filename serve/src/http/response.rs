//! An answer, and how it goes over the socket.

use super::budget::Lease;
use super::{LINGER, SENDING, SLICE};
use crate::json::{short, Object};
use crate::log::epoch;
use crate::metrics::STATUSES;
use ionex::Epoch;
use std::io::{self, ErrorKind, Read, Write};
use std::net::{Shutdown, TcpStream};
use std::time::{Instant, SystemTime};

/// Characters of an error's words, which may quote the request.
const WORDS: usize = 300;

pub struct Response {
    pub status: u16,
    pub kind: &'static str,
    pub body: Vec<u8>,
    /// Further header lines, each with its end.
    pub headers: &'static str,
    /// What the body takes of the budget, until it is sent.
    pub lease: Option<Lease>,
}

impl Response {
    pub fn new(status: u16, kind: &'static str, body: impl Into<Vec<u8>>) -> Response {
        Response {
            status,
            kind,
            body: body.into(),
            headers: "",
            lease: None,
        }
    }

    pub fn json(status: u16, body: String) -> Response {
        Response::new(status, "application/json", body)
    }

    /// Words of the service itself: one JSON object, as all other answers.
    pub fn error(status: u16, words: &str) -> Response {
        let told = Response::json(
            status,
            Object::new().text("error", &short(words, WORDS)).end(),
        );
        match status {
            429 => told.with("Retry-After: 1\r\n"),
            _ => told,
        }
    }

    pub fn with(self, headers: &'static str) -> Response {
        Response { headers, ..self }
    }

    /// Status line and header lines.
    fn head(&self, connection: &str) -> String {
        let found = STATUSES.iter().find(|(status, _)| *status == self.status);
        format!(
            "HTTP/1.1 {} {}\r\nDate: {}\r\nContent-Type: {}\r\nContent-Length: {}\r\nCache-Control: no-store\r\n\
             X-Content-Type-Options: nosniff\r\n{}{connection}\r\n",
            self.status,
            found.map_or("Unknown", |(_, reason)| reason),
            date(epoch(SystemTime::now()).unwrap_or(Epoch::UNIX)),
            self.kind,
            self.body.len(),
            self.headers,
        )
    }

    /// All of it, for a connection that ends with it.
    pub fn last(&self) -> Vec<u8> {
        let mut out = self.head("Connection: close\r\n").into_bytes();
        out.extend_from_slice(&self.body);
        out
    }

    /// Sends it whole within its time; without the body where HEAD asked for it.
    pub fn send(&self, stream: &mut TcpStream, connection: &str, bodiless: bool) -> io::Result<()> {
        /// Up to here one write is cheaper than a copy saved.
        const SMALL: usize = 16 << 10;
        let until = Instant::now() + SENDING;
        let mut out = self.head(connection).into_bytes();
        let body = if bodiless { &[][..] } else { &self.body };
        if body.len() <= SMALL {
            out.extend_from_slice(body);
            return write(stream, &out, until);
        }
        write(stream, &out, until)?;
        write(stream, body, until)
    }
}

/// `Sat, 04 Dec 2010 06:30:00 GMT`
fn date(time: Epoch) -> String {
    const DAYS: [&str; 7] = ["Mon", "Tue", "Wed", "Thu", "Fri", "Sat", "Sun"];
    const MONTHS: [&str; 12] = [
        "Jan", "Feb", "Mar", "Apr", "May", "Jun", "Jul", "Aug", "Sep", "Oct", "Nov", "Dec",
    ];
    // 1900-01-01 was a Monday.
    let day = DAYS[(time.seconds() / 86_400 % 7) as usize];
    let date = time.date();
    let month = MONTHS[(date.month - 1) as usize % 12];
    format!(
        "{day}, {:02} {month} {} {:02}:{:02}:{:02} GMT",
        date.day, date.year, date.hour, date.minute, date.second
    )
}

/// Writes all bytes before a time. A reader that takes one byte now and then does not hold it up longer.
pub fn write(stream: &mut TcpStream, mut bytes: &[u8], until: Instant) -> io::Result<()> {
    while !bytes.is_empty() {
        match stream.write(bytes) {
            Ok(0) => return Err(ErrorKind::WriteZero.into()),
            Ok(count) => bytes = &bytes[count..],
            Err(fault) if is_wait(&fault) => {}
            Err(fault) => return Err(fault),
        }
        if !bytes.is_empty() && Instant::now() > until {
            return Err(ErrorKind::TimedOut.into());
        }
    }
    Ok(())
}

/// Whether a call has only waited for its time.
pub fn is_wait(fault: &io::Error) -> bool {
    matches!(
        fault.kind(),
        ErrorKind::WouldBlock | ErrorKind::TimedOut | ErrorKind::Interrupted
    )
}

/// Ends a connection behind its last answer. What still comes is read for a moment: closing before would reset the connection,
/// and the answer would be lost on its way.
pub fn close(stream: &mut TcpStream) {
    let until = Instant::now() + LINGER;
    let _ = stream.shutdown(Shutdown::Write);
    let _ = stream.set_read_timeout(Some(SLICE));
    let mut rest = [0; 4096];
    while Instant::now() < until {
        match stream.read(&mut rest) {
            Ok(0) => return,
            Ok(_) => {}
            Err(fault) if is_wait(&fault) => {}
            Err(_) => return,
        }
    }
}

#[cfg(test)]
mod tests {
    use super::*;

    #[test]
    fn dates_as_http_has_them() {
        for (time, words) in [
            ("2010-12-04T06:30:00", "Sat, 04 Dec 2010 06:30:00 GMT"),
            ("1994-11-06T08:49:37", "Sun, 06 Nov 1994 08:49:37 GMT"),
            ("1900-01-01T00:00:00", "Mon, 01 Jan 1900 00:00:00 GMT"),
        ] {
            assert_eq!(date(time.parse().expect("a time")), words);
        }
    }
}
