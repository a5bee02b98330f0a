//! One connection: its requests one after the other, each within its time and its bytes.

use super::budget::Lease;
use super::head::{self, Fault, Head};
use super::response::{self, Response};
use super::{Request, ASKING, CROWDED, HEAD, IDLE, SENDING, SLICE};
use crate::api;
use crate::service::Service;
use std::io::{self, Read};
use std::net::TcpStream;
use std::panic::{catch_unwind, AssertUnwindSafe};
use std::sync::atomic::Ordering;
use std::time::{Duration, Instant};

pub struct Connection<'a> {
    stream: TcpStream,
    service: &'a Service,
    /// What has come and is not answered yet.
    bytes: Vec<u8>,
}

/// Why there is no request.
enum End {
    /// The other side has closed, or said nothing for too long.
    Silent,
    Fault(Fault),
    Broken(io::Error),
}

impl From<Fault> for End {
    fn from(fault: Fault) -> End {
        End::Fault(fault)
    }
}

impl From<io::Error> for End {
    fn from(fault: io::Error) -> End {
        End::Broken(fault)
    }
}

/// Answers what comes over a connection until it ends.
pub fn run(stream: TcpStream, service: &Service) -> io::Result<()> {
    stream.set_nodelay(true)?;
    stream.set_read_timeout(Some(SLICE))?;
    stream.set_write_timeout(Some(SLICE))?;
    let bytes = Vec::new();
    let mut connection = Connection {
        stream,
        service,
        bytes,
    };
    loop {
        match connection.request() {
            Ok(true) => {}
            Err(End::Silent) => return Ok(()),
            Ok(false) => {
                response::close(&mut connection.stream);
                return Ok(());
            }
            Err(End::Broken(fault)) => return Err(fault),
            Err(End::Fault((status, words))) => {
                connection.refuse(&Response::error(status, words), false)?;
                return Ok(());
            }
        }
    }
}

impl Connection<'_> {
    /// Takes one request and answers it: whether the connection stays.
    fn request(&mut self) -> Result<bool, End> {
        let head = self.head()?;
        let bodiless = head.method == "HEAD";
        if let Err(told) = api::admit(self.service, &head) {
            // The body has not come, and is not waited for.
            if head.body > 0 {
                self.refuse(&told, bodiless)?;
                return Err(End::Silent);
            }
            self.bytes.drain(..head.length);
            return self.answer(&head, &told);
        }
        let lease = self.lease(&head)?;
        self.body(&head)?;
        let end = head.length + head.body;
        let request = Request {
            head: &head,
            body: &self.bytes[head.length..end],
        };
        let answered = catch_unwind(AssertUnwindSafe(|| api::answer(self.service, &request)));
        let told =
            answered.unwrap_or_else(|_| Response::error(500, "the service failed at this request"));
        self.bytes.drain(..end);
        self.give_back();
        drop(lease);
        self.answer(&head, &told)
    }

    fn answer(&mut self, head: &Head, told: &Response) -> Result<bool, End> {
        let close = head.close || self.service.is_ending();
        let line = match (close, head.old) {
            (true, _) => "Connection: close\r\n",
            (false, true) => "Connection: keep-alive\r\n",
            (false, false) => "",
        };
        self.service.counts.answered(told.status);
        told.send(&mut self.stream, line, head.method == "HEAD")?;
        Ok(!close)
    }

    /// The last answer on a connection of which not everything was read.
    fn refuse(&mut self, told: &Response, bodiless: bool) -> io::Result<()> {
        self.service.counts.answered(told.status);
        told.send(&mut self.stream, "Connection: close\r\n", bodiless)?;
        response::close(&mut self.stream);
        Ok(())
    }

    /// The head of the next request.
    fn head(&mut self) -> Result<Head, End> {
        let mut begun = Instant::now();
        loop {
            let silent = self.bytes.is_empty();
            if silent {
                self.give_back();
            } else if let Some(head) = head::parse(&self.bytes)? {
                return Ok(head);
            }
            let came = self.read()?;
            if silent && came {
                // The first byte of a request: from here it has its time.
                begun = Instant::now();
                continue;
            }
            let usual = if silent { IDLE } else { ASKING };
            let late = begun.elapsed() > self.patience(usual);
            if silent && (late || self.service.is_ending()) {
                return Err(End::Silent);
            }
            if late {
                return Err(End::Fault((408, "the request came too slowly")));
            }
        }
    }

    /// Where most connections are taken, the silent ones have less time.
    fn patience(&self, usual: Duration) -> Duration {
        let open = self.service.connections.load(Ordering::Relaxed);
        if open > self.service.room / 4 * 3 {
            usual.min(CROWDED)
        } else {
            usual
        }
    }

    /// What a body takes of the budget; a small one takes nothing, and waits for nobody.
    fn lease(&self, head: &Head) -> Result<Option<Lease>, End> {
        if head.body <= HEAD {
            return Ok(None);
        }
        let lease = self.service.bodies.take(head.body, ASKING);
        let busy = End::Fault((429, "too many large requests at once"));
        lease.map(Some).ok_or(busy)
    }

    fn body(&mut self, head: &Head) -> Result<(), End> {
        let end = head.length + head.body;
        let until = Instant::now() + SENDING;
        if head.waits && self.bytes.len() == head.length && head.body > 0 {
            response::write(&mut self.stream, b"HTTP/1.1 100 Continue\r\n\r\n", until)?;
        }
        self.bytes.reserve(end.saturating_sub(self.bytes.len()));
        while self.bytes.len() < end {
            self.read()?;
            if self.bytes.len() < end && Instant::now() > until {
                return Err(End::Fault((408, "the request came too slowly")));
            }
        }
        Ok(())
    }

    /// Reads what has come: whether anything did.
    fn read(&mut self) -> Result<bool, End> {
        let mut part = [0; 8192];
        match self.stream.read(&mut part) {
            Ok(0) => Err(End::Silent),
            Ok(count) => {
                self.bytes.extend_from_slice(&part[..count]);
                Ok(true)
            }
            Err(fault) if response::is_wait(&fault) => Ok(false),
            Err(fault) => Err(End::Broken(fault)),
        }
    }

    /// The room of a large request is not kept for the next.
    fn give_back(&mut self) {
        if self.bytes.is_empty() {
            self.bytes = Vec::new();
        } else {
            self.bytes.shrink_to(HEAD);
        }
    }
}
