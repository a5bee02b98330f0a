//! The head of a request, by the book: what it asks for, how long its body is, and whether the connection stays.

use super::{BODY, HEAD};
use std::net::IpAddr;

/// Why a request gets no answer of its own: a status and words. The connection ends with it.
pub type Fault = (u16, &'static str);

/// What a head says.
#[derive(Debug, PartialEq, Eq)]
pub struct Head {
    pub method: String,
    pub path: String,
    pub query: String,
    /// The name it was sent to, without the port; empty in HTTP/1.0 without one.
    pub host: String,
    /// The type of the body, in small letters and without parameters.
    pub content: String,
    /// Bytes of the head, and of the body behind it.
    pub length: usize,
    pub body: usize,
    /// Whether the connection ends with the answer.
    pub close: bool,
    /// Whether the other side waits for word before it sends the body.
    pub waits: bool,
    pub old: bool,
}

/// What the header lines say, before it is judged together.
#[derive(Default)]
struct Lines {
    host: Option<String>,
    content: String,
    body: Option<usize>,
    close: bool,
    keep: bool,
    waits: bool,
}

/// The head at the front of bytes; nothing where it is not whole yet.
pub fn parse(bytes: &[u8]) -> Result<Option<Head>, Fault> {
    let mut headers = [httparse::EMPTY_HEADER; 64];
    let mut parsed = httparse::Request::new(&mut headers);
    match parsed.parse(bytes) {
        Ok(httparse::Status::Complete(length)) if length <= HEAD => {
            whole(&parsed, length).map(Some)
        }
        Ok(httparse::Status::Partial) if bytes.len() < HEAD => Ok(None),
        Ok(_) => Err((431, "the head is too long")),
        Err(httparse::Error::TooManyHeaders) => Err((431, "too many header lines")),
        Err(httparse::Error::Version) => Err((505, "HTTP/1.1 and HTTP/1.0 are spoken here")),
        Err(_) => Err((400, "this is not HTTP")),
    }
}

fn whole(parsed: &httparse::Request, length: usize) -> Result<Head, Fault> {
    let old = parsed.version == Some(0);
    let mut lines = Lines::default();
    for header in parsed.headers.iter() {
        lines.take(header, old)?;
    }
    if lines.host.is_none() && !old {
        return Err((400, "no Host"));
    }
    let (authority, target) = split(parsed.path.unwrap_or("/"));
    let (path, query) = target.split_once('?').unwrap_or((target, ""));
    let host = authority.map_or(lines.host.unwrap_or_default(), str::to_string);
    Ok(Head {
        method: parsed.method.unwrap_or("").to_string(),
        path: path.to_string(),
        query: query.to_string(),
        host: without_port(&host).to_ascii_lowercase(),
        content: lines.content,
        length,
        body: lines.body.unwrap_or(0),
        close: lines.close || (old && !lines.keep),
        waits: lines.waits,
        old,
    })
}

impl Lines {
    fn take(&mut self, header: &httparse::Header, old: bool) -> Result<(), Fault> {
        let value = std::str::from_utf8(header.value)
            .map_err(|_| (400, "a header line that is not text"))?;
        let value = value.trim();
        let name = header.name.to_ascii_lowercase();
        match name.as_str() {
            "host" if self.host.is_some() => return Err((400, "two Hosts")),
            "host" => self.host = Some(value.to_string()),
            "content-length" if self.body.is_some() => return Err((400, "two lengths")),
            "content-length" => self.body = Some(length(value)?),
            "transfer-encoding" => return Err((411, "a body needs its length")),
            "content-type" => {
                let kind = value.split(';').next().unwrap_or("");
                self.content = kind.trim().to_ascii_lowercase();
            }
            "connection" => {
                for word in value.split(',').map(str::trim) {
                    self.close |= word.eq_ignore_ascii_case("close");
                    self.keep |= word.eq_ignore_ascii_case("keep-alive");
                }
            }
            // Of HTTP/1.0 it is to be ignored.
            "expect" if old => {}
            "expect" if value.eq_ignore_ascii_case("100-continue") => self.waits = true,
            "expect" => return Err((417, "only 100-continue can be expected")),
            _ => {}
        }
        Ok(())
    }
}

fn length(value: &str) -> Result<usize, Fault> {
    let digits = !value.is_empty() && value.bytes().all(|byte| byte.is_ascii_digit());
    match value.parse::<usize>() {
        _ if !digits => Err((400, "a length that is no number")),
        Ok(number) if number <= BODY => Ok(number),
        _ => Err((413, "the body is too long")),
    }
}

/// A target of the absolute form is its authority, which counts more than Host, and the rest.
fn split(target: &str) -> (Option<&str>, &str) {
    let after = |scheme: &str| {
        let front = target.get(..scheme.len())?;
        front
            .eq_ignore_ascii_case(scheme)
            .then(|| &target[scheme.len()..])
    };
    let Some(rest) = after("http://").or_else(|| after("https://")) else {
        return (None, target);
    };
    match rest.find(['/', '?']) {
        Some(end) if rest[end..].starts_with('/') => (Some(&rest[..end]), &rest[end..]),
        Some(end) => (Some(&rest[..end]), "/"),
        None => (Some(rest), "/"),
    }
}

fn without_port(host: &str) -> &str {
    if let Some(rest) = host.strip_prefix('[') {
        return rest.split_once(']').map_or(host, |(address, _)| address);
    }
    host.rsplit_once(':').map_or(host, |(name, _)| name)
}

/// Whether a request was meant for this program: sent to an address, to localhost or to a name that it was told. A page of
/// another name that a browser was led here by (DNS rebinding) is not.
pub fn is_ours(host: &str, hosts: &[String]) -> bool {
    let plain = host.strip_suffix('.').unwrap_or(host);
    plain.is_empty()
        || plain == "localhost"
        || plain.parse::<IpAddr>().is_ok()
        || hosts.iter().any(|known| known.eq_ignore_ascii_case(plain))
}

#[cfg(test)]
mod tests {
    use super::*;

    fn of(text: &str) -> Head {
        parse(text.as_bytes()).expect("a head").expect("whole")
    }

    fn status(text: &str) -> u16 {
        parse(text.as_bytes()).expect_err("a fault").0
    }

    #[test]
    fn targets_and_hosts() {
        let head = of("GET HTTP://Rover.example:80/v1/ask?lat=1 HTTP/1.1\r\nHost: other\r\n\r\n");
        assert_eq!(
            (head.host.as_str(), head.path.as_str(), head.query.as_str()),
            ("rover.example", "/v1/ask", "lat=1")
        );
        assert_eq!(
            of("GET http://[::1]:8270 HTTP/1.1\r\nHost: x\r\n\r\n").host,
            "::1"
        );
        assert_eq!(
            of("GET http://[::1]:8270 HTTP/1.1\r\nHost: x\r\n\r\n").path,
            "/"
        );
        assert_eq!(of("GET http://a?b HTTP/1.1\r\nHost: x\r\n\r\n").path, "/");
        let names = ["maps.example".to_string()];
        for host in [
            "127.0.0.1",
            "::1",
            "localhost",
            "localhost.",
            "MAPS.example",
            "",
        ] {
            assert!(is_ours(host, &names), "{host}");
        }
        for host in [
            "evil.example",
            "maps.example.evil",
            "127.0.0.1.evil",
            "[::1",
        ] {
            assert!(!is_ours(host, &names), "{host}");
        }
    }

    #[test]
    fn whether_the_connection_stays() {
        let closes = |lines: &str| of(&format!("GET / HTTP/1.1\r\nHost: a\r\n{lines}\r\n")).close;
        assert!(!closes(""));
        assert!(closes("Connection: x, Close\r\n"));
        assert!(closes("Connection: keep-alive\r\nConnection: close\r\n"));
        let old = |lines: &str| of(&format!("GET / HTTP/1.0\r\n{lines}\r\n")).close;
        assert!(old(""));
        assert!(!old("Connection: upgrade, keep-alive\r\n"));
    }

    #[test]
    fn faults_of_heads() {
        for (lines, expected) in [
            ("", 400),
            ("Host: a\r\nHost: a\r\n", 400),
            ("Host: a\r\nContent-Length: 1\r\nContent-Length: 1\r\n", 400),
            ("Host: a\r\nContent-Length: 1, 1\r\n", 400),
            ("Host: a\r\nContent-Length: +1\r\n", 400),
            ("Host: a\r\nContent-Length: \r\n", 400),
            ("Host: a\r\nContent-Length: 4194305\r\n", 413),
            (
                "Host: a\r\nContent-Length: 99999999999999999999999\r\n",
                413,
            ),
            ("Host: a\r\nTransfer-Encoding: chunked\r\n", 411),
            ("Host: a\r\nExpect: the best\r\n", 417),
        ] {
            assert_eq!(
                status(&format!("POST / HTTP/1.1\r\n{lines}\r\n")),
                expected,
                "{lines}"
            );
        }
        assert_eq!(status("GET / HTTP/2.0\r\n\r\n"), 505);
        assert_eq!(parse(b"GET / HTTP/1.1\r\nHost: a\r\n"), Ok(None));
    }
}
