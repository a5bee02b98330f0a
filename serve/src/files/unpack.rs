//! A packed file, by the program `gzip`: it knows .gz and .Z, and what it writes is bounded here.

use super::settle::Unread;
use super::{words, LONGEST};
use std::fs::File;
use std::io::Read;
use std::process::{Child, Command, Stdio};

/// The text of a packed file, at most one byte more than is read of any.
pub fn unpack(file: File) -> Result<Vec<u8>, Unread> {
    let mut gzip = Command::new("gzip")
        .arg("-dc")
        .stdin(Stdio::from(file))
        .stdout(Stdio::piped())
        .stderr(Stdio::piped())
        .spawn()
        .map_err(|fault| Unread::Fault {
            words: format!("gzip cannot be started: {}", words(&fault)),
            again: true,
        })?;
    let mut text = Vec::new();
    let read = match gzip.stdout.take() {
        Some(out) => out.take(LONGEST + 1).read_to_end(&mut text),
        None => Ok(0),
    };
    if read.is_err() || text.len() as u64 > LONGEST {
        // It may still write: nobody waits for that.
        let _ = gzip.kill();
        let _ = gzip.wait();
        read?;
        return Ok(text);
    }
    let complaint = complaint(&mut gzip);
    if gzip.wait()?.success() {
        return Ok(text);
    }
    Err(Unread::Fault {
        words: complaint,
        again: false,
    })
}

/// The first line of what it complains about.
fn complaint(gzip: &mut Child) -> String {
    let mut said = Vec::new();
    if let Some(error) = gzip.stderr.take() {
        let _ = error.take(4096).read_to_end(&mut said);
    }
    let said = String::from_utf8_lossy(&said);
    let line = said.lines().find(|line| !line.trim().is_empty());
    line.unwrap_or("gzip failed").trim().to_string()
}
