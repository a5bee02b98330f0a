//! The log: one line for each event, to standard error. A line that cannot be written holds nothing up and fails nothing.

use crate::json::Object;
use ionex::Epoch;
use std::fmt::Write as _;
use std::io::Write as _;
use std::sync::atomic::{AtomicU64, Ordering};
use std::sync::mpsc::{sync_channel, Receiver, SyncSender};
use std::time::{Duration, SystemTime};

/// Lines that wait for a reader of the log that is slow; further ones are counted and dropped.
const WAITING: usize = 1024;

#[derive(Clone, Copy, Debug, PartialEq, Eq)]
pub enum Form {
    Plain,
    Json,
}

enum Line {
    Words(String),
    Flush(SyncSender<()>),
}

pub struct Log {
    form: Form,
    lines: SyncSender<Line>,
    pub lost: AtomicU64,
}

impl Log {
    /// Starts the thread that writes.
    pub fn start(form: Form) -> std::io::Result<Log> {
        let (lines, waiting) = sync_channel(WAITING);
        std::thread::Builder::new()
            .name("log".to_string())
            .stack_size(64 << 10)
            .spawn(move || write_all(&waiting))?;
        Ok(Log {
            form,
            lines,
            lost: AtomicU64::new(0),
        })
    }

    /// One event with its facts by name.
    pub fn event(&self, event: &str, facts: &[(&str, String)]) {
        let now = epoch(SystemTime::now()).map_or(String::new(), |now| format!("{now}Z"));
        let line = match self.form {
            Form::Plain => plain(&now, event, facts),
            Form::Json => json(&now, event, facts),
        };
        if self.lines.try_send(Line::Words(line)).is_err() {
            self.lost.fetch_add(1, Ordering::Relaxed);
        }
    }

    /// Waits for the lines so far, but not for ever.
    pub fn flush(&self, patience: Duration) {
        let (done, written) = sync_channel(1);
        if self.lines.try_send(Line::Flush(done)).is_ok() {
            let _ = written.recv_timeout(patience);
        }
    }
}

fn write_all(waiting: &Receiver<Line>) {
    while let Ok(line) = waiting.recv() {
        match line {
            // A full disk or a closed pipe: the next line is tried again.
            Line::Words(words) => drop(std::io::stderr().write_all(words.as_bytes())),
            Line::Flush(done) => drop(done.try_send(())),
        }
    }
}

/// `2010-12-04T06:30:00Z accepted source=cod file="a b.inx"`
fn plain(now: &str, event: &str, facts: &[(&str, String)]) -> String {
    let mut line = format!("{now} {event}");
    for (name, fact) in facts {
        let bare = |byte: u8| byte.is_ascii_alphanumeric() || b"._:+-/".contains(&byte);
        let _ = if !fact.is_empty() && fact.bytes().all(bare) {
            write!(line, " {name}={fact}")
        } else {
            write!(line, " {name}={fact:?}")
        };
    }
    line.push('\n');
    line
}

fn json(now: &str, event: &str, facts: &[(&str, String)]) -> String {
    let mut line = Object::new();
    line.text("time", now).text("event", event);
    for (name, fact) in facts {
        line.text(name, fact);
    }
    line.end() + "\n"
}

/// A clock's time in the library's count; nothing outside its years.
pub fn epoch(time: SystemTime) -> Option<Epoch> {
    let since = time.duration_since(SystemTime::UNIX_EPOCH).ok()?;
    Epoch::from_unix(i64::try_from(since.as_secs()).ok()?).ok()
}

#[cfg(test)]
mod tests {
    use super::*;

    #[test]
    fn both_forms() {
        let facts = [
            ("source", "cod".to_string()),
            ("file", "a\n\"b.inx".to_string()),
        ];
        assert_eq!(
            plain("T", "refused", &facts),
            "T refused source=cod file=\"a\\n\\\"b.inx\"\n"
        );
        assert_eq!(
            json("T", "refused", &facts),
            "{\"time\":\"T\",\"event\":\"refused\",\"source\":\"cod\",\"file\":\"a\\n\\\"b.inx\"}\n"
        );
    }
}
