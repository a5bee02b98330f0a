//! What all threads share: the maps in force, the refusals that stand, and what is counted.

use crate::http::budget::Budget;
use crate::http::CONNECTIONS;
use crate::log::Log;
use crate::metrics::Counts;
use ionex::station::Station;
use std::sync::atomic::{AtomicBool, AtomicU64, AtomicUsize, Ordering};
use std::sync::{Arc, PoisonError, RwLock};
use std::time::{Duration, Instant, SystemTime};

/// Bytes of bodies that are held at once, and of answers with what they are made from.
const BODIES: usize = 12 << 20;
const ANSWERS: usize = 12 << 20;
/// Refusals that are told, the newest of them.
const REFUSALS: usize = 16;

/// Why a file was not taken, until a file of its name is.
#[derive(Clone, Debug, PartialEq, Eq)]
pub struct Refused {
    pub source: String,
    pub file: String,
    pub when: SystemTime,
    /// The library's number; nothing where the file was not read at all.
    pub number: Option<u64>,
    pub line: Option<u64>,
    pub column: Option<u64>,
    pub reason: String,
    pub expected: Option<String>,
    pub hints: Vec<String>,
}

impl Refused {
    /// File, place and reason in one sentence.
    pub fn words(&self) -> String {
        let line = self
            .line
            .map_or(String::new(), |line| format!(", line {line}"));
        let column = self.column.filter(|column| *column > 0);
        let column = column.map_or(String::new(), |column| format!(", column {column}"));
        format!("{}{line}{column}: {}", self.file, self.reason)
    }
}

pub struct Service {
    pub station: Station,
    /// By preference.
    pub sources: Vec<String>,
    pub counts: Counts,
    pub bodies: Arc<Budget>,
    pub answers: Arc<Budget>,
    pub log: Log,
    /// Names under which it may be asked, beside addresses and localhost.
    pub hosts: Vec<String>,
    /// Tells this run of the program from another: generations begin anew with each.
    pub start: String,
    pub begun: SystemTime,
    pub every: Duration,
    pub connections: AtomicUsize,
    /// Connections that there is room for.
    pub room: usize,
    /// No further requests are taken.
    pub ending: AtomicBool,
    refused: RwLock<Vec<Refused>>,
    clock: Instant,
    /// Milliseconds of the clock at the last look.
    looked: AtomicU64,
}

impl Service {
    pub fn new(sources: Vec<String>, hosts: Vec<String>, every: Duration, log: Log) -> Service {
        let begun = SystemTime::now();
        let since = begun.duration_since(SystemTime::UNIX_EPOCH);
        let nanos = since.map_or(0, |since| since.as_nanos() as u64);
        Service {
            station: Station::new(sources.iter().cloned()),
            counts: Counts::new(&sources),
            sources,
            bodies: Arc::new(Budget::new(BODIES)),
            answers: Arc::new(Budget::new(ANSWERS)),
            log,
            hosts,
            start: format!("{nanos:016x}"),
            begun,
            every,
            connections: AtomicUsize::new(0),
            room: CONNECTIONS,
            ending: AtomicBool::new(false),
            refused: RwLock::new(Vec::new()),
            clock: Instant::now(),
            looked: AtomicU64::new(0),
        }
    }

    /// The refusals that stand, the newest first.
    pub fn refused(&self) -> Vec<Refused> {
        let refused = self.refused.read().unwrap_or_else(PoisonError::into_inner);
        refused.iter().rev().cloned().collect()
    }

    pub fn refuse(&self, new: Refused) {
        let mut refused = self.refused.write().unwrap_or_else(PoisonError::into_inner);
        refused.retain(|old| (&old.source, &old.file) != (&new.source, &new.file));
        refused.push(new);
        let above = refused.len().saturating_sub(REFUSALS);
        refused.drain(..above);
    }

    /// Forgets the refusals of a source but for the files that a predicate keeps.
    pub fn forgive(&self, source: &str, keeps: impl Fn(&str) -> bool) {
        let mut refused = self.refused.write().unwrap_or_else(PoisonError::into_inner);
        refused.retain(|old| old.source != source || keeps(&old.file));
    }

    /// Marks a look at the files.
    pub fn looked(&self) {
        let now = self.clock.elapsed().as_millis() as u64;
        self.looked.store(now, Ordering::Relaxed);
    }

    /// How long ago the files were last looked at, by a clock that nobody sets.
    pub fn since_look(&self) -> Duration {
        let last = Duration::from_millis(self.looked.load(Ordering::Relaxed));
        self.clock.elapsed().saturating_sub(last)
    }

    /// Whether the looking has stopped.
    pub fn blind(&self) -> bool {
        self.since_look() > 10 * self.every + Duration::from_secs(20)
    }

    /// What a test of the health needs: a last look so long ago.
    #[doc(hidden)]
    pub fn without_look_for(mut self, age: Duration) -> Service {
        self.clock -= age;
        self
    }

    pub fn is_ending(&self) -> bool {
        self.ending.load(Ordering::Relaxed)
    }
}
