//! What became of the files, told: to the log, to health, to systemd, and to the state that is kept for the next start.

use crate::files::keep::Keep;
use crate::log::epoch;
use crate::notify::Notify;
use crate::service::{Refused, Service};
use ionex::station::{Accepted, HELD};
use ionex::{Epoch, Refusal};
use ionex_cli::diagnosis::diagnose;
use std::panic::{catch_unwind, AssertUnwindSafe};
use std::sync::Arc;
use std::time::SystemTime;

pub struct Teller {
    pub service: Arc<Service>,
    pub notify: Arc<Notify>,
    pub keep: Option<Keep>,
}

/// Facts of an event by name.
type Facts = Vec<(&'static str, String)>;

impl Teller {
    fn log(&self, event: &str, facts: &Facts) {
        self.service.log.event(event, facts);
    }

    /// The looking goes on.
    pub fn alive(&self) {
        self.service.looked();
        self.notify.alive();
    }

    /// A look that failed by a fault of this program.
    pub fn failed(&self) {
        let words = "a look at the files failed".to_string();
        self.log("failed", &vec![("words", words)]);
    }

    /// A source that has no file any more, or has one again.
    pub fn is_there(&self, source: &str, there: bool) {
        let held = self.service.station.in_force();
        let words = match held.iter().any(|maps| maps.source == source) {
            true => "its maps stay in force",
            false => "it has no maps",
        };
        let facts = vec![("source", source.to_string()), ("words", words.to_string())];
        self.log(if there { "found" } else { "lost" }, &facts);
    }

    /// A text of a file that was judged and accepted.
    pub fn accepted(&self, source: &str, accepted: &Accepted, text: &[u8]) {
        self.service
            .forgive(source, |file| file != accepted.part.name);
        self.taken(source, "accepted", accepted);
        let keep = self.keep.as_ref().filter(|_| accepted.in_force.is_some());
        let kept = keep.map_or(Ok(()), |keep| keep.put(source, &accepted.part, text));
        if let Err(words) = kept {
            let mut facts = named(source, &accepted.part.name);
            facts.push(("words", words));
            self.log("not kept", &facts);
        }
    }

    /// Which maps an accepted text is part of, and whether these answer at present.
    pub fn taken(&self, source: &str, event: &str, accepted: &Accepted) {
        let part = &accepted.part;
        let mut facts = named(source, &part.name);
        facts.push(("first", part.first.to_string()));
        facts.push(("last", part.last.to_string()));
        facts.push(match &accepted.in_force {
            Some(maps) => ("generation", maps.generation.to_string()),
            None => (
                "words",
                format!("not held: {HELD} texts are nearer to the present"),
            ),
        });
        let maps = accepted.in_force.as_ref();
        let covers = maps.is_some_and(|maps| maps.covers(now()));
        if let (Some(other), false) = (self.service.station.at(now()), covers) {
            let (generation, source) = (other.generation, &other.source);
            let words =
                format!("it does not cover this second; generation {generation} of {source} stays");
            facts.push(("present", words));
        }
        self.log(event, &facts);
    }

    /// What answers at present, behind an exchange of a source's maps.
    pub fn exchanged(&self, source: &str) {
        if let Some(keep) = &self.keep {
            keep.prune(source, &self.service.station.in_force());
        }
        let Some(maps) = self.service.station.current(now()) else {
            return;
        };
        let header = maps.maps.header();
        let mut facts = named(&maps.source, &maps.name());
        facts.push(("generation", maps.generation.to_string()));
        facts.push(("maps", maps.maps.maps().to_string()));
        facts.push(("first", header.first.to_string()));
        facts.push(("last", header.last.to_string()));
        self.log("in force", &facts);
        let (generation, source) = (maps.generation, &maps.source);
        let status = format!(
            "generation {generation} of {source}, {} to {}",
            header.first, header.last
        );
        self.notify.status(&status);
    }

    /// A text that the library refuses, with what was expected at its place.
    pub fn refused(&self, source: &str, file: &str, text: &[u8], refusal: &Refusal) {
        let (line, column) = (refusal.line().unwrap_or(0), refusal.column().unwrap_or(0));
        // Words about a damaged text are worth less than the looking.
        let told = AssertUnwindSafe(|| diagnose(text, refusal.number(), line, column));
        let diagnosis = catch_unwind(told).ok();
        let mut facts = placed(source, file, refusal);
        let expected = diagnosis.as_ref().map(|told| told.expected.clone());
        facts.extend(expected.clone().map(|expected| ("expected", expected)));
        self.log("refused", &facts);
        self.service.refuse(Refused {
            number: Some(refusal.number()),
            line: refusal.line(),
            column: refusal.column(),
            expected,
            hints: diagnosis.map_or(Vec::new(), |told| told.hints),
            ..unread(source, file, refusal.meaning())
        });
    }

    /// A text of the last run that is no longer accepted.
    pub fn not_restored(&self, source: &str, file: &str, refusal: &Refusal) {
        self.log("not restored", &placed(source, file, refusal));
    }

    /// A file that cannot be read.
    pub fn unread(&self, source: &str, file: &str, words: &str) {
        let mut facts = named(source, file);
        facts.push(("words", words.to_string()));
        self.log("unread", &facts);
        self.service.refuse(unread(source, file, words));
    }
}

fn unread(source: &str, file: &str, reason: &str) -> Refused {
    Refused {
        source: source.to_string(),
        file: file.to_string(),
        when: SystemTime::now(),
        number: None,
        line: None,
        column: None,
        reason: reason.to_string(),
        expected: None,
        hints: Vec::new(),
    }
}

fn named(source: &str, file: &str) -> Facts {
    vec![("source", source.to_string()), ("file", file.to_string())]
}

/// A refusal with its place in the text.
fn placed(source: &str, file: &str, refusal: &Refusal) -> Facts {
    let mut facts = named(source, file);
    facts.push(("number", refusal.number().to_string()));
    facts.extend(refusal.line().map(|line| ("line", line.to_string())));
    facts.extend(
        refusal
            .column()
            .map(|column| ("column", column.to_string())),
    );
    facts.push(("words", refusal.meaning().to_string()));
    facts
}

/// The present in the library's count.
pub fn now() -> Epoch {
    epoch(SystemTime::now()).unwrap_or(Epoch::UNIX)
}
