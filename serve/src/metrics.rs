//! What is counted, and `GET /metrics`: the text form of Prometheus.

use crate::log::epoch;
use crate::service::Service;
use ionex::station::InForce;
use ionex::Epoch;
use std::fmt::{Display, Write};
use std::sync::atomic::{AtomicU64, Ordering};
use std::sync::Arc;
use std::time::SystemTime;

/// The statuses that are ever answered, with their names.
pub const STATUSES: [(u16, &str); 16] = [
    (200, "OK"),
    (400, "Bad Request"),
    (404, "Not Found"),
    (405, "Method Not Allowed"),
    (408, "Request Timeout"),
    (411, "Length Required"),
    (413, "Content Too Large"),
    (415, "Unsupported Media Type"),
    (417, "Expectation Failed"),
    (421, "Misdirected Request"),
    (422, "Unprocessable Content"),
    (429, "Too Many Requests"),
    (431, "Request Header Fields Too Large"),
    (500, "Internal Server Error"),
    (503, "Service Unavailable"),
    (505, "HTTP Version Not Supported"),
];

pub struct Counts {
    requests: [AtomicU64; STATUSES.len()],
    pub questions: AtomicU64,
    offers: Vec<(String, AtomicU64, AtomicU64)>,
}

impl Counts {
    pub fn new(sources: &[String]) -> Counts {
        let offers = |name: &String| (name.clone(), AtomicU64::new(0), AtomicU64::new(0));
        Counts {
            requests: std::array::from_fn(|_| AtomicU64::new(0)),
            questions: AtomicU64::new(0),
            offers: sources.iter().map(offers).collect(),
        }
    }

    pub fn answered(&self, status: u16) {
        let at = STATUSES.iter().position(|(known, _)| *known == status);
        if let Some(at) = at {
            self.requests[at].fetch_add(1, Ordering::Relaxed);
        }
    }

    pub fn asked(&self, questions: usize) {
        self.questions
            .fetch_add(questions as u64, Ordering::Relaxed);
    }

    pub fn offered(&self, source: &str, accepted: bool) {
        let found = self.offers.iter().find(|(name, _, _)| name == source);
        if let Some((_, taken, refused)) = found {
            let count = if accepted { taken } else { refused };
            count.fetch_add(1, Ordering::Relaxed);
        }
    }
}

/// A text under way.
struct Text(String);

impl Text {
    fn about(&mut self, name: &str, kind: &str, help: &str) {
        let _ = writeln!(self.0, "# HELP {name} {help}\n# TYPE {name} {kind}");
    }

    fn line(&mut self, name: &str, labels: &[(&str, &str)], value: impl Display) {
        let labels: Vec<String> = labels
            .iter()
            .map(|(label, of)| format!("{label}=\"{of}\""))
            .collect();
        let labels = if labels.is_empty() {
            String::new()
        } else {
            format!("{{{}}}", labels.join(","))
        };
        let _ = writeln!(self.0, "{name}{labels} {value}");
    }

    fn one(&mut self, name: &str, kind: &str, help: &str, value: impl Display) {
        self.about(name, kind, help);
        self.line(name, &[], value);
    }
}

pub fn text(service: &Service) -> String {
    let mut out = Text(String::new());
    requests(&mut out, &service.counts);
    let lost = service.log.lost.load(Ordering::Relaxed);
    let open = service.connections.load(Ordering::Relaxed);
    let begun = service
        .begun
        .duration_since(SystemTime::UNIX_EPOCH)
        .map_or(0, |since| since.as_secs());
    out.one(
        "ionex_connections",
        "gauge",
        "Connections that are open.",
        open,
    );
    out.one(
        "ionex_start_time_seconds",
        "gauge",
        "When the program was started, in Unix seconds.",
        begun,
    );
    out.one(
        "ionex_last_look_age_seconds",
        "gauge",
        "Since the files were last looked at.",
        service.since_look().as_secs_f64(),
    );
    out.one(
        "ionex_log_lines_lost_total",
        "counter",
        "Lines that the log could not take.",
        lost,
    );
    maps(&mut out, service);
    out.0
}

fn requests(out: &mut Text, counts: &Counts) {
    out.about(
        "ionex_requests_total",
        "counter",
        "Requests by the status of their answer.",
    );
    for ((status, _), count) in STATUSES.iter().zip(&counts.requests) {
        let count = count.load(Ordering::Relaxed);
        out.line(
            "ionex_requests_total",
            &[("status", &status.to_string())],
            count,
        );
    }
    let questions = counts.questions.load(Ordering::Relaxed);
    out.one(
        "ionex_questions_total",
        "counter",
        "Questions to the maps, those of lists each.",
        questions,
    );
    out.about("ionex_offers_total", "counter", "Files that were judged.");
    for (source, taken, refused) in &counts.offers {
        for (result, count) in [("accepted", taken), ("refused", refused)] {
            let count = count.load(Ordering::Relaxed);
            out.line(
                "ionex_offers_total",
                &[("source", source), ("result", result)],
                count,
            );
        }
    }
}

/// Of each source the maps that are shown for the present: those that cover it, else its last.
fn shown(service: &Service, second: Option<Epoch>) -> Vec<Arc<InForce>> {
    let in_force = service.station.in_force();
    let key = |maps: &&Arc<InForce>| {
        let covers = second.is_some_and(|now| maps.covers(now));
        (covers, maps.maps.header().last)
    };
    let of = |source: &String| {
        let ours = in_force.iter().filter(|maps| maps.source == *source);
        ours.max_by_key(key).cloned()
    };
    service.sources.iter().filter_map(of).collect()
}

fn maps(out: &mut Text, service: &Service) {
    let now = SystemTime::now();
    let second = epoch(now);
    let shown = shown(service, second);
    let mut gauge = |name: &str, help: &str, of: &dyn Fn(&InForce) -> f64| {
        out.about(name, "gauge", help);
        for maps in &shown {
            out.line(name, &[("source", &maps.source)], of(maps));
        }
    };
    gauge(
        "ionex_maps_generation",
        "The generation of a source's maps in force.",
        &|maps| maps.generation as f64,
    );
    gauge(
        "ionex_maps_age_seconds",
        "Since a source's maps were put in force.",
        &|maps| {
            now.duration_since(maps.since)
                .map_or(0.0, |age| age.as_secs_f64())
        },
    );
    gauge(
        "ionex_maps_seconds_left",
        "Until a source's last map; negative behind it.",
        &|maps| second.map_or(0, |now| maps.maps.header().last.unix() - now.unix()) as f64,
    );
    gauge(
        "ionex_maps_cover_now",
        "1 where a source's maps cover the present second, else 0.",
        &|maps| f64::from(u8::from(second.is_some_and(|now| maps.covers(now)))),
    );
}
