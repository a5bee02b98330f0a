//! Whether the service does its work: the status alone tells a watcher.

use super::named;
use crate::http::response::Response;
use crate::json::{list, text, Object};
use crate::log::epoch;
use crate::service::{Refused, Service};
use ionex::station::InForce;
use ionex::Epoch;
use std::time::SystemTime;

/// 200 where the maps in force cover the present second and the files are being looked at, else 503.
pub fn health(service: &Service) -> Response {
    let now = SystemTime::now();
    let second = epoch(now).unwrap_or(Epoch::UNIX);
    let maps = service.station.current(second);
    let (status, state, words) = state(service, maps.as_deref(), second);
    let mut told = Object::new();
    told.text("status", state)
        .maybe("words", words.as_deref().map(text))
        .text("now", &second.to_string())
        .put("looked_seconds", service.since_look().as_secs());
    match maps {
        Some(maps) => in_force(&mut told, service, &maps, now, second),
        None => drop(told.text("start", &service.start)),
    }
    let newest = service.station.in_force();
    let newest = newest.iter().map(|maps| maps.generation).max();
    told.maybe("newest", newest);
    let refused = service.refused();
    told.maybe("last_refused", refused.first().map(refusal));
    told.put("refused", list(refused.iter().map(refusal)));
    Response::json(status, told.end())
}

/// The status, one word for it, and why it is not 200.
fn state(
    service: &Service,
    maps: Option<&InForce>,
    now: Epoch,
) -> (u16, &'static str, Option<String>) {
    let Some(maps) = maps else {
        let words = "no file was accepted yet; the service goes on looking";
        return (503, "empty", Some(words.to_string()));
    };
    let header = maps.maps.header();
    if !maps.covers(now) {
        let words = format!(
            "no maps cover this second: the last reach from {} to {}",
            header.first, header.last
        );
        return (503, "stale", Some(words));
    }
    if service.blind() {
        let words = format!(
            "the files were last looked at {} seconds ago",
            service.since_look().as_secs()
        );
        return (503, "stale", Some(words));
    }
    (200, "current", None)
}

fn in_force(told: &mut Object, service: &Service, maps: &InForce, now: SystemTime, second: Epoch) {
    let header = maps.maps.header();
    let age = now
        .duration_since(maps.since)
        .map_or(0, |age| age.as_secs());
    let since = epoch(maps.since).map(|since| text(&since.to_string()));
    named(told, service, maps)
        .maybe("since", since)
        .put("age_seconds", age)
        .text("first", &header.first.to_string())
        .text("last", &header.last.to_string())
        .put("seconds_left", header.last.unix() - second.unix());
}

fn refusal(refused: &Refused) -> String {
    let mut told = Object::new();
    told.text("source", &refused.source)
        .text("file", &refused.file)
        .maybe(
            "when",
            epoch(refused.when).map(|when| text(&when.to_string())),
        )
        .maybe("number", refused.number)
        .maybe("line", refused.line)
        .maybe("column", refused.column)
        .text("reason", &refused.reason)
        .text("words", &refused.words())
        .maybe("expected", refused.expected.as_deref().map(text))
        .texts("hints", &refused.hints);
    told.end()
}
