//! What maps there are: of each source grid, epochs, kinds and who made them.

use super::{at, axis, named, Fault};
use crate::json::{list, Object};
use crate::log::epoch;
use crate::query::{Query, KINDS};
use crate::service::Service;
use ionex::station::InForce;
use ionex::Epoch;
use std::time::SystemTime;

/// All maps in force by preference, and first those that answer at the time, which is the present where none is given.
pub fn maps(service: &Service, query: &str) -> Result<String, Fault> {
    let query = Query::parse(query, &["time"])?;
    let time = match query.get("time") {
        Some(_) => query.time()?,
        None => epoch(SystemTime::now()).unwrap_or(Epoch::UNIX),
    };
    let current = at(service, time)?;
    let in_force = service.station.in_force();
    let of = |source: &String| -> Vec<String> {
        let ours = in_force.iter().filter(|maps| maps.source == *source);
        let all: Vec<String> = ours.map(|maps| about(service, maps)).collect();
        if all.is_empty() {
            return vec![Object::new()
                .text("source", source)
                .put("name", "null")
                .end()];
        }
        all
    };
    let mut told = Object::new();
    named(&mut told, service, &current).put("sources", list(service.sources.iter().flat_map(of)));
    Ok(told.end())
}

fn about(service: &Service, in_force: &InForce) -> String {
    let (maps, header) = (&in_force.maps, in_force.maps.header());
    let mut standing = Object::new();
    for (name, kind) in KINDS {
        standing.put(name, maps.standing(kind));
    }
    let mut told = Object::new();
    named(&mut told, service, in_force)
        .text("first", &header.first.to_string())
        .text("last", &header.last.to_string())
        .text("version", &header.version.to_string())
        .text("code", header.code.as_str())
        .text("program", maps.program())
        .text("run_by", maps.run_by())
        .text("date", maps.date())
        .texts("descriptions", maps.descriptions())
        .put("heights", axis(&header.heights))
        .put("latitudes", axis(&header.latitudes))
        .put("longitudes", axis(&header.longitudes))
        .texts("epochs", maps.epochs().iter().map(Epoch::to_string))
        .put("standing", standing.end());
    told.end()
}
