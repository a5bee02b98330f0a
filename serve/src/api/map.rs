//! The whole grid at a second, each node asked as a rover would ask.

use super::columns::{answers, unit};
use super::{at, axis, large, lease, named, Fault};
use crate::http::response::Response;
use crate::json::{push_whole, Object};
use crate::query::Query;
use crate::service::Service;
use ionex::station::InForce;
use ionex::{Axis, Epoch, Kind, Method, Place, Questions, Refusal};
use std::sync::Arc;

struct Asked {
    kind: Kind,
    method: Method,
    layer: u64,
    time: Epoch,
}

/// Thousandths of the unit, row by row, null where a node has no value.
pub fn map(service: &Service, query: &str) -> Result<Response, Fault> {
    let query = Query::parse(query, &["time", "kind", "method", "layer"])?;
    let asked = Asked {
        time: query.time()?,
        kind: query.kind()?,
        method: query.method()?,
        layer: query.layer()?,
    };
    let maps = at(service, asked.time)?;
    let nodes = maps.maps.rows() * maps.maps.columns();
    let lease = lease(service, nodes)?;
    service.counts.asked(nodes);
    let values = values(&maps, &asked);
    let values = values.map_err(|refusal| Fault::Refused(refusal, Arc::clone(&maps)))?;
    let header = maps.maps.header();
    let mut told = Object::new();
    told.put("thousandths", values)
        .text("unit", unit(asked.kind))
        .text("time", &asked.time.to_string())
        .put("latitudes", axis(&header.latitudes))
        .put("longitudes", axis(&header.longitudes));
    Ok(large(named(&mut told, service, &maps).end(), lease))
}

fn values(maps: &InForce, asked: &Asked) -> Result<String, Refusal> {
    let header = maps.maps.header();
    let (rows, columns) = (
        hundredths(&header.latitudes),
        hundredths(&header.longitudes),
    );
    let Asked {
        kind,
        method,
        layer,
        time,
    } = *asked;
    // A time outside, a layer outside and a method that these maps do not have are refused for every node alike.
    if let (Some(lat), Some(lon)) = (rows.first(), columns.first()) {
        let one = maps
            .maps
            .ask(kind, method, layer, Place::new(*lat, *lon), time);
        if let Some(refusal) = one.err().filter(|refusal| refusal.number() != 22) {
            return Err(refusal);
        }
    }
    let lats: Vec<i32> = rows
        .iter()
        .flat_map(|lat| columns.iter().map(|_| *lat))
        .collect();
    let lons: Vec<i32> = rows.iter().flat_map(|_| columns.iter().copied()).collect();
    let seconds = vec![time.seconds(); lats.len()];
    let (mut numbers, mut values) = (vec![0; lats.len()], vec![0; lats.len()]);
    let questions = Questions {
        lats: &lats,
        lons: &lons,
        seconds: &seconds,
    };
    maps.maps
        .ask_all_into(kind, method, layer, questions, &mut numbers, &mut values)?;
    Ok(answers(&numbers, &values, push_whole))
}

/// The nodes of an axis, in hundredths of a degree.
fn hundredths(axis: &Axis) -> Vec<i32> {
    let nodes = (0..axis.nodes()).filter_map(|node| axis.at(node));
    nodes.map(|tenths| 10 * tenths as i32).collect()
}
