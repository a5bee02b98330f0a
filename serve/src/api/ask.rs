//! One question: its answer, and the nodes that the answer came from.

use super::{at, named, tenths, Fault};
use crate::json::{list, thousandths, Object};
use crate::query::Query;
use crate::service::Service;
use ionex::station::InForce;
use ionex::{Answer, Epoch, Kind, Method, Place, Refusal, Weighted};
use std::sync::Arc;

const KNOWN: [&str; 7] = ["lat", "lon", "time", "kind", "method", "layer", "carrier"];

struct Question {
    kind: Kind,
    method: Method,
    layer: u64,
    place: Place,
    time: Epoch,
}

impl Question {
    fn of(query: &Query) -> Result<Question, String> {
        Ok(Question {
            place: query.place()?,
            time: query.time()?,
            kind: query.kind()?,
            method: query.method()?,
            layer: query.layer()?,
        })
    }
}

/// The maps for a question, which is counted.
fn maps(service: &Service, time: Epoch) -> Result<Arc<InForce>, Fault> {
    service.counts.asked(1);
    at(service, time)
}

pub fn ask(service: &Service, query: &str) -> Result<String, Fault> {
    let query = Query::parse(query, &KNOWN)?;
    let Question {
        kind,
        method,
        layer,
        place,
        time,
    } = Question::of(&query)?;
    let carrier = query.carrier()?;
    let maps = maps(service, time)?;
    let refused = |refusal: Refusal| Fault::Refused(refusal, Arc::clone(&maps));
    let answer = maps
        .maps
        .ask(kind, method, layer, place, time)
        .map_err(refused)?;
    let mut told = value(answer);
    if let Answer::Tecu(content) = answer {
        let delay = content.delay(carrier).map_err(refused)?;
        told.put("delay_metres", delay.metres.0);
        told.put("carrier_hertz", delay.carrier.hertz());
    }
    Ok(named(&mut told, service, &maps).end())
}

pub fn why(service: &Service, query: &str) -> Result<String, Fault> {
    let query = Query::parse(query, &KNOWN)?;
    let Question {
        kind,
        method,
        layer,
        place,
        time,
    } = Question::of(&query)?;
    query.carrier()?;
    let maps = maps(service, time)?;
    let refused = |refusal: Refusal| Fault::Refused(refusal, Arc::clone(&maps));
    let explained = maps
        .maps
        .explain(kind, method, layer, place, time)
        .map_err(refused)?;
    let mut told = value(explained.answer);
    told.put("denominator", explained.denominator);
    told.put("nodes", list(explained.nodes.iter().map(node)));
    Ok(named(&mut told, service, &maps).end())
}

fn value(answer: Answer) -> Object {
    let mut told = Object::new();
    told.put("value", thousandths(answer.thousandths()))
        .put("thousandths", answer.thousandths())
        .text("unit", answer.unit());
    told
}

fn node(weighted: &Weighted) -> String {
    let node = weighted.node;
    let mut told = Object::new();
    told.put("map", node.map)
        .text("epoch", &node.epoch.to_string())
        .put("lat", tenths(node.lat))
        .put("lon", tenths(node.lon))
        .put("layer", node.layer)
        .put("row", node.row)
        .put("column", node.column)
        .put("value", thousandths(weighted.value.thousandths()))
        .put("thousandths", weighted.value.thousandths())
        .put("weight", weighted.weight);
    told.end()
}
