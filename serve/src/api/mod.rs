//! What is answered: by path, one JSON object for each.

mod ask;
mod columns;
mod health;
mod map;
mod maps;
mod page;

use crate::http::budget::Lease;
use crate::http::head::{is_ours, Head};
use crate::http::response::Response;
use crate::http::Request;
use crate::json::Object;
use crate::metrics;
use crate::service::Service;
use ionex::station::InForce;
use ionex::{Epoch, Refusal};
use std::sync::Arc;
use std::time::Duration;

/// Questions of one request.
pub const QUESTIONS: usize = 100_000;
/// For others to give back what they have of the budget.
const PATIENCE: Duration = Duration::from_secs(10);

/// Why there is no answer.
enum Fault {
    /// The request is not understood.
    Asked(String),
    /// The library refuses the question to these maps.
    Refused(Refusal, Arc<InForce>),
    NoMaps,
    /// The budget of bytes is taken.
    Busy,
}

impl From<String> for Fault {
    fn from(words: String) -> Fault {
        Fault::Asked(words)
    }
}

/// What is asked for.
#[derive(Clone, Copy, PartialEq, Eq)]
enum Path {
    Asset(&'static page::Asset),
    Health,
    Maps,
    Ask,
    Why,
    Map,
    Metrics,
}

impl Path {
    fn of(path: &str) -> Option<Path> {
        match path {
            "/v1/health" => Some(Path::Health),
            "/v1/maps" => Some(Path::Maps),
            "/v1/ask" => Some(Path::Ask),
            "/v1/why" => Some(Path::Why),
            "/v1/map" => Some(Path::Map),
            "/metrics" => Some(Path::Metrics),
            _ => page::find(path).map(Path::Asset),
        }
    }
}

/// Judges a head before its body is waited for.
pub fn admit(service: &Service, head: &Head) -> Result<(), Response> {
    if !is_ours(&head.host, &service.hosts) {
        return Err(Response::error(
            421,
            "this name is not served here: --host names those that are",
        ));
    }
    let Some(path) = Path::of(&head.path) else {
        return Err(Response::error(404, "no such path"));
    };
    match head.method.as_str() {
        "GET" | "HEAD" if head.body == 0 => Ok(()),
        "GET" | "HEAD" => Err(Response::error(400, "only POST has a body")),
        "POST" if path != Path::Ask => Err(not_allowed(path)),
        "POST" if head.content != "application/json" => {
            Err(Response::error(415, "the body is to be application/json"))
        }
        "POST" => Ok(()),
        _ => Err(not_allowed(path)),
    }
}

fn not_allowed(path: Path) -> Response {
    let allowed = match path {
        Path::Ask => "Allow: GET, HEAD, POST\r\n",
        _ => "Allow: GET, HEAD\r\n",
    };
    Response::error(405, "GET and HEAD, and POST for /v1/ask").with(allowed)
}

/// What so many questions and their answers take of the budget: columns, and their text. Few take nothing.
fn lease(service: &Service, questions: usize) -> Result<Option<Lease>, Fault> {
    const EACH: usize = 96;
    const FEW: usize = 100;
    if questions <= FEW {
        return Ok(None);
    }
    let lease = service.answers.take(EACH * questions, PATIENCE);
    lease.map(Some).ok_or(Fault::Busy)
}

/// An answer that holds of its lease no more than it is long.
fn large(body: String, mut lease: Option<Lease>) -> Response {
    if let Some(lease) = &mut lease {
        lease.shrink(body.len());
    }
    Response {
        lease,
        ..whole(body)
    }
}

/// Answers an admitted request.
pub fn answer(service: &Service, request: &Request) -> Response {
    let query = request.head.query.as_str();
    let answered = match Path::of(&request.head.path) {
        None => return Response::error(404, "no such path"),
        Some(Path::Asset(asset)) => return asset.response(),
        Some(Path::Health) => return health::health(service),
        Some(Path::Metrics) => {
            return Response::new(200, "text/plain; version=0.0.4", metrics::text(service));
        }
        Some(Path::Ask) if request.head.method == "POST" => columns::ask(service, request.body),
        Some(Path::Ask) => ask::ask(service, query).map(whole),
        Some(Path::Why) => ask::why(service, query).map(whole),
        Some(Path::Maps) => maps::maps(service, query).map(whole),
        Some(Path::Map) => map::map(service, query),
    };
    answered.unwrap_or_else(|fault| told(service, fault))
}

fn whole(body: String) -> Response {
    Response::json(200, body)
}

fn told(service: &Service, fault: Fault) -> Response {
    match fault {
        Fault::Asked(words) => Response::error(400, &words),
        Fault::NoMaps => {
            Response::error(503, "no file was accepted yet; the service goes on looking")
        }
        Fault::Busy => Response::error(429, "too many large requests at once"),
        Fault::Refused(refusal, maps) => Response::json(422, refused(service, &refusal, &maps)),
    }
}

/// A refusal of the library, with its number and words.
fn refused(service: &Service, refusal: &Refusal, maps: &InForce) -> String {
    let mut told = Object::new();
    told.put("refused", refusal.number())
        .text("reason", refusal.meaning())
        .text("words", &refusal.to_string());
    if let Some(lacking) = refusal.lacking() {
        let node = lacking.node;
        let mut about = Object::new();
        about
            .put("map", node.map)
            .put("layer", node.layer)
            .put("row", node.row)
            .put("column", node.column)
            .put("lat", tenths(node.lat))
            .put("lon", tenths(node.lon))
            .text("cause", lacking.cause.as_str())
            .text("words", &lacking.to_string());
        told.put("lacking", about.end());
    }
    named(&mut told, service, maps).end()
}

/// Which maps an answer came from.
fn named<'a>(told: &'a mut Object, service: &Service, maps: &InForce) -> &'a mut Object {
    told.text("source", &maps.source)
        .text("name", &maps.name())
        .put("generation", maps.generation)
        .text("start", &service.start)
}

/// The maps that cover a time; else the last there are, which refuse it in their words.
fn at(service: &Service, time: Epoch) -> Result<Arc<InForce>, Fault> {
    service.station.current(time).ok_or(Fault::NoMaps)
}

/// Tenths as the decimal number that they are.
fn tenths(value: i64) -> String {
    let sign = if value < 0 { "-" } else { "" };
    let size = value.unsigned_abs();
    format!("{sign}{}.{}", size / 10, size % 10)
}

/// First, last, step and count of equidistant nodes.
fn axis(axis: &ionex::Axis) -> String {
    let mut told = Object::new();
    told.put("first", tenths(axis.first))
        .put("last", tenths(axis.last))
        .put("step", tenths(axis.step))
        .put("count", axis.nodes());
    told.end()
}
