//! The request loop of ionex-serve under clang's libFuzzer: heads, admission and answers, without the sockets. Bytes that make it
//! fail, or an answer that is not well formed, end the run. `./run` builds and starts it.

#![no_main]

use ionex_serve::http::{head, Request};
use ionex_serve::http::response::Response;
use ionex_serve::log::{Form, Log};
use ionex_serve::service::Service;
use std::sync::OnceLock;
use std::time::Duration;

const MAPS: &[u8] = include_bytes!("../../../tests/examples/accepted-canonical.inx");
static SERVICE: OnceLock<Service> = OnceLock::new();

fn service() -> Service {
    let log = Log::start(Form::Plain).expect("a log");
    let service = Service::new(vec!["day".to_string()], vec![], Duration::from_secs(2), log);
    service.station.offer("day", "day.inx", MAPS).expect("an accepted text");
    service
}

/// All requests in a row of bytes, as a connection takes them: until one is not whole, or ends the connection.
fn requests(service: &Service, mut bytes: &[u8]) {
    while let Ok(Some(head)) = head::parse(bytes) {
        assert!(head.length <= bytes.len(), "a head longer than what came");
        if let Err(told) = ionex_serve::api::admit(service, &head) {
            judge(&told);
            if head.body > 0 {
                return;
            }
        }
        let end = head.length + head.body;
        if end > bytes.len() {
            return;
        }
        let request = Request { head: &head, body: &bytes[head.length..end] };
        judge(&ionex_serve::api::answer(service, &request));
        if head.close {
            return;
        }
        bytes = &bytes[end..];
    }
}

/// No failure of its own, and JSON that another reader reads.
fn judge(told: &Response) {
    assert!((200..500).contains(&told.status) || told.status == 503, "status {}", told.status);
    if told.kind == "application/json" {
        let value: serde_json::Value = serde_json::from_slice(&told.body).expect("JSON");
        assert!(value.is_object() || value.is_array());
    }
}

/// # Safety
/// libFuzzer lends `size` bytes at `data` for the time of the call.
#[no_mangle]
pub unsafe extern "C" fn LLVMFuzzerTestOneInput(data: *const u8, size: usize) -> i32 {
    let bytes = if size == 0 { &[][..] } else { std::slice::from_raw_parts(data, size) };
    requests(SERVICE.get_or_init(service), bytes);
    0
}
