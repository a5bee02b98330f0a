//! Prints a file as centres make them: 25 hourly TEC maps of the whole Earth and their RMS maps, with made-up values.
//!
//!     cargo run --release --offline --example day >day.inx

use std::io::{self, Write};

#[path = "../tests/common/global.rs"]
mod global;

fn main() -> io::Result<()> {
    io::stdout().write_all(&global::text(true))
}
