//! The program `ionex`.

use std::process::ExitCode;

fn main() -> ExitCode {
    let words = std::env::args_os().skip(1).collect();
    ExitCode::from(ionex_cli::run(words) as u8)
}
