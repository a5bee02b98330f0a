#![forbid(unsafe_code)]

use std::io::{self, Read, Write};
use std::process::ExitCode;

fn main() -> ExitCode {
    let mut arguments = std::env::args().skip(1);
    if arguments.next().as_deref() != Some("canon") || arguments.next().is_some() {
        eprintln!("usage: second canon < text");
        return ExitCode::from(2);
    }
    match canon() {
        Ok(()) => ExitCode::SUCCESS,
        Err(error) => {
            eprintln!("second: {error}");
            ExitCode::FAILURE
        }
    }
}

fn canon() -> io::Result<()> {
    let mut text = Vec::new();
    let limit = second::program::INPUT as u64 + 1;
    io::stdin().lock().take(limit).read_to_end(&mut text)?;
    io::stdout()
        .lock()
        .write_all(&second::program::canon(&text))
}
