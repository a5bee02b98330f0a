//! Times the library beside plain Rust that makes the same checks: one table of both with their ratios, and then how
//! time grows. The last line is `ratio X`: the library's time over the plain reader's for the file of TEC maps.

#![forbid(unsafe_code)]

mod growth;
mod speed;
mod timing;

fn main() {
    println!("| | library | plain | ratio |\n|---|---|---|---|");
    let ratio = speed::reading();
    speed::header_line();
    speed::asking();
    speed::many();
    speed::moving();
    speed::writing();
    speed::week();
    speed::joining();
    speed::index();
    speed::biases(300);
    speed::biases(2000);
    growth::texts();
    growth::nodes();
    growth::sets();
    println!("\nratio {ratio:.2}");
}
