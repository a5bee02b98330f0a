//! Links the library's archive into the bridge, where one of its functions is linked (see Cargo.toml) and the machine is no
//! x86-64 (there the crate `ionex` links it). The archive is in the folder that IONEX_LIB names, else where
//! `./build library` leaves it.

use std::env;
use std::path::{Path, PathBuf};
use std::process::Command;

const FUNCTIONS: [&str; 15] = [
    "READ",
    "NEEDS",
    "ASK",
    "ASK_ALL",
    "EXPLAIN",
    "TECU_DELAY",
    "DELAY",
    "MOVED",
    "JOIN",
    "WRITE",
    "WEEK_ADD",
    "INDEX",
    "INDEXED_NODE",
    "INDEXED_BLOCK",
    "BIASES",
];

fn main() {
    println!("cargo:rerun-if-env-changed=IONEX_LIB");
    let linked = |name: &&str| env::var_os(format!("CARGO_FEATURE_{name}")).is_some();
    let functions: Vec<&str> = FUNCTIONS.into_iter().filter(linked).collect();
    let x86_64 = env::var("CARGO_CFG_TARGET_ARCH").is_ok_and(|machine| machine == "x86_64");
    if functions.is_empty() || x86_64 {
        return;
    }
    let folder = match env::var_os("IONEX_LIB") {
        Some(folder) => PathBuf::from(folder),
        None => Path::new(env!("CARGO_MANIFEST_DIR")).join("../target/staticlib"),
    };
    let archive = folder.join("libionex.a");
    println!("cargo:rerun-if-changed={}", archive.display());
    make_bridge(&archive, &functions);
}

/// Makes the bridge for these functions, and tells the crate where it is.
fn make_bridge(archive: &Path, functions: &[&str]) {
    println!("cargo:rerun-if-changed=bridge.c");
    println!("cargo:rerun-if-changed=x86-64");
    println!("cargo:rerun-if-changed=../include/ionex.h");
    let bridge = Path::new(&env::var_os("OUT_DIR").expect("cargo's folder")).join("bridge");
    let made = Command::new("./x86-64")
        .arg("link")
        .args([&bridge, Path::new("bridge.c"), archive])
        .args("-std=c11 -Wall -Wextra -pedantic -Werror -O2 -I../include".split(' '))
        .args(functions.iter().map(|name| format!("-D{name}")))
        .status();
    assert!(
        made.is_ok_and(|status| status.success()),
        "the bridge is not made"
    );
    println!("cargo:rustc-env=IONEX_BRIDGE={}", bridge.display());
}
