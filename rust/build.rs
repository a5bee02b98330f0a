//! Finds the library's archive: in the folder that IONEX_LIB names, else where `./build library` leaves it.

use std::env;
use std::path::{Path, PathBuf};

fn main() {
    println!("cargo::rerun-if-env-changed=IONEX_LIB");
    let target = |part: &str| env::var(format!("CARGO_CFG_TARGET_{part}")).unwrap_or_default();
    let (machine, system) = (target("ARCH"), target("OS"));
    if machine != "x86_64" || system != "linux" {
        println!("cargo::error=libionex.a is x86-64 code for Linux: this crate cannot be built for {machine} {system}");
        return;
    }
    let folder = match env::var_os("IONEX_LIB") {
        Some(folder) => PathBuf::from(folder),
        None => Path::new(env!("CARGO_MANIFEST_DIR")).join("../target/staticlib"),
    };
    let archive = folder.join("libionex.a");
    println!("cargo::rerun-if-changed={}", archive.display());
    if !archive.is_file() {
        println!(
            "cargo::error=there is no {}: make it by `./build library` at the repository's root, or name its folder in \
             IONEX_LIB (an absolute path)",
            archive.display()
        );
        return;
    }
    println!("cargo::rustc-link-search=native={}", folder.display());
    println!("cargo::rustc-link-lib=static=ionex");
}
