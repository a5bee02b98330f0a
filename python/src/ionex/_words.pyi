# Made by build_ffi.py of the crate for Rust.
MEANINGS: dict[int, str]
