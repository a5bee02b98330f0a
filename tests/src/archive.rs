//! The library's archive: which of its functions are linked, and how it is called. It is x86-64 code: another machine
//! calls it through the bridge.

#[cfg(not(target_arch = "x86_64"))]
pub use crate::bridge::Archive;
#[cfg(target_arch = "x86_64")]
pub use crate::c::Archive;

/// The library with its areas at forbidden pages, which only the machine's own code can be given.
#[cfg(all(target_arch = "x86_64", feature = "ionex"))]
pub fn fenced() -> crate::fenced::Fenced {
    crate::fenced::Fenced::default()
}

#[cfg(not(all(target_arch = "x86_64", feature = "ionex")))]
pub fn fenced() -> Archive {
    Archive
}

/// Each function of the boundary, and whether it comes from the archive.
pub const FUNCTIONS: [(&str, bool); 15] = [
    ("ionex_read", cfg!(feature = "read")),
    ("ionex_needs", cfg!(feature = "needs")),
    ("ionex_ask", cfg!(feature = "ask")),
    ("ionex_ask_all", cfg!(feature = "ask_all")),
    ("ionex_explain", cfg!(feature = "explain")),
    ("ionex_tecu_delay", cfg!(feature = "tecu_delay")),
    ("ionex_delay", cfg!(feature = "delay")),
    ("ionex_moved", cfg!(feature = "moved")),
    ("ionex_join", cfg!(feature = "join")),
    ("ionex_write", cfg!(feature = "write")),
    ("ionex_week_add", cfg!(feature = "week_add")),
    ("ionex_index", cfg!(feature = "index")),
    ("ionex_indexed_node", cfg!(feature = "indexed_node")),
    ("ionex_indexed_block", cfg!(feature = "indexed_block")),
    ("ionex_biases", cfg!(feature = "biases")),
];
