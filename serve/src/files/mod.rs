//! The files of the sources: found, settled, read within bounds, unpacked; and those that are kept for the next start.

pub mod found;
pub mod keep;
pub mod settle;
pub mod unpack;

/// Bytes of a text, at most: a file that is longer, packed or not, is not read.
pub const LONGEST: u64 = 64 << 20;

/// A fault of a file in a few words, without its path.
pub fn words(fault: &std::io::Error) -> String {
    use std::io::ErrorKind;
    match fault.kind() {
        ErrorKind::NotFound => "no such file".to_string(),
        ErrorKind::PermissionDenied => "permission denied".to_string(),
        _ => {
            let words = fault.to_string();
            let end = words.find(" (os error").unwrap_or(words.len());
            words[..end].to_lowercase()
        }
    }
}
