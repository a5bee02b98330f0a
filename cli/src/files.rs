//! Files read and written; `-` is standard input or output.

use crate::status::Stop;
use std::borrow::Cow;
use std::ffi::OsStr;
use std::fs::{self, File, OpenOptions};
use std::io::{self, ErrorKind, Read, Write};
use std::path::{Path, PathBuf};

/// No accepted text without remarks and blank lines is longer: 2,000,000 values of three kinds, each in a row of its own with
/// its opening and its exponent before it, in lines of 80 bytes and two for the line's end.
pub const MOST_BYTES: u64 = 1_500_000_000;

/// A file's name as it is, for machines.
pub fn name(file: &OsStr) -> String {
    if file == "-" {
        return "standard input".to_string();
    }
    Path::new(file).display().to_string()
}

/// The name of a file that is written.
pub fn out_name(file: &OsStr) -> String {
    if file == "-" {
        return "standard output".to_string();
    }
    name(file)
}

/// Words for people, in which no letter is an order to their terminal or a line of their log.
pub fn shown(words: &str) -> Cow<'_, str> {
    if !words.contains(char::is_control) {
        return Cow::Borrowed(words);
    }
    let mut out = String::new();
    for letter in words.chars() {
        match letter {
            '\n' => out.push_str("\\n"),
            letter if letter.is_control() => out.push_str(&format!("\\x{:02x}", letter as u32)),
            letter => out.push(letter),
        }
    }
    Cow::Owned(out)
}

/// What went wrong, in words of few letters.
pub fn words(fault: &io::Error) -> String {
    match fault.kind() {
        ErrorKind::NotFound => "no such file".to_string(),
        ErrorKind::IsADirectory => "is a folder, not a file".to_string(),
        ErrorKind::PermissionDenied => "permission denied".to_string(),
        ErrorKind::OutOfMemory => "too large for the memory".to_string(),
        _ => {
            let words = fault.to_string();
            let end = words.find(" (os error").unwrap_or(words.len());
            words[..end].to_lowercase()
        }
    }
}

/// All bytes of a file, where they are not more than `most`.
pub fn read(file: &OsStr, most: u64) -> Result<Vec<u8>, Stop> {
    let unread = |words: String| Stop::Unread {
        name: name(file),
        words,
    };
    let read = if file == "-" {
        all(io::stdin().lock(), 0, most)
    } else {
        File::open(file).and_then(|opened| {
            let size = opened.metadata()?.len();
            all(opened, size, most)
        })
    };
    let bytes = read.map_err(|fault| unread(words(&fault)))?;
    if bytes.len() as u64 > most {
        return Err(unread(format!(
            "more than {most} bytes; --max-bytes reads more"
        )));
    }
    Ok(bytes)
}

/// Up to a byte more than `most`. A text that is too large for the memory is told, not a panic.
pub fn all(source: impl Read, size: u64, most: u64) -> io::Result<Vec<u8>> {
    let mut text = Vec::new();
    let size = usize::try_from(size.min(most)).unwrap_or(usize::MAX);
    text.try_reserve(size.saturating_add(1))?;
    source.take(most.saturating_add(1)).read_to_end(&mut text)?;
    Ok(text)
}

/// Whether two names lead to the same file.
pub fn same(one: &OsStr, other: &OsStr) -> bool {
    matches!((fs::canonicalize(one), fs::canonicalize(other)), (Ok(one), Ok(other)) if one == other)
}

/// Writes a file whole, or leaves it as it was.
pub fn replace(file: &OsStr, content: &[u8]) -> Result<(), Stop> {
    let told = |fault: io::Error| {
        let words = match fault.kind() {
            ErrorKind::NotFound => "no such folder".to_string(),
            _ => words(&fault),
        };
        Stop::File(format!("{}: not written: {words}", name(file)))
    };
    // A link stays a link: what it leads to is replaced.
    let path = fs::canonicalize(file).unwrap_or_else(|_| PathBuf::from(file));
    match fs::metadata(&path) {
        Ok(found) if !found.is_file() => directly(&path, content),
        Ok(found) => {
            writable(&path).and_then(|()| beside(&path, content, Some(found.permissions())))
        }
        Err(_) => beside(&path, content, None),
    }
    .map_err(told)
}

/// Whether a file that stands may be written at all; nothing is changed.
fn writable(path: &Path) -> io::Result<()> {
    OpenOptions::new().write(true).open(path).map(|_| ())
}

/// A device or a pipe cannot be replaced.
fn directly(path: &Path, content: &[u8]) -> io::Result<()> {
    OpenOptions::new()
        .write(true)
        .open(path)?
        .write_all(content)
}

/// Through a file beside it, which takes the name only when it is whole and on the disk.
fn beside(path: &Path, content: &[u8], permissions: Option<fs::Permissions>) -> io::Result<()> {
    let mut draft = path.as_os_str().to_owned();
    draft.push(format!(".{}.part", std::process::id()));
    let draft = PathBuf::from(draft);
    let written = (|| {
        let mut opened = OpenOptions::new()
            .write(true)
            .create_new(true)
            .open(&draft)?;
        opened.write_all(content)?;
        if let Some(permissions) = permissions {
            opened.set_permissions(permissions)?;
        }
        opened.sync_all()?;
        fs::rename(&draft, path)
    })();
    if written.is_err() {
        let _ = fs::remove_file(&draft);
    }
    written
}

#[cfg(test)]
mod tests {
    use super::*;

    #[test]
    fn names_that_order_nothing() {
        assert_eq!(shown("a b\u{e9}.inx"), "a b\u{e9}.inx");
        assert_eq!(shown("a\x1b[2Jb\nc\u{9b}d"), "a\\x1b[2Jb\\nc\\x9bd");
    }

    #[test]
    fn no_more_than_a_byte_too_many() {
        let endless = io::repeat(7);
        assert_eq!(all(endless, 0, 1000).unwrap().len(), 1001);
        assert_eq!(all(&b"abc"[..], u64::MAX, 10).unwrap(), b"abc");
    }
}
