//! Whether a file stands still, and its bytes where it does: a text that is still being written is not judged.

use super::{found, unpack, words, LONGEST};
use std::fs::{self, File, Metadata, OpenOptions};
use std::io::{self, Read};
use std::os::unix::fs::{MetadataExt, OpenOptionsExt};
use std::path::Path;
use std::time::{Duration, Instant, SystemTime};

/// Of Linux: opening never waits for another side, and never takes a terminal.
const O_NONBLOCK: i32 = 0o4000;
const O_NOCTTY: i32 = 0o400;

/// What tells one state of a file from another: which file, its size, and when content and entry were last changed. The change
/// time cannot be set back by who writes the file.
#[derive(Clone, Copy, Debug, PartialEq, Eq)]
pub struct Stamp {
    file: (u64, u64),
    size: u64,
    modified: (i64, i64),
    changed: (i64, i64),
}

impl Stamp {
    fn of(about: &Metadata) -> Stamp {
        Stamp {
            file: (about.dev(), about.ino()),
            size: about.size(),
            modified: (about.mtime(), about.mtime_nsec()),
            changed: (about.ctime(), about.ctime_nsec()),
        }
    }

    /// For the order in which files came.
    pub fn modified(&self) -> (i64, i64) {
        self.modified
    }

    /// Whether by the clock it has stood for so long.
    fn older_than(&self, age: Duration) -> bool {
        let now = SystemTime::now().duration_since(SystemTime::UNIX_EPOCH);
        let now = now.map_or(0, |now| now.as_nanos() as i128);
        let nanos =
            |(seconds, nanos): (i64, i64)| i128::from(seconds) * 1_000_000_000 + i128::from(nanos);
        let last = nanos(self.modified.max(self.changed));
        now - last >= age.as_nanos() as i128
    }
}

/// What is known of a file from look to look.
#[derive(Debug, Default)]
pub struct Watched {
    /// Its state, and since when it is seen so.
    seen: Option<(Stamp, Instant)>,
    /// The state that was judged or found wrong last.
    done: Option<Stamp>,
}

/// What a look at a file finds.
#[derive(Debug, PartialEq, Eq)]
pub enum Look {
    /// As it was when it was judged.
    Same,
    /// It has changed, and is not older than two looks yet.
    Unsettled,
    Settled(Stamp),
    /// It cannot be read, in words.
    Fault(String),
}

impl Watched {
    /// Looks at a file without opening it. `old` is how long it must have stood, as it was seen here; with `believed` its own
    /// times are enough.
    pub fn look(&mut self, path: &Path, old: Duration, believed: bool) -> Look {
        let about = match fs::metadata(path) {
            Ok(about) => about,
            Err(fault) => {
                *self = Watched::default();
                return Look::Fault(words(&fault));
            }
        };
        if !about.is_file() {
            *self = Watched::default();
            return Look::Fault("not a regular file".to_string());
        }
        let stamp = Stamp::of(&about);
        if self.done == Some(stamp) {
            return Look::Same;
        }
        let now = Instant::now();
        let since = match self.seen {
            Some((seen, since)) if seen == stamp => since,
            _ => now,
        };
        self.seen = Some((stamp, since));
        if now - since >= old || (believed && stamp.older_than(old)) {
            Look::Settled(stamp)
        } else {
            Look::Unsettled
        }
    }

    /// Remembers a state that need not be looked at again.
    pub fn done(&mut self, stamp: Stamp) {
        self.done = Some(stamp);
    }
}

/// Why there is no text of a settled file.
#[derive(Debug)]
pub enum Unread {
    /// It has changed meanwhile.
    Changing,
    /// It cannot be read, in words; `again` where that need not be the file's fault.
    Fault { words: String, again: bool },
}

impl From<io::Error> for Unread {
    fn from(fault: io::Error) -> Unread {
        Unread::Fault {
            words: words(&fault),
            again: true,
        }
    }
}

/// The text of a settled file, unpacked. The file is the same before and after, by name and by what was opened.
pub fn read(path: &Path, name: &str, stamp: Stamp) -> Result<Vec<u8>, Unread> {
    if stamp.size > LONGEST {
        return Err(too_long(format!("{} bytes", stamp.size)));
    }
    let file = OpenOptions::new()
        .read(true)
        .custom_flags(O_NONBLOCK | O_NOCTTY)
        .open(path)?;
    is_same(&file, path, stamp)?;
    let text = if found::is_packed(name) {
        unpack::unpack(file.try_clone()?)
    } else {
        plain(&file, stamp)
    };
    is_same(&file, path, stamp)?;
    match text {
        Ok(text) if text.len() as u64 > LONGEST => Err(too_long("unpacked".to_string())),
        text => text,
    }
}

fn too_long(what: String) -> Unread {
    Unread::Fault {
        words: format!("{what}: more than the {LONGEST} bytes that are read"),
        again: false,
    }
}

fn is_same(file: &File, path: &Path, stamp: Stamp) -> Result<(), Unread> {
    let opened = file.metadata()?;
    let named = fs::metadata(path)?;
    if opened.is_file() && Stamp::of(&opened) == stamp && Stamp::of(&named) == stamp {
        Ok(())
    } else {
        Err(Unread::Changing)
    }
}

fn plain(file: &File, stamp: Stamp) -> Result<Vec<u8>, Unread> {
    let mut text = Vec::with_capacity(usize::try_from(stamp.size).unwrap_or(0) + 1);
    file.take(LONGEST + 1).read_to_end(&mut text)?;
    Ok(text)
}

#[cfg(test)]
mod tests {
    use super::*;

    /// A file of its own, taken away in the end.
    struct Scratch(std::path::PathBuf);

    impl Scratch {
        fn new(name: &str) -> Scratch {
            let name = format!("ionex-serve-{}-{name}", std::process::id());
            let scratch = Scratch(std::env::temp_dir().join(name));
            scratch.write("first");
            scratch
        }

        fn write(&self, words: &str) {
            fs::write(&self.0, words).expect("written");
        }
    }

    impl Drop for Scratch {
        fn drop(&mut self) {
            let _ = fs::remove_file(&self.0);
        }
    }

    #[test]
    fn what_changes_is_not_settled() {
        let file = Scratch::new("settles");
        let (mut watched, hour) = (Watched::default(), Duration::from_secs(3600));
        assert_eq!(watched.look(&file.0, hour, false), Look::Unsettled);
        assert_eq!(watched.look(&file.0, hour, true), Look::Unsettled);
        let Look::Settled(stamp) = watched.look(&file.0, Duration::ZERO, false) else {
            panic!("it has not changed");
        };
        watched.done(stamp);
        assert_eq!(watched.look(&file.0, hour, false), Look::Same);
        // As long as before, but other bytes.
        std::thread::sleep(Duration::from_millis(20));
        file.write("other");
        assert_eq!(watched.look(&file.0, hour, false), Look::Unsettled);
        fs::remove_file(&file.0).expect("removed");
        let missing = watched.look(&file.0, hour, false);
        assert_eq!(missing, Look::Fault("no such file".to_string()));
    }

    #[test]
    fn what_changes_while_it_is_read_is_no_text() {
        let file = Scratch::new("changes");
        let Look::Settled(stamp) = Watched::default().look(&file.0, Duration::ZERO, false) else {
            panic!("it has not changed");
        };
        assert_eq!(read(&file.0, "a.inx", stamp).expect("a text"), b"first");
        std::thread::sleep(Duration::from_millis(20));
        file.write("other");
        let changed = read(&file.0, "a.inx", stamp);
        assert!(matches!(changed, Err(Unread::Changing)), "{changed:?}");
        // Another file of the same name and content.
        let Look::Settled(stamp) = Watched::default().look(&file.0, Duration::ZERO, false) else {
            panic!("it has not changed");
        };
        let other = Scratch::new("takes-its-place");
        other.write("other");
        fs::rename(&other.0, &file.0).expect("renamed");
        let changed = read(&file.0, "a.inx", stamp);
        assert!(matches!(changed, Err(Unread::Changing)), "{changed:?}");
    }
}
