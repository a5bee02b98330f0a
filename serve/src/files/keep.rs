//! The texts in force, kept beside: after a restart they are judged again, so that a source that is broken by then has maps.

use super::{words, LONGEST};
use ionex::station::{InForce, Part};
use std::fs::{self, File, OpenOptions};
use std::io::{self, Read, Write};
use std::os::unix::fs::OpenOptionsExt;
use std::path::{Path, PathBuf};
use std::sync::Arc;

/// Between source, first second and name of a text in the name of its file.
const MARK: char = '~';

pub struct Keep {
    folder: PathBuf,
}

/// A text that was kept.
pub struct Kept {
    pub name: String,
    pub text: Vec<u8>,
}

impl Keep {
    pub fn new(folder: PathBuf) -> Result<Keep, String> {
        fs::create_dir_all(&folder).map_err(|fault| words(&fault))?;
        Ok(Keep { folder })
    }

    /// The texts of a source, the earliest first.
    pub fn texts(&self, source: &str) -> Vec<Kept> {
        let mut files: Vec<(u64, String, PathBuf)> = self.files(source);
        files.sort();
        let kept = files.into_iter().filter_map(|(_, name, path)| {
            let text = bounded(&path).ok()?;
            Some(Kept { name, text })
        });
        kept.collect()
    }

    /// Writes a text whole, or leaves what was there.
    pub fn put(&self, source: &str, part: &Part, text: &[u8]) -> Result<(), String> {
        let file = self.folder.join(file_name(source, part));
        let draft = self.folder.join(".draft");
        let written = (|| {
            let _ = fs::remove_file(&draft);
            let mut opened = OpenOptions::new()
                .write(true)
                .create_new(true)
                .mode(0o600)
                .open(&draft)?;
            opened.write_all(text)?;
            opened.sync_all()?;
            fs::rename(&draft, &file)?;
            File::open(&self.folder)?.sync_all()
        })();
        written.map_err(|fault| words(&fault))
    }

    /// Takes away the texts of a source that are no longer in force.
    pub fn prune(&self, source: &str, in_force: &[Arc<InForce>]) {
        let ours = in_force.iter().filter(|maps| maps.source == source);
        let held: Vec<String> = ours
            .flat_map(|maps| &maps.parts)
            .map(|part| file_name(source, part))
            .collect();
        for (_, _, path) in self.files(source) {
            let name = super::found::name(&path);
            if !held.contains(&name) {
                let _ = fs::remove_file(path);
            }
        }
    }

    /// Of each kept file of a source the first second, the name of its text, and where it is.
    fn files(&self, source: &str) -> Vec<(u64, String, PathBuf)> {
        let Ok(entries) = fs::read_dir(&self.folder) else {
            return Vec::new();
        };
        let paths = entries.filter_map(|entry| entry.ok().map(|entry| entry.path()));
        let ours = paths.filter_map(|path| {
            let name = super::found::name(&path);
            let (of, rest) = name.split_once(MARK)?;
            let (first, name) = rest.split_once(MARK)?;
            (of == source).then_some((first.parse().ok()?, name.to_string(), path))
        });
        ours.collect()
    }
}

fn file_name(source: &str, part: &Part) -> String {
    format!("{source}{MARK}{}{MARK}{}", part.first.seconds(), part.name)
}

fn bounded(path: &Path) -> io::Result<Vec<u8>> {
    let file = File::open(path)?;
    if !file.metadata()?.is_file() {
        return Err(io::ErrorKind::InvalidInput.into());
    }
    let mut text = Vec::new();
    file.take(LONGEST + 1).read_to_end(&mut text)?;
    Ok(text)
}
