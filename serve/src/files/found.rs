//! Which files a source has: those that were named, and in a folder those whose names are of IONEX files.

use super::words;
use ionex_cli::naming::{is_ionex, unpacked};
use std::fs;
use std::path::{Path, PathBuf};

/// Files of a folder that are looked at, at most.
const MOST: usize = 1000;

/// A file of a source.
#[derive(Clone, Debug, PartialEq, Eq)]
pub struct Found {
    pub path: PathBuf,
    /// What is told of it: never its path.
    pub name: String,
}

/// The files at a path: itself, or what a folder has; the words of a fault where the folder cannot be listed.
pub fn at(path: &Path) -> Result<Vec<Found>, String> {
    if !path.is_dir() {
        return Ok(vec![found(path.to_path_buf())]);
    }
    let entries = fs::read_dir(path).map_err(|fault| words(&fault))?;
    let names = entries.filter_map(|entry| entry.ok().map(|entry| entry.path()));
    let mut files: Vec<Found> = names
        .map(found)
        .filter(|file| is_ionex(&file.name))
        .take(MOST + 1)
        .collect();
    if files.len() > MOST {
        return Err(format!("more than {MOST} files"));
    }
    files.sort_by(|one, other| one.name.cmp(&other.name));
    Ok(files)
}

fn found(path: PathBuf) -> Found {
    let name = name(&path);
    Found { path, name }
}

/// The last part of a path.
pub fn name(path: &Path) -> String {
    let last = path.file_name().unwrap_or(path.as_os_str());
    last.to_string_lossy().into_owned()
}

pub fn is_packed(name: &str) -> bool {
    unpacked(name) != name
}
