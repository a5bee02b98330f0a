//! Looks at the files of the sources, and offers what has changed to the station. Nothing here ends the looking.

use crate::files::found::{self, Found};
use crate::files::settle::{self, Look, Stamp, Unread, Watched};
use crate::tell::{now, Teller};
use ionex::station::HELD;
use std::collections::{HashMap, HashSet};
use std::panic::{catch_unwind, AssertUnwindSafe};
use std::path::PathBuf;
use std::sync::mpsc::{Receiver, RecvTimeoutError};
use std::time::{Duration, Instant};

/// A file that changes is looked at again no later than this, and stands still when it has not changed for twice as long.
const SETTLING: Duration = Duration::from_secs(2);
/// Looks that settled files wait for others of their source that still change: what is renewed together is one step.
const TOGETHER: u32 = 5;

pub struct Watcher {
    tell: Teller,
    sources: Vec<Source>,
    /// At this look the files' own times are believed: the first, and those that were asked for.
    asked: bool,
    /// A file was seen that changes.
    changing: bool,
}

struct Source {
    name: String,
    paths: Vec<PathBuf>,
    files: HashMap<PathBuf, Watched>,
    /// What was told of files that cannot be read, so that it is told once.
    faults: HashMap<String, String>,
    waited: u32,
    /// Whether a file was there at the last look.
    there: bool,
}

/// A settled file, and the state that it is in.
type Ripe<'a> = (&'a Found, Stamp);

impl Watcher {
    pub fn new(tell: Teller, sources: Vec<(String, Vec<PathBuf>)>) -> Watcher {
        let source = |(name, paths)| Source {
            name,
            paths,
            files: HashMap::new(),
            faults: HashMap::new(),
            waited: 0,
            there: true,
        };
        Watcher {
            tell,
            sources: sources.into_iter().map(source).collect(),
            asked: true,
            changing: false,
        }
    }

    /// Looks for ever, and at once where it is woken; ends when nobody can wake it any more.
    pub fn run(mut self, wake: &Receiver<()>) {
        self.guarded(Watcher::restore);
        loop {
            self.guarded(Watcher::look);
            let every = self.tell.service.every;
            let soon = every.min(SETTLING);
            let pause = if self.changing { soon } else { every };
            match self.wait(Instant::now() + pause, wake) {
                Ok(()) => self.asked = true,
                Err(RecvTimeoutError::Timeout) => self.asked = false,
                Err(RecvTimeoutError::Disconnected) => return,
            }
        }
    }

    /// A fault of this program at one look is told, and the next look comes.
    fn guarded(&mut self, work: fn(&mut Watcher)) {
        if catch_unwind(AssertUnwindSafe(|| work(self))).is_err() {
            self.tell.failed();
        }
    }

    /// Waits for the next look, giving signs of life meanwhile.
    fn wait(&self, next: Instant, wake: &Receiver<()>) -> Result<(), RecvTimeoutError> {
        let notify = &self.tell.notify;
        loop {
            let left = next.saturating_duration_since(Instant::now());
            let slice = notify.watchdog.map_or(left, |most| left.min(most));
            match wake.recv_timeout(slice) {
                Err(RecvTimeoutError::Timeout) if slice < left => notify.alive(),
                other => return other,
            }
        }
    }

    /// Begins with what was in force when the program last ran, judged again.
    fn restore(&mut self) {
        let Some(keep) = &self.tell.keep else {
            return;
        };
        for Source { name: source, .. } in &self.sources {
            let kept = keep.texts(source);
            let texts = kept
                .iter()
                .map(|kept| (kept.name.as_str(), kept.text.as_slice()));
            let texts: Vec<(&str, &[u8])> = texts.collect();
            let judged = self.tell.service.station.offer_all(source, &texts, now());
            for ((name, _), judged) in texts.iter().zip(&judged) {
                match judged {
                    Ok(accepted) => self.tell.taken(source, "restored", accepted),
                    Err(refusal) => self.tell.not_restored(source, name, refusal),
                }
            }
        }
    }

    /// One look at all sources.
    fn look(&mut self) {
        self.changing = false;
        for source in &mut self.sources {
            self.changing |= source.look(&self.tell, self.asked);
            self.tell.alive();
        }
    }
}

impl Source {
    /// Looks at the files, and offers what has changed and stands still: whether some still change.
    fn look(&mut self, tell: &Teller, asked: bool) -> bool {
        let found = self.found(tell);
        let (ripe, changing) = self.changed(tell, &found, asked);
        if !ripe.is_empty() && changing && !asked && self.waited < TOGETHER {
            self.waited += 1;
            return changing;
        }
        self.waited = 0;
        for some in ripe.chunks(HELD) {
            self.read_and_offer(tell, some);
            tell.alive();
        }
        changing
    }

    /// The files of the source; what is no longer there is forgotten.
    fn found(&mut self, tell: &Teller) -> Vec<Found> {
        let (mut all, mut folders) = (Vec::new(), Vec::new());
        for path in self.paths.clone() {
            match found::at(&path) {
                Ok(files) => all.extend(files),
                Err(words) => {
                    let name = found::name(&path);
                    self.fault(tell, &name, words);
                    folders.push(name);
                }
            }
        }
        let names = all.iter().map(|file| &file.name).chain(&folders);
        let names: HashSet<&str> = names.map(String::as_str).collect();
        let paths: HashSet<&PathBuf> = all.iter().map(|file| &file.path).collect();
        self.files.retain(|path, _| paths.contains(path));
        self.faults.retain(|name, _| names.contains(name.as_str()));
        tell.service
            .forgive(&self.name, |name| names.contains(name));
        all
    }

    /// The files that have changed and stand still, the oldest first; and whether some still change.
    fn changed<'a>(
        &mut self,
        tell: &Teller,
        found: &'a [Found],
        asked: bool,
    ) -> (Vec<Ripe<'a>>, bool) {
        let old = 2 * tell.service.every.min(SETTLING);
        let (mut ripe, mut changing, mut there) = (Vec::new(), false, false);
        for file in found {
            let watched = self.files.entry(file.path.clone()).or_default();
            let look = watched.look(&file.path, old, asked);
            there |= !matches!(look, Look::Fault(_));
            match look {
                Look::Same => {}
                Look::Unsettled => changing = true,
                Look::Settled(stamp) => ripe.push((file, stamp)),
                Look::Fault(words) => self.fault(tell, &file.name, words),
            }
        }
        if self.there != there {
            self.there = there;
            tell.is_there(&self.name, there);
        }
        ripe.sort_by_key(|(file, stamp)| (stamp.modified(), file.name.clone()));
        (ripe, changing)
    }

    fn read_and_offer(&mut self, tell: &Teller, files: &[Ripe]) {
        let mut texts = Vec::new();
        for (file, stamp) in files {
            match settle::read(&file.path, &file.name, *stamp) {
                Ok(text) => {
                    self.faults.remove(&file.name);
                    texts.push((*file, *stamp, text));
                }
                // Looked at again the next time.
                Err(Unread::Changing) => {}
                Err(Unread::Fault { words, again }) => {
                    self.fault(tell, &file.name, words);
                    if !again {
                        self.done(file, *stamp);
                    }
                }
            }
        }
        if !texts.is_empty() {
            self.offer(tell, &texts);
        }
    }

    /// Offers texts in one step, and tells what became of each.
    fn offer(&mut self, tell: &Teller, texts: &[(&Found, Stamp, Vec<u8>)]) {
        let offered = texts
            .iter()
            .map(|(file, _, text)| (file.name.as_str(), text.as_slice()));
        let offered: Vec<(&str, &[u8])> = offered.collect();
        let judged = tell.service.station.offer_all(&self.name, &offered, now());
        for ((file, stamp, text), judged) in texts.iter().zip(&judged) {
            self.done(file, *stamp);
            tell.service.counts.offered(&self.name, judged.is_ok());
            match judged {
                Ok(accepted) => tell.accepted(&self.name, accepted, text),
                Err(refusal) => tell.refused(&self.name, &file.name, text, refusal),
            }
        }
        if judged.iter().any(Result::is_ok) {
            tell.exchanged(&self.name);
        }
    }

    fn done(&mut self, file: &Found, stamp: Stamp) {
        if let Some(watched) = self.files.get_mut(&file.path) {
            watched.done(stamp);
        }
    }

    /// A file that cannot be read, told once for the same words.
    fn fault(&mut self, tell: &Teller, file: &str, words: String) {
        let before = self.faults.insert(file.to_string(), words.clone());
        if before.as_ref() != Some(&words) {
            tell.unread(&self.name, file, &words);
        }
    }
}
