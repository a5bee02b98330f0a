//! The maps in force: of several sources, each with the texts that it last brought and that were accepted.

use crate::epoch::Epoch;
use crate::mapset::MapSet;
use crate::refusal::Refusal;
use std::sync::{Arc, Mutex, PoisonError, RwLock};
use std::time::SystemTime;

/// How many texts of one source are held, as yesterday's, today's and two days that are predicted.
pub const HELD: usize = 4;

/// A text of a map set in force.
#[derive(Clone, Debug, PartialEq, Eq, Hash)]
pub struct Part {
    /// The name that it was offered by.
    pub name: String,
    /// The epoch of its first map.
    pub first: Epoch,
    /// The epoch of its last map.
    pub last: Epoch,
}

/// A map set in force: one accepted text, or some of one source that meet and are joined.
///
/// Whoever has it keeps it, whatever is offered meanwhile. See [`Station::at`].
#[derive(Debug, PartialEq, Eq)]
pub struct InForce {
    /// The source that brought it.
    pub source: String,
    /// Its texts, the earliest first.
    pub parts: Vec<Part>,
    /// Counted from 1 over the whole station: no two map sets in force ever have the same.
    pub generation: u64,
    /// When it was put in force, by the machine's clock.
    pub since: SystemTime,
    /// What questions are asked of.
    pub maps: Arc<MapSet>,
    /// Which accepted texts it is of.
    texts: Vec<u64>,
}

impl InForce {
    /// Whether a time lies between its first and its last map.
    ///
    /// ```
    /// use ionex::station::Station;
    ///
    /// let station = Station::new(["cod"]);
    /// let text = std::fs::read("../tests/examples/accepted-canonical.inx")?;
    /// let day = station.offer("cod", "day.inx", &text)?.in_force.expect("the only text is held");
    /// assert!(day.covers("2000-01-01T02:00:00".parse()?));
    /// assert!(!day.covers("2000-01-01T02:00:01".parse()?));
    /// # Ok::<(), Box<dyn std::error::Error>>(())
    /// ```
    pub fn covers(&self, time: Epoch) -> bool {
        let header = self.maps.header();
        header.first <= time && time <= header.last
    }

    /// The names of its texts, with a plus sign between them.
    ///
    /// ```
    /// use ionex::station::Station;
    ///
    /// let station = Station::new(["cod"]);
    /// let text = std::fs::read("../tests/examples/accepted-canonical.inx")?;
    /// let day = station.offer("cod", "day.inx", &text)?.in_force.expect("the only text is held");
    /// assert_eq!(day.name(), "day.inx");
    /// # Ok::<(), Box<dyn std::error::Error>>(())
    /// ```
    pub fn name(&self) -> String {
        let names: Vec<&str> = self.parts.iter().map(|part| part.name.as_str()).collect();
        names.join(" + ")
    }
}

/// What became of an accepted text.
#[derive(Clone, Debug, PartialEq, Eq)]
pub struct Accepted {
    /// Its name, and what it covers.
    pub part: Part,
    /// The maps that it is part of now; nothing where [`HELD`] other texts of the source are nearer to the present.
    pub in_force: Option<Arc<InForce>>,
}

/// An accepted text of a source.
#[derive(Clone, Debug)]
struct Text {
    name: String,
    maps: Arc<MapSet>,
    /// Counted over the station in the order of acceptance.
    number: u64,
}

impl Text {
    fn first(&self) -> Epoch {
        self.maps.header().first
    }

    fn last(&self) -> Epoch {
        self.maps.header().last
    }

    fn part(&self) -> Part {
        Part {
            name: self.name.clone(),
            first: self.first(),
            last: self.last(),
        }
    }

    /// Whether both have a second that is not the end of one of them.
    fn overlaps(&self, other: &Text) -> bool {
        self.first() < other.last() && other.first() < self.last()
    }

    fn within(&self, other: &Text) -> bool {
        other.first() <= self.first() && self.last() <= other.last()
    }

    /// Seconds from a time to the nearest that is covered.
    fn distance(&self, time: Epoch) -> u64 {
        let (first, last) = (self.first().seconds(), self.last().seconds());
        let time = time.seconds();
        first.saturating_sub(time).max(time.saturating_sub(last))
    }
}

/// A source by its name.
#[derive(Clone, Debug)]
struct Source {
    name: String,
    /// In the order of acceptance.
    texts: Vec<Text>,
    /// In the order in which a second is looked for.
    in_force: Vec<Arc<InForce>>,
}

/// What has been counted so far.
#[derive(Debug, Default)]
struct Counts {
    texts: u64,
    generation: u64,
}

/// The maps in force, for programs that run all day: texts are offered as they come, and questions take what covers their
/// second.
///
/// A text is judged beside what is in use. It takes its place in one step when it is accepted; refused it changes nothing.
/// A second is answered by the first source, in order of preference, that has a text for it, and there by the text that was
/// accepted last. Texts of one source that meet, as yesterday's last and today's first map at midnight, are joined: the map
/// at which they meet is then the later day's, as [`MapSet::join`] has it.
///
/// A text that comes again as it was changes nothing. At most [`HELD`] texts of a source are held: those nearest to the present, so that neither an old file nor one of a wrong
/// year puts away what covers now. Threads may share a station. Asking never waits for a text being read.
///
/// ```
/// use ionex::station::Station;
/// use ionex::{Kind, Method};
///
/// let station = Station::new(["cod", "igs"]);
/// let time = "2000-01-01T00:30:00".parse()?;
/// assert!(station.at(time).is_none());
///
/// let text = std::fs::read("../tests/examples/accepted-canonical.inx")?;
/// station.offer("igs", "igsg0010.00i", &text)?;
/// let cut = &text[..text.len() / 2];
/// assert!(station.offer("igs", "igsg0010.00i", cut).is_err());
///
/// let in_force = station.at(time).expect("the accepted text covers it");
/// assert_eq!((in_force.source.as_str(), in_force.generation), ("igs", 1));
/// let answer = in_force.maps.ask(Kind::Tec, Method::Between, 0, "5.00,5.00".parse()?, time)?;
/// assert_eq!(answer.to_string(), "0.550 TECU");
/// # Ok::<(), Box<dyn std::error::Error>>(())
/// ```
#[derive(Debug)]
pub struct Station {
    sources: RwLock<Arc<Vec<Source>>>,
    /// Whoever holds it may exchange what is in force.
    counts: Mutex<Counts>,
}

impl Station {
    /// A station of these sources, the most preferred first, and without maps.
    ///
    /// ```
    /// use ionex::station::Station;
    ///
    /// let station = Station::new(["cod", "igs"]);
    /// assert!(station.in_force().is_empty());
    /// ```
    pub fn new<S: Into<String>>(sources: impl IntoIterator<Item = S>) -> Station {
        let sources = sources.into_iter().map(|name| Source::new(name.into()));
        Station {
            sources: RwLock::new(Arc::new(sources.collect())),
            counts: Mutex::new(Counts::default()),
        }
    }

    /// Judges a text, and puts it in force where it is accepted; else nothing changes. A source that the station was not
    /// made with comes behind those it has.
    ///
    /// ```
    /// use ionex::station::Station;
    ///
    /// let station = Station::new(["cod"]);
    /// let text = std::fs::read("../tests/examples/accepted-canonical.inx")?;
    /// let first = station.offer("cod", "monday.inx", &text)?.in_force.expect("held");
    /// let again = station.offer("cod", "again.inx", &text)?.in_force.expect("held");
    /// assert_eq!((first.generation, again.generation), (1, 2));
    /// assert_eq!(again.name(), "again.inx");
    ///
    /// let damaged = std::fs::read("../tests/examples/refused-06.inx")?;
    /// assert_eq!(station.offer("cod", "damaged.inx", &damaged).unwrap_err().number(), 6);
    /// assert_eq!(station.in_force(), [again]);
    /// # Ok::<(), Box<dyn std::error::Error>>(())
    /// ```
    pub fn offer(&self, source: &str, name: &str, text: &[u8]) -> Result<Accepted, Refusal> {
        let accepted = vec![(name, MapSet::read(text)?)];
        let mut exchanged = self.accept_all(source, accepted, present());
        Ok(exchanged.remove(0))
    }

    /// Judges texts of one source, and puts those that are accepted in force in one step; `now` is the present for the
    /// choice of what is held. The answers are in the order of the texts, each as [`Station::offer`] has it.
    ///
    /// ```
    /// use ionex::station::Station;
    ///
    /// let text = std::fs::read_to_string("../tests/examples/accepted-canonical.inx")?;
    /// // From 0 to 2 o'clock, and from 2 to 4.
    /// let shifted = text.replace("     2     0     0", "     4     0     0").replace("     0     0     0", "     2     0     0");
    /// let station = Station::new(["cod"]);
    /// let both = [("early.inx", text.as_bytes()), ("late.inx", shifted.as_bytes())];
    /// let judged = station.offer_all("cod", &both, "2000-01-01T01:00:00".parse()?);
    /// assert!(judged.iter().all(Result::is_ok));
    /// let joined = &station.in_force()[0];
    /// assert_eq!(joined.name(), "early.inx + late.inx");
    /// assert_eq!((joined.generation, joined.maps.maps()), (1, 3));
    /// # Ok::<(), Box<dyn std::error::Error>>(())
    /// ```
    pub fn offer_all(
        &self,
        source: &str,
        texts: &[(&str, &[u8])],
        now: Epoch,
    ) -> Vec<Result<Accepted, Refusal>> {
        let judged = texts.iter().map(|(_, text)| MapSet::read(text));
        let judged: Vec<Result<MapSet, Refusal>> = judged.collect();
        let mut accepted = Vec::new();
        let mut refused = Vec::new();
        for (judged, (name, _)) in judged.into_iter().zip(texts) {
            match judged {
                Ok(maps) => {
                    accepted.push((*name, maps));
                    refused.push(None);
                }
                Err(refusal) => refused.push(Some(refusal)),
            }
        }
        let mut exchanged = self.accept_all(source, accepted, now).into_iter();
        let told = refused.into_iter().filter_map(|refused| match refused {
            Some(refusal) => Some(Err(refusal)),
            None => exchanged.next().map(Ok),
        });
        told.collect()
    }

    /// Puts map sets in force in one step; for each, in their order, what became of it.
    fn accept_all(&self, source: &str, accepted: Vec<(&str, MapSet)>, now: Epoch) -> Vec<Accepted> {
        if accepted.is_empty() {
            return Vec::new();
        }
        let mut counts = self.counts.lock().unwrap_or_else(PoisonError::into_inner);
        let mut sources = Vec::clone(&self.sources());
        let at = place(&mut sources, source);
        let changed = &mut sources[at];
        let texts = accepted
            .into_iter()
            .map(|(name, maps)| changed.accept(name, maps, &mut counts));
        let texts: Vec<Text> = texts.collect();
        changed.settle(now, &mut counts);
        let told = texts.iter().map(|text| Accepted {
            part: text.part(),
            in_force: changed.with(text.number),
        });
        let told = told.collect();
        self.exchange(sources);
        told
    }

    /// The one step. What was held before is let go behind the lock.
    fn exchange(&self, sources: Vec<Source>) {
        let mut held = self.sources.write().unwrap_or_else(PoisonError::into_inner);
        let before = std::mem::replace(&mut *held, Arc::new(sources));
        drop(held);
        drop(before);
    }

    /// The maps of the first source that covers a time; nothing where none does.
    ///
    /// ```
    /// use ionex::station::Station;
    ///
    /// let station = Station::new(["cod", "igs"]);
    /// let text = std::fs::read("../tests/examples/accepted-canonical.inx")?;
    /// station.offer("igs", "igs.inx", &text)?;
    /// station.offer("cod", "cod.inx", &text)?;
    /// let in_force = station.at("2000-01-01T01:00:00".parse()?).expect("both cover it");
    /// assert_eq!(in_force.source, "cod");
    /// assert!(station.at("2000-01-02T01:00:00".parse()?).is_none());
    /// # Ok::<(), Box<dyn std::error::Error>>(())
    /// ```
    pub fn at(&self, time: Epoch) -> Option<Arc<InForce>> {
        self.over(time, time)
    }

    /// As [`Station::at`], the maps that cover two times and all between them, so that a list of questions is answered from
    /// one map set.
    ///
    /// ```
    /// use ionex::station::Station;
    ///
    /// let station = Station::new(["cod"]);
    /// let text = std::fs::read("../tests/examples/accepted-canonical.inx")?;
    /// station.offer("cod", "day.inx", &text)?;
    /// assert!(station.over("2000-01-01T00:00:00".parse()?, "2000-01-01T02:00:00".parse()?).is_some());
    /// assert!(station.over("2000-01-01T00:00:00".parse()?, "2000-01-01T03:00:00".parse()?).is_none());
    /// # Ok::<(), Box<dyn std::error::Error>>(())
    /// ```
    pub fn over(&self, first: Epoch, last: Epoch) -> Option<Arc<InForce>> {
        let sources = self.sources();
        let mut all = sources.iter().flat_map(|source| &source.in_force);
        all.find(|maps| maps.covers(first) && maps.covers(last))
            .cloned()
    }

    /// What to show at a time: the maps that cover it, as [`Station::at`]; where none do, those that end last.
    ///
    /// ```
    /// use ionex::station::Station;
    ///
    /// let station = Station::new(["cod"]);
    /// assert!(station.current("2010-12-04T06:30:00".parse()?).is_none());
    /// let text = std::fs::read("../tests/examples/accepted-canonical.inx")?;
    /// station.offer("cod", "day.inx", &text)?;
    /// let old = station.current("2010-12-04T06:30:00".parse()?).expect("the last there is");
    /// assert_eq!(old.maps.header().last.to_string(), "2000-01-01T02:00:00");
    /// # Ok::<(), Box<dyn std::error::Error>>(())
    /// ```
    pub fn current(&self, time: Epoch) -> Option<Arc<InForce>> {
        let last = || {
            let mut all = self.in_force();
            // Of two that end together the more preferred comes last.
            all.reverse();
            all.into_iter().max_by_key(|maps| maps.maps.header().last)
        };
        self.at(time).or_else(last)
    }

    /// All maps in force, in the order in which a second is looked for.
    ///
    /// ```
    /// use ionex::station::Station;
    ///
    /// let station = Station::new(["cod", "igs"]);
    /// let text = std::fs::read("../tests/examples/accepted-canonical.inx")?;
    /// station.offer("igs", "igs.inx", &text)?;
    /// station.offer("cod", "cod.inx", &text)?;
    /// let sources: Vec<String> = station.in_force().iter().map(|maps| maps.source.clone()).collect();
    /// assert_eq!(sources, ["cod", "igs"]);
    /// # Ok::<(), Box<dyn std::error::Error>>(())
    /// ```
    pub fn in_force(&self) -> Vec<Arc<InForce>> {
        let sources = self.sources();
        let all = sources.iter().flat_map(|source| &source.in_force);
        all.cloned().collect()
    }

    /// The sources as they stand. The lock is held for no longer than this takes.
    fn sources(&self) -> Arc<Vec<Source>> {
        let held = self.sources.read().unwrap_or_else(PoisonError::into_inner);
        Arc::clone(&held)
    }
}

/// Where a source stands among the others; behind them where it is new.
fn place(sources: &mut Vec<Source>, name: &str) -> usize {
    let found = sources.iter().position(|source| source.name == name);
    found.unwrap_or_else(|| {
        sources.push(Source::new(name.to_string()));
        sources.len() - 1
    })
}

/// The time of the machine's clock.
fn present() -> Epoch {
    let since = SystemTime::now().duration_since(SystemTime::UNIX_EPOCH);
    let seconds = since.map_or(0, |since| since.as_secs());
    Epoch::from_unix(i64::try_from(seconds).unwrap_or(0)).unwrap_or(Epoch::UNIX)
}

impl Source {
    fn new(name: String) -> Source {
        Source {
            name,
            texts: Vec::new(),
            in_force: Vec::new(),
        }
    }

    /// Adds an accepted text. Those that lie within it can answer nothing any more; one that says the same already, and that
    /// none accepted later overlaps, stays as it is.
    fn accept(&mut self, name: &str, maps: MapSet, counts: &mut Counts) -> Text {
        let mut held = self.texts.iter();
        let same =
            held.find(|text| text.name == name && *text.maps == maps && !self.shadowed(text));
        if let Some(same) = same {
            return same.clone();
        }
        counts.texts += 1;
        let text = Text {
            name: name.to_string(),
            maps: Arc::new(maps),
            number: counts.texts,
        };
        self.texts.retain(|older| !older.within(&text));
        self.texts.push(text.clone());
        text
    }

    /// Whether a text that was accepted later has seconds of this one.
    fn shadowed(&self, text: &Text) -> bool {
        let mut later = self.texts.iter().filter(|other| other.number > text.number);
        later.any(|other| other.overlaps(text))
    }

    /// Puts in force what the texts say.
    fn settle(&mut self, now: Epoch, counts: &mut Counts) {
        while self.texts.len() > HELD {
            let distance = |at: &usize| (self.texts[*at].distance(now), std::cmp::Reverse(*at));
            let farthest = (0..self.texts.len()).max_by_key(distance);
            self.texts.remove(farthest.unwrap_or(0));
        }
        let chains = self.chains();
        let in_force = chains.into_iter().map(|chain| {
            let texts: Vec<u64> = chain.texts.iter().map(|text| text.number).collect();
            let before = self.in_force.iter().find(|before| before.texts == texts);
            before.cloned().unwrap_or_else(|| {
                counts.generation += 1;
                Arc::new(InForce {
                    source: self.name.clone(),
                    parts: chain.texts.iter().map(|text| text.part()).collect(),
                    generation: counts.generation,
                    since: SystemTime::now(),
                    maps: chain.maps,
                    texts,
                })
            })
        });
        let mut in_force: Vec<Arc<InForce>> = in_force.collect();
        in_force.sort_by_key(|maps| std::cmp::Reverse(maps.texts.iter().max().copied()));
        self.in_force = in_force;
    }

    /// The texts, joined where they meet. One that a later accepted text overlaps stays alone, so that it never answers in
    /// the place of that.
    fn chains(&self) -> Vec<Chain<'_>> {
        let (alone, mut open): (Vec<&Text>, Vec<&Text>) =
            self.texts.iter().partition(|text| self.shadowed(text));
        open.sort_by_key(|text| (text.first(), text.last(), text.number));
        let mut chains: Vec<Chain> = Vec::new();
        for text in open {
            let joined = chains.last().and_then(|chain| chain.joined(text));
            match (joined, chains.last_mut()) {
                (Some(maps), Some(chain)) => chain.add(text, maps),
                _ => chains.push(Chain::of(text)),
            }
        }
        chains.extend(alone.into_iter().map(Chain::of));
        chains
    }

    /// What is in force of a text.
    fn with(&self, number: u64) -> Option<Arc<InForce>> {
        let mut in_force = self.in_force.iter();
        in_force.find(|maps| maps.texts.contains(&number)).cloned()
    }
}

/// Texts that meet, and what they are joined.
struct Chain<'a> {
    texts: Vec<&'a Text>,
    maps: Arc<MapSet>,
}

impl<'a> Chain<'a> {
    fn of(text: &'a Text) -> Chain<'a> {
        Chain {
            texts: vec![text],
            maps: Arc::clone(&text.maps),
        }
    }

    /// The maps with a later text; nothing where they do not meet, or are refused for their grids or their number.
    fn joined(&self, text: &Text) -> Option<MapSet> {
        if self.maps.header().last != text.first() {
            return None;
        }
        self.maps.join(&text.maps).ok()
    }

    fn add(&mut self, text: &'a Text, maps: MapSet) {
        self.texts.push(text);
        self.maps = Arc::new(maps);
    }
}
