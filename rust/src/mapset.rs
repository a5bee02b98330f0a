//! A map set that owns its areas.

use crate::epoch::Epoch;
use crate::ffi;
use crate::header::{Code, Header, Version, DESCRIPTIONS, DESCRIPTION_COLUMNS, HEADER, TEXTS};
use crate::place::Place;
use crate::refusal::{Refusal, MAP_AREAS};
use crate::value::{Answer, Kind, Method, Written};

/// The number that says that a node has no value.
pub const NO_VALUE: i32 = 9999;

/// A map set as the archive holds it: 45 numbers, 1,324 bytes of texts and six areas, as include/ionex.h has them. Any
/// numbers and any lengths may stand here.
#[derive(Clone, Debug, PartialEq, Eq)]
pub struct Areas {
    /// The header's numbers.
    pub header: [i64; HEADER],
    /// The header's texts, padded with blanks.
    pub texts: [u8; TEXTS],
    /// TEC values, map by map, layer by layer, row by row.
    pub tec: Vec<i32>,
    /// RMS values likewise; none where no map has them.
    pub rms: Vec<i32>,
    /// Heights likewise; none where no map has them.
    pub height: Vec<i32>,
    /// The exponent of each row: all of TEC, then all of RMS, then all of height.
    pub exponents: Vec<i32>,
    /// The epochs of the TEC maps, in seconds from 1900-01-01 00:00:00.
    pub epochs: Vec<u64>,
    /// Which maps stand beside each TEC map: 1 RMS, 2 height, 3 both, 0 neither.
    pub marks: Vec<u8>,
}

impl Areas {
    /// Areas of these lengths, all zero.
    fn of_lengths(lengths: [usize; 6]) -> Areas {
        let [tec, rms, height, exponents, epochs, marks] = lengths;
        Areas {
            header: [0; HEADER],
            texts: [b' '; TEXTS],
            tec: vec![0; tec],
            rms: vec![0; rms],
            height: vec![0; height],
            exponents: vec![0; exponents],
            epochs: vec![0; epochs],
            marks: vec![0; marks],
        }
    }

    fn lent(&mut self) -> ffi::Lent<'_> {
        ffi::Lent {
            tec: &mut self.tec,
            rms: &mut self.rms,
            height: &mut self.height,
            exponents: &mut self.exponents,
            epochs: &mut self.epochs,
            marks: &mut self.marks,
            header: &mut self.header,
            texts: &mut self.texts,
        }
    }

    pub(crate) fn given(&self) -> ffi::Given<'_> {
        ffi::Given {
            header: &self.header,
            texts: &self.texts,
            tec: &self.tec,
            rms: &self.rms,
            height: &self.height,
            exponents: &self.exponents,
            epochs: &self.epochs,
            marks: &self.marks,
        }
    }

    fn values(&self, kind: Kind) -> &[i32] {
        match kind {
            Kind::Tec => &self.tec,
            Kind::Rms => &self.rms,
            Kind::Height => &self.height,
        }
    }

    /// Gives back what an accepted map set does not need.
    fn cut_to(&mut self, lengths: [usize; 6]) {
        fn cut<T>(area: &mut Vec<T>, length: usize) {
            area.truncate(length);
            area.shrink_to_fit();
        }
        let [tec, rms, height, exponents, epochs, marks] = lengths;
        cut(&mut self.tec, tec);
        cut(&mut self.rms, rms);
        cut(&mut self.height, height);
        cut(&mut self.exponents, exponents);
        cut(&mut self.epochs, epochs);
        cut(&mut self.marks, marks);
    }
}

/// A map set: a header, and for each epoch a TEC map, and an RMS and a height map where they stand.
///
/// ```
/// use ionex::{Kind, MapSet, Method, Place};
///
/// let text = std::fs::read("../tests/examples/accepted-2d-freedoms.inx")?;
/// let maps = MapSet::read(&text)?;
/// assert_eq!((maps.maps(), maps.layers(), maps.rows(), maps.columns()), (2, 1, 2, 2));
///
/// let answer = maps.ask(Kind::Tec, Method::Between, 0, "-10.00,0.00".parse()?, "1999-12-31T23:59:59".parse()?)?;
/// assert_eq!(answer.to_string(), "0.010 TECU");
///
/// let canonical = maps.write()?;
/// assert_eq!(MapSet::read(&canonical)?, maps);
/// # Ok::<(), Box<dyn std::error::Error>>(())
/// ```
#[derive(Clone, Debug, PartialEq, Eq)]
pub struct MapSet {
    areas: Areas,
    header: Header,
}

impl MapSet {
    /// Reads an IONEX text of version 1.0 or 1.1; refusals 1 to 10 where it is none.
    pub fn read(text: &[u8]) -> Result<MapSet, Refusal> {
        let mut areas = Areas::of_lengths(room(text));
        let mut place = [0; 2];
        let mut number = ffi::read(text, areas.lent(), &mut place);
        if number == 11 {
            areas = Areas::of_lengths(MapSet::needs(text)?);
            number = ffi::read(text, areas.lent(), &mut place);
        }
        if number != 0 {
            return Err(Refusal::of_reading(number, place, &MAP_AREAS));
        }
        Ok(MapSet::of_accepted(areas))
    }

    /// The elements that each area needs for a text, in the order of [`Areas`]; refused exactly where [`MapSet::read`] refuses
    /// it. It takes about half of a reading's time, and no memory.
    ///
    /// ```
    /// use ionex::MapSet;
    ///
    /// // Two TEC maps and an RMS map of two rows and three columns.
    /// let text = std::fs::read("../tests/examples/accepted-canonical.inx")?;
    /// assert_eq!(MapSet::needs(&text)?, [12, 12, 0, 12, 2, 2]);
    /// # Ok::<(), Box<dyn std::error::Error>>(())
    /// ```
    pub fn needs(text: &[u8]) -> Result<[usize; 6], Refusal> {
        let (mut needs, mut place) = ([0; 6], [0; 2]);
        match ffi::needs(text, &mut needs, &mut place) {
            0 => Ok(needs.map(|elements| elements as usize)),
            number => Err(Refusal::of_reading(number, place, &MAP_AREAS)),
        }
    }

    /// Reads a text in the place of this map set. After a refusal this one stands as it was.
    ///
    /// ```
    /// use ionex::MapSet;
    ///
    /// let mut in_use = MapSet::read(&std::fs::read("../tests/examples/accepted-3d.inx")?)?;
    /// let before = in_use.clone();
    /// let damaged = std::fs::read("../tests/examples/refused-06.inx")?;
    /// assert_eq!(in_use.replace_with(&damaged).unwrap_err().number(), 6);
    /// assert_eq!(in_use, before);
    /// # Ok::<(), Box<dyn std::error::Error>>(())
    /// ```
    pub fn replace_with(&mut self, text: &[u8]) -> Result<(), Refusal> {
        *self = MapSet::read(text)?;
        Ok(())
    }

    /// The canonical text: the one text that says the same in a fixed order and spacing, of the version that the header has.
    /// Refusal 31 where this is no valid map set, which can only be one of [`MapSet::from_areas`] or
    /// [`MapSet::set_version`].
    pub fn write(&self) -> Result<Vec<u8>, Refusal> {
        let mut out = vec![0; self.longest_text()];
        loop {
            let mut count = [0];
            match ffi::write(self.areas.given(), &mut out, &mut count) {
                0 => {
                    out.truncate(count[0] as usize);
                    out.shrink_to_fit();
                    return Ok(out);
                }
                30 if count[0] > out.len() as u64 => out = vec![0; count[0] as usize],
                number => return Err(Refusal::of_writing(number, count[0])),
            }
        }
    }

    /// The value of a kind at a place and time, in a layer counted from 0: between the four nodes around the place, the
    /// exact fraction rounded once. Refusals 20 to 24, and 31 as [`MapSet::write`].
    pub fn ask(
        &self,
        kind: Kind,
        method: Method,
        layer: u64,
        place: Place,
        time: Epoch,
    ) -> Result<Answer, Refusal> {
        let asked = MapSet::asked(kind, method, layer, place, time);
        let mut value = [0];
        match ffi::ask(self.areas.given(), asked, &mut value) {
            0 => Ok(kind.answer(value[0])),
            number => Err(Refusal::plain(number)),
        }
    }

    /// A question in the archive's numbers.
    pub(crate) fn asked(
        kind: Kind,
        method: Method,
        layer: u64,
        place: Place,
        time: Epoch,
    ) -> ffi::Asked {
        ffi::Asked {
            kind: kind as u64,
            method: method as u64,
            layer,
            lat: place.lat,
            lon: place.lon,
            second: time.seconds(),
        }
    }

    /// This set and a later one, which begins where this one ends: the map that they share is the later set's, and so are
    /// header and texts but for the first epoch, the number of maps, and INTERVAL, which is 0 where the two differ. A kind
    /// that one set lacks is absent from its maps.
    ///
    /// Refusals in this order: 31 as [`MapSet::write`], 40 where grid, dimension, heights or base radius differ, 41 where the
    /// epochs do not meet, 42 where there would be more than 300 maps or 2,000,000 values of a kind. Three sets give the same
    /// in both groupings, or are refused in both.
    ///
    /// ```
    /// use ionex::MapSet;
    ///
    /// let text = std::fs::read_to_string("../tests/examples/accepted-canonical.inx")?;
    /// // From 0 to 2 o'clock, and from 2 to 4.
    /// let early = MapSet::read(text.as_bytes())?;
    /// let shifted = text.replace("     2     0     0", "     4     0     0").replace("     0     0     0", "     2     0     0");
    /// let late = MapSet::read(shifted.as_bytes())?;
    /// let both = early.join(&late)?;
    /// assert_eq!(both.maps(), 3);
    /// assert_eq!(both.header().last.to_string(), "2000-01-01T04:00:00");
    /// assert_eq!(late.join(&early).unwrap_err().number(), 41);
    /// # Ok::<(), Box<dyn std::error::Error>>(())
    /// ```
    pub fn join(&self, later: &MapSet) -> Result<MapSet, Refusal> {
        let mut areas = Areas::of_lengths(self.room_with(later));
        let mut place = [0; 2];
        let (early, late) = (self.areas.given(), later.areas.given());
        let number = ffi::join(early, late, areas.lent(), &mut place);
        if number != 0 {
            return Err(Refusal::of_reading(number, place, &MAP_AREAS));
        }
        Ok(MapSet::of_accepted(areas))
    }

    /// The header's numbers by name.
    pub fn header(&self) -> &Header {
        &self.header
    }

    /// Gives the set another version and code. A code that the version does not have makes it no valid map set (31).
    ///
    /// ```
    /// use ionex::{Code, MapSet, Version};
    ///
    /// let mut maps = MapSet::read(&std::fs::read("../tests/examples/accepted-version-1.inx")?)?;
    /// assert_eq!((maps.header().version, maps.header().code), (Version::V1_0, Code::Gps));
    /// maps.set_version(Version::V1_1, Code::Gps);
    /// assert_eq!(maps.write().unwrap_err().number(), 31);
    /// maps.set_version(Version::V1_1, Code::Gns);
    /// assert!(maps.write()?.starts_with(b"     1.1            IONOSPHERE MAPS     GNS"));
    /// # Ok::<(), Box<dyn std::error::Error>>(())
    /// ```
    pub fn set_version(&mut self, version: Version, code: Code) {
        self.areas.header[0] = version.tenths();
        self.areas.header[2] = code.number();
        self.header = Header::of(&self.areas.header);
    }

    /// The program that made the file.
    pub fn program(&self) -> &str {
        self.text(0, 20)
    }

    /// The agency that ran it.
    pub fn run_by(&self) -> &str {
        self.text(20, 40)
    }

    /// Date and time of making, as the file has them.
    pub fn date(&self) -> &str {
        self.text(40, 60)
    }

    /// MAPPING FUNCTION.
    pub fn mapping(&self) -> &str {
        self.text(60, 64)
    }

    /// OBSERVABLES USED.
    pub fn observables(&self) -> &str {
        self.text(64, DESCRIPTION)
    }

    /// The DESCRIPTION lines in the file's order, blank ones too; without the blanks at their ends, as all texts here.
    ///
    /// ```
    /// use ionex::MapSet;
    ///
    /// let maps = MapSet::read(&std::fs::read("../tests/examples/001-table-3.inx")?)?;
    /// let lines: Vec<&str> = maps.descriptions().collect();
    /// assert_eq!(lines, ["global ionosphere maps for day 288, 1995", "modeled by spherical harmonics ..."]);
    /// # Ok::<(), Box<dyn std::error::Error>>(())
    /// ```
    pub fn descriptions(&self) -> impl ExactSizeIterator<Item = &str> + DoubleEndedIterator {
        (0..self.header.descriptions).map(|line| {
            let start = DESCRIPTION + line * DESCRIPTION_COLUMNS;
            self.text(start, start + DESCRIPTION_COLUMNS)
        })
    }

    /// The epochs of the TEC maps.
    pub fn epochs(&self) -> Vec<Epoch> {
        self.areas
            .epochs
            .iter()
            .copied()
            .map(Epoch::from_seconds)
            .collect()
    }

    /// How many TEC maps there are.
    pub fn maps(&self) -> usize {
        self.header.maps
    }

    /// How many layers a map has.
    pub fn layers(&self) -> usize {
        self.header.heights.nodes()
    }

    /// How many rows a layer has.
    pub fn rows(&self) -> usize {
        self.header.latitudes.nodes()
    }

    /// How many columns a row has.
    pub fn columns(&self) -> usize {
        self.header.longitudes.nodes()
    }

    /// Whether the map of this kind stands at an epoch, counted from 0.
    pub fn has(&self, kind: Kind, map: usize) -> bool {
        let bit = match kind {
            Kind::Tec => return map < self.maps(),
            Kind::Rms => 1,
            Kind::Height => 2,
        };
        map < self.maps()
            && self
                .areas
                .marks
                .get(map)
                .is_some_and(|mark| mark & bit != 0)
    }

    /// How many maps of this kind stand.
    pub fn standing(&self, kind: Kind) -> usize {
        match kind {
            Kind::Tec => self.maps(),
            _ => {
                let marked = self.maps().min(self.areas.marks.len());
                (0..marked).filter(|map| self.has(kind, *map)).count()
            }
        }
    }

    /// The number of a node as it is written, 9999 among them; nothing where the map is absent or there is no such node. All
    /// are counted from 0.
    pub fn number(
        &self,
        kind: Kind,
        map: usize,
        layer: usize,
        row: usize,
        column: usize,
    ) -> Option<i32> {
        let block = self.block(kind, map, layer, row)?;
        if column >= self.columns() {
            return None;
        }
        let place = block.checked_mul(self.columns())?.checked_add(column)?;
        self.areas.values(kind).get(place).copied()
    }

    /// The exponent that a row of numbers stands under; nothing as for [`MapSet::number`].
    pub fn exponent(&self, kind: Kind, map: usize, layer: usize, row: usize) -> Option<i32> {
        let block = self.block(kind, map, layer, row)?;
        let place = (kind as usize)
            .checked_mul(self.blocks())?
            .checked_add(block)?;
        self.areas.exponents.get(place).copied()
    }

    /// The value of a node in its unit; nothing where it has none, where the map is absent or there is no such node.
    ///
    /// ```
    /// use ionex::{Kind, MapSet};
    ///
    /// let maps = MapSet::read(&std::fs::read("../tests/examples/accepted-2d-freedoms.inx")?)?;
    /// assert_eq!(maps.number(Kind::Tec, 0, 0, 0, 1), Some(-2));
    /// assert_eq!(maps.exponent(Kind::Tec, 0, 0, 0), Some(-2));
    /// assert_eq!(maps.value(Kind::Tec, 0, 0, 0, 1).unwrap().to_string(), "-0.020 TECU");
    /// assert_eq!(maps.value(Kind::Tec, 0, 0, 1, 1), None);
    /// # Ok::<(), Box<dyn std::error::Error>>(())
    /// ```
    pub fn value(
        &self,
        kind: Kind,
        map: usize,
        layer: usize,
        row: usize,
        column: usize,
    ) -> Option<Answer> {
        let written = Written {
            number: self.number(kind, map, layer, row, column)?,
            exponent: self.exponent(kind, map, layer, row)?,
        };
        written.value(kind)
    }

    /// The numbers and areas as the archive holds them.
    pub fn as_areas(&self) -> &Areas {
        &self.areas
    }

    /// As [`MapSet::as_areas`], handed over.
    pub fn into_areas(self) -> Areas {
        self.areas
    }

    /// A map set of any numbers. Whether it is a valid one is told when it is written or asked (31).
    pub fn from_areas(areas: Areas) -> MapSet {
        let header = Header::of(&areas.header);
        MapSet { areas, header }
    }

    /// A text field, without the blanks at its end.
    fn text(&self, from: usize, to: usize) -> &str {
        let bytes = &self.areas.texts[from..to];
        let valid = match std::str::from_utf8(bytes) {
            Ok(text) => text,
            // Not of a text that was read: what stands before the first byte that is no character.
            Err(fault) => std::str::from_utf8(&bytes[..fault.valid_up_to()]).unwrap_or(""),
        };
        valid.trim_end_matches(' ')
    }

    /// The rows of all maps of a kind.
    fn blocks(&self) -> usize {
        self.maps()
            .saturating_mul(self.layers())
            .saturating_mul(self.rows())
    }

    /// The place of a row among those of its kind; nothing where the map is absent or there is no such row.
    fn block(&self, kind: Kind, map: usize, layer: usize, row: usize) -> Option<usize> {
        let inside = self.has(kind, map) && layer < self.layers() && row < self.rows();
        inside.then(|| {
            map.checked_mul(self.layers())?
                .checked_add(layer)?
                .checked_mul(self.rows())?
                .checked_add(row)
        })?
    }

    /// The elements that each area needs.
    fn lengths(&self) -> [usize; 6] {
        let values = self.blocks().saturating_mul(self.columns());
        let of = |kind| if self.standing(kind) > 0 { values } else { 0 };
        let exponents = self.blocks().saturating_mul(3);
        [
            values,
            of(Kind::Rms),
            of(Kind::Height),
            exponents,
            self.maps(),
            self.maps(),
        ]
    }

    /// Lengths that are enough for this set joined with a later one, if they can be joined.
    fn room_with(&self, later: &MapSet) -> [usize; 6] {
        let (early, late) = (self.lengths(), later.lengths());
        let maps = self.maps().saturating_add(later.maps()).min(300);
        let sum = |area: usize| early[area].saturating_add(late[area]).min(2_000_000);
        let values = sum(0);
        let of = |area: usize| if sum(area) > 0 { values } else { 0 };
        let exponents = early[3].saturating_add(late[3]).min(6_000_000);
        [values, of(1), of(2), exponents, maps, maps]
    }

    /// A map set that the archive has put in front of longer areas.
    fn of_accepted(areas: Areas) -> MapSet {
        let mut set = MapSet::from_areas(areas);
        let lengths = set.lengths();
        set.areas.cut_to(lengths);
        set
    }

    /// Bytes enough for the canonical text of a valid set: 81 for each record, 5 and a part of a line end for each value.
    fn longest_text(&self) -> usize {
        let standing = Kind::ALL.map(|kind| self.standing(kind));
        let maps = standing.into_iter().fold(0, usize::saturating_add);
        let rows = self.layers().saturating_mul(self.rows());
        let lines = self.columns() / 16 + 1;
        let row = self
            .columns()
            .saturating_mul(5)
            .saturating_add(lines + 2 * 81);
        let all = rows
            .saturating_mul(row)
            .saturating_add(3 * 81)
            .saturating_mul(maps);
        all.saturating_add((40 + DESCRIPTIONS) * 81).min(LONGEST)
    }
}

/// Where the DESCRIPTION lines stand in the texts.
const DESCRIPTION: usize = TEXTS - DESCRIPTIONS * DESCRIPTION_COLUMNS;

/// No more than this is made ready before the archive has told what it needs.
const LONGEST: usize = 1 << 26;

/// Lengths that are enough for every accepted text of this length: a value takes five bytes, and a row's opening line
/// eighty. So the text is gone over once, and not for its needs before.
fn room(text: &[u8]) -> [usize; 6] {
    let values = (text.len() / 5).min(2_000_000);
    let rows = (text.len() / 80).min(2_000_000);
    [values, values, values, 3 * rows, 300, 300]
}
