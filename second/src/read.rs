//! Reading: a text into the header record, its texts and the six lent areas.
//!
//! The whole text is read into memory of the reader's own. Only an accepted text
//! whose areas are long enough is copied out: "A refusal leaves all lent areas
//! untouched."

use crate::calendar;
use crate::fields;
use crate::header::{self, Axis, AxisFault, Count, Header, System, Texts};
use crate::labels::{self, Label, LABELS};
use crate::lines::{self, Card};
use crate::maps::{self, Areas, Grid, Kind, FIRST_EXPONENT, KINDS, NO_VALUE};
use crate::refusal::{fault, Fault, Refusal};

/// The answer of a reading.
#[derive(Clone, Copy, Debug, PartialEq, Eq)]
#[allow(clippy::large_enum_variant)]
pub enum Reading {
    Accepted { header: Header, texts: Texts },
    Refused(Refusal),
}

/// Reads a text into the lent areas.
pub fn read(text: &[u8], areas: &mut Areas) -> Reading {
    match read_all(text).and_then(|reader| reader.hand_over(areas)) {
        Ok((header, texts)) => Reading::Accepted { header, texts },
        Err(refusal) => Reading::Refused(refusal),
    }
}

/// Elements that a text needs of each area, or why it is refused: a reading up to
/// the point where the areas' lengths would be looked at.
pub fn needs(text: &[u8]) -> Result<[usize; 6], Refusal> {
    read_all(text).map(|reader| reader.grid.needs(&reader.marks))
}

/// What an index holds of a text (02, Ask 8), or why it is refused.
pub struct Placed {
    pub header: Header,
    pub texts: Texts,
    /// One for each block of each kind, as exponents stand.
    pub positions: Vec<u64>,
    pub exponents: Vec<i32>,
    pub marks: Vec<u8>,
}

pub fn placed(text: &[u8]) -> Result<Placed, Refusal> {
    read_all(text).map(Reader::placed)
}

/// "Lowest line first": one line after the other, up to the first refusal.
fn read_all(text: &[u8]) -> Result<Reader, Refusal> {
    let mut reader = Reader::new();
    let mut line = 0;
    for (at, bytes) in lines::placed(text) {
        line += 1;
        reader.at = at as u64;
        reader
            .line(bytes)
            .map_err(|Fault { number, column }| Refusal::Place {
                number,
                line,
                column,
            })?;
    }
    if reader.stage == Stage::After {
        Ok(reader)
    } else {
        // "text ends before END OF FILE: lines + 1, 0"
        Err(Refusal::Place {
            number: 10,
            line: line.saturating_add(1),
            column: 0,
        })
    }
}

type Step = Result<(), Fault>;

#[derive(Clone, Copy, Debug, PartialEq, Eq)]
enum Stage {
    /// Before the version record.
    Start,
    Header,
    /// In an aux block of the header.
    Aux,
    Maps,
    /// After END OF FILE.
    After,
}

/// The map that stands open.
struct Open {
    kind: Kind,
    number: i64,
    /// Whether EPOCH OF CURRENT MAP stood in it.
    epoch: bool,
    /// Blocks opened so far.
    blocks: usize,
    /// Values still due in the open block; 0 when no block is open.
    due: usize,
}

/// What was read of one kind. Maps come in rising order, so both only grow.
#[derive(Default)]
struct Store {
    values: Vec<i32>,
    exponents: Vec<i32>,
    /// Of each block, where its opening line starts in the text.
    positions: Vec<u64>,
    /// The number of the last map that has ended, 0 at first.
    last: i64,
}

impl Store {
    /// Up to map `count`: "An absent RMS or height map reads as 9999 everywhere
    /// with exponent -1."
    fn fill_absent(&mut self, grid: &Grid, count: usize) {
        self.values.resize(count * grid.values(), NO_VALUE);
        self.exponents.resize(count * grid.blocks(), FIRST_EXPONENT);
        self.positions.resize(count * grid.blocks(), 0);
    }
}

struct Reader {
    stage: Stage,
    /// Where the line starts in the text.
    at: u64,
    header: Header,
    texts: Texts,
    /// Which header records stood, by label.
    stood: [bool; LABELS],
    grid: Grid,
    /// The exponent in force, "across blocks, maps and kinds".
    exponent: i32,
    open: Option<Open>,
    stores: [Store; 3],
    epochs: Vec<u64>,
    marks: Vec<u8>,
}

/// The header records without a star; the version record has its own place.
pub const NEEDED: [Label; 13] = [
    Label::Program,
    Label::FirstEpoch,
    Label::LastEpoch,
    Label::Interval,
    Label::MapCount,
    Label::MappingFunction,
    Label::ElevationCutoff,
    Label::Observables,
    Label::BaseRadius,
    Label::Dimension,
    Label::Heights,
    Label::Latitudes,
    Label::Longitudes,
];

impl Reader {
    fn new() -> Reader {
        Reader {
            stage: Stage::Start,
            at: 0,
            header: Header::default(),
            texts: Texts::default(),
            stood: [false; LABELS],
            grid: Grid {
                maps: 0,
                layers: 0,
                rows: 0,
                columns: 0,
            },
            exponent: FIRST_EXPONENT,
            open: None,
            stores: Default::default(),
            epochs: Vec::new(),
            marks: Vec::new(),
        }
    }

    fn line(&mut self, bytes: &[u8]) -> Step {
        // "A blank line is skipped everywhere, also inside a data block."
        let Some(card) = lines::card(bytes)? else {
            return Ok(());
        };
        match self.stage {
            Stage::Start => self.version(&card),
            Stage::Header => self.header_line(&card),
            Stage::Aux => {
                // "lines between are skipped"; only the closing label counts.
                if labels::label_of(&card) == Some(Label::EndAux) {
                    self.stage = Stage::Header;
                }
                Ok(())
            }
            Stage::Maps if self.value_is_due() => self.value_line(&card),
            Stage::Maps => self.map_line(&card),
            Stage::After => match labels::label_of(&card) {
                // "Only blank lines may follow."
                Some(_) => fault(5, 61),
                None => fault(4, 61),
            },
        }
    }

    // ---- header ----

    /// 3 for another first record; then "6 for its columns 1 to 20 before it
    /// gives 3" for version, type and code in this order.
    fn version(&mut self, card: &Card) -> Step {
        if labels::label_of(card) != Some(Label::Version) {
            return fault(3, 61);
        }
        let [version, ..] = numbers(Label::Version, card)?;
        if !header::version_fits(version) {
            return fault(3, 1);
        }
        if card[20] != header::FILE_TYPE {
            return fault(3, 21);
        }
        let known = header::CODES.iter().position(|c| c[..] == card[40..43]);
        let code = match known.map(|code| code as i64) {
            Some(code) if header::code_fits(version, code) => code,
            _ => return fault(3, 41),
        };
        self.header.version = version;
        self.header.file_type = card[20];
        self.header.code = code;
        self.stage = Stage::Header;
        Ok(())
    }

    fn header_line(&mut self, card: &Card) -> Step {
        let Some(label) = labels::label_of(card) else {
            return fault(4, 61);
        };
        self.may_stand_in_header(label, card)?;
        let found = numbers(label, card)?;
        self.header_record(label, card, found)?;
        self.stood[label as usize] = true;
        Ok(())
    }

    /// "known label where it may not stand, or repeated"
    fn may_stand_in_header(&self, label: Label, card: &Card) -> Step {
        let fits = match label {
            Label::Comment | Label::Exponent | Label::StartAux | Label::EndHeader => true,
            // "a twenty-first DESCRIPTION is 5" (02, Ask 1)
            Label::Description => header::descriptions_fit(self.header.descriptions + 1),
            // The letter is taken as it stands; an unknown one is for 7.
            Label::System => match system_of(card) {
                Some(system) => !self.header.systems[system].stands,
                None => true,
            },
            Label::Program
            | Label::FirstEpoch
            | Label::LastEpoch
            | Label::Interval
            | Label::MapCount
            | Label::MappingFunction
            | Label::ElevationCutoff
            | Label::Observables
            | Label::Stations
            | Label::Satellites
            | Label::BaseRadius
            | Label::Dimension
            | Label::Heights
            | Label::Latitudes
            | Label::Longitudes => !self.stood[label as usize],
            Label::Version
            | Label::EndAux
            | Label::StartTec
            | Label::StartRms
            | Label::StartHeight
            | Label::CurrentEpoch
            | Label::Block
            | Label::EndTec
            | Label::EndRms
            | Label::EndHeight
            | Label::EndFile => false,
        };
        if fits {
            Ok(())
        } else {
            fault(5, 61)
        }
    }

    /// Takes over a well-formed record that may stand here.
    fn header_record(&mut self, label: Label, card: &Card, found: [i64; 6]) -> Step {
        let value = found[0];
        let axis = Axis {
            first: found[0],
            last: found[1],
            step: found[2],
        };
        match label {
            Label::Program => {
                self.texts.program.copy_from_slice(&card[0..20]);
                self.texts.agency.copy_from_slice(&card[20..40]);
                self.texts.date.copy_from_slice(&card[40..60]);
            }
            Label::Description => {
                let at = self.header.descriptions as usize;
                self.texts.descriptions[at].copy_from_slice(&card[0..60]);
                self.header.descriptions += 1;
            }
            Label::FirstEpoch => self.header.first_epoch = epoch(label, found)?,
            Label::LastEpoch => self.header.last_epoch = epoch(label, found)?,
            Label::Interval => {
                accept(header::interval_fits(value), 1)?;
                self.header.interval = value;
            }
            Label::MapCount => {
                accept(header::maps_fit(value), 1)?;
                self.header.maps = value;
            }
            Label::MappingFunction => self.texts.mapping.copy_from_slice(&card[2..6]),
            Label::ElevationCutoff => {
                accept(header::cutoff_fits(value), 1)?;
                self.header.cutoff = value;
            }
            Label::Observables => self.texts.observables.copy_from_slice(&card[0..60]),
            Label::Stations => self.header.stations = count(value)?,
            Label::Satellites => self.header.satellites = count(value)?,
            Label::System => self.system(card, found)?,
            Label::BaseRadius => {
                accept(header::radius_fits(value), 1)?;
                self.header.radius = value;
            }
            Label::Dimension => {
                accept(header::dimension_fits(value), 1)?;
                self.header.dimension = value;
            }
            Label::Heights => {
                accept_axis(label, axis.height_fault())?;
                self.header.heights = axis;
            }
            Label::Latitudes => {
                accept_axis(label, axis.latitude_fault())?;
                self.header.latitudes = axis;
            }
            Label::Longitudes => {
                accept_axis(label, axis.longitude_fault())?;
                self.header.longitudes = axis;
            }
            Label::Exponent => self.exponent_record(value)?,
            Label::StartAux => self.stage = Stage::Aux,
            Label::EndHeader => self.end_header()?,
            _ => {}
        }
        Ok(())
    }

    fn system(&mut self, card: &Card, found: [i64; 6]) -> Step {
        let Some(system) = system_of(card) else {
            return fault(7, 6);
        };
        accept(header::count_fits(found[0]), 7)?;
        accept(header::count_fits(found[1]), 13)?;
        self.header.systems[system] = System {
            stands: true,
            stations: found[0],
            satellites: found[1],
        };
        Ok(())
    }

    /// 9, then 8 for the dimension rule, then 7 for the sizes, all at column 0.
    fn end_header(&mut self) -> Step {
        if NEEDED.iter().any(|&label| !self.stood[label as usize]) {
            return fault(9, 0);
        }
        if !self.header.dimension_agrees() {
            return fault(8, 0);
        }
        accept(self.header.size_fits(), 0)?;
        self.grid = Grid::of(&self.header);
        self.marks = vec![0; self.grid.maps];
        self.stage = Stage::Maps;
        Ok(())
    }

    /// In the header and between maps, blocks and records: stays in force "until
    /// an EXPONENT record (also in the header) changes it".
    fn exponent_record(&mut self, value: i64) -> Step {
        accept(header::exponent_fits(value), 1)?;
        self.exponent = value as i32;
        Ok(())
    }

    // ---- maps ----

    fn map_line(&mut self, card: &Card) -> Step {
        let Some(label) = labels::label_of(card) else {
            return fault(4, 61);
        };
        if !self.may_stand_in_maps(label) {
            return fault(5, 61);
        }
        let found = numbers(label, card)?;
        match label {
            Label::Exponent => self.exponent_record(found[0]),
            Label::StartTec => self.start_map(Kind::Tec, found[0]),
            Label::StartRms => self.start_map(Kind::Rms, found[0]),
            Label::StartHeight => self.start_map(Kind::Height, found[0]),
            Label::CurrentEpoch => self.current_epoch(found),
            Label::Block => self.start_block(found),
            Label::EndTec | Label::EndRms | Label::EndHeight => self.end_map(found[0]),
            Label::EndFile => self.end_file(),
            _ => Ok(()),
        }
    }

    fn may_stand_in_maps(&self, label: Label) -> bool {
        let kind = self.open.as_ref().map(|open| open.kind);
        match label {
            Label::Exponent | Label::Comment => true,
            // "Maps do not overlap"; "no map is open (else 5)".
            Label::StartTec | Label::StartRms | Label::StartHeight | Label::EndFile => {
                kind.is_none()
            }
            // "once before their first block"
            Label::CurrentEpoch => match &self.open {
                Some(open) => !open.epoch && open.blocks == 0,
                None => false,
            },
            // "A block opened before its TEC map's epoch, or after all L·R
            // blocks, is 5."
            Label::Block => match &self.open {
                Some(open) => {
                    (open.kind != Kind::Tec || open.epoch) && open.blocks < self.grid.blocks()
                }
                None => false,
            },
            Label::EndTec => kind == Some(Kind::Tec),
            Label::EndRms => kind == Some(Kind::Rms),
            Label::EndHeight => kind == Some(Kind::Height),
            _ => false,
        }
    }

    /// "TEC maps carry 1 to n in order. An RMS or height map i comes after TEC map
    /// i has ended, in rising order within its kind, at most once."
    fn start_map(&mut self, kind: Kind, number: i64) -> Step {
        let tec_ended = self.stores[Kind::Tec as usize].last;
        let store = &mut self.stores[kind as usize];
        let in_order = match kind {
            Kind::Tec => number == tec_ended + 1 && number <= self.header.maps,
            _ => number > store.last && number <= tec_ended,
        };
        if !in_order {
            return fault(8, 1);
        }
        store.fill_absent(&self.grid, number as usize - 1);
        self.open = Some(Open {
            kind,
            number,
            epoch: false,
            blocks: 0,
            due: 0,
        });
        Ok(())
    }

    /// "No epoch at all is 7; one that breaks these, or in an RMS or height map
    /// is not the TEC map's, is 8 at column 1."
    fn current_epoch(&mut self, found: [i64; 6]) -> Step {
        let epoch = epoch(Label::CurrentEpoch, found)?;
        let Some(open) = &mut self.open else {
            return fault(5, 61);
        };
        let map = open.number as usize - 1;
        let agrees = match open.kind {
            Kind::Tec => maps::epoch_agrees(&self.header, map, self.epochs.last().copied(), epoch),
            _ => epoch == self.epochs[map],
        };
        if !agrees {
            return fault(8, 1);
        }
        if open.kind == Kind::Tec {
            self.epochs.push(epoch);
        }
        open.epoch = true;
        Ok(())
    }

    /// "layers from HGT1, in each the rows from LAT1 ... All must equal the
    /// grid's, except that in dimension 2 H may be any number of that layout."
    fn start_block(&mut self, found: [i64; 6]) -> Step {
        let Some(open) = &mut self.open else {
            return fault(5, 61);
        };
        if let Some(wrong) = other_block(&self.header, &self.grid, open.blocks, found) {
            return fault(8, labels::number_column(Label::Block, wrong));
        }
        let store = &mut self.stores[open.kind as usize];
        store.exponents.push(self.exponent);
        store.positions.push(self.at);
        open.blocks += 1;
        open.due = self.grid.columns;
        Ok(())
    }

    fn value_is_due(&self) -> bool {
        self.open.as_ref().is_some_and(|open| open.due > 0)
    }

    /// "C values follow, I5, 16 to a line, the last line holding the rest and
    /// blanks." Here every non-blank line is a value line.
    fn value_line(&mut self, card: &Card) -> Step {
        let Some(open) = &mut self.open else {
            return Ok(());
        };
        let found = values(card, open.due)?;
        open.due -= found.len();
        self.stores[open.kind as usize].values.extend(found);
        Ok(())
    }

    /// "block or map missing at an END record" (9) before "END carries its
    /// START's number" (8).
    fn end_map(&mut self, number: i64) -> Step {
        let Some(open) = &self.open else {
            return fault(5, 61);
        };
        if open.blocks < self.grid.blocks() {
            return fault(9, 0);
        }
        if number != open.number {
            return fault(8, 1);
        }
        self.stores[open.kind as usize].last = number;
        self.marks[number as usize - 1] |= maps::mark_of(open.kind);
        self.open = None;
        Ok(())
    }

    fn end_file(&mut self) -> Step {
        if self.stores[Kind::Tec as usize].last < self.header.maps {
            return fault(9, 0);
        }
        self.stage = Stage::After;
        Ok(())
    }

    // ---- the end ----

    fn placed(mut self) -> Placed {
        let mut placed = Placed {
            header: self.header,
            texts: self.texts,
            positions: Vec::new(),
            exponents: Vec::new(),
            marks: self.marks,
        };
        for store in &mut self.stores {
            store.fill_absent(&self.grid, self.grid.maps);
            placed.positions.append(&mut store.positions);
            placed.exponents.append(&mut store.exponents);
        }
        placed
    }

    /// Looks at the areas' lengths, then copies everything out.
    fn hand_over(mut self, areas: &mut Areas) -> Result<(Header, Texts), Refusal> {
        let needs = self.grid.needs(&self.marks);
        let lengths = areas.view().lengths();
        if let Some(short) = (0..6).find(|&k| lengths[k] < needs[k]) {
            return Err(Refusal::Area {
                area: short as u8 + 1,
                need: needs[short] as u64,
            });
        }
        for store in &mut self.stores {
            store.fill_absent(&self.grid, self.grid.maps);
        }
        let values = |kind: Kind| &self.stores[kind as usize].values[..needs[kind as usize]];
        copy(areas.tec, values(Kind::Tec));
        copy(areas.rms, values(Kind::Rms));
        copy(areas.height, values(Kind::Height));
        for kind in KINDS {
            let start = self.grid.exponent_place(kind, 0, 0);
            copy(
                &mut areas.exponents[start..],
                &self.stores[kind as usize].exponents,
            );
        }
        copy(areas.epochs, &self.epochs);
        copy(areas.marks, &self.marks);
        Ok((self.header, self.texts))
    }
}

/// The first number of a block's opening that is not the grid's, for the block of
/// a place (from 0) in its map.
pub fn other_block(header: &Header, grid: &Grid, block: usize, found: [i64; 6]) -> Option<usize> {
    let layer = (block / grid.rows) as i64;
    let row = (block % grid.rows) as i64;
    let latitude = header.latitudes.first + row * header.latitudes.step;
    let height = header.heights.first + layer * header.heights.step;
    let longitudes = header.longitudes;
    let fits = [
        found[0] == latitude,
        found[1] == longitudes.first,
        found[2] == longitudes.last,
        found[3] == longitudes.step,
        found[4] == height || header.dimension == 2,
    ];
    fits.iter().position(|fits| !fits)
}

/// The values of a line where so many are due, or refusal 6.
pub fn values(card: &Card, due: usize) -> Result<Vec<i32>, Fault> {
    let count = due.min(16);
    let mut values = Vec::with_capacity(count);
    for field in 0..count {
        let start = 5 * field;
        match fields::integer(&card[start..start + 5]) {
            Some(value) => values.push(value as i32),
            None => return fault(6, start as u64 + 1),
        }
    }
    match labels::blank(card, 5 * count, 80) {
        Ok(()) => Ok(values),
        Err(column) => fault(6, column),
    }
}

/// Fills the front of an area; the rest stays.
pub fn copy<T: Copy>(area: &mut [T], from: &[T]) {
    area[..from.len()].copy_from_slice(from);
}

/// The numbers of a record, or refusal 6.
fn numbers(label: Label, card: &Card) -> Result<[i64; 6], Fault> {
    labels::numbers(label, card).or_else(|column| fault(6, column))
}

/// Refusal 7 at a column unless the value is accepted.
fn accept(accepted: bool, column: u64) -> Step {
    if accepted {
        Ok(())
    } else {
        fault(7, column)
    }
}

fn accept_axis(label: Label, wrong: Option<AxisFault>) -> Step {
    match wrong {
        None => Ok(()),
        Some(AxisFault::Field(k)) => fault(7, labels::number_column(label, k)),
        Some(AxisFault::Several) => fault(7, 0),
    }
}

fn epoch(label: Label, found: [i64; 6]) -> Result<u64, Fault> {
    calendar::seconds(found).or_else(|k| fault(7, labels::number_column(label, k)))
}

fn count(value: i64) -> Result<Count, Fault> {
    accept(header::count_fits(value), 1)?;
    Ok(Count {
        stands: true,
        count: value,
    })
}

/// The place in `SYSTEMS` of the letter in column 6.
fn system_of(card: &Card) -> Option<usize> {
    header::SYSTEMS.iter().position(|&s| s == card[5])
}
