//! A plain reader with the library's checks: one pass over the text into vectors of its own, copied to the lent areas
//! once nothing is wrong, so that a refused text leaves them as they were.

use crate::calendar;
use crate::lines::{self, check, fault, is_blank, Step};
use crate::rows::{self, BEFORE, VALUES, WIDTH};
use second::header::{self, Axis, AxisFault, Count, Header, System, Texts, CODES, SYSTEMS};
use second::index::Entries;
use second::labels::{self, Label};
use second::maps::{self, FIRST_EXPONENT, NO_VALUE};
use second::read::NEEDED;
use second::refusal::Fault;
use second::{Areas, Refusal};
use std::sync::LazyLock;

/// Reads a text into the lent areas.
pub fn read(text: &[u8], areas: &mut Areas) -> Result<(Header, Texts), Refusal> {
    judged(text)?.hand_over(areas)
}

/// The index of a text: each block's place and exponent.
pub fn make_index(text: &[u8], entries: &mut Entries) -> Result<(Header, Texts), Refusal> {
    judged(text)?.hand_places(entries)
}

/// The refusal of a text that is none.
pub fn check_text(text: &[u8]) -> Result<(), Refusal> {
    judged(text).map(|_| ())
}

fn judged(text: &[u8]) -> Result<Reader, Refusal> {
    let mut reader = Reader::default();
    let mut line = 0;
    while reader.at < text.len() {
        line += 1;
        let step = reader.step(text, reader.at);
        reader.at = step.map_err(|Fault { number, column }| Refusal::Place {
            number,
            line,
            column,
        })?;
    }
    if reader.stage != Stage::After {
        return Err(Refusal::Place {
            number: 10,
            line: line + 1,
            column: 0,
        });
    }
    Ok(reader)
}

// ---- fields ----

/// Blanks, an optional minus, then so many digits at least, to the last column: the sign and the size.
fn signed(field: &[u8], least: usize) -> Option<(bool, i32)> {
    let blanks = field.iter().position(|&b| b != b' ');
    let start = blanks.unwrap_or(field.len());
    let minus = field.get(start) == Some(&b'-');
    let digits = &field[start + usize::from(minus)..];
    if digits.len() < least {
        return None;
    }
    let mut size = 0;
    for &byte in digits {
        let digit = byte.wrapping_sub(b'0');
        if digit > 9 {
            return None;
        }
        size = 10 * size + i32::from(digit);
    }
    Some((minus, size))
}

fn integer(field: &[u8]) -> Option<i32> {
    let (minus, size) = signed(field, 1)?;
    Some(if minus { -size } else { size })
}

/// A number with one digit behind its point, and any number of them before it, in tenths.
fn tenths(field: &[u8]) -> Option<i32> {
    let [front @ .., b'.', digit @ b'0'..=b'9'] = field else {
        return None;
    };
    let (minus, size) = signed(front, 0)?;
    let size = 10 * size + i32::from(digit - b'0');
    Some(if minus { -size } else { size })
}

/// `N` integers of six columns each.
fn integers<const N: usize>(body: &[u8], at: usize) -> Step<[i64; N]> {
    let mut found = [0; N];
    for (k, place) in found.iter_mut().enumerate() {
        let start = at + 6 * k;
        match integer(&body[start..start + 6]) {
            Some(value) => *place = i64::from(value),
            None => return fault(6, start + 1),
        }
    }
    Ok(found)
}

/// `N` decimals of `width` columns each.
fn decimals<const N: usize>(body: &[u8], at: usize, width: usize) -> Step<[i64; N]> {
    let mut found = [0; N];
    for (k, place) in found.iter_mut().enumerate() {
        let start = at + width * k;
        match tenths(&body[start..start + width]) {
            Some(value) => *place = i64::from(value),
            None => return fault(6, start + 1),
        }
    }
    Ok(found)
}

fn blank(bytes: &[u8], from: usize, to: usize) -> Step {
    let bytes = &bytes[..to];
    if is_blank(&bytes[from..]) {
        return Ok(());
    }
    match bytes[from..].iter().position(|&b| b != b' ') {
        Some(k) => fault(6, from + k + 1),
        None => Ok(()),
    }
}

/// I6,54X
fn whole(body: &[u8]) -> Step<i64> {
    let [value] = integers(body, 0)?;
    blank(body, 6, 60)?;
    Ok(value)
}

/// I6,54X, that fits.
fn fitting(body: &[u8], fits: fn(i64) -> bool) -> Step<i64> {
    let value = whole(body)?;
    check(fits(value), 7, 1)?;
    Ok(value)
}

/// F8.1,52X, that fits.
fn decimal(body: &[u8], fits: fn(i64) -> bool) -> Step<i64> {
    let [value] = decimals(body, 0, 8)?;
    blank(body, 8, 60)?;
    check(fits(value), 7, 1)?;
    Ok(value)
}

/// I6,54X: a count that stands.
fn count(body: &[u8]) -> Step<Count> {
    let count = fitting(body, header::count_fits)?;
    Ok(Count {
        stands: true,
        count,
    })
}

/// 6I6,24X: a date.
fn epoch(body: &[u8]) -> Step<u64> {
    let date = integers(body, 0)?;
    blank(body, 36, 60)?;
    calendar::seconds(date).or_else(|field| fault(7, 6 * field + 1))
}

/// 2X,3F6.1,40X
fn axis(body: &[u8], rule: fn(&Axis) -> Option<AxisFault>) -> Step<Axis> {
    blank(body, 0, 2)?;
    let [first, last, step] = decimals(body, 2, 6)?;
    blank(body, 20, 60)?;
    let axis = Axis { first, last, step };
    match rule(&axis) {
        None => Ok(axis),
        Some(AxisFault::Field(k)) => fault(7, 6 * k + 3),
        Some(AxisFault::Several) => fault(7, 0),
    }
}

/// 2X,5F6.1,28X, behind its two blanks.
fn check_block(header: &Header, body: &[u8], latitude: i64, height: i64) -> Step {
    let found: [i64; 5] = decimals(body, 2, 6)?;
    blank(body, 32, 60)?;
    let axis = &header.longitudes;
    let expected = [latitude, axis.first, axis.last, axis.step, height];
    // In dimension 2 any height will do.
    let compared = if header.dimension == 2 { 4 } else { 5 };
    match (0..compared).find(|&k| found[k] != expected[k]) {
        Some(k) => fault(8, 6 * k + 3),
        None => Ok(()),
    }
}

// ---- labels ----

type Named = (&'static [u8], Label);

/// The labels of each length.
static LABELS: LazyLock<[Vec<Named>; 21]> = LazyLock::new(|| {
    let mut found = [const { Vec::new() }; 21];
    for label in labels::all() {
        let text = labels::label_text(label).as_bytes();
        found[text.len()].push((text, label));
    }
    found
});

fn label(line: &[u8]) -> Option<Label> {
    let name = line.get(60..)?.trim_ascii_end();
    let found = LABELS[name.len()].iter().find(|(text, _)| *text == name);
    found.map(|&(_, label)| label)
}

/// The kind of a START or END record: 0 TEC, 1 RMS, 2 height.
fn kind_of(label: Label) -> usize {
    match label {
        Label::StartTec | Label::EndTec => 0,
        Label::StartRms | Label::EndRms => 1,
        _ => 2,
    }
}

// ---- the reader ----

#[derive(Default, PartialEq, Eq)]
enum Stage {
    #[default]
    Start,
    Header,
    Aux,
    Maps,
    After,
}

/// The map that stands open.
struct Map {
    kind: usize,
    number: usize,
    has_epoch: bool,
    blocks: usize,
    /// The layer and the row of the next block.
    layer: i64,
    row: i64,
}

/// What was read of a kind.
#[derive(Default)]
struct Kind {
    values: Vec<i32>,
    exponents: Vec<i32>,
    /// Where its blocks start.
    places: Vec<u64>,
    /// The number of its last map that has ended.
    last: usize,
}

struct Reader {
    stage: Stage,
    /// Where the line starts.
    at: usize,
    header: Header,
    texts: Texts,
    /// The records of `NEEDED` that stood.
    stood: [bool; NEEDED.len()],
    maps: usize,
    rows: i64,
    columns: usize,
    blocks: usize,
    exponent: i32,
    open: Option<Map>,
    /// Values still due in the open block.
    due: usize,
    /// Columns 9 to 60 of the block before in this layer, which are good; no line has these zeros.
    behind_latitude: [u8; 52],
    kinds: [Kind; 3],
    epochs: Vec<u64>,
    marks: Vec<u8>,
}

impl Default for Reader {
    fn default() -> Reader {
        Reader {
            stage: Stage::Start,
            at: 0,
            header: Header::default(),
            texts: Texts::default(),
            stood: [false; NEEDED.len()],
            maps: 0,
            rows: 0,
            columns: 0,
            blocks: 0,
            exponent: FIRST_EXPONENT,
            open: None,
            due: 0,
            behind_latitude: [0; 52],
            kinds: Default::default(),
            epochs: Vec::new(),
            marks: Vec::new(),
        }
    }
}

impl Reader {
    /// Takes the line that begins here, and gives the place behind it.
    fn step(&mut self, text: &[u8], at: usize) -> Step<usize> {
        if self.due > 0 {
            if let Some(after) = self.usual_row(text, at) {
                return Ok(after);
            }
        }
        let (line, after) = lines::cut(&text[at..])?;
        self.line(line)?;
        Ok(text.len() - after.len())
    }

    fn line(&mut self, line: &[u8]) -> Step {
        if is_blank(line) {
            return Ok(());
        }
        if self.due > 0 {
            return self.values(line);
        }
        match (&self.stage, label(line)) {
            (Stage::Start, Some(Label::Version)) => self.version(&line[..60]),
            (Stage::Start, _) => fault(3, 61),
            (Stage::Aux, Some(Label::EndAux)) => {
                self.stage = Stage::Header;
                Ok(())
            }
            (Stage::Aux, _) => Ok(()),
            (_, None) => fault(4, 61),
            (Stage::Header, Some(label)) => self.header_record(label, &line[..60]),
            (Stage::Maps, Some(label)) => self.map_record(label, &line[..60]),
            (Stage::After, Some(_)) => fault(5, 61),
        }
    }

    // -- header --

    fn version(&mut self, body: &[u8]) -> Step {
        let [version] = decimals(body, 0, 8)?;
        blank(body, 8, 20)?;
        check(header::version_fits(version), 3, 1)?;
        check(body[20] == header::FILE_TYPE, 3, 21)?;
        let code = CODES.iter().position(|code| code[..] == body[40..43]);
        let code = code.map_or(-1, |code| code as i64);
        check(header::code_fits(version, code), 3, 41)?;
        self.header.version = version;
        self.header.file_type = header::FILE_TYPE;
        self.header.code = code;
        self.stage = Stage::Header;
        Ok(())
    }

    fn header_record(&mut self, label: Label, body: &[u8]) -> Step {
        if let Some(k) = NEEDED.iter().position(|&needed| needed == label) {
            check(!self.stood[k], 5, 61)?;
            self.needed_record(label, body)?;
            self.stood[k] = true;
            return Ok(());
        }
        match label {
            Label::Comment => {}
            Label::Description => {
                let at = self.header.descriptions as usize;
                check(at < header::DESCRIPTIONS, 5, 61)?;
                self.texts.descriptions[at].copy_from_slice(body);
                self.header.descriptions += 1;
            }
            Label::Exponent => self.exponent = fitting(body, header::exponent_fits)? as i32,
            Label::Stations => {
                check(!self.header.stations.stands, 5, 61)?;
                self.header.stations = count(body)?;
            }
            Label::Satellites => {
                check(!self.header.satellites.stands, 5, 61)?;
                self.header.satellites = count(body)?;
            }
            Label::System => self.system(body)?,
            Label::StartAux => self.stage = Stage::Aux,
            Label::EndHeader => self.end_header(body)?,
            _ => return fault(5, 61),
        }
        Ok(())
    }

    fn needed_record(&mut self, label: Label, body: &[u8]) -> Step {
        let (header, texts) = (&mut self.header, &mut self.texts);
        match label {
            Label::Program => {
                texts.program.copy_from_slice(&body[..20]);
                texts.agency.copy_from_slice(&body[20..40]);
                texts.date.copy_from_slice(&body[40..]);
            }
            Label::FirstEpoch => header.first_epoch = epoch(body)?,
            Label::LastEpoch => header.last_epoch = epoch(body)?,
            Label::Interval => header.interval = fitting(body, header::interval_fits)?,
            Label::MapCount => header.maps = fitting(body, header::maps_fit)?,
            Label::MappingFunction => {
                blank(body, 0, 2)?;
                blank(body, 6, 60)?;
                texts.mapping.copy_from_slice(&body[2..6]);
            }
            Label::ElevationCutoff => header.cutoff = decimal(body, header::cutoff_fits)?,
            Label::Observables => texts.observables.copy_from_slice(body),
            Label::BaseRadius => header.radius = decimal(body, header::radius_fits)?,
            Label::Dimension => header.dimension = fitting(body, header::dimension_fits)?,
            Label::Heights => header.heights = axis(body, Axis::height_fault)?,
            Label::Latitudes => header.latitudes = axis(body, Axis::latitude_fault)?,
            _ => header.longitudes = axis(body, Axis::longitude_fault)?,
        }
        Ok(())
    }

    fn system(&mut self, body: &[u8]) -> Step {
        let system = SYSTEMS.iter().position(|&letter| letter == body[5]);
        let repeated = system.is_some_and(|k| self.header.systems[k].stands);
        check(!repeated, 5, 61)?;
        blank(body, 0, 5)?;
        let [stations, satellites] = integers(body, 6)?;
        blank(body, 18, 60)?;
        let Some(k) = system else {
            return fault(7, 6);
        };
        check(header::count_fits(stations), 7, 7)?;
        check(header::count_fits(satellites), 7, 13)?;
        self.header.systems[k] = System {
            stands: true,
            stations,
            satellites,
        };
        Ok(())
    }

    fn end_header(&mut self, body: &[u8]) -> Step {
        blank(body, 0, 60)?;
        check(self.stood.iter().all(|&stood| stood), 9, 0)?;
        check(self.header.dimension_agrees(), 8, 0)?;
        check(self.header.size_fits(), 7, 0)?;
        self.maps = self.header.maps as usize;
        self.rows = self.header.latitudes.count();
        self.columns = self.header.longitudes.count() as usize;
        self.blocks = (self.header.heights.count() * self.rows) as usize;
        self.marks = vec![0; self.maps];
        self.stage = Stage::Maps;
        Ok(())
    }

    // -- maps --

    fn map_record(&mut self, label: Label, body: &[u8]) -> Step {
        match (label, &self.open) {
            (Label::Comment, _) => Ok(()),
            (Label::Exponent, _) => {
                self.exponent = fitting(body, header::exponent_fits)? as i32;
                Ok(())
            }
            (Label::Block, Some(map))
                if (map.kind != 0 || map.has_epoch) && map.blocks < self.blocks =>
            {
                self.start_block(body)
            }
            (Label::StartTec | Label::StartRms | Label::StartHeight, None) => {
                self.start_map(kind_of(label), whole(body)?)
            }
            (Label::EndTec | Label::EndRms | Label::EndHeight, Some(map))
                if map.kind == kind_of(label) =>
            {
                self.end_map(whole(body)?)
            }
            (Label::CurrentEpoch, Some(map)) if !map.has_epoch && map.blocks == 0 => {
                self.epoch(body)
            }
            (Label::EndFile, None) => {
                blank(body, 0, 60)?;
                check(self.kinds[0].last == self.maps, 9, 0)?;
                self.stage = Stage::After;
                Ok(())
            }
            _ => fault(5, 61),
        }
    }

    fn start_map(&mut self, kind: usize, number: i64) -> Step {
        let ended = self.kinds[0].last;
        let store = &mut self.kinds[kind];
        let Ok(number) = usize::try_from(number) else {
            return fault(8, 1);
        };
        let in_order = match kind {
            0 => number == ended + 1 && number <= self.maps,
            _ => number > store.last && number <= ended,
        };
        check(in_order, 8, 1)?;
        let size = self.blocks * self.columns;
        store.values.reserve(self.maps * size - store.values.len());
        store.values.resize((number - 1) * size, NO_VALUE);
        let before = (number - 1) * self.blocks;
        store.exponents.resize(before, FIRST_EXPONENT);
        store.places.resize(before, 0);
        self.open = Some(Map {
            kind,
            number,
            has_epoch: false,
            blocks: 0,
            layer: 0,
            row: 0,
        });
        self.behind_latitude = [0; 52];
        Ok(())
    }

    fn epoch(&mut self, body: &[u8]) -> Step {
        let epoch = epoch(body)?;
        let Some(map) = &mut self.open else {
            return fault(5, 61);
        };
        let k = map.number - 1;
        if map.kind == 0 {
            let before = self.epochs.last().copied();
            check(maps::epoch_agrees(&self.header, k, before, epoch), 8, 1)?;
            self.epochs.push(epoch);
        } else {
            check(self.epochs[k] == epoch, 8, 1)?;
        }
        map.has_epoch = true;
        Ok(())
    }

    /// 2X,5F6.1,28X
    fn start_block(&mut self, body: &[u8]) -> Step {
        let Some(map) = &mut self.open else {
            return fault(5, 61);
        };
        let header = &self.header;
        let latitude = header.latitudes.first + map.row * header.latitudes.step;
        blank(body, 0, 2)?;
        if body[8..] == self.behind_latitude {
            let [found] = decimals(body, 2, 6)?;
            check(found == latitude, 8, 3)?;
        } else {
            let height = header.heights.first + map.layer * header.heights.step;
            check_block(header, body, latitude, height)?;
            self.behind_latitude.copy_from_slice(&body[8..]);
        }
        self.kinds[map.kind].exponents.push(self.exponent);
        self.kinds[map.kind].places.push(self.at as u64);
        map.blocks += 1;
        map.row += 1;
        if map.row == self.rows {
            map.row = 0;
            map.layer += 1;
            self.behind_latitude = [0; 52];
        }
        self.due = self.columns;
        Ok(())
    }

    /// The values due, where the line ends right behind them and none is wrong. Their digits make it printable.
    fn usual_row(&mut self, text: &[u8], at: usize) -> Option<usize> {
        let count = self.due.min(VALUES);
        let end = at + WIDTH * count;
        let after = lines::behind_end(text.get(end..)?)?;
        let kind = self.open.as_ref()?.kind;
        let values = &mut self.kinds[kind].values;
        if count == VALUES {
            let bytes = text[at - BEFORE..end].try_into().ok()?;
            values.extend_from_slice(&rows::full_row(bytes)?);
        } else {
            let row = rows::short_row(&text[at..end])?;
            values.extend_from_slice(&row[..count]);
        }
        self.due -= count;
        Some(text.len() - after.len())
    }

    fn values(&mut self, line: &[u8]) -> Step {
        let Some(map) = &self.open else {
            return Ok(());
        };
        let count = self.due.min(VALUES);
        let values = &mut self.kinds[map.kind].values;
        for (k, field) in line.chunks_exact(5).take(count).enumerate() {
            match integer(field) {
                Some(value) => values.push(value),
                None => return fault(6, 5 * k + 1),
            }
        }
        // A line that stops early lacks a field.
        let whole = line.len() / 5;
        check(whole >= count, 6, 5 * whole + 1)?;
        blank(line, 5 * count, line.len())?;
        self.due -= count;
        Ok(())
    }

    fn end_map(&mut self, number: i64) -> Step {
        let Some(map) = &self.open else {
            return fault(5, 61);
        };
        check(map.blocks == self.blocks, 9, 0)?;
        check(number == map.number as i64, 8, 1)?;
        self.kinds[map.kind].last = map.number;
        self.marks[map.number - 1] |= map.kind as u8;
        self.open = None;
        Ok(())
    }

    // -- the end --

    fn hand_over(self, areas: &mut Areas) -> Result<(Header, Texts), Refusal> {
        let [tec, rms, height] = &self.kinds;
        let values = self.maps * self.blocks * self.columns;
        let exponents = self.maps * self.blocks;
        let need = |kind: &Kind| if kind.last > 0 { values } else { 0 };
        let areas_and_needs = [
            (areas.tec.len(), need(tec)),
            (areas.rms.len(), need(rms)),
            (areas.height.len(), need(height)),
            (areas.exponents.len(), 3 * exponents),
            (areas.epochs.len(), self.maps),
            (areas.marks.len(), self.maps),
        ];
        enough(&areas_and_needs)?;
        copy(&tec.values, &mut areas.tec[..need(tec)], NO_VALUE);
        copy(&rms.values, &mut areas.rms[..need(rms)], NO_VALUE);
        copy(&height.values, &mut areas.height[..need(height)], NO_VALUE);
        for (k, kind) in self.kinds.iter().enumerate() {
            let place = &mut areas.exponents[k * exponents..(k + 1) * exponents];
            copy(&kind.exponents, place, FIRST_EXPONENT);
        }
        areas.epochs[..self.maps].copy_from_slice(&self.epochs);
        areas.marks[..self.maps].copy_from_slice(&self.marks);
        Ok((self.header, self.texts))
    }

    fn hand_places(self, entries: &mut Entries) -> Result<(Header, Texts), Refusal> {
        let blocks = self.maps * self.blocks;
        let areas = [
            (entries.positions.len(), 3 * blocks),
            (entries.exponents.len(), 3 * blocks),
            (entries.marks.len(), self.maps),
        ];
        enough(&areas)?;
        for (k, kind) in self.kinds.iter().enumerate() {
            let third = k * blocks..(k + 1) * blocks;
            copy(&kind.places, &mut entries.positions[third.clone()], 0);
            copy(
                &kind.exponents,
                &mut entries.exponents[third],
                FIRST_EXPONENT,
            );
        }
        entries.marks[..self.maps].copy_from_slice(&self.marks);
        Ok((self.header, self.texts))
    }
}

/// The first area that is too short, by the lengths and needs of all.
pub fn enough(areas: &[(usize, usize)]) -> Result<(), Refusal> {
    match areas.iter().position(|(length, need)| length < need) {
        Some(k) => Err(Refusal::Area {
            area: k as u8 + 1,
            need: areas[k].1 as u64,
        }),
        None => Ok(()),
    }
}

/// Fills a place from the front; the maps that are missing at the end get the filler.
fn copy<T: Copy>(from: &[T], place: &mut [T], filler: T) {
    let (front, rest) = place.split_at_mut(from.len());
    front.copy_from_slice(from);
    rest.fill(filler);
}
