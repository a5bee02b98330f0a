//! The header record, its texts, and what is accepted in each field. The same
//! rules serve the reader (which needs the place of a fault) and the writer.

use crate::calendar;

/// "one of BEN ENV ERS GEO GNS IRI MIX NNS TOP", and behind these "GPS and GLO",
/// which only version 1.0 allows (02, Ask 7); the header holds the place.
pub const CODES: [&[u8; 3]; 11] = [
    b"BEN", b"ENV", b"ERS", b"GEO", b"GNS", b"IRI", b"MIX", b"NNS", b"TOP", b"GPS", b"GLO",
];

/// The letters of SYS, in the order listed in 01.
pub const SYSTEMS: [u8; 7] = *b"GRECJIS";

pub const FILE_TYPE: u8 = b'I';

/// "up to 20 of them, 60 columns each" (02, Ask 1)
pub const DESCRIPTIONS: usize = 20;

/// First, last and step of an axis, in tenths.
#[derive(Clone, Copy, Debug, Default, PartialEq, Eq)]
pub struct Axis {
    pub first: i64,
    pub last: i64,
    pub step: i64,
}

/// A starred record with one count; the count is 0 where it does not stand.
#[derive(Clone, Copy, Debug, Default, PartialEq, Eq)]
pub struct Count {
    pub stands: bool,
    pub count: i64,
}

/// A SYS record; both counts are 0 where it does not stand.
#[derive(Clone, Copy, Debug, Default, PartialEq, Eq)]
pub struct System {
    pub stands: bool,
    pub stations: i64,
    pub satellites: i64,
}

/// "every field looked at in the header, and which starred records stand".
/// Numbers are held wide, so that a wrong one can be handed to the writer.
#[derive(Clone, Copy, Debug, Default, PartialEq, Eq)]
pub struct Header {
    /// In tenths.
    pub version: i64,
    pub file_type: u8,
    /// Place in `CODES`, from 0.
    pub code: i64,
    /// Seconds from 1900.
    pub first_epoch: u64,
    pub last_epoch: u64,
    pub interval: i64,
    /// The number of TEC maps, n.
    pub maps: i64,
    /// In tenths of a degree.
    pub cutoff: i64,
    /// In tenths of a kilometre.
    pub radius: i64,
    pub dimension: i64,
    pub heights: Axis,
    pub latitudes: Axis,
    pub longitudes: Axis,
    pub stations: Count,
    pub satellites: Count,
    /// In the order of `SYSTEMS`.
    pub systems: [System; 7],
    /// How many DESCRIPTION lines there are.
    pub descriptions: i64,
}

/// The A fields of the header, as they stand.
#[derive(Clone, Copy, Debug, PartialEq, Eq)]
pub struct Texts {
    pub program: [u8; 20],
    pub agency: [u8; 20],
    pub date: [u8; 20],
    pub mapping: [u8; 4],
    pub observables: [u8; 60],
    /// "in file order, blank-padded", and blank behind the last.
    pub descriptions: [[u8; 60]; DESCRIPTIONS],
}

impl Default for Texts {
    fn default() -> Texts {
        Texts {
            program: [b' '; 20],
            agency: [b' '; 20],
            date: [b' '; 20],
            mapping: [b' '; 4],
            observables: [b' '; 60],
            descriptions: [[b' '; 60]; DESCRIPTIONS],
        }
    }
}

/// What is wrong with an axis: a field's own range, or a rule over several.
#[derive(Clone, Copy, Debug, PartialEq, Eq)]
pub enum AxisFault {
    /// 0 first, 1 last, 2 step.
    Field(usize),
    Several,
}

/// A version in tenths: 1.0 or 1.1.
pub fn version_fits(tenths: i64) -> bool {
    tenths == 10 || tenths == 11
}

/// Whether a version allows the code of this place.
pub fn code_fits(version: i64, code: i64) -> bool {
    let allowed = if version == 10 { 11 } else { 9 };
    (0..allowed).contains(&code)
}

pub fn interval_fits(value: i64) -> bool {
    (0..=21_600).contains(&value)
}

pub fn maps_fit(value: i64) -> bool {
    (1..=300).contains(&value)
}

pub fn cutoff_fits(tenths: i64) -> bool {
    (0..=900).contains(&tenths)
}

pub fn radius_fits(tenths: i64) -> bool {
    (10_000..=999_999).contains(&tenths)
}

pub fn dimension_fits(value: i64) -> bool {
    value == 2 || value == 3
}

/// # OF STATIONS, # OF SATELLITES and the counts of SYS ("counts from 0", and
/// I6 holds no more than 999,999).
pub fn count_fits(value: i64) -> bool {
    (0..=999_999).contains(&value)
}

/// How many DESCRIPTION lines there may be.
pub fn descriptions_fit(value: i64) -> bool {
    (0..=DESCRIPTIONS as i64).contains(&value)
}

pub fn exponent_fits(value: i64) -> bool {
    (-3..=0).contains(&value)
}

impl Axis {
    /// "-90.0 to 90.0, both ends multiples of DLAT, 0 < |DLAT| <= 15.0, LAT1 to
    /// LAT2 in DLAT's direction (equal ends make one row)".
    pub fn latitude_fault(&self) -> Option<AxisFault> {
        let end = |v: i64| (-900..=900).contains(&v);
        let step = (-150..=150).contains(&self.step) && self.step != 0;
        self.own_ranges(end(self.first), end(self.last), step)
            .or_else(|| {
                let span = self.last - self.first;
                let direction = span == 0 || (span > 0) == (self.step > 0);
                several(direction && self.ends_are_multiples())
            })
    }

    /// "-180.0 to 360.0, ends multiples of DLON, 0 < DLON <= 15.0,
    /// 0 <= LON2-LON1 <= 360.0".
    pub fn longitude_fault(&self) -> Option<AxisFault> {
        let end = |v: i64| (-1800..=3600).contains(&v);
        let step = (1..=150).contains(&self.step);
        self.own_ranges(end(self.first), end(self.last), step)
            .or_else(|| {
                let span = self.last - self.first;
                several((0..=3600).contains(&span) && self.ends_are_multiples())
            })
    }

    /// "0.0 to 9999.9; DHGT 0 with equal ends, or the span a positive whole
    /// multiple of DHGT". Layers go from HGT1 by DHGT, so the span is HGT2-HGT1.
    pub fn height_fault(&self) -> Option<AxisFault> {
        let fits = |v: i64| (0..=99_999).contains(&v);
        self.own_ranges(fits(self.first), fits(self.last), fits(self.step))
            .or_else(|| {
                let span = self.last - self.first;
                several(if self.step == 0 {
                    span == 0
                } else {
                    span > 0 && span % self.step == 0
                })
            })
    }

    /// "a field outside its own range comes before a rule over several fields"
    fn own_ranges(&self, first: bool, last: bool, step: bool) -> Option<AxisFault> {
        let wrong = [first, last, step].iter().position(|fits| !fits)?;
        Some(AxisFault::Field(wrong))
    }

    fn ends_are_multiples(&self) -> bool {
        self.first % self.step == 0 && self.last % self.step == 0
    }

    /// 02, Ask 2: "Where LON2 + DLON = LON1 + 360.0, the column after the last is
    /// the first." For longitudes without a fault.
    pub fn has_strip(&self) -> bool {
        self.last + self.step == self.first + 3600
    }

    /// "grids that go round the whole Earth, in either of the two ways named in Ask
    /// 2": the other is "with LON2 = LON1 + 360.0".
    pub fn goes_round(&self) -> bool {
        self.has_strip() || self.last == self.first + 3600
    }

    /// The number of grid lines, for an axis without a fault.
    pub fn count(&self) -> i64 {
        if self.step == 0 {
            1
        } else {
            (self.last - self.first) / self.step + 1
        }
    }
}

fn several(kept: bool) -> Option<AxisFault> {
    if kept {
        None
    } else {
        Some(AxisFault::Several)
    }
}

impl Header {
    /// "Dimension 2 exactly when DHGT is 0."
    pub fn dimension_agrees(&self) -> bool {
        (self.dimension == 2) == (self.heights.step == 0)
    }

    /// "At most 361 rows R, 721 columns C, 64 layers L, and n·L·R·C at most
    /// 2,000,000", for axes without a fault.
    pub fn size_fits(&self) -> bool {
        let rows = self.latitudes.count();
        let columns = self.longitudes.count();
        let layers = self.heights.count();
        rows <= 361
            && columns <= 721
            && layers <= 64
            && self.maps * layers * rows * columns <= 2_000_000
    }

    /// Whether some accepted text has this header record as its meaning.
    pub fn is_valid(&self) -> bool {
        version_fits(self.version)
            && self.file_type == FILE_TYPE
            && code_fits(self.version, self.code)
            && calendar::is_epoch(self.first_epoch)
            && calendar::is_epoch(self.last_epoch)
            && interval_fits(self.interval)
            && maps_fit(self.maps)
            && cutoff_fits(self.cutoff)
            && radius_fits(self.radius)
            && dimension_fits(self.dimension)
            && self.counts_are_valid()
            && descriptions_fit(self.descriptions)
            && self.heights.height_fault().is_none()
            && self.latitudes.latitude_fault().is_none()
            && self.longitudes.longitude_fault().is_none()
            && self.dimension_agrees()
            && self.size_fits()
    }

    fn counts_are_valid(&self) -> bool {
        count_is_valid(self.stations.stands, self.stations.count)
            && count_is_valid(self.satellites.stands, self.satellites.count)
            && self.systems.iter().all(|s| {
                count_is_valid(s.stands, s.stations) && count_is_valid(s.stands, s.satellites)
            })
    }
}

/// A record that does not stand holds 0, so that one map set has one form.
fn count_is_valid(stands: bool, count: i64) -> bool {
    if stands {
        count_fits(count)
    } else {
        count == 0
    }
}

impl Texts {
    /// Whether these are the texts of a header that is valid: every byte can stand
    /// in a line, and behind the last description all is blank, so that one map set
    /// has one form.
    pub fn fit(&self, header: &Header) -> bool {
        let parts: [&[u8]; 5] = [
            &self.program,
            &self.agency,
            &self.date,
            &self.mapping,
            &self.observables,
        ];
        let (lines, behind) = self.descriptions.split_at(header.descriptions as usize);
        let bytes = |b: &u8| (32..=126).contains(b);
        parts.iter().all(|part| part.iter().all(bytes))
            && lines.iter().flatten().all(bytes)
            && behind.iter().flatten().all(|&b| b == b' ')
    }
}

#[cfg(test)]
mod tests {
    use super::AxisFault::{Field, Several};
    use super::*;

    fn axis(first: i64, last: i64, step: i64) -> Axis {
        Axis { first, last, step }
    }

    #[test]
    fn latitudes() {
        let of = |a, b, c| axis(a, b, c).latitude_fault();
        assert_eq!(of(875, -875, -25), None);
        assert_eq!(of(900, 900, 150), None);
        assert_eq!(of(900, 900, -150), None);
        assert_eq!(of(0, 0, 1), None);
        assert_eq!(of(901, -901, 0), Some(Field(0)));
        assert_eq!(of(900, -901, 0), Some(Field(1)));
        assert_eq!(of(7, 8, 0), Some(Field(2)));
        assert_eq!(of(302, 302, 151), Some(Field(2)));
        assert_eq!(of(302, 302, -151), Some(Field(2)));
        assert_eq!(of(875, -875, 25), Some(Several));
        assert_eq!(of(-875, 875, -25), Some(Several));
        assert_eq!(of(870, -875, -25), Some(Several));
        assert_eq!(of(875, -870, -25), Some(Several));
    }

    #[test]
    fn longitudes() {
        let of = |a, b, c| axis(a, b, c).longitude_fault();
        assert_eq!(of(-1800, 1775, 25), None);
        assert_eq!(of(0, 3600, 150), None);
        assert_eq!(of(50, 50, 50), None);
        assert_eq!(of(-1801, 0, 1), Some(Field(0)));
        assert_eq!(of(0, 3601, 1), Some(Field(1)));
        assert_eq!(of(0, 3600, -50), Some(Field(2)));
        assert_eq!(of(0, 3600, 0), Some(Field(2)));
        assert_eq!(of(0, 3600, 151), Some(Field(2)));
        assert_eq!(of(50, 0, 50), Some(Several));
        assert_eq!(of(-50, 3600, 50), Some(Several));
        assert_eq!(of(10, 60, 50), Some(Several));
    }

    #[test]
    fn heights() {
        let of = |a, b, c| axis(a, b, c).height_fault();
        assert_eq!(of(4000, 4000, 0), None);
        assert_eq!(of(2000, 8000, 500), None);
        assert_eq!(of(0, 99_999, 99_999), None);
        assert_eq!(of(-1, 0, 0), Some(Field(0)));
        assert_eq!(of(0, -1, 0), Some(Field(1)));
        assert_eq!(of(0, 10, -10), Some(Field(2)));
        assert_eq!(of(4000, 4000, 500), Some(Several));
        assert_eq!(of(4000, 4500, 0), Some(Several));
        assert_eq!(of(4000, 4500, 400), Some(Several));
        assert_eq!(of(4500, 4000, 500), Some(Several));
        assert_eq!(axis(2000, 8000, 500).count(), 13);
    }
}
