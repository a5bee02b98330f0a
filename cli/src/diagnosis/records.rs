//! The records of IONEX 1.0 and 1.1: labels, fields by column, and what is accepted in each, in words.

use crate::text::{self, Card};

/// A field of a record. Columns count from 1.
pub struct Field {
    pub column: usize,
    pub width: usize,
    pub form: Form,
    pub name: &'static str,
    pub accepted: &'static str,
}

#[derive(Clone, Copy, PartialEq, Eq)]
pub enum Form {
    /// In
    Whole,
    /// Fn.1
    Tenths,
    /// Fn.3
    Thousandths,
    /// An
    Text,
}

pub struct Record {
    pub label: &'static str,
    pub fields: &'static [Field],
    /// What is asked of several fields together.
    pub rule: &'static str,
}

const fn field(
    column: usize,
    width: usize,
    form: Form,
    name: &'static str,
    accepted: &'static str,
) -> Field {
    Field {
        column,
        width,
        form,
        name,
        accepted,
    }
}

const fn record(label: &'static str, fields: &'static [Field]) -> Record {
    Record {
        label,
        fields,
        rule: "",
    }
}

use Form::{Tenths, Text, Thousandths, Whole};

const NOTHING: &[Field] = &[];
const REMARK: &[Field] = &[field(1, 60, Text, "the remark", "any text")];
const MAP_NUMBER: &[Field] = &[field(
    1,
    6,
    Whole,
    "the map's number",
    "1 to # OF MAPS IN FILE",
)];
const COUNT: &str = "0 to 999999";
const EPOCH: &[Field] = &[
    field(1, 6, Whole, "the year", "1900 to 2199"),
    field(7, 6, Whole, "the month", "1 to 12"),
    field(13, 6, Whole, "the day", "a day that the month has"),
    field(19, 6, Whole, "the hour", "0 to 23"),
    field(25, 6, Whole, "the minute", "0 to 59"),
    field(31, 6, Whole, "the second", "0 to 59"),
];

pub const RECORDS: [Record; 32] = [
    record(
        "IONEX VERSION / TYPE",
        &[
            field(1, 8, Tenths, "the version", "1.0 or 1.1"),
            field(21, 1, Text, "the type", "`I`, for ionosphere maps"),
            field(
                41,
                3,
                Text,
                "the code",
                "one of BEN ENV ERS GEO GNS IRI MIX NNS TOP",
            ),
        ],
    ),
    record(
        "PGM / RUN BY / DATE",
        &[
            field(1, 20, Text, "the program", "any text"),
            field(21, 20, Text, "the agency", "any text"),
            field(41, 20, Text, "the date", "any text"),
        ],
    ),
    record("DESCRIPTION", REMARK),
    record("COMMENT", REMARK),
    record("EPOCH OF FIRST MAP", EPOCH),
    record("EPOCH OF LAST MAP", EPOCH),
    record(
        "INTERVAL",
        &[field(
            1,
            6,
            Whole,
            "the seconds between two maps",
            "0 to 21600",
        )],
    ),
    record(
        "# OF MAPS IN FILE",
        &[field(1, 6, Whole, "the number of TEC maps", "1 to 300")],
    ),
    record(
        "MAPPING FUNCTION",
        &[field(3, 4, Text, "the mapping function", "any text")],
    ),
    record(
        "ELEVATION CUTOFF",
        &[field(1, 8, Tenths, "the smallest elevation", "0.0 to 90.0")],
    ),
    record(
        "OBSERVABLES USED",
        &[field(1, 60, Text, "the observables", "any text")],
    ),
    record(
        "# OF STATIONS",
        &[field(1, 6, Whole, "the number of stations", COUNT)],
    ),
    record(
        "# OF SATELLITES",
        &[field(1, 6, Whole, "the number of satellites", COUNT)],
    ),
    record(
        "SYS / #STA / #SAT",
        &[
            field(6, 1, Text, "the system's letter", "one of G R E C J I S"),
            field(7, 6, Whole, "the number of stations", COUNT),
            field(13, 6, Whole, "the number of satellites", COUNT),
        ],
    ),
    record(
        "BASE RADIUS",
        &[field(1, 8, Tenths, "the radius in km", "1000.0 to 99999.9")],
    ),
    record(
        "MAP DIMENSION",
        &[field(1, 6, Whole, "the dimension", "2 or 3")],
    ),
    Record {
        label: "HGT1 / HGT2 / DHGT",
        fields: &[
            field(3, 6, Tenths, "the first height in km", "0.0 to 9999.9"),
            field(9, 6, Tenths, "the last height in km", "0.0 to 9999.9"),
            field(15, 6, Tenths, "the step of heights", "0.0 to 9999.9"),
        ],
        rule:
            "DHGT 0.0 where HGT1 and HGT2 are equal, or HGT2 above HGT1 by a whole multiple of DHGT",
    },
    Record {
        label: "LAT1 / LAT2 / DLAT",
        fields: &[
            field(3, 6, Tenths, "the first latitude", "-90.0 to 90.0"),
            field(9, 6, Tenths, "the last latitude", "-90.0 to 90.0"),
            field(
                15,
                6,
                Tenths,
                "the step of latitudes",
                "-15.0 to 15.0, but not 0.0",
            ),
        ],
        rule: "LAT1 and LAT2 both multiples of DLAT, and DLAT leading from LAT1 to LAT2",
    },
    Record {
        label: "LON1 / LON2 / DLON",
        fields: &[
            field(3, 6, Tenths, "the first longitude", "-180.0 to 360.0"),
            field(9, 6, Tenths, "the last longitude", "-180.0 to 360.0"),
            field(15, 6, Tenths, "the step of longitudes", "0.1 to 15.0"),
        ],
        rule: "LON1 and LON2 both multiples of DLON, and LON2 0.0 to 360.0 degrees east of LON1",
    },
    record("EXPONENT", &[field(1, 6, Whole, "the exponent", "-3 to 0")]),
    record("START OF AUX DATA", REMARK),
    record("END OF AUX DATA", REMARK),
    record("END OF HEADER", NOTHING),
    record("START OF TEC MAP", MAP_NUMBER),
    record("START OF RMS MAP", MAP_NUMBER),
    record("START OF HEIGHT MAP", MAP_NUMBER),
    record("EPOCH OF CURRENT MAP", EPOCH),
    record(
        "LAT/LON1/LON2/DLON/H",
        &[
            field(3, 6, Tenths, "the row's latitude", "a latitude of the grid"),
            field(9, 6, Tenths, "LON1", "the header's LON1"),
            field(15, 6, Tenths, "LON2", "the header's LON2"),
            field(21, 6, Tenths, "DLON", "the header's DLON"),
            field(27, 6, Tenths, "the layer's height", "a height of the grid"),
        ],
    ),
    record("END OF TEC MAP", MAP_NUMBER),
    record("END OF RMS MAP", MAP_NUMBER),
    record("END OF HEIGHT MAP", MAP_NUMBER),
    record("END OF FILE", NOTHING),
];

const SYSTEM: &str = "`G` or a blank for GPS, `R` for GLONASS";

/// The records of a block DIFFERENTIAL CODE BIASES: the map reading knows none of them.
pub const BIAS_RECORDS: [Record; 2] = [
    record(
        "PRN / BIAS / RMS",
        &[
            field(4, 1, Text, "the system", SYSTEM),
            field(5, 2, Whole, "the satellite's number", "1 to 99"),
            field(7, 10, Thousandths, "the bias", "any number"),
            field(17, 10, Thousandths, "the RMS", "any number"),
        ],
    ),
    record(
        "STATION / BIAS / RMS",
        &[
            field(4, 1, Text, "the system", SYSTEM),
            field(7, 20, Text, "the station's name", "any text"),
            field(27, 10, Thousandths, "the bias", "any number"),
            field(37, 10, Thousandths, "the RMS", "any number"),
        ],
    ),
];

/// The header records that must stand, beside the version record.
pub const NEEDED: [&str; 13] = [
    "PGM / RUN BY / DATE",
    "EPOCH OF FIRST MAP",
    "EPOCH OF LAST MAP",
    "INTERVAL",
    "# OF MAPS IN FILE",
    "MAPPING FUNCTION",
    "ELEVATION CUTOFF",
    "OBSERVABLES USED",
    "BASE RADIUS",
    "MAP DIMENSION",
    "HGT1 / HGT2 / DHGT",
    "LAT1 / LAT2 / DLAT",
    "LON1 / LON2 / DLON",
];

/// The record whose label stands in columns 61 to 80, compared byte by byte.
pub fn record_of(card: &Card) -> Option<&'static Record> {
    RECORDS.iter().find(|record| record.labels(card))
}

/// The same of the records of biases.
pub fn bias_record_of(card: &Card) -> Option<&'static Record> {
    BIAS_RECORDS.iter().find(|record| record.labels(card))
}

/// The label in columns 61 to 80, or nothing where it is none of IONEX.
pub fn label_of(card: &Card) -> &'static str {
    record_of(card).map_or("", |record| record.label)
}

impl Record {
    fn labels(&self, card: &Card) -> bool {
        let (name, padding) = card[60..].split_at(self.label.len());
        name == self.label.as_bytes() && text::blank(padding)
    }

    /// The field that a column lies in.
    pub fn field_at(&self, column: usize) -> Option<&'static Field> {
        let holds = |field: &&Field| (field.column..field.column + field.width).contains(&column);
        self.fields.iter().find(holds)
    }

    /// The blank columns around a column that lies in no field.
    pub fn gap_at(&self, column: usize) -> (usize, usize) {
        let ends = self.fields.iter().map(|field| field.column + field.width);
        let starts = self.fields.iter().map(|field| field.column - 1);
        let first = ends.filter(|&end| end <= column).max().unwrap_or(1);
        let last = starts.filter(|&end| end >= column).min().unwrap_or(60);
        (first, last)
    }

    /// The first column of the first field and the width up to the end of the last.
    pub fn span(&self) -> Option<(usize, usize)> {
        let (first, last) = (self.fields.first()?, self.fields.last()?);
        Some((first.column, last.column + last.width - first.column))
    }
}

#[cfg(test)]
mod tests {
    use super::*;

    #[test]
    fn fields_rise_within_60_columns() {
        for record in RECORDS.iter().chain(&BIAS_RECORDS) {
            let mut end = 1;
            for field in record.fields {
                assert!(field.column >= end, "{}", record.label);
                end = field.column + field.width;
            }
            assert!(end <= 61 && record.label.len() <= 20, "{}", record.label);
        }
        for label in NEEDED {
            assert!(RECORDS.iter().any(|record| record.label == label));
        }
    }

    #[test]
    fn gaps_lie_between_fields() {
        let sys = RECORDS.iter().find(|r| r.label.starts_with("SYS")).unwrap();
        assert_eq!(sys.gap_at(3), (1, 5));
        assert_eq!(sys.gap_at(40), (19, 60));
        assert!(sys.field_at(5).is_none());
        assert_eq!(sys.field_at(18).unwrap().name, "the number of satellites");
        assert_eq!(sys.span(), Some((6, 13)));
    }
}
