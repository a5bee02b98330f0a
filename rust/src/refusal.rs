//! Why a call is refused: by number and place as the scope paper has them, and in words.

use crate::explanation::Lacking;
use std::fmt;

/// The refusals by number, in a few words each.
const MEANINGS: [(u64, &str); 27] = [
    (1, "a line of more than 80 bytes"),
    (2, "a byte that is not printable ASCII"),
    (3, "no version record first, or a version, type or code that is not accepted"),
    (4, "an unknown label"),
    (5, "a record where it may not stand, or once too often"),
    (6, "a field that is ill-formed, or a byte where blanks belong"),
    (7, "a value outside what is accepted"),
    (8, "a value that disagrees with the header or an earlier record"),
    (9, "a header record, block or map is missing at an END record"),
    (10, "the text ends before END OF FILE"),
    (11, "an area is too short"),
    (20, "the time lies before the first or after the last map"),
    (21, "the place or the layer lies outside the grid"),
    (22, "a node that the answer needs has no value"),
    (23, "an unknown kind or method"),
    (24, "maps that cannot be turned with the Sun: the grid does not go round the Earth, its columns are more than 5.0 \
          degrees apart, or two maps more than 7200 seconds"),
    (25, "a carrier outside 1.0e9 to 2.0e9 hertz"),
    (30, "the output is too short"),
    (31, "not a valid map set"),
    (40, "the grids, dimensions, heights or base radii differ"),
    (41, "the last epoch of the first set is not the first of the second"),
    (42, "the joined set would have too many maps or values"),
    (50, "an index entry that does not fit the text"),
    (60, "more than 100 map sets"),
    (101, "fewer than 45 header numbers"),
    (102, "fewer than 1324 bytes of texts"),
    (103, "no room for the result"),
];

/// The areas of a map set, of an index and of biases, as refusal 11 counts them from 1.
pub(crate) const MAP_AREAS: [&str; 6] = [
    "TEC values",
    "RMS values",
    "height values",
    "exponents",
    "epochs",
    "marks",
];
pub(crate) const INDEX_AREAS: [&str; 3] = ["positions", "exponents", "marks"];
pub(crate) const BIAS_AREAS: [&str; 3] = ["satellites", "stations", "station names"];

/// What comes back with a number.
#[derive(Clone, Copy, Debug, PartialEq, Eq)]
enum Place {
    Nothing,
    Column {
        line: u64,
        column: u64,
    },
    Area {
        area: u64,
        name: &'static str,
        needs: u64,
    },
    Output {
        needs: u64,
    },
    Node(Lacking),
}

/// A call that was refused: nothing was changed by it.
///
/// ```
/// use ionex::MapSet;
///
/// let text = std::fs::read("../tests/examples/refused-07.inx")?;
/// let refusal = MapSet::read(&text).unwrap_err();
/// assert_eq!((refusal.number(), refusal.line(), refusal.column()), (7, Some(3), Some(13)));
/// assert_eq!(refusal.to_string(), "refused 7: a value outside what is accepted, line 3, column 13");
/// # Ok::<(), std::io::Error>(())
/// ```
#[derive(Clone, Copy, Debug, PartialEq, Eq)]
pub struct Refusal {
    number: u64,
    place: Place,
}

impl Refusal {
    /// A refusal that has no place.
    pub(crate) fn plain(number: u64) -> Refusal {
        Refusal {
            number,
            place: Place::Nothing,
        }
    }

    /// A refusal of reading, with the two numbers that the archive tells beside it, into areas of these names.
    pub(crate) fn of_reading(
        number: u64,
        place: [u64; 2],
        areas: &'static [&'static str],
    ) -> Refusal {
        let [first, second] = place;
        let name = |area: u64| {
            let place = usize::try_from(area.wrapping_sub(1)).ok();
            place.and_then(|place| areas.get(place)).copied()
        };
        let place = match number {
            1..=10 => Place::Column {
                line: first,
                column: second,
            },
            11 => Place::Area {
                area: first,
                name: name(first).unwrap_or("unknown"),
                needs: second,
            },
            _ => Place::Nothing,
        };
        Refusal { number, place }
    }

    /// A refusal of writing, with the bytes that the archive tells beside 30.
    pub(crate) fn of_writing(number: u64, count: u64) -> Refusal {
        let place = if number == 30 {
            Place::Output { needs: count }
        } else {
            Place::Nothing
        };
        Refusal { number, place }
    }

    /// A refusal 22 with the node that has no value.
    pub(crate) fn of_lacking(lacking: Lacking) -> Refusal {
        Refusal {
            number: 22,
            place: Place::Node(lacking),
        }
    }

    /// The number that the scope paper gives it.
    pub fn number(&self) -> u64 {
        self.number
    }

    /// The line of the text, from 1, where a text was refused. For 10 it is one past the last.
    pub fn line(&self) -> Option<u64> {
        match self.place {
            Place::Column { line, .. } => Some(line),
            _ => None,
        }
    }

    /// The column of that line, from 1; 0 where a rule over several fields or records is broken.
    pub fn column(&self) -> Option<u64> {
        match self.place {
            Place::Column { column, .. } => Some(column),
            _ => None,
        }
    }

    /// The area that is too short (11), from 1.
    pub fn area(&self) -> Option<u64> {
        match self.place {
            Place::Area { area, .. } => Some(area),
            _ => None,
        }
    }

    /// The elements that the area needs (11), or the bytes that the output needs (30).
    pub fn needs(&self) -> Option<u64> {
        match self.place {
            Place::Area { needs, .. } | Place::Output { needs } => Some(needs),
            _ => None,
        }
    }

    /// The node that has no value (22), where it was looked for: by [`crate::MapSet::explain`] alone.
    pub fn lacking(&self) -> Option<Lacking> {
        match self.place {
            Place::Node(lacking) => Some(lacking),
            _ => None,
        }
    }

    /// What the number says, in a few words and without the place.
    pub fn meaning(&self) -> &'static str {
        Refusal::meaning_of(self.number).unwrap_or("a refusal that this crate does not know")
    }

    /// What a refusal's number says; nothing where there is no such number.
    pub fn meaning_of(number: u64) -> Option<&'static str> {
        let found = MEANINGS.iter().find(|(other, _)| *other == number);
        found.map(|(_, words)| *words)
    }

    /// All numbers there are, in rising order.
    pub fn numbers() -> impl Iterator<Item = u64> {
        MEANINGS.iter().map(|(number, _)| *number)
    }
}

impl fmt::Display for Refusal {
    fn fmt(&self, f: &mut fmt::Formatter) -> fmt::Result {
        write!(f, "refused {}: {}", self.number, self.meaning())?;
        match self.place {
            Place::Nothing => Ok(()),
            Place::Column { line, column: 0 } => write!(f, ", line {line}"),
            Place::Column { line, column } => write!(f, ", line {line}, column {column}"),
            Place::Area { area, name, needs } => {
                write!(f, ", area {area} ({name}) needs {needs} elements")
            }
            Place::Output { needs } => write!(f, ", {needs} bytes are needed"),
            Place::Node(lacking) => write!(f, ", {lacking}"),
        }
    }
}

impl std::error::Error for Refusal {}

#[cfg(test)]
mod tests {
    use super::*;

    #[test]
    fn areas_by_name() {
        let told = |areas, place| Refusal::of_reading(11, place, areas).to_string();
        assert_eq!(
            told(&MAP_AREAS, [3, 8]),
            "refused 11: an area is too short, area 3 (height values) needs 8 elements"
        );
        assert_eq!(
            told(&BIAS_AREAS, [3, 40]),
            "refused 11: an area is too short, area 3 (station names) needs 40 elements"
        );
        let refusal = Refusal::of_reading(11, [1, 12], &INDEX_AREAS);
        assert_eq!((refusal.area(), refusal.needs()), (Some(1), Some(12)));
        assert_eq!((refusal.line(), refusal.column()), (None, None));
    }
}
