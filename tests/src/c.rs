//! The library's functions, by the crate's own calls of them (`ionex::ffi`). A function that is not linked (see
//! Cargo.toml) is answered by the second program.

use crate::biases::{self, Biases};
use crate::boundary::{Asked, Boundary, Given, Lent};
use crate::explains::Explains;
use crate::indexes::{Indexes, Kept};
use crate::many::{Asking, Chosen, Many};
use crate::weeks::Weeks;
use second::index::Node;

/// The linked library.
pub struct Archive;

/// What is given and lent, as the crate's calls take it.
#[cfg(feature = "ionex")]
pub mod parts {
    use super::{biases, Asked, Asking, Chosen, Given, Kept, Lent, Node};
    use ionex::ffi;

    pub fn set(given: &Given) -> ffi::Given<'_> {
        ffi::Given {
            header: &given.header,
            texts: &given.texts,
            tec: &given.areas.tec,
            rms: &given.areas.rms,
            height: &given.areas.height,
            exponents: &given.areas.exponents,
            epochs: &given.areas.epochs,
            marks: &given.areas.marks,
        }
    }

    /// And the place, which is lent too.
    pub fn areas(lent: &mut Lent) -> (ffi::Lent<'_>, &mut [u64]) {
        let areas = ffi::Lent {
            tec: &mut lent.areas.tec,
            rms: &mut lent.areas.rms,
            height: &mut lent.areas.height,
            exponents: &mut lent.areas.exponents,
            epochs: &mut lent.areas.epochs,
            marks: &mut lent.areas.marks,
            header: &mut lent.header,
            texts: &mut lent.texts,
        };
        (areas, &mut lent.place)
    }

    pub fn question(asked: &Asked) -> ffi::Asked {
        let Asked {
            kind,
            method,
            layer,
            lat,
            lon,
            second,
        } = *asked;
        ffi::Asked {
            kind,
            method,
            layer,
            lat,
            lon,
            second,
        }
    }

    pub fn many<'a>(chosen: &Chosen, asking: &'a Asking) -> ffi::Many<'a> {
        let Chosen {
            kind,
            method,
            layer,
        } = *chosen;
        ffi::Many {
            kind,
            method,
            layer,
            lats: &asking.lats,
            lons: &asking.lons,
            seconds: &asking.seconds,
        }
    }

    pub fn index(kept: &Kept) -> ffi::GivenIndex<'_> {
        ffi::GivenIndex {
            header: &kept.header,
            texts: &kept.texts,
            positions: &kept.positions,
            exponents: &kept.exponents,
            marks: &kept.marks,
        }
    }

    pub fn entries(kept: &mut Kept) -> ffi::LentIndex<'_> {
        ffi::LentIndex {
            positions: &mut kept.positions,
            exponents: &mut kept.exponents,
            marks: &mut kept.marks,
            header: &mut kept.header,
            texts: &mut kept.texts,
        }
    }

    /// And the place.
    pub fn biases(lent: &mut biases::Lent) -> (ffi::LentBiases<'_>, &mut [u64]) {
        let areas = ffi::LentBiases {
            satellites: &mut lent.satellites,
            stations: &mut lent.stations,
            names: &mut lent.names,
            counts: &mut lent.counts,
        };
        (areas, &mut lent.place)
    }

    pub fn node(node: &Node) -> ffi::Node {
        let Node {
            kind,
            map,
            layer,
            row,
            column,
        } = *node;
        ffi::Node {
            kind,
            map,
            layer,
            row,
            column,
        }
    }
}

/// The first where the feature is on, that is where the function is linked; else the second program's answer.
macro_rules! linked {
    ($feature:literal, $library:expr, $plain:expr) => {{
        #[cfg(feature = $feature)]
        let answer = $library;
        #[cfg(not(feature = $feature))]
        let answer = $plain;
        answer
    }};
}

impl Boundary for Archive {
    fn read(&self, text: &[u8], lent: &mut Lent) -> u64 {
        linked!(
            "read",
            {
                let (areas, place) = parts::areas(lent);
                ionex::ffi::read(text, areas, place)
            },
            crate::boundary::Plain.read(text, lent)
        )
    }

    fn needs(&self, text: &[u8], needs: &mut [u64], place: &mut [u64]) -> u64 {
        linked!(
            "needs",
            ionex::ffi::needs(text, needs, place),
            crate::boundary::Plain.needs(text, needs, place)
        )
    }

    fn write(&self, given: &Given, out: &mut [u8], count: &mut [u64]) -> u64 {
        linked!(
            "write",
            ionex::ffi::write(parts::set(given), out, count),
            crate::boundary::Plain.write(given, out, count)
        )
    }

    fn ask(&self, given: &Given, asked: &Asked, value: &mut [i32]) -> u64 {
        linked!(
            "ask",
            ionex::ffi::ask(parts::set(given), parts::question(asked), value),
            crate::boundary::Plain.ask(given, asked, value)
        )
    }

    fn tecu_delay(&self, x: i32, carrier: f64, record: &mut [f64]) -> u64 {
        linked!(
            "tecu_delay",
            ionex::ffi::tecu_delay(x, carrier, record),
            crate::boundary::Plain.tecu_delay(x, carrier, record)
        )
    }

    fn delay(&self, given: &Given, asked: &Asked, carrier: f64, record: &mut [f64]) -> u64 {
        linked!(
            "delay",
            ionex::ffi::delay(parts::set(given), parts::question(asked), carrier, record),
            crate::boundary::Plain.delay(given, asked, carrier, record)
        )
    }

    fn join(&self, earlier: &Given, later: &Given, lent: &mut Lent) -> u64 {
        linked!(
            "join",
            {
                let (areas, place) = parts::areas(lent);
                ionex::ffi::join(parts::set(earlier), parts::set(later), areas, place)
            },
            crate::boundary::Plain.join(earlier, later, lent)
        )
    }

    fn moved(&self, epoch: u64, by: i64, moved: &mut [u64]) -> u64 {
        linked!(
            "moved",
            ionex::ffi::moved(epoch, by, moved),
            crate::boundary::Plain.moved(epoch, by, moved)
        )
    }
}

impl Many for Archive {
    fn ask_all(
        &self,
        given: &Given,
        chosen: &Chosen,
        asking: &Asking,
        answers: &mut [u8],
        values: &mut [i32],
    ) -> u64 {
        linked!(
            "ask_all",
            ionex::ffi::ask_all(
                parts::set(given),
                parts::many(chosen, asking),
                answers,
                values
            ),
            crate::boundary::Plain.ask_all(given, chosen, asking, answers, values)
        )
    }
}

impl Explains for Archive {
    fn explain(&self, given: &Given, asked: &Asked, nodes: &mut [i64], lacking: &mut [u64]) -> u64 {
        linked!(
            "explain",
            ionex::ffi::explain(parts::set(given), parts::question(asked), nodes, lacking),
            crate::boundary::Plain.explain(given, asked, nodes, lacking)
        )
    }
}

impl Weeks for Archive {
    fn week_add(
        &self,
        week: &mut [i64],
        given: &Given,
        rows: &mut [i64],
        place: &mut [u64],
    ) -> u64 {
        linked!(
            "week_add",
            ionex::ffi::week_add(week, parts::set(given), rows, place),
            crate::boundary::Plain.week_add(week, given, rows, place)
        )
    }
}

impl Indexes for Archive {
    fn index(&self, text: &[u8], lent: &mut Kept, place: &mut [u64]) -> u64 {
        linked!(
            "index",
            ionex::ffi::index(text, parts::entries(lent), place),
            crate::boundary::Plain.index(text, lent, place)
        )
    }

    fn indexed_node(&self, text: &[u8], kept: &Kept, node: &Node, found: &mut [i32]) -> u64 {
        linked!(
            "indexed_node",
            ionex::ffi::indexed_node(text, parts::index(kept), parts::node(node), found),
            crate::boundary::Plain.indexed_node(text, kept, node, found)
        )
    }

    fn indexed_block(&self, text: &[u8], kept: &Kept, node: &Node, bounds: &mut [u64]) -> u64 {
        linked!(
            "indexed_block",
            ionex::ffi::indexed_block(text, parts::index(kept), parts::node(node), bounds),
            crate::boundary::Plain.indexed_block(text, kept, node, bounds)
        )
    }
}

impl Biases for Archive {
    fn biases(&self, text: &[u8], lent: &mut biases::Lent) -> u64 {
        linked!(
            "biases",
            {
                let (areas, place) = parts::biases(lent);
                ionex::ffi::biases(text, areas, place)
            },
            crate::boundary::Plain.biases(text, lent)
        )
    }
}
