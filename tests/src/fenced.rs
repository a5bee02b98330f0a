//! The library's functions with each area, given or lent, right at a forbidden page: behind it and before it in turn. What
//! is given must be as before after each call.

use crate::biases::{self, Biases};
use crate::boundary::{Asked, Boundary, Given, Lent};
use crate::c::parts;
use crate::explains::Explains;
use crate::indexes::{Indexes, Kept};
use crate::many::{Asking, Chosen, Many};
use crate::pages::{Number, Room, Side};
use crate::weeks::Weeks;
use ionex::ffi;
use second::index::Node;
use std::cell::{Cell, RefCell};
use std::slice::IterMut;

/// Rooms for the areas of one call; joining has most.
const ROOMS: usize = 25;

/// A planted fault: the call touches the number past one of its areas.
#[derive(Clone, Copy, Debug, PartialEq, Eq)]
pub struct Touch {
    pub area: usize,
    pub write: bool,
}

/// The linked library; a function that is not linked is answered by the second program.
pub struct Fenced {
    side: Cell<Side>,
    rooms: RefCell<Vec<Room>>,
    touch: Option<Touch>,
    /// Areas of the last call.
    areas: Cell<usize>,
}

impl Default for Fenced {
    fn default() -> Fenced {
        Fenced::from(Side::Behind, None)
    }
}

impl Fenced {
    /// The side of the first call; the other one is the next call's.
    pub fn from(side: Side, touch: Option<Touch>) -> Fenced {
        Fenced {
            side: Cell::new(side),
            rooms: RefCell::new((0..ROOMS).map(|_| Room::new(0)).collect()),
            touch,
            areas: Cell::new(0),
        }
    }

    /// How many areas the last call had; none where it was not the library's.
    pub fn areas(&self) -> usize {
        self.areas.get()
    }

    fn call(&self, call: impl FnOnce(&mut Desk) -> u64) -> u64 {
        let side = self.side.get();
        self.side.set(match side {
            Side::Before => Side::Behind,
            Side::Behind => Side::Before,
        });
        let mut rooms = self.rooms.borrow_mut();
        let mut desk = Desk {
            rooms: rooms.iter_mut(),
            side,
            touch: self.touch,
            areas: 0,
        };
        let answer = call(&mut desk);
        self.areas.set(desk.areas);
        answer
    }
}

/// Where the areas of a call are laid out.
struct Desk<'a> {
    rooms: IterMut<'a, Room>,
    side: Side,
    touch: Option<Touch>,
    areas: usize,
}

impl<'a> Desk<'a> {
    fn lay<T: Number>(&mut self, numbers: &[T]) -> &'a mut [T] {
        let room = self.rooms.next().expect("a room for each area");
        match self.touch {
            Some(touch) if touch.area == self.areas => room.touch_past::<T>(self.side, touch.write),
            _ => {}
        }
        self.areas += 1;
        let area = room.numbers(numbers.len(), self.side);
        area.copy_from_slice(numbers);
        area
    }

    fn set(&mut self, given: &Given) -> ffi::Given<'a> {
        let ffi::Given {
            header,
            texts,
            tec,
            rms,
            height,
            exponents,
            epochs,
            marks,
        } = parts::set(given);
        ffi::Given {
            header: self.lay(header),
            texts: self.lay(texts),
            tec: self.lay(tec),
            rms: self.lay(rms),
            height: self.lay(height),
            exponents: self.lay(exponents),
            epochs: self.lay(epochs),
            marks: self.lay(marks),
        }
    }

    fn index(&mut self, kept: &Kept) -> ffi::GivenIndex<'a> {
        let ffi::GivenIndex {
            header,
            texts,
            positions,
            exponents,
            marks,
        } = parts::index(kept);
        ffi::GivenIndex {
            header: self.lay(header),
            texts: self.lay(texts),
            positions: self.lay(positions),
            exponents: self.lay(exponents),
            marks: self.lay(marks),
        }
    }

    /// Areas to be filled, and the place.
    fn areas(&mut self, lent: &mut Lent, call: impl FnOnce(ffi::Lent, &mut [u64]) -> u64) -> u64 {
        let (areas, place) = parts::areas(lent);
        let laid = ffi::Lent {
            tec: self.lay(areas.tec),
            rms: self.lay(areas.rms),
            height: self.lay(areas.height),
            exponents: self.lay(areas.exponents),
            epochs: self.lay(areas.epochs),
            marks: self.lay(areas.marks),
            header: self.lay(areas.header),
            texts: self.lay(areas.texts),
        };
        let laid_place = self.lay(place);
        let again = ffi::Lent {
            tec: &mut *laid.tec,
            rms: &mut *laid.rms,
            height: &mut *laid.height,
            exponents: &mut *laid.exponents,
            epochs: &mut *laid.epochs,
            marks: &mut *laid.marks,
            header: &mut *laid.header,
            texts: &mut *laid.texts,
        };
        let answer = call(again, laid_place);
        areas.tec.copy_from_slice(laid.tec);
        areas.rms.copy_from_slice(laid.rms);
        areas.height.copy_from_slice(laid.height);
        areas.exponents.copy_from_slice(laid.exponents);
        areas.epochs.copy_from_slice(laid.epochs);
        areas.marks.copy_from_slice(laid.marks);
        areas.header.copy_from_slice(laid.header);
        areas.texts.copy_from_slice(laid.texts);
        place.copy_from_slice(laid_place);
        answer
    }

    /// One area to be filled.
    fn area<T: Number>(&mut self, lent: &mut [T], call: impl FnOnce(&mut [T]) -> u64) -> u64 {
        let laid = self.lay(lent);
        let answer = call(laid);
        lent.copy_from_slice(laid);
        answer
    }
}

fn kept<T: PartialEq>(laid: &[T], given: &[T]) {
    assert!(laid == given, "what is given was changed");
}

fn kept_set(laid: &ffi::Given, given: &Given) {
    let given = parts::set(given);
    kept(laid.header, given.header);
    kept(laid.texts, given.texts);
    kept(laid.tec, given.tec);
    kept(laid.rms, given.rms);
    kept(laid.height, given.height);
    kept(laid.exponents, given.exponents);
    kept(laid.epochs, given.epochs);
    kept(laid.marks, given.marks);
}

fn kept_index(laid: &ffi::GivenIndex, given: &Kept) {
    let given = parts::index(given);
    kept(laid.header, given.header);
    kept(laid.texts, given.texts);
    kept(laid.positions, given.positions);
    kept(laid.exponents, given.exponents);
    kept(laid.marks, given.marks);
}

impl Boundary for Fenced {
    fn read(&self, text: &[u8], lent: &mut Lent) -> u64 {
        linked!(
            "read",
            self.call(|desk| {
                let laid = desk.lay(text);
                let answer = desk.areas(lent, |areas, place| ffi::read(laid, areas, place));
                kept(laid, text);
                answer
            }),
            crate::boundary::Plain.read(text, lent)
        )
    }

    fn needs(&self, text: &[u8], needs: &mut [u64], place: &mut [u64]) -> u64 {
        linked!(
            "needs",
            self.call(|desk| {
                let laid = desk.lay(text);
                let at = desk.lay(place);
                let answer = desk.area(needs, |needs| ffi::needs(laid, needs, at));
                place.copy_from_slice(at);
                kept(laid, text);
                answer
            }),
            crate::boundary::Plain.needs(text, needs, place)
        )
    }

    fn write(&self, given: &Given, out: &mut [u8], count: &mut [u64]) -> u64 {
        linked!(
            "write",
            self.call(|desk| {
                let laid = desk.set(given);
                let counted = desk.lay(count);
                let answer = desk.area(out, |out| ffi::write(laid, out, counted));
                count.copy_from_slice(counted);
                kept_set(&laid, given);
                answer
            }),
            crate::boundary::Plain.write(given, out, count)
        )
    }

    fn ask(&self, given: &Given, asked: &Asked, value: &mut [i32]) -> u64 {
        linked!(
            "ask",
            self.call(|desk| {
                let laid = desk.set(given);
                let question = parts::question(asked);
                let answer = desk.area(value, |value| ffi::ask(laid, question, value));
                kept_set(&laid, given);
                answer
            }),
            crate::boundary::Plain.ask(given, asked, value)
        )
    }

    fn tecu_delay(&self, x: i32, carrier: f64, record: &mut [f64]) -> u64 {
        linked!(
            "tecu_delay",
            self.call(|desk| desk.area(record, |record| ffi::tecu_delay(x, carrier, record))),
            crate::boundary::Plain.tecu_delay(x, carrier, record)
        )
    }

    fn delay(&self, given: &Given, asked: &Asked, carrier: f64, record: &mut [f64]) -> u64 {
        linked!(
            "delay",
            self.call(|desk| {
                let laid = desk.set(given);
                let question = parts::question(asked);
                let answer =
                    desk.area(record, |record| ffi::delay(laid, question, carrier, record));
                kept_set(&laid, given);
                answer
            }),
            crate::boundary::Plain.delay(given, asked, carrier, record)
        )
    }

    fn join(&self, earlier: &Given, later: &Given, lent: &mut Lent) -> u64 {
        linked!(
            "join",
            self.call(|desk| {
                let (early, late) = (desk.set(earlier), desk.set(later));
                let answer = desk.areas(lent, |areas, place| ffi::join(early, late, areas, place));
                kept_set(&early, earlier);
                kept_set(&late, later);
                answer
            }),
            crate::boundary::Plain.join(earlier, later, lent)
        )
    }

    fn moved(&self, epoch: u64, by: i64, moved: &mut [u64]) -> u64 {
        linked!(
            "moved",
            self.call(|desk| desk.area(moved, |moved| ffi::moved(epoch, by, moved))),
            crate::boundary::Plain.moved(epoch, by, moved)
        )
    }
}

impl Many for Fenced {
    fn ask_all(
        &self,
        given: &Given,
        chosen: &Chosen,
        asking: &Asking,
        answers: &mut [u8],
        values: &mut [i32],
    ) -> u64 {
        linked!(
            "ask_all",
            self.call(|desk| {
                let laid = desk.set(given);
                let parts = parts::many(chosen, asking);
                let many = ffi::Many {
                    lats: desk.lay(parts.lats),
                    lons: desk.lay(parts.lons),
                    seconds: desk.lay(parts.seconds),
                    ..parts
                };
                let told = desk.lay(answers);
                let answer = desk.area(values, |values| ffi::ask_all(laid, many, told, values));
                answers.copy_from_slice(told);
                kept_set(&laid, given);
                kept(many.lats, &asking.lats);
                kept(many.lons, &asking.lons);
                kept(many.seconds, &asking.seconds);
                answer
            }),
            crate::boundary::Plain.ask_all(given, chosen, asking, answers, values)
        )
    }
}

impl Explains for Fenced {
    fn explain(&self, given: &Given, asked: &Asked, nodes: &mut [i64], lacking: &mut [u64]) -> u64 {
        linked!(
            "explain",
            self.call(|desk| {
                let laid = desk.set(given);
                let question = parts::question(asked);
                let named = desk.lay(lacking);
                let answer = desk.area(nodes, |nodes| ffi::explain(laid, question, nodes, named));
                lacking.copy_from_slice(named);
                kept_set(&laid, given);
                answer
            }),
            crate::boundary::Plain.explain(given, asked, nodes, lacking)
        )
    }
}

impl Weeks for Fenced {
    fn week_add(
        &self,
        week: &mut [i64],
        given: &Given,
        rows: &mut [i64],
        place: &mut [u64],
    ) -> u64 {
        linked!(
            "week_add",
            self.call(|desk| {
                let laid = desk.set(given);
                let (added, at) = (desk.lay(week), desk.lay(place));
                let answer = desk.area(rows, |rows| ffi::week_add(added, laid, rows, at));
                week.copy_from_slice(added);
                place.copy_from_slice(at);
                kept_set(&laid, given);
                answer
            }),
            crate::boundary::Plain.week_add(week, given, rows, place)
        )
    }
}

impl Indexes for Fenced {
    fn index(&self, text: &[u8], lent: &mut Kept, place: &mut [u64]) -> u64 {
        linked!(
            "index",
            self.call(|desk| {
                let laid = desk.lay(text);
                let entries = parts::entries(lent);
                let positions = desk.lay(entries.positions);
                let exponents = desk.lay(entries.exponents);
                let marks = desk.lay(entries.marks);
                let header = desk.lay(entries.header);
                let texts = desk.lay(entries.texts);
                let made = ffi::LentIndex {
                    positions: &mut *positions,
                    exponents: &mut *exponents,
                    marks: &mut *marks,
                    header: &mut *header,
                    texts: &mut *texts,
                };
                let answer = desk.area(place, |place| ffi::index(laid, made, place));
                entries.positions.copy_from_slice(positions);
                entries.exponents.copy_from_slice(exponents);
                entries.marks.copy_from_slice(marks);
                entries.header.copy_from_slice(header);
                entries.texts.copy_from_slice(texts);
                kept(laid, text);
                answer
            }),
            crate::boundary::Plain.index(text, lent, place)
        )
    }

    fn indexed_node(&self, text: &[u8], index: &Kept, node: &Node, found: &mut [i32]) -> u64 {
        linked!(
            "indexed_node",
            self.call(|desk| {
                let (laid, given) = (desk.lay(text), desk.index(index));
                let node = parts::node(node);
                let answer = desk.area(found, |found| ffi::indexed_node(laid, given, node, found));
                kept(laid, text);
                kept_index(&given, index);
                answer
            }),
            crate::boundary::Plain.indexed_node(text, index, node, found)
        )
    }

    fn indexed_block(&self, text: &[u8], index: &Kept, node: &Node, bounds: &mut [u64]) -> u64 {
        linked!(
            "indexed_block",
            self.call(|desk| {
                let (laid, given) = (desk.lay(text), desk.index(index));
                let node = parts::node(node);
                let answer = desk.area(bounds, |bounds| {
                    ffi::indexed_block(laid, given, node, bounds)
                });
                kept(laid, text);
                kept_index(&given, index);
                answer
            }),
            crate::boundary::Plain.indexed_block(text, index, node, bounds)
        )
    }
}

impl Biases for Fenced {
    fn biases(&self, text: &[u8], lent: &mut biases::Lent) -> u64 {
        linked!(
            "biases",
            self.call(|desk| {
                let laid = desk.lay(text);
                let (areas, place) = parts::biases(lent);
                let satellites = desk.lay(areas.satellites);
                let stations = desk.lay(areas.stations);
                let names = desk.lay(areas.names);
                let counts = desk.lay(areas.counts);
                let filled = ffi::LentBiases {
                    satellites: &mut *satellites,
                    stations: &mut *stations,
                    names: &mut *names,
                    counts: &mut *counts,
                };
                let answer = desk.area(place, |place| ffi::biases(laid, filled, place));
                areas.satellites.copy_from_slice(satellites);
                areas.stations.copy_from_slice(stations);
                areas.names.copy_from_slice(names);
                areas.counts.copy_from_slice(counts);
                kept(laid, text);
                answer
            }),
            crate::boundary::Plain.biases(text, lent)
        )
    }
}
