//! The library's C functions on a machine that does not run x86-64 code: a process under the emulator, made of bridge.c
//! and the archive, makes the calls. A function that is not linked (see Cargo.toml) is answered by the second program.

use crate::biases::{self, Biases};
use crate::boundary::{Asked, Boundary, Given, Lent, Plain};
use crate::explains::Explains;
use crate::indexes::{Indexes, Kept};
use crate::many::{Asking, Chosen, Many};
use crate::program;
use crate::weeks::Weeks;
use second::index::Node;
use std::cell::RefCell;
use std::io::{self, Read, Write};
use std::path::Path;
use std::process::{ChildStdin, ChildStdout, Stdio};

// The functions' numbers, and how many numbers and areas a call has room for: bridge.c has the same.
const READ: u64 = 0;
const WRITE: u64 = 1;
const ASK: u64 = 2;
const MOVED: u64 = 3;
const NEEDS: u64 = 4;
const TECU_DELAY: u64 = 5;
const DELAY: u64 = 6;
const JOIN: u64 = 7;
const WEEK_ADD: u64 = 8;
const INDEX: u64 = 9;
const INDEXED_NODE: u64 = 10;
const INDEXED_BLOCK: u64 = 11;
const BIASES: u64 = 12;
const EXPLAIN: u64 = 13;
const ASK_ALL: u64 = 14;
const NUMBERS: usize = 7;
const AREAS: usize = 25;

/// How many bytes at least stand behind each area that crosses, and their value; a call must leave them.
const GUARD: usize = 8;
const FILLER: u8 = b'#';

/// The library's archive.
pub struct Archive;

impl Boundary for Archive {
    fn read(&self, text: &[u8], lent: &mut Lent) -> u64 {
        if !cfg!(feature = "read") {
            return Plain.read(text, lent);
        }
        let mut call = Call::new(READ, &[]);
        call.give(text);
        call.lend_set(lent);
        call.answer()
    }

    fn needs(&self, text: &[u8], needs: &mut [u64], place: &mut [u64]) -> u64 {
        if !cfg!(feature = "needs") {
            return Plain.needs(text, needs, place);
        }
        let mut call = Call::new(NEEDS, &[]);
        call.give(text);
        call.lend(needs);
        call.lend(place);
        call.answer()
    }

    fn write(&self, given: &Given, out: &mut [u8], count: &mut [u64]) -> u64 {
        if !cfg!(feature = "write") {
            return Plain.write(given, out, count);
        }
        let mut call = Call::new(WRITE, &[]);
        call.give_set(given);
        call.lend(out);
        call.lend(count);
        call.answer()
    }

    fn ask(&self, given: &Given, asked: &Asked, value: &mut [i32]) -> u64 {
        if !cfg!(feature = "ask") {
            return Plain.ask(given, asked, value);
        }
        let mut call = Call::new(ASK, &numbers_of(asked));
        call.give_set(given);
        call.lend(value);
        call.answer()
    }

    fn tecu_delay(&self, x: i32, carrier: f64, record: &mut [f64]) -> u64 {
        if !cfg!(feature = "tecu_delay") {
            return Plain.tecu_delay(x, carrier, record);
        }
        let mut call = Call::new(TECU_DELAY, &[x as u64, carrier.to_bits()]);
        call.lend(record);
        call.answer()
    }

    fn delay(&self, given: &Given, asked: &Asked, carrier: f64, record: &mut [f64]) -> u64 {
        if !cfg!(feature = "delay") {
            return Plain.delay(given, asked, carrier, record);
        }
        let mut numbers = numbers_of(asked).to_vec();
        numbers.push(carrier.to_bits());
        let mut call = Call::new(DELAY, &numbers);
        call.give_set(given);
        call.lend(record);
        call.answer()
    }

    fn join(&self, earlier: &Given, later: &Given, lent: &mut Lent) -> u64 {
        if !cfg!(feature = "join") {
            return Plain.join(earlier, later, lent);
        }
        let mut call = Call::new(JOIN, &[]);
        call.give_set(earlier);
        call.give_set(later);
        call.lend_set(lent);
        call.answer()
    }

    fn moved(&self, epoch: u64, by: i64, moved: &mut [u64]) -> u64 {
        if !cfg!(feature = "moved") {
            return Plain.moved(epoch, by, moved);
        }
        let mut call = Call::new(MOVED, &[epoch, by as u64]);
        call.lend(moved);
        call.answer()
    }
}

impl Many for Archive {
    fn ask_all(
        &self,
        given: &Given,
        chosen: &Chosen,
        asking: &Asking,
        answers: &mut [u8],
        values: &mut [i32],
    ) -> u64 {
        if !cfg!(feature = "ask_all") {
            return Plain.ask_all(given, chosen, asking, answers, values);
        }
        let mut call = Call::new(ASK_ALL, &[chosen.kind, chosen.method, chosen.layer]);
        call.give_set(given);
        call.give(&asking.lats);
        call.give(&asking.lons);
        call.give(&asking.seconds);
        call.lend(answers);
        call.lend(values);
        call.answer()
    }
}

impl Explains for Archive {
    fn explain(&self, given: &Given, asked: &Asked, nodes: &mut [i64], lacking: &mut [u64]) -> u64 {
        if !cfg!(feature = "explain") {
            return Plain.explain(given, asked, nodes, lacking);
        }
        let mut call = Call::new(EXPLAIN, &numbers_of(asked));
        call.give_set(given);
        call.lend(nodes);
        call.lend(lacking);
        call.answer()
    }
}

impl Weeks for Archive {
    fn week_add(
        &self,
        week: &mut [i64],
        given: &Given,
        rows: &mut [i64],
        place: &mut [u64],
    ) -> u64 {
        if !cfg!(feature = "week_add") {
            return Plain.week_add(week, given, rows, place);
        }
        let mut call = Call::new(WEEK_ADD, &[]);
        call.give_set(given);
        call.lend(week);
        call.lend(rows);
        call.lend(place);
        call.answer()
    }
}

impl Indexes for Archive {
    fn index(&self, text: &[u8], lent: &mut Kept, place: &mut [u64]) -> u64 {
        if !cfg!(feature = "index") {
            return Plain.index(text, lent, place);
        }
        let mut call = Call::new(INDEX, &[]);
        call.give(text);
        call.lend(&mut lent.positions);
        call.lend(&mut lent.exponents);
        call.lend(&mut lent.marks);
        call.lend(&mut lent.header);
        call.lend(&mut lent.texts);
        call.lend(place);
        call.answer()
    }

    fn indexed_node(&self, text: &[u8], kept: &Kept, node: &Node, found: &mut [i32]) -> u64 {
        if !cfg!(feature = "indexed_node") {
            return Plain.indexed_node(text, kept, node, found);
        }
        let mut call = Call::new(INDEXED_NODE, &place_of(node));
        call.give(text);
        call.give_index(kept);
        call.lend(found);
        call.answer()
    }

    fn indexed_block(&self, text: &[u8], kept: &Kept, node: &Node, bounds: &mut [u64]) -> u64 {
        if !cfg!(feature = "indexed_block") {
            return Plain.indexed_block(text, kept, node, bounds);
        }
        let mut call = Call::new(INDEXED_BLOCK, &place_of(node));
        call.give(text);
        call.give_index(kept);
        call.lend(bounds);
        call.answer()
    }
}

impl Biases for Archive {
    fn biases(&self, text: &[u8], lent: &mut biases::Lent) -> u64 {
        if !cfg!(feature = "biases") {
            return Plain.biases(text, lent);
        }
        let mut call = Call::new(BIASES, &[]);
        call.give(text);
        call.lend(&mut lent.satellites);
        call.lend(&mut lent.stations);
        call.lend(&mut lent.names);
        call.lend(&mut lent.counts);
        call.lend(&mut lent.place);
        call.answer()
    }
}

fn place_of(node: &Node) -> [u64; 5] {
    [node.kind, node.map, node.layer, node.row, node.column]
}

fn numbers_of(asked: &Asked) -> [u64; 6] {
    let Asked {
        kind,
        method,
        layer,
        lat,
        lon,
        second,
    } = *asked;
    [kind, method, layer, lat as u64, lon as u64, second]
}

// ---- a call as bytes ----

/// The numbers of an area as the bytes that cross.
trait Number: Sized {
    fn put(area: &[Self], bytes: &mut Vec<u8>);
    fn fill(area: &mut [Self], bytes: &[u8]);
}

macro_rules! numbers {
    ($($number:ty)*) => {$(
        impl Number for $number {
            fn put(area: &[Self], bytes: &mut Vec<u8>) {
                bytes.extend(area.iter().flat_map(|number| number.to_le_bytes()));
            }

            fn fill(area: &mut [Self], bytes: &[u8]) {
                for (number, bytes) in area.iter_mut().zip(bytes.chunks_exact(size_of::<Self>())) {
                    *number = Self::from_le_bytes(bytes.try_into().expect("the number's size"));
                }
            }
        }
    )*};
}

numbers!(u8 i32 i64 u64 f64);

/// A call in the making: the `struct call` of bridge.c, and the areas behind it.
struct Call<'a> {
    function: u64,
    numbers: Vec<u64>,
    /// How many areas are only read; they come first.
    given: usize,
    /// Of each area the elements, and the bytes with the guard.
    sizes: Vec<[u64; 2]>,
    bytes: Vec<u8>,
    /// One for each area that is lent.
    lent: Vec<TakeBack<'a>>,
}

/// Puts an area, as the call left it, in the place of the one that was lent.
type TakeBack<'a> = Box<dyn FnMut(&[u8]) + 'a>;

impl<'a> Call<'a> {
    fn new(function: u64, numbers: &[u64]) -> Call<'a> {
        Call {
            function,
            numbers: numbers.to_vec(),
            given: 0,
            sizes: Vec::new(),
            bytes: Vec::new(),
            lent: Vec::new(),
        }
    }

    fn add<T: Number>(&mut self, area: &[T]) {
        let start = self.bytes.len();
        T::put(area, &mut self.bytes);
        // Each area starts at a multiple of 8.
        let end = self.bytes.len().next_multiple_of(8) + GUARD;
        self.bytes.resize(end, FILLER);
        self.sizes.push([area.len() as u64, (end - start) as u64]);
    }

    fn give<T: Number>(&mut self, area: &[T]) {
        self.add(area);
        self.given += 1;
    }

    fn give_set(&mut self, given: &Given) {
        self.give(&given.header);
        self.give(&given.texts);
        self.give(&given.areas.tec);
        self.give(&given.areas.rms);
        self.give(&given.areas.height);
        self.give(&given.areas.exponents);
        self.give(&given.areas.epochs);
        self.give(&given.areas.marks);
    }

    fn give_index(&mut self, kept: &Kept) {
        self.give(&kept.header);
        self.give(&kept.texts);
        self.give(&kept.positions);
        self.give(&kept.exponents);
        self.give(&kept.marks);
    }

    fn lend<T: Number>(&mut self, area: &'a mut [T]) {
        self.add(area);
        self.lent.push(Box::new(move |bytes| {
            let (numbers, guard) = bytes.split_at(size_of_val(area));
            let kept = guard.iter().all(|&byte| byte == FILLER);
            assert!(kept, "a call wrote behind an area");
            T::fill(area, numbers);
        }));
    }

    fn lend_set(&mut self, lent: &'a mut Lent) {
        self.lend(&mut lent.areas.tec);
        self.lend(&mut lent.areas.rms);
        self.lend(&mut lent.areas.height);
        self.lend(&mut lent.areas.exponents);
        self.lend(&mut lent.areas.epochs);
        self.lend(&mut lent.areas.marks);
        self.lend(&mut lent.header);
        self.lend(&mut lent.texts);
        self.lend(&mut lent.place);
    }

    fn message(&self) -> Vec<u8> {
        let mut words = vec![self.function];
        words.extend(&self.numbers);
        words.resize(1 + NUMBERS, 0);
        words.push(self.given as u64);
        words.extend(self.sizes.as_flattened());
        words.resize(1 + NUMBERS + 1 + 2 * AREAS, 0);
        let mut message = Vec::new();
        u64::put(&words, &mut message);
        message.extend(&self.bytes);
        message
    }

    /// Makes the call; the areas that were lent are then as it left them.
    fn answer(mut self) -> u64 {
        let sizes = &self.sizes[self.given..];
        let lent: u64 = sizes.iter().map(|[_, bytes]| bytes).sum();
        let mut back = vec![0; 8 + lent as usize];
        BRIDGE
            .with_borrow_mut(|bridge| bridge.cross(&self.message(), &mut back))
            .expect("an answer of the bridge");
        let (answer, mut areas) = back.split_first_chunk().expect("8 bytes");
        for (take_back, [_, bytes]) in self.lent.iter_mut().zip(sizes) {
            let (area, rest) = areas.split_at(*bytes as usize);
            take_back(area);
            areas = rest;
        }
        u64::from_le_bytes(*answer)
    }
}

// ---- the process ----

thread_local! {
    static BRIDGE: RefCell<Bridge> = RefCell::new(Bridge::start().expect("the bridge starts"));
}

/// The process; it ends when its input does.
struct Bridge {
    input: ChildStdin,
    output: ChildStdout,
}

impl Bridge {
    fn start() -> io::Result<Bridge> {
        // build.rs makes it where a function is linked.
        let file = option_env!("IONEX_BRIDGE").ok_or(io::ErrorKind::NotFound)?;
        let mut child = program::command(Path::new(file))
            .stdin(Stdio::piped())
            .stdout(Stdio::piped())
            .spawn()?;
        Ok(Bridge {
            input: child.stdin.take().expect("a pipe"),
            output: child.stdout.take().expect("a pipe"),
        })
    }

    fn cross(&mut self, call: &[u8], back: &mut [u8]) -> io::Result<()> {
        self.input.write_all(call)?;
        self.output.read_exact(back)
    }
}
