//! The library's C functions (include/ionex.h) as safe functions over slices: all of the unsafe code. Each answers with 0,
//! a refusal's number, or 101 to 103, and any lengths may be given.

// As include/ionex.h declares them.
#[rustfmt::skip]
extern "C" {
    fn ionex_read(
        text: *const u8, text_len: usize,
        tec: *mut i32, tec_len: usize, rms: *mut i32, rms_len: usize, height: *mut i32, height_len: usize,
        exponents: *mut i32, exponents_len: usize, epochs: *mut u64, epochs_len: usize,
        marks: *mut u8, marks_len: usize,
        header: *mut i64, header_len: usize, texts: *mut u8, texts_len: usize, place: *mut u64, place_len: usize,
    ) -> u64;

    fn ionex_needs(
        text: *const u8, text_len: usize, needs: *mut u64, needs_len: usize, place: *mut u64, place_len: usize,
    ) -> u64;

    fn ionex_write(
        header: *const i64, header_len: usize, texts: *const u8, texts_len: usize,
        tec: *const i32, tec_len: usize, rms: *const i32, rms_len: usize, height: *const i32, height_len: usize,
        exponents: *const i32, exponents_len: usize, epochs: *const u64, epochs_len: usize,
        marks: *const u8, marks_len: usize,
        out: *mut u8, out_len: usize, count: *mut u64, count_len: usize,
    ) -> u64;

    fn ionex_ask(
        header: *const i64, header_len: usize, texts: *const u8, texts_len: usize,
        tec: *const i32, tec_len: usize, rms: *const i32, rms_len: usize, height: *const i32, height_len: usize,
        exponents: *const i32, exponents_len: usize, epochs: *const u64, epochs_len: usize,
        marks: *const u8, marks_len: usize,
        kind: u64, method: u64, layer: u64, lat: i32, lon: i32, second: u64,
        value: *mut i32, value_len: usize,
    ) -> u64;

    fn ionex_ask_all(
        header: *const i64, header_len: usize, texts: *const u8, texts_len: usize,
        tec: *const i32, tec_len: usize, rms: *const i32, rms_len: usize, height: *const i32, height_len: usize,
        exponents: *const i32, exponents_len: usize, epochs: *const u64, epochs_len: usize,
        marks: *const u8, marks_len: usize,
        kind: u64, method: u64, layer: u64,
        lats: *const i32, lats_len: usize, lons: *const i32, lons_len: usize, seconds: *const u64, seconds_len: usize,
        answers: *mut u8, answers_len: usize, values: *mut i32, values_len: usize,
    ) -> u64;

    fn ionex_explain(
        header: *const i64, header_len: usize, texts: *const u8, texts_len: usize,
        tec: *const i32, tec_len: usize, rms: *const i32, rms_len: usize, height: *const i32, height_len: usize,
        exponents: *const i32, exponents_len: usize, epochs: *const u64, epochs_len: usize,
        marks: *const u8, marks_len: usize,
        kind: u64, method: u64, layer: u64, lat: i32, lon: i32, second: u64,
        nodes: *mut i64, nodes_len: usize, lacking: *mut u64, lacking_len: usize,
    ) -> u64;

    fn ionex_moved(epoch: u64, by: i64, moved: *mut u64, moved_len: usize) -> u64;
    fn ionex_version() -> u64;
}

/// The six areas, the header's numbers and its texts, to be filled.
pub struct Lent<'a> {
    pub tec: &'a mut [i32],
    pub rms: &'a mut [i32],
    pub height: &'a mut [i32],
    pub exponents: &'a mut [i32],
    pub epochs: &'a mut [u64],
    pub marks: &'a mut [u8],
    pub header: &'a mut [i64],
    pub texts: &'a mut [u8],
}

/// A map set as it is given to a call.
#[derive(Clone, Copy)]
pub struct Given<'a> {
    pub header: &'a [i64],
    pub texts: &'a [u8],
    pub tec: &'a [i32],
    pub rms: &'a [i32],
    pub height: &'a [i32],
    pub exponents: &'a [i32],
    pub epochs: &'a [u64],
    pub marks: &'a [u8],
}

/// A question as it is given to a call.
#[derive(Clone, Copy)]
pub struct Asked {
    pub kind: u64,
    pub method: u64,
    pub layer: u64,
    pub lat: i32,
    pub lon: i32,
    pub second: u64,
}

/// Many questions as they are given to a call.
#[derive(Clone, Copy)]
pub struct Many<'a> {
    pub kind: u64,
    pub method: u64,
    pub layer: u64,
    pub lats: &'a [i32],
    pub lons: &'a [i32],
    pub seconds: &'a [u64],
}

// Sound: each pointer is a slice's own, so it is valid, aligned and not null for length 0 too, and the length beside it is
// that slice's; a slice that is written is borrowed alone, so it overlaps no other and no thread else has it.

/// `ionex_read`.
#[rustfmt::skip]
pub fn read(text: &[u8], lent: Lent, place: &mut [u64]) -> u64 {
    let Lent { tec, rms, height, exponents, epochs, marks, header, texts } = lent;
    unsafe {
        ionex_read(
            text.as_ptr(), text.len(),
            tec.as_mut_ptr(), tec.len(), rms.as_mut_ptr(), rms.len(), height.as_mut_ptr(), height.len(),
            exponents.as_mut_ptr(), exponents.len(), epochs.as_mut_ptr(), epochs.len(),
            marks.as_mut_ptr(), marks.len(),
            header.as_mut_ptr(), header.len(), texts.as_mut_ptr(), texts.len(), place.as_mut_ptr(), place.len(),
        )
    }
}

/// `ionex_needs`.
#[rustfmt::skip]
pub fn needs(text: &[u8], needs: &mut [u64], place: &mut [u64]) -> u64 {
    unsafe {
        ionex_needs(text.as_ptr(), text.len(), needs.as_mut_ptr(), needs.len(), place.as_mut_ptr(), place.len())
    }
}

/// `ionex_write`.
#[rustfmt::skip]
pub fn write(given: Given, out: &mut [u8], count: &mut [u64]) -> u64 {
    let Given { header, texts, tec, rms, height, exponents, epochs, marks } = given;
    unsafe {
        ionex_write(
            header.as_ptr(), header.len(), texts.as_ptr(), texts.len(),
            tec.as_ptr(), tec.len(), rms.as_ptr(), rms.len(), height.as_ptr(), height.len(),
            exponents.as_ptr(), exponents.len(), epochs.as_ptr(), epochs.len(), marks.as_ptr(), marks.len(),
            out.as_mut_ptr(), out.len(), count.as_mut_ptr(), count.len(),
        )
    }
}

/// `ionex_ask`.
#[rustfmt::skip]
pub fn ask(given: Given, asked: Asked, value: &mut [i32]) -> u64 {
    let Given { header, texts, tec, rms, height, exponents, epochs, marks } = given;
    let Asked { kind, method, layer, lat, lon, second } = asked;
    unsafe {
        ionex_ask(
            header.as_ptr(), header.len(), texts.as_ptr(), texts.len(),
            tec.as_ptr(), tec.len(), rms.as_ptr(), rms.len(), height.as_ptr(), height.len(),
            exponents.as_ptr(), exponents.len(), epochs.as_ptr(), epochs.len(), marks.as_ptr(), marks.len(),
            kind, method, layer, lat, lon, second,
            value.as_mut_ptr(), value.len(),
        )
    }
}

/// `ionex_ask_all`.
#[rustfmt::skip]
pub fn ask_all(given: Given, many: Many, answers: &mut [u8], values: &mut [i32]) -> u64 {
    let Given { header, texts, tec, rms, height, exponents, epochs, marks } = given;
    let Many { kind, method, layer, lats, lons, seconds } = many;
    unsafe {
        ionex_ask_all(
            header.as_ptr(), header.len(), texts.as_ptr(), texts.len(),
            tec.as_ptr(), tec.len(), rms.as_ptr(), rms.len(), height.as_ptr(), height.len(),
            exponents.as_ptr(), exponents.len(), epochs.as_ptr(), epochs.len(), marks.as_ptr(), marks.len(),
            kind, method, layer,
            lats.as_ptr(), lats.len(), lons.as_ptr(), lons.len(), seconds.as_ptr(), seconds.len(),
            answers.as_mut_ptr(), answers.len(), values.as_mut_ptr(), values.len(),
        )
    }
}

/// `ionex_explain`.
#[rustfmt::skip]
pub fn explain(given: Given, asked: Asked, nodes: &mut [i64], lacking: &mut [u64]) -> u64 {
    let Given { header, texts, tec, rms, height, exponents, epochs, marks } = given;
    let Asked { kind, method, layer, lat, lon, second } = asked;
    unsafe {
        ionex_explain(
            header.as_ptr(), header.len(), texts.as_ptr(), texts.len(),
            tec.as_ptr(), tec.len(), rms.as_ptr(), rms.len(), height.as_ptr(), height.len(),
            exponents.as_ptr(), exponents.len(), epochs.as_ptr(), epochs.len(), marks.as_ptr(), marks.len(),
            kind, method, layer, lat, lon, second,
            nodes.as_mut_ptr(), nodes.len(), lacking.as_mut_ptr(), lacking.len(),
        )
    }
}

/// `ionex_version`.
pub fn version() -> u64 {
    unsafe { ionex_version() }
}

/// `ionex_moved`.
pub fn moved(epoch: u64, by: i64, moved: &mut [u64]) -> u64 {
    unsafe { ionex_moved(epoch, by, moved.as_mut_ptr(), moved.len()) }
}

#[rustfmt::skip]
extern "C" {
    fn ionex_tecu_delay(x: i32, carrier: f64, record: *mut f64, record_len: usize) -> u64;

    fn ionex_delay(
        header: *const i64, header_len: usize, texts: *const u8, texts_len: usize,
        tec: *const i32, tec_len: usize, rms: *const i32, rms_len: usize, height: *const i32, height_len: usize,
        exponents: *const i32, exponents_len: usize, epochs: *const u64, epochs_len: usize,
        marks: *const u8, marks_len: usize,
        kind: u64, method: u64, layer: u64, lat: i32, lon: i32, second: u64, carrier: f64,
        record: *mut f64, record_len: usize,
    ) -> u64;
}

/// `ionex_tecu_delay`.
pub fn tecu_delay(x: i32, carrier: f64, record: &mut [f64]) -> u64 {
    unsafe { ionex_tecu_delay(x, carrier, record.as_mut_ptr(), record.len()) }
}

/// `ionex_delay`.
#[rustfmt::skip]
pub fn delay(given: Given, asked: Asked, carrier: f64, record: &mut [f64]) -> u64 {
    let Given { header, texts, tec, rms, height, exponents, epochs, marks } = given;
    let Asked { kind, method, layer, lat, lon, second } = asked;
    unsafe {
        ionex_delay(
            header.as_ptr(), header.len(), texts.as_ptr(), texts.len(),
            tec.as_ptr(), tec.len(), rms.as_ptr(), rms.len(), height.as_ptr(), height.len(),
            exponents.as_ptr(), exponents.len(), epochs.as_ptr(), epochs.len(), marks.as_ptr(), marks.len(),
            kind, method, layer, lat, lon, second, carrier,
            record.as_mut_ptr(), record.len(),
        )
    }
}

#[rustfmt::skip]
extern "C" {
    fn ionex_join(
        early_header: *const i64, early_header_len: usize, early_texts: *const u8, early_texts_len: usize,
        early_tec: *const i32, early_tec_len: usize, early_rms: *const i32, early_rms_len: usize,
        early_height: *const i32, early_height_len: usize, early_exponents: *const i32, early_exponents_len: usize,
        early_epochs: *const u64, early_epochs_len: usize, early_marks: *const u8, early_marks_len: usize,
        late_header: *const i64, late_header_len: usize, late_texts: *const u8, late_texts_len: usize,
        late_tec: *const i32, late_tec_len: usize, late_rms: *const i32, late_rms_len: usize,
        late_height: *const i32, late_height_len: usize, late_exponents: *const i32, late_exponents_len: usize,
        late_epochs: *const u64, late_epochs_len: usize, late_marks: *const u8, late_marks_len: usize,
        tec: *mut i32, tec_len: usize, rms: *mut i32, rms_len: usize, height: *mut i32, height_len: usize,
        exponents: *mut i32, exponents_len: usize, epochs: *mut u64, epochs_len: usize,
        marks: *mut u8, marks_len: usize,
        header: *mut i64, header_len: usize, texts: *mut u8, texts_len: usize, place: *mut u64, place_len: usize,
    ) -> u64;
}

/// `ionex_join`.
#[rustfmt::skip]
pub fn join(early: Given, late: Given, lent: Lent, place: &mut [u64]) -> u64 {
    let Lent { tec, rms, height, exponents, epochs, marks, header, texts } = lent;
    unsafe {
        ionex_join(
            early.header.as_ptr(), early.header.len(), early.texts.as_ptr(), early.texts.len(),
            early.tec.as_ptr(), early.tec.len(), early.rms.as_ptr(), early.rms.len(),
            early.height.as_ptr(), early.height.len(), early.exponents.as_ptr(), early.exponents.len(),
            early.epochs.as_ptr(), early.epochs.len(), early.marks.as_ptr(), early.marks.len(),
            late.header.as_ptr(), late.header.len(), late.texts.as_ptr(), late.texts.len(),
            late.tec.as_ptr(), late.tec.len(), late.rms.as_ptr(), late.rms.len(),
            late.height.as_ptr(), late.height.len(), late.exponents.as_ptr(), late.exponents.len(),
            late.epochs.as_ptr(), late.epochs.len(), late.marks.as_ptr(), late.marks.len(),
            tec.as_mut_ptr(), tec.len(), rms.as_mut_ptr(), rms.len(), height.as_mut_ptr(), height.len(),
            exponents.as_mut_ptr(), exponents.len(), epochs.as_mut_ptr(), epochs.len(),
            marks.as_mut_ptr(), marks.len(),
            header.as_mut_ptr(), header.len(), texts.as_mut_ptr(), texts.len(), place.as_mut_ptr(), place.len(),
        )
    }
}

#[rustfmt::skip]
extern "C" {
    fn ionex_week_add(
        week: *mut i64, week_len: usize,
        header: *const i64, header_len: usize, texts: *const u8, texts_len: usize,
        tec: *const i32, tec_len: usize, rms: *const i32, rms_len: usize, height: *const i32, height_len: usize,
        exponents: *const i32, exponents_len: usize, epochs: *const u64, epochs_len: usize,
        marks: *const u8, marks_len: usize,
        rows: *mut i64, rows_len: usize, place: *mut u64, place_len: usize,
    ) -> u64;
}

/// `ionex_week_add`.
#[rustfmt::skip]
pub fn week_add(week: &mut [i64], given: Given, rows: &mut [i64], place: &mut [u64]) -> u64 {
    let Given { header, texts, tec, rms, height, exponents, epochs, marks } = given;
    unsafe {
        ionex_week_add(
            week.as_mut_ptr(), week.len(),
            header.as_ptr(), header.len(), texts.as_ptr(), texts.len(),
            tec.as_ptr(), tec.len(), rms.as_ptr(), rms.len(), height.as_ptr(), height.len(),
            exponents.as_ptr(), exponents.len(), epochs.as_ptr(), epochs.len(), marks.as_ptr(), marks.len(),
            rows.as_mut_ptr(), rows.len(), place.as_mut_ptr(), place.len(),
        )
    }
}

/// An index to be filled: its three areas, the header's numbers and its texts.
pub struct LentIndex<'a> {
    pub positions: &'a mut [u64],
    pub exponents: &'a mut [i32],
    pub marks: &'a mut [u8],
    pub header: &'a mut [i64],
    pub texts: &'a mut [u8],
}

/// An index as it is given to a call.
#[derive(Clone, Copy)]
pub struct GivenIndex<'a> {
    pub header: &'a [i64],
    pub texts: &'a [u8],
    pub positions: &'a [u64],
    pub exponents: &'a [i32],
    pub marks: &'a [u8],
}

/// A node as it is given to a call.
#[derive(Clone, Copy)]
pub struct Node {
    pub kind: u64,
    pub map: u64,
    pub layer: u64,
    pub row: u64,
    pub column: u64,
}

#[rustfmt::skip]
extern "C" {
    fn ionex_index(
        text: *const u8, text_len: usize,
        positions: *mut u64, positions_len: usize, exponents: *mut i32, exponents_len: usize,
        marks: *mut u8, marks_len: usize,
        header: *mut i64, header_len: usize, texts: *mut u8, texts_len: usize, place: *mut u64, place_len: usize,
    ) -> u64;

    fn ionex_indexed_node(
        text: *const u8, text_len: usize, header: *const i64, header_len: usize, texts: *const u8, texts_len: usize,
        positions: *const u64, positions_len: usize, exponents: *const i32, exponents_len: usize,
        marks: *const u8, marks_len: usize,
        kind: u64, map: u64, layer: u64, row: u64, column: u64,
        value: *mut i32, value_len: usize,
    ) -> u64;

    fn ionex_indexed_block(
        text: *const u8, text_len: usize, header: *const i64, header_len: usize, texts: *const u8, texts_len: usize,
        positions: *const u64, positions_len: usize, exponents: *const i32, exponents_len: usize,
        marks: *const u8, marks_len: usize,
        kind: u64, map: u64, layer: u64, row: u64, column: u64,
        bounds: *mut u64, bounds_len: usize,
    ) -> u64;
}

/// `ionex_index`.
#[rustfmt::skip]
pub fn index(text: &[u8], lent: LentIndex, place: &mut [u64]) -> u64 {
    let LentIndex { positions, exponents, marks, header, texts } = lent;
    unsafe {
        ionex_index(
            text.as_ptr(), text.len(),
            positions.as_mut_ptr(), positions.len(), exponents.as_mut_ptr(), exponents.len(),
            marks.as_mut_ptr(), marks.len(),
            header.as_mut_ptr(), header.len(), texts.as_mut_ptr(), texts.len(), place.as_mut_ptr(), place.len(),
        )
    }
}

/// `ionex_indexed_node`.
#[rustfmt::skip]
pub fn indexed_node(text: &[u8], given: GivenIndex, node: Node, value: &mut [i32]) -> u64 {
    let GivenIndex { header, texts, positions, exponents, marks } = given;
    let Node { kind, map, layer, row, column } = node;
    unsafe {
        ionex_indexed_node(
            text.as_ptr(), text.len(), header.as_ptr(), header.len(), texts.as_ptr(), texts.len(),
            positions.as_ptr(), positions.len(), exponents.as_ptr(), exponents.len(), marks.as_ptr(), marks.len(),
            kind, map, layer, row, column,
            value.as_mut_ptr(), value.len(),
        )
    }
}

/// `ionex_indexed_block`.
#[rustfmt::skip]
pub fn indexed_block(text: &[u8], given: GivenIndex, node: Node, bounds: &mut [u64]) -> u64 {
    let GivenIndex { header, texts, positions, exponents, marks } = given;
    let Node { kind, map, layer, row, column } = node;
    unsafe {
        ionex_indexed_block(
            text.as_ptr(), text.len(), header.as_ptr(), header.len(), texts.as_ptr(), texts.len(),
            positions.as_ptr(), positions.len(), exponents.as_ptr(), exponents.len(), marks.as_ptr(), marks.len(),
            kind, map, layer, row, column,
            bounds.as_mut_ptr(), bounds.len(),
        )
    }
}

/// Biases to be filled: three areas, and how many satellites and stations there are.
pub struct LentBiases<'a> {
    pub satellites: &'a mut [i32],
    pub stations: &'a mut [i32],
    pub names: &'a mut [u8],
    pub counts: &'a mut [u64],
}

#[rustfmt::skip]
extern "C" {
    fn ionex_biases(
        text: *const u8, text_len: usize,
        satellites: *mut i32, satellites_len: usize, stations: *mut i32, stations_len: usize,
        names: *mut u8, names_len: usize,
        counts: *mut u64, counts_len: usize, place: *mut u64, place_len: usize,
    ) -> u64;
}

/// `ionex_biases`.
#[rustfmt::skip]
pub fn biases(text: &[u8], lent: LentBiases, place: &mut [u64]) -> u64 {
    let LentBiases { satellites, stations, names, counts } = lent;
    unsafe {
        ionex_biases(
            text.as_ptr(), text.len(),
            satellites.as_mut_ptr(), satellites.len(), stations.as_mut_ptr(), stations.len(),
            names.as_mut_ptr(), names.len(),
            counts.as_mut_ptr(), counts.len(), place.as_mut_ptr(), place.len(),
        )
    }
}
