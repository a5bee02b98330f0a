//! A map of values with its graticule, scale and titles.

use super::axes::{extent, latitude, longitude, Side};
use super::coast;
use super::picture::{Anchor, Fill, Picture, Size, BLACK, GREY};
use super::raster;
use super::scale::{shade_colour, Range, Scale, SHADES};
use crate::numbers::share;
use ionex::Axis;

/// What is drawn: a value in thousandths, or none, for each node, row by row.
pub struct Field<'a> {
    pub latitudes: &'a Axis,
    pub longitudes: &'a Axis,
    pub values: Vec<Option<i32>>,
    pub unit: &'a str,
    pub title: String,
    pub range: Range,
    /// Whether the coasts are drawn.
    pub coasts: bool,
    /// The lines below the title.
    pub notes: Vec<String>,
    /// The DESCRIPTION lines, below the map.
    pub descriptions: Vec<String>,
}

/// The map is not larger than this, and not smaller, so that words find room.
const WIDEST: i64 = 960;
const HIGHEST: i64 = 600;
const LEAST_WIDTH: i64 = 240;
const LEAST_HEIGHT: i64 = 160;
/// The title needs so much.
const LEAST_PICTURE: i32 = 960;

/// Room around the map for the names of lines, the titles, the scale and the legend.
const LEFT: i32 = 90;
const TOP: i32 = 76;
const NOTE: i32 = 24;
const RIGHT: i32 = 190;
const BOTTOM: i32 = 84;
/// The scale beside the map.
const GAP: i32 = 34;
const BAR: i32 = 26;

struct Chart {
    across: Side,
    along: Side,
    scale: Scale,
}

pub fn draw(field: &Field) -> Picture {
    let chart = layout(field);
    let mut picture = Picture {
        width: (LEFT + chart.across.pixels + RIGHT).max(LEAST_PICTURE),
        height: below(&chart) + BOTTOM + lines(field.descriptions.len()),
        title: field.title.clone(),
        shapes: Vec::new(),
    };
    titles(&mut picture, field);
    cells(&mut picture, field, &chart);
    if field.coasts {
        coast::draw(&mut picture, &chart.across, &chart.along);
    }
    graticule(&mut picture, &chart);
    bar(&mut picture, field.unit, &chart);
    legend(&mut picture, field, &chart);
    descriptions(&mut picture, field, &chart);
    picture
}

/// Where the map ends.
fn below(chart: &Chart) -> i32 {
    chart.along.start + chart.along.pixels
}

/// How much so many lines of words take.
fn lines(count: usize) -> i32 {
    NOTE * count as i32
}

fn layout(field: &Field) -> Chart {
    let (west, east) = extent(field.longitudes, None);
    let (south, north) = extent(field.latitudes, Some((-9000, 9000)));
    let (wide, high) = ((east - west).max(1), (north - south).max(1));
    // The same scale both ways, as large as there is room for.
    let width = WIDEST.min(HIGHEST * wide / high).max(LEAST_WIDTH);
    let height = HIGHEST.min(WIDEST * high / wide).max(LEAST_HEIGHT);
    Chart {
        across: Side {
            low: west,
            high: east,
            start: LEFT,
            pixels: width as i32,
        },
        along: Side {
            low: south,
            high: north,
            start: TOP + lines(field.notes.len()),
            pixels: height as i32,
        },
        scale: field.range.scale(&field.values, height / 60),
    }
}

fn titles(picture: &mut Picture, field: &Field) {
    picture.words(LEFT, 44, field.title.clone(), Size::Title, Anchor::Start);
    let room = picture.width - LEFT - 20;
    for (line, note) in (0..).zip(&field.notes) {
        let y = TOP + NOTE * line;
        picture.words(LEFT, y, shortened(note, room), Size::Body, Anchor::Start);
    }
}

/// Words cut to the room there is.
fn shortened(words: &str, room: i32) -> String {
    let mut words = words.to_string();
    if raster::width(&words, Size::Body) <= room {
        return words;
    }
    while raster::width(&words, Size::Body) > room - 36 && words.pop().is_some() {}
    words + "..."
}

/// One area for neighbours of one colour in a row.
fn cells(picture: &mut Picture, field: &Field, chart: &Chart) {
    let columns = field.longitudes.nodes().max(1);
    for (row, values) in field.values.chunks(columns).enumerate() {
        let (top, bottom) = cell(field.latitudes, row, |place| chart.along.y(place));
        let shades: Vec<Option<i64>> = values
            .iter()
            .map(|value| value.map(|value| chart.scale.shade(i64::from(value))))
            .collect();
        let mut first = 0;
        for run in shades.chunk_by(|one, other| one == other) {
            let last = first + run.len() - 1;
            let (left, _) = cell(field.longitudes, first, |place| chart.across.x(place));
            let (_, right) = cell(field.longitudes, last, |place| chart.across.x(place));
            let fill = run[0].map_or(Fill::Striped, |shade| Fill::Plain(shade_colour(shade)));
            picture.area(left, top, right - left, bottom - top, fill);
            first = last + 1;
        }
    }
}

/// The two ends of a node's cell in pixels, half a step to each side.
fn cell(axis: &Axis, node: usize, pixel: impl Fn(i64) -> i32) -> (i32, i32) {
    let middle = 10 * axis.at(node).unwrap_or(axis.first);
    let half = 5 * axis.step.abs();
    let ends = [pixel(middle - half), pixel(middle + half)];
    (ends[0].min(ends[1]), ends[0].max(ends[1]))
}

fn graticule(picture: &mut Picture, chart: &Chart) {
    let (left, width) = (chart.across.start, chart.across.pixels);
    let (top, height) = (chart.along.start, chart.along.pixels);
    for line in chart.across.lines(70) {
        let x = chart.across.x(10 * line);
        picture.down(x.min(left + width - 1), top, height, GREY);
        picture.down(x, top + height, 7, BLACK);
        picture.words(
            x,
            top + height + 26,
            longitude(line),
            Size::Body,
            Anchor::Middle,
        );
    }
    for line in chart.along.lines(40) {
        let y = chart.along.y(10 * line);
        picture.across(left, y.min(top + height - 1), width, GREY);
        picture.across(left - 7, y, 7, BLACK);
        picture.words(left - 12, y + 6, latitude(line), Size::Body, Anchor::End);
    }
    picture.frame(left, top, width, height);
}

/// The colour scale, its smallest value below, with ticks and its unit.
fn bar(picture: &mut Picture, unit: &str, chart: &Chart) {
    let left = chart.across.start + chart.across.pixels + GAP;
    let (top, height) = (chart.along.start, chart.along.pixels);
    let level = |part: i64, whole: i64| top + height - (part * i64::from(height) / whole) as i32;
    for shade in 0..SHADES {
        let (above, below) = (level(shade + 1, SHADES), level(shade, SHADES));
        picture.area(
            left,
            above,
            BAR,
            below - above,
            Fill::Plain(shade_colour(shade)),
        );
    }
    picture.frame(left, top, BAR, height);
    let scale = &chart.scale;
    for tick in scale.ticks() {
        let y = level(tick - scale.low, scale.high - scale.low);
        picture.across(left + BAR, y, 7, BLACK);
        picture.words(
            left + BAR + 13,
            y + 6,
            scale.label(tick),
            Size::Body,
            Anchor::Start,
        );
    }
    picture.words(left, top - 12, unit.to_string(), Size::Body, Anchor::Start);
}

/// What the stripes mean, where there are any.
fn legend(picture: &mut Picture, field: &Field, chart: &Chart) {
    let (all, without) = (
        field.values.len(),
        field.values.iter().filter(|value| value.is_none()).count(),
    );
    if without == 0 {
        return;
    }
    let y = below(chart) + 48;
    picture.area(LEFT, y, 36, 18, Fill::Striped);
    picture.frame(LEFT, y, 36, 18);
    let words = format!(
        "no value: {without} of {all} nodes ({} %)",
        share(without, all)
    );
    picture.words(LEFT + 48, y + 15, words, Size::Body, Anchor::Start);
}

/// The file's own words, column by column as they stand; a blank line leaves its room.
fn descriptions(picture: &mut Picture, field: &Field, chart: &Chart) {
    let first = below(chart) + BOTTOM + 12;
    for (line, words) in field.descriptions.iter().enumerate() {
        if !words.is_empty() {
            let y = first + lines(line);
            picture.words(LEFT, y, words.clone(), Size::Columns, Anchor::Start);
        }
    }
}
