//! A picture as SVG.

use super::picture::{Anchor, Fill, Picture, Shape, Size, BARE, STRIPE, STRIPES};
use std::fmt::Write;

/// How long a map of several is shown, in seconds.
const SHOWN: f64 = 0.6;

pub fn svg(picture: &Picture) -> String {
    let mut out = opening(picture);
    put_all(&mut out, picture);
    out.push_str("</svg>\n");
    out
}

/// Pictures of one size, each shown for its time, again and again. Where nothing moves, the first alone is shown.
pub fn animated(pictures: &[Picture]) -> String {
    let mut out = pictures.first().map_or(String::new(), opening);
    for (number, picture) in pictures.iter().enumerate() {
        let display = if number == 0 { "inline" } else { "none" };
        let _ = write!(
            out,
            "<g display=\"{display}\">{}",
            shown(number, pictures.len())
        );
        put_all(&mut out, picture);
        out.push_str("</g>\n");
    }
    out.push_str("</svg>\n");
    out
}

/// When a picture of several is shown.
fn shown(number: usize, count: usize) -> String {
    if count < 2 {
        return "\n".to_string();
    }
    let part = |number: usize| format!("{:.5}", number as f64 / count as f64);
    let (values, times) = match number {
        0 => ("inline;none".to_string(), format!("0;{}", part(1))),
        _ if number + 1 == count => ("none;inline".to_string(), format!("0;{}", part(number))),
        _ => (
            "none;inline;none".to_string(),
            format!("0;{};{}", part(number), part(number + 1)),
        ),
    };
    let whole = SHOWN * count as f64;
    format!(
        "<animate attributeName=\"display\" values=\"{values}\" keyTimes=\"{times}\" calcMode=\"discrete\" \
         dur=\"{whole:.1}s\" repeatCount=\"indefinite\"/>\n"
    )
}

/// What stands before the shapes.
fn opening(picture: &Picture) -> String {
    let (width, height) = (picture.width, picture.height);
    format!(
        "<svg xmlns=\"http://www.w3.org/2000/svg\" width=\"{width}\" height=\"{height}\" \
         viewBox=\"0 0 {width} {height}\" font-family=\"Helvetica, Arial, sans-serif\">\n\
         <title>{}</title>\n{}\
         <rect width=\"{width}\" height=\"{height}\" fill=\"#ffffff\"/>\n",
        escaped(&picture.title),
        stripes()
    )
}

fn put_all(out: &mut String, picture: &Picture) {
    for shape in &picture.shapes {
        put(out, shape);
    }
}

/// The pattern of nodes without a value.
fn stripes() -> String {
    format!(
        "<defs><pattern id=\"bare\" width=\"{STRIPES}\" height=\"{STRIPES}\" patternUnits=\"userSpaceOnUse\">\
         <rect width=\"{STRIPES}\" height=\"{STRIPES}\" fill=\"{}\"/>\
         <path d=\"M-1 1L1 -1M0 {STRIPES}L{STRIPES} 0M5 7L7 5\" stroke=\"{}\" stroke-width=\"1.4\"/></pattern></defs>\n",
        hex(BARE),
        hex(STRIPE)
    )
}

fn put(out: &mut String, shape: &Shape) {
    let _ = match shape {
        Shape::Area {
            x,
            y,
            width,
            height,
            fill,
        } => writeln!(
            out,
            "<rect x=\"{x}\" y=\"{y}\" width=\"{width}\" height=\"{height}\" fill=\"{}\" \
             shape-rendering=\"crispEdges\"/>",
            paint(*fill)
        ),
        Shape::Words {
            x,
            y,
            words,
            size,
            anchor,
        } => writeln!(
            out,
            "<text x=\"{x}\" y=\"{y}\" {} {}>{}</text>",
            font(*size),
            side(*anchor),
            escaped(words)
        ),
        Shape::Line { places, colour } => writeln!(
            out,
            "<path d=\"{}\" fill=\"none\" stroke=\"{}\"/>",
            path(places),
            hex(*colour)
        ),
    };
}

/// Through the middles of pixels.
fn path(places: &[[i32; 2]]) -> String {
    let mut path = String::new();
    for (number, [x, y]) in places.iter().enumerate() {
        let pen = if number == 0 { 'M' } else { 'L' };
        let _ = write!(path, "{pen}{x}.5 {y}.5");
    }
    path
}

fn paint(fill: Fill) -> String {
    match fill {
        Fill::Plain(colour) => hex(colour),
        Fill::Striped => "url(#bare)".to_string(),
    }
}

fn font(size: Size) -> &'static str {
    match size {
        Size::Title => "font-size=\"24\" font-weight=\"bold\"",
        Size::Body => "font-size=\"17\"",
        Size::Columns => "font-size=\"17\" font-family=\"monospace\" xml:space=\"preserve\"",
    }
}

fn side(anchor: Anchor) -> &'static str {
    match anchor {
        Anchor::Start => "text-anchor=\"start\"",
        Anchor::Middle => "text-anchor=\"middle\"",
        Anchor::End => "text-anchor=\"end\"",
    }
}

fn hex([red, green, blue]: [u8; 3]) -> String {
    format!("#{red:02x}{green:02x}{blue:02x}")
}

/// Words as XML takes them; letters that it does not know at all become blanks.
fn escaped(words: &str) -> String {
    let mut out = String::new();
    for letter in words.chars() {
        match letter {
            '&' => out.push_str("&amp;"),
            '<' => out.push_str("&lt;"),
            '>' => out.push_str("&gt;"),
            letter if letter.is_control() => out.push(' '),
            letter => out.push(letter),
        }
    }
    out
}
