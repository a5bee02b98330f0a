//! A picture in pixels.

use super::font::{self, ADVANCE, RISE};
use super::picture::{
    Anchor, Colour, Fill, Picture, Shape, Size, BARE, BLACK, STRIPE, STRIPES, WHITE,
};

/// Each pixel is a place in the palette.
pub struct Raster {
    pub width: usize,
    pub height: usize,
    pub pixels: Vec<u8>,
    pub palette: Vec<Colour>,
}

impl Raster {
    pub fn of(picture: &Picture) -> Raster {
        let [width, height] = [picture.width, picture.height].map(|side| side.max(1) as usize);
        let mut raster = Raster {
            width,
            height,
            pixels: vec![0; width * height],
            palette: vec![WHITE],
        };
        for shape in &picture.shapes {
            raster.put(shape);
        }
        raster
    }

    fn put(&mut self, shape: &Shape) {
        match shape {
            Shape::Area {
                x,
                y,
                width,
                height,
                fill,
            } => self.area(*x, *y, *width, *height, *fill),
            Shape::Words {
                x,
                y,
                words,
                size,
                anchor,
            } => self.words(*x, *y, words, *size, *anchor),
            Shape::Line { places, colour } => self.line(places, *colour),
        }
    }

    /// The place of a colour in the palette. A picture has far fewer than 256; the last would stand for those beyond.
    fn index(&mut self, colour: Colour) -> u8 {
        if let Some(found) = self.palette.iter().position(|&other| other == colour) {
            return found as u8;
        }
        if self.palette.len() < 256 {
            self.palette.push(colour);
        }
        (self.palette.len() - 1) as u8
    }

    fn area(&mut self, x: i32, y: i32, width: i32, height: i32, fill: Fill) {
        let (plain, stripe) = match fill {
            Fill::Plain(colour) => (self.index(colour), None),
            Fill::Striped => (self.index(BARE), Some(self.index(STRIPE))),
        };
        for down in y..y + height {
            for across in x..x + width {
                let on_stripe = (across + down).rem_euclid(STRIPES) < 2;
                self.pixel(across, down, stripe.filter(|_| on_stripe).unwrap_or(plain));
            }
        }
    }

    /// For each step along the longer side of a piece one pixel.
    fn line(&mut self, places: &[[i32; 2]], colour: Colour) {
        let ink = self.index(colour);
        for piece in places.windows(2) {
            let ([x, y], [to_x, to_y]) = (piece[0], piece[1]);
            let (wide, high) = (to_x - x, to_y - y);
            let steps = wide.abs().max(high.abs()).max(1);
            let along = |side: i32, step: i32| (2 * side * step + steps).div_euclid(2 * steps);
            for step in 0..=steps {
                self.pixel(x + along(wide, step), y + along(high, step), ink);
            }
        }
    }

    fn pixel(&mut self, x: i32, y: i32, index: u8) {
        let (Ok(x), Ok(y)) = (usize::try_from(x), usize::try_from(y)) else {
            return;
        };
        if x < self.width && y < self.height {
            self.pixels[y * self.width + x] = index;
        }
    }

    fn words(&mut self, x: i32, y: i32, words: &str, size: Size, anchor: Anchor) {
        let scale = scale(size);
        let width = width(words, size);
        let mut x = match anchor {
            Anchor::Start => x,
            Anchor::Middle => x - width / 2,
            Anchor::End => x - width,
        };
        let ink = self.index(BLACK);
        for letter in words.chars() {
            self.letter(x, y - RISE * scale, letter, scale, ink);
            x += ADVANCE * scale;
        }
    }

    fn letter(&mut self, x: i32, y: i32, letter: char, scale: i32, ink: u8) {
        for (column, row) in font::dots(letter) {
            for dot in 0..scale * scale {
                let across = x + column * scale + dot % scale;
                let down = y + row * scale + dot / scale;
                self.pixel(across, down, ink);
            }
        }
    }
}

fn scale(size: Size) -> i32 {
    match size {
        Size::Title => 3,
        Size::Body | Size::Columns => 2,
    }
}

/// How wide words are, without the gap behind the last letter.
pub fn width(words: &str, size: Size) -> i32 {
    let letters = words.chars().count() as i32;
    (letters * ADVANCE - 1).max(0) * scale(size)
}
