//! A picture as shapes, in whole pixels from the upper left corner.

pub type Colour = [u8; 3];

pub const WHITE: Colour = [255, 255, 255];
pub const BLACK: Colour = [0, 0, 0];
pub const GREY: Colour = [90, 90, 90];
/// A node without a value: stripes of the second on the first.
pub const BARE: Colour = [225, 225, 225];
pub const STRIPE: Colour = [150, 150, 150];
/// The stripes come back after so many pixels.
pub const STRIPES: i32 = 6;

#[derive(Clone, Copy, Debug, PartialEq, Eq)]
pub enum Anchor {
    Start,
    Middle,
    End,
}

/// How large words are written.
#[derive(Clone, Copy, Debug, PartialEq, Eq)]
pub enum Size {
    Title,
    Body,
    /// As the body, each letter and blank as wide as the next.
    Columns,
}

#[derive(Clone, Copy, Debug, PartialEq, Eq)]
pub enum Fill {
    Plain(Colour),
    Striped,
}

#[derive(Clone, Debug, PartialEq, Eq)]
pub enum Shape {
    Area {
        x: i32,
        y: i32,
        width: i32,
        height: i32,
        fill: Fill,
    },
    /// Words whose letters stand on the line y.
    Words {
        x: i32,
        y: i32,
        words: String,
        size: Size,
        anchor: Anchor,
    },
    /// A thin line from place to place, all of it within the map.
    Line {
        places: Vec<[i32; 2]>,
        colour: Colour,
    },
}

#[derive(Debug)]
pub struct Picture {
    pub width: i32,
    pub height: i32,
    pub title: String,
    pub shapes: Vec<Shape>,
}

impl Picture {
    pub fn area(&mut self, x: i32, y: i32, width: i32, height: i32, fill: Fill) {
        self.shapes.push(Shape::Area {
            x,
            y,
            width,
            height,
            fill,
        });
    }

    /// A line from left to right.
    pub fn across(&mut self, x: i32, y: i32, width: i32, colour: Colour) {
        self.area(x, y, width, 1, Fill::Plain(colour));
    }

    /// A line from top to bottom.
    pub fn down(&mut self, x: i32, y: i32, height: i32, colour: Colour) {
        self.area(x, y, 1, height, Fill::Plain(colour));
    }

    /// Lines around an area, outside it.
    pub fn frame(&mut self, x: i32, y: i32, width: i32, height: i32) {
        self.across(x - 1, y - 1, width + 2, BLACK);
        self.across(x - 1, y + height, width + 2, BLACK);
        self.down(x - 1, y - 1, height + 2, BLACK);
        self.down(x + width, y - 1, height + 2, BLACK);
    }

    pub fn line(&mut self, places: Vec<[i32; 2]>, colour: Colour) {
        self.shapes.push(Shape::Line { places, colour });
    }

    pub fn words(&mut self, x: i32, y: i32, words: String, size: Size, anchor: Anchor) {
        self.shapes.push(Shape::Words {
            x,
            y,
            words,
            size,
            anchor,
        });
    }
}
