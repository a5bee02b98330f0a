//! Pictures of maps: what is drawn, and two ways to write it.

mod axes;
mod chart;
mod coast;
mod deflate;
mod font;
mod picture;
mod png;
mod raster;
mod scale;
mod svg;

pub use chart::{draw, Field};
pub use picture::Picture;
pub use png::png;
pub use scale::Range;
pub use svg::{animated, svg};
