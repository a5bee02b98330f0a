//! Reads, writes and interpolates IONEX 1.0 and 1.1 ionosphere maps, and reads their code biases: a safe API over the library that is proved.
//!
//! ```
//! use ionex::{Epoch, Kind, MapSet, Method, Place};
//!
//! let text = std::fs::read("../tests/examples/accepted-2d-freedoms.inx")?;
//! match MapSet::read(&text) {
//!     Err(refusal) => println!("{refusal}"),
//!     Ok(maps) => {
//!         let (place, time): (Place, Epoch) = ("-10.00,0.00".parse()?, "1999-12-31T23:59:59".parse()?);
//!         let answer = maps.ask(Kind::Height, Method::Nearest, 0, place, time)?;
//!         assert_eq!(answer.to_string(), "0.050 km");
//!     }
//! }
//! # Ok::<(), Box<dyn std::error::Error>>(())
//! ```
//!
//! The archive `libionex.a` is linked: `./build library` makes it, or IONEX_LIB names its folder when this crate is
//! built. It is x86-64 code. Nothing is kept between calls, so threads may share a [`MapSet`].
//!
//! A program that runs all day and answers while new files come holds them in a [`station::Station`].

#![deny(unsafe_code)]
#![warn(missing_debug_implementations, missing_docs)]

mod biases;
mod delay;
mod epoch;
mod explanation;
#[doc(hidden)]
#[allow(unsafe_code, missing_debug_implementations)]
pub mod ffi;
mod header;
mod index;
mod many;
mod mapset;
mod place;
mod refusal;
pub mod station;
mod value;
mod week;
mod words;

pub use biases::{Biases, MilliNs, Satellite, Station, System};
pub use delay::{Carrier, Delay, Metres, Tecu};
pub use epoch::{Date, Epoch};
pub use explanation::{Cause, Explanation, Lacking, Node, Weighted};
pub use header::{Axis, Code, Header, Version, DESCRIPTIONS, DESCRIPTION_COLUMNS, HEADER, TEXTS};
pub use index::{Index, IndexAreas};
pub use many::Questions;
pub use mapset::{Areas, MapSet, NO_VALUE};
pub use place::Place;
pub use refusal::Refusal;
pub use value::{Answer, Kind, Method, MilliKm, MilliTecu, Written};
pub use week::{Figures, SetFigures, Sum, Week};
pub use words::ParseError;

/// The version of the library that is linked: major, minor and patch.
///
/// ```
/// assert_eq!(ionex::version(), (1, 0, 0));
/// ```
pub fn version() -> (u64, u64, u64) {
    let number = ffi::version();
    (number / 10_000, number / 100 % 100, number % 100)
}
