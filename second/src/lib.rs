//! The second program: an independent, plain implementation of IONEX 1.1 and 1.0,
//! written from the documents only. It reads text into lent areas, writes a
//! map set as canonical text, and answers for the value at a place and second.
//!
//! "01" in comments is the scope paper and "02" the paper of change requests;
//! "001" and "000" are two source documents (IONEX 1.1 and version 1), and "004" is
//! that of code biases.

#![forbid(unsafe_code)]

pub mod ask;
pub mod biases;
pub mod calendar;
pub mod delay;
pub mod explain;
pub mod fields;
pub mod fraction;
pub mod header;
pub mod index;
pub mod join;
pub mod labels;
pub mod lines;
pub mod many;
pub mod maps;
pub mod program;
pub mod read;
pub mod refusal;
pub mod week;
pub mod write;

pub use ask::{ask, Answer, Cause, Question};
pub use calendar::moved;
pub use delay::{ask_delay, delay, Delay};
pub use explain::{explain, Explanation, Lacking, Unexplained};
pub use header::{Axis, Count, Header, System, Texts};
pub use join::{join, Given};
pub use maps::{Areas, Buffers, View};
pub use read::{needs, read, Reading};
pub use refusal::Refusal;
pub use write::write;
