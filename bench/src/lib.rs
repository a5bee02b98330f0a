//! Plain Rust to time the library against, and the files and texts to time both on.

#![forbid(unsafe_code)]

pub mod ask;
pub mod biases;
pub mod calendar;
pub mod files;
pub mod join;
mod lines;
pub mod plain;
mod rows;
pub mod texts;
pub mod valid;
pub mod week;
pub mod write;
