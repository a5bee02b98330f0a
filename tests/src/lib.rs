//! Seeded texts, map sets and questions, run against one library or two.

#![deny(unsafe_code)]

#[macro_use]
mod listed;

pub mod archive;
pub mod biases;
pub mod boundary;
#[cfg(not(target_arch = "x86_64"))]
pub mod bridge;
#[cfg(target_arch = "x86_64")]
#[macro_use]
pub mod c;
pub mod calls;
pub mod check;
pub mod damage;
pub mod delays;
pub mod explains;
pub mod faults;
#[cfg(all(target_arch = "x86_64", feature = "ionex"))]
pub mod fenced;
pub mod gen;
#[cfg(all(target_arch = "x86_64", feature = "ionex"))]
pub mod guards;
pub mod histories;
pub mod indexes;
pub mod jobs;
pub mod joins;
pub mod library;
pub mod many;
pub mod oracle;
#[cfg(all(target_arch = "x86_64", feature = "ionex"))]
pub mod pages;
pub mod program;
pub mod remarks;
pub mod rng;
pub mod run;
pub mod set;
pub mod tally;
pub mod weeks;
