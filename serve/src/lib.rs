//! ionex-serve: the day's maps over HTTP. A new file takes the place of the maps in use only when it is accepted.

#![deny(unsafe_code)]

pub mod api;
pub mod files;
pub mod http;
pub mod json;
pub mod log;
pub mod metrics;
pub mod notify;
pub mod options;
pub mod query;
pub mod service;
pub mod system;
pub mod tell;
pub mod watcher;
