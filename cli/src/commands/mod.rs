//! The commands, one to a module.

pub mod ask;
pub mod biases;
pub mod canon;
pub mod check;
pub mod choose;
pub mod completion;
pub mod delay;
pub mod diff;
pub mod export;
pub mod index;
pub mod info;
pub mod join;
pub mod mend;
pub mod node;
pub mod plot;
pub mod refusal;
pub mod week;
pub mod why;

use crate::args::{Args, Options};
use crate::output::Output;
use crate::status::{Status, Stop};

pub struct Command {
    pub name: &'static str,
    /// What it does, in a line.
    pub does: &'static str,
    pub help: &'static str,
    pub options: Options,
    pub run: fn(&Args, &mut Output) -> Result<Status, Stop>,
}

/// Every command, in the order of the help. A new one is a row here and a module of its own.
pub const COMMANDS: &[&Command] = &[
    &check::COMMAND,
    &choose::COMMAND,
    &info::COMMAND,
    &biases::COMMAND,
    &mend::COMMAND,
    &canon::COMMAND,
    &join::COMMAND,
    &week::COMMAND,
    &ask::COMMAND,
    &why::COMMAND,
    &delay::COMMAND,
    &export::COMMAND,
    &diff::COMMAND,
    &index::COMMAND,
    &node::COMMAND,
    &plot::COMMAND,
    &refusal::COMMAND,
    &completion::COMMAND,
];

pub fn find(name: &str) -> Option<&'static Command> {
    COMMANDS
        .iter()
        .copied()
        .find(|command| command.name == name)
}
