//! The form that a table is printed in: for people, or for machines.

use crate::args::Args;
use crate::status::{usage, Stop};

#[derive(Clone, Copy, PartialEq, Eq)]
pub enum Form {
    Table,
    Json,
    Csv,
}

impl Form {
    pub fn of(args: &Args) -> Result<Form, Stop> {
        match (args.has("--json"), args.has("--csv")) {
            (false, false) => Ok(Form::Table),
            (true, false) => Ok(Form::Json),
            (false, true) => Ok(Form::Csv),
            (true, true) => usage("--json and --csv are given, but one form is printed"),
        }
    }
}

/// A field in a table of commas: one with a comma, a quote or a line end stands in quotes.
pub fn quoted(field: &str) -> String {
    if field.contains([',', '"', '\n', '\r']) {
        return format!("\"{}\"", field.replace('"', "\"\""));
    }
    field.to_string()
}

#[cfg(test)]
mod tests {
    use super::*;

    #[test]
    fn fields_in_a_table_of_commas() {
        assert_eq!(quoted("a b.inx"), "a b.inx");
        assert_eq!(quoted("a,b"), "\"a,b\"");
        assert_eq!(quoted("say \"x\""), "\"say \"\"x\"\"\"");
    }
}
