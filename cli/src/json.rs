//! JSON, written by hand: objects of few members, one to a line.

use std::fmt::{Display, Write};

/// An object whose members come in the order in which they were put.
#[derive(Debug, Default)]
pub struct Object(String);

impl Object {
    pub fn new() -> Object {
        Object::default()
    }

    pub fn text(self, name: &str, value: &str) -> Object {
        self.raw(name, string(value))
    }

    /// A number, or another object.
    pub fn raw(mut self, name: &str, value: impl Display) -> Object {
        let comma = if self.0.is_empty() { "" } else { "," };
        let _ = write!(self.0, "{comma}{}:{value}", string(name));
        self
    }

    /// A member that may be missing, which is null.
    pub fn maybe(self, name: &str, value: Option<impl Display>) -> Object {
        match value {
            Some(value) => self.raw(name, value),
            None => self.raw(name, "null"),
        }
    }
}

impl Display for Object {
    fn fmt(&self, f: &mut std::fmt::Formatter) -> std::fmt::Result {
        write!(f, "{{{}}}", self.0)
    }
}

pub fn array<T: Display>(values: impl IntoIterator<Item = T>) -> String {
    let words: Vec<String> = values.into_iter().map(|value| value.to_string()).collect();
    format!("[{}]", words.join(","))
}

pub fn string(value: &str) -> String {
    let mut out = String::from("\"");
    for letter in value.chars() {
        match letter {
            '"' => out.push_str("\\\""),
            '\\' => out.push_str("\\\\"),
            '\n' => out.push_str("\\n"),
            letter if letter.is_control() => {
                let _ = write!(out, "\\u{:04x}", u32::from(letter));
            }
            letter => out.push(letter),
        }
    }
    out.push('"');
    out
}

#[cfg(test)]
mod tests {
    use super::*;

    #[test]
    fn objects_and_strings() {
        let object = Object::new()
            .text("a", "say \"x\\y\"\u{1}")
            .raw("b", array([1, 2]))
            .maybe("c", None::<u8>);
        assert_eq!(
            object.to_string(),
            r#"{"a":"say \"x\\y\"\u0001","b":[1,2],"c":null}"#
        );
        assert_eq!(Object::new().to_string(), "{}");
    }
}
