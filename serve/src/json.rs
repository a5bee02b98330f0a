//! JSON as it is written: objects member by member, numbers with the digits that they are given with.

use std::fmt::{Display, Write};

/// An object under way.
pub struct Object(String);

impl Object {
    pub fn new() -> Object {
        Object(String::from("{"))
    }

    fn name(&mut self, name: &str) {
        if self.0.len() > 1 {
            self.0.push(',');
        }
        self.0.push('"');
        self.0.push_str(name);
        self.0.push_str("\":");
    }

    /// A member that is JSON already, as a number is.
    pub fn put(&mut self, name: &str, value: impl Display) -> &mut Object {
        self.name(name);
        // Writing to a String does not fail.
        let _ = write!(self.0, "{value}");
        self
    }

    pub fn text(&mut self, name: &str, words: &str) -> &mut Object {
        self.name(name);
        self.0.push_str(&text(words));
        self
    }

    /// Null where there is nothing.
    pub fn maybe(&mut self, name: &str, value: Option<impl Display>) -> &mut Object {
        match value {
            Some(value) => self.put(name, value),
            None => self.put(name, "null"),
        }
    }

    pub fn texts<S: AsRef<str>>(
        &mut self,
        name: &str,
        all: impl IntoIterator<Item = S>,
    ) -> &mut Object {
        self.put(
            name,
            list(all.into_iter().map(|words| text(words.as_ref()))),
        )
    }

    pub fn end(&mut self) -> String {
        self.0.push('}');
        std::mem::take(&mut self.0)
    }
}

impl Default for Object {
    fn default() -> Object {
        Object::new()
    }
}

/// Words as JSON text, quotes and control characters escaped.
pub fn text(words: &str) -> String {
    serde_json::to_string(words).unwrap_or_else(|_| "\"\"".to_string())
}

/// A list of what is JSON already.
pub fn list(all: impl IntoIterator<Item = impl Display>) -> String {
    let mut out = String::from("[");
    for (at, value) in all.into_iter().enumerate() {
        if at > 0 {
            out.push(',');
        }
        let _ = write!(out, "{value}");
    }
    out.push(']');
    out
}

/// Thousandths as the decimal number that they are.
pub fn thousandths(value: i32) -> String {
    let mut out = String::new();
    push_thousandths(&mut out, value);
    out
}

/// `-12.345`, without the detour through a formatter: a list has hundreds of thousands of them.
pub fn push_thousandths(out: &mut String, value: i32) {
    if value < 0 {
        out.push('-');
    }
    let size = value.unsigned_abs();
    push_digits(out, size / 1000, 1);
    out.push('.');
    push_digits(out, size % 1000, 3);
}

pub fn push_whole(out: &mut String, value: i32) {
    if value < 0 {
        out.push('-');
    }
    push_digits(out, value.unsigned_abs(), 1);
}

/// The digits of a number, with zeros before them up to so many.
fn push_digits(out: &mut String, mut value: u32, least: usize) {
    let mut digits = [b'0'; 10];
    let mut at = digits.len();
    while value > 0 || digits.len() - at < least {
        at -= 1;
        digits[at] = b'0' + (value % 10) as u8;
        value /= 10;
    }
    out.extend(digits[at..].iter().map(|digit| char::from(*digit)));
}

/// Words of another side, as much of them as a message needs.
pub fn short(words: &str, most: usize) -> String {
    match words.char_indices().nth(most) {
        Some((end, _)) => format!("{}...", &words[..end]),
        None => words.to_string(),
    }
}

#[cfg(test)]
mod tests {
    use super::*;

    #[test]
    fn numbers_are_written_exactly() {
        for (value, words, whole) in [
            (0, "0.000", "0"),
            (550, "0.550", "550"),
            (-7, "-0.007", "-7"),
            (-12_345, "-12.345", "-12345"),
            (i32::MAX, "2147483.647", "2147483647"),
            (i32::MIN, "-2147483.648", "-2147483648"),
        ] {
            assert_eq!(thousandths(value), words);
            let mut out = String::new();
            push_whole(&mut out, value);
            assert_eq!(out, whole);
        }
    }

    #[test]
    fn objects_and_lists() {
        let mut object = Object::new();
        object
            .put("a", 1)
            .text("b", "x\"\n")
            .maybe("c", None::<u64>);
        object.texts("d", ["e", "f"]);
        assert_eq!(
            object.end(),
            r#"{"a":1,"b":"x\"\n","c":null,"d":["e","f"]}"#
        );
        assert_eq!(Object::new().end(), "{}");
        assert_eq!(list([] as [u8; 0]), "[]");
    }

    #[test]
    fn long_words_are_cut_at_a_character() {
        assert_eq!(short("abc", 3), "abc");
        assert_eq!(short(&"é".repeat(61), 60), "é".repeat(60) + "...");
    }
}
