//! Each refusal with its place, and in words.

use ionex::{MapSet, Refusal};

fn read(name: &str) -> Refusal {
    let text = std::fs::read(format!("../tests/examples/{name}.inx")).expect("an example");
    MapSet::read(&text).expect_err("a refused text")
}

#[test]
fn the_examples_are_refused_where_they_say() {
    for number in 1..=10 {
        let name = format!("refused-{number:02}");
        let refusal = read(&name);
        let (line, column) = (
            refusal.line().expect("a line"),
            refusal.column().expect("a column"),
        );
        let told = format!("refused {} line {line} column {column}\n", refusal.number());
        let expected = std::fs::read_to_string(format!("../tests/examples/{name}.expected"))
            .expect("beside it");
        assert_eq!(told, expected);
        assert_eq!((refusal.area(), refusal.needs()), (None, None));
    }
}

#[test]
fn a_refusal_is_told_in_words() {
    assert_eq!(
        read("refused-01").to_string(),
        "refused 1: a line of more than 80 bytes, line 3, column 81"
    );
    // Column 0 stands for no one column.
    let missing = "refused 9: a header record, block or map is missing at an END record, line 27";
    assert_eq!(read("refused-09").to_string(), missing);
    let empty = MapSet::read(b"").unwrap_err();
    assert_eq!(
        empty.to_string(),
        "refused 10: the text ends before END OF FILE, line 1"
    );
    assert_eq!((empty.line(), empty.column()), (Some(1), Some(0)));
}

#[test]
fn every_refusal_has_words_of_its_own() {
    let numbers: Vec<u64> = Refusal::numbers().collect();
    let expected: Vec<u64> = (1..=11)
        .chain(20..=25)
        .chain([30, 31, 40, 41, 42, 50, 60, 101, 102, 103])
        .collect();
    assert_eq!(numbers, expected);
    let mut words: Vec<&str> = numbers
        .iter()
        .filter_map(|number| Refusal::meaning_of(*number))
        .collect();
    words.sort_unstable();
    words.dedup();
    assert_eq!(words.len(), expected.len());
    for none in [0, 12, 19, 26, 32, 100, 104, u64::MAX] {
        assert_eq!(Refusal::meaning_of(none), None);
    }
}

#[test]
fn a_refusal_is_an_error() {
    fn first_value(text: &[u8]) -> Result<usize, Box<dyn std::error::Error>> {
        Ok(MapSet::read(text)?.maps())
    }
    let told = first_value(b"\n").unwrap_err().to_string();
    assert_eq!(told, "refused 10: the text ends before END OF FILE, line 2");
}

/// C says the same words: include/ionex_words.h gives them by the names of include/ionex.h.
#[test]
fn the_words_are_those_of_c() {
    let header = std::fs::read_to_string("../include/ionex.h").expect("a header file");
    let words = std::fs::read_to_string("../include/ionex_words.h").expect("a header file");
    let number = |name: &str| {
        let start = format!("    {name} = ");
        let rest = header.lines().find_map(|line| line.strip_prefix(&start));
        let digits: String = rest
            .unwrap_or_else(|| panic!("no {name}"))
            .chars()
            .take_while(char::is_ascii_digit)
            .collect();
        digits.parse::<u64>().expect("a number")
    };
    let rows = words.lines().filter_map(|line| {
        let row = line.trim_start().strip_prefix("WORDS(")?;
        let (name, rest) = row.split_once(", \"")?;
        Some((number(name), rest.split_once("\")")?.0))
    });
    let mut said: Vec<(u64, &str)> = rows.collect();
    assert_eq!(said.remove(0), (0, "done"));
    let meaning = |number| (number, Refusal::meaning_of(number).expect("words"));
    assert_eq!(said, Refusal::numbers().map(meaning).collect::<Vec<_>>());
}
