//! Refusals by their numbers, from the page that people read.

mod common;

use common::ionex;

#[test]
fn one_number() {
    assert_eq!(
        ionex(&["refusal", "7"]).done(),
        "7: A value is outside what is accepted.\n    \
         What to do: Compare with the limits in docs/01-scope.md.\n    \
         Example: 29 February 2001; DLON of 0.0\n"
    );
}

#[test]
fn every_number_once_and_in_order() {
    let all = ionex(&["refusal"]);
    let number = |line: &str| line.split_whitespace().next().map(str::to_string);
    let numbers: Vec<String> = all.done().lines().filter_map(number).collect();
    let expected: Vec<String> = (1..=11)
        .chain(20..=25)
        .chain([30, 31, 40, 41, 42, 50, 60, 101, 102, 103])
        .map(|number: u64| number.to_string())
        .collect();
    assert_eq!(numbers, expected);
}

#[test]
fn no_such_number() {
    ionex(&["refusal", "12"]).failed(
        2,
        "ionex: refusal: \"12\": there is no such refusal; see ionex refusal --help\n",
    );
}
