//! What the second program and the crate say of files and questions, in lines of words for the tests to compare with.
//!
//!     peer canon FILE                      its canonical text, or its refusal
//!     peer ask|explain|delay FILE          of each line KIND METHOD LAYER LAT LON SECOND [CARRIER'S BITS] of standard input
//!     peer join FILE FILE
//!     peer week FILE...                    the rows of each file, then the week's
//!     peer biases FILE
//!     peer index FILE                      positions, exponents and marks
//!     peer node FILE FILE                  by the index of the second file, of each line KIND MAP LAYER ROW COLUMN
//!     peer meanings                        the crate's refusals, number and words
//!     peer words FILE                      the crate's words of a file, and of each question as for explain
//!     peer time ROUNDS FILE                nanoseconds of the crate's fastest reading

#![forbid(unsafe_code)]

mod of_crate;
mod of_second;

use std::io::{self, Read, Write};

fn main() {
    let words: Vec<String> = std::env::args().skip(1).collect();
    let words: Vec<&str> = words.iter().map(String::as_str).collect();
    let told = match words.as_slice() {
        ["canon", file] => of_second::canon(&read(file)),
        ["ask", file] => lines(&read(file), of_second::ask),
        ["explain", file] => lines(&read(file), of_second::explain),
        ["delay", file] => lines(&read(file), of_second::delay),
        ["join", early, late] => of_second::join(&read(early), &read(late)),
        ["week", files @ ..] => of_second::week(files.iter().map(|file| read(file))),
        ["biases", file] => of_second::biases(&read(file)),
        ["index", file] => of_second::index(&read(file)),
        ["node", file, other] => {
            let other = read(other);
            lines(&read(file), |text, question| {
                of_second::node(text, &other, question)
            })
        }
        ["meanings"] => of_crate::meanings(),
        ["words", file] => lines(&read(file), of_crate::words),
        ["time", rounds, file] => of_crate::time(&read(file), rounds.parse().expect("rounds")),
        _ => panic!("an unknown command: {words:?}"),
    };
    io::stdout().write_all(&told).expect("standard output");
}

fn read(file: &str) -> Vec<u8> {
    std::fs::read(file).unwrap_or_else(|fault| panic!("{file}: {fault}"))
}

/// What is said to each line of whole numbers on standard input.
fn lines(text: &[u8], answer: impl Fn(&[u8], &[i64]) -> String) -> Vec<u8> {
    let mut input = String::new();
    io::stdin()
        .read_to_string(&mut input)
        .expect("standard input");
    let mut told = String::new();
    for line in input.lines() {
        let numbers: Vec<i64> = line
            .split_whitespace()
            .map(|word| word.parse().expect("a whole number"))
            .collect();
        told += &answer(text, &numbers);
        told.push('\n');
    }
    told.into_bytes()
}
