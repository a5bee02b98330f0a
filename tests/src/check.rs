//! The self-check of one library and the comparison of two.

use crate::delays::{self, Bits};
use crate::jobs::{self, Job, Known, Truth};
use crate::joins;
use crate::library::Library;
use crate::oracle;
use crate::remarks;
use crate::run::{self, Outcome};
use crate::set::{overlaid, rubbish, MapSet};
use crate::tally::{self, Comparison, Tally};
use second::{Answer, Buffers, Question, Reading, Refusal};
use std::collections::BTreeMap;

/// How often each answer must have occurred: the names that jobs are counted under.
fn expected_often() -> Vec<String> {
    let refused = |of: &'static str, numbers: &[u8]| {
        let row = |number: &u8| format!("{of}refused {number}");
        numbers.iter().map(row).collect::<Vec<_>>()
    };
    let named = |names: &[&str]| names.iter().map(|name| name.to_string()).collect();
    [
        named(&["accepted"]),
        refused("", &[1, 2, 3, 4, 5, 6, 7, 8, 9, 10, 11]),
        (5..=9).map(inside_the_maps).collect(),
        named(&["remarks rewritten, accepted", "remarks rewritten, refused"]),
        named(&["measured", "measuring refused", "written"]),
        refused("writing ", &[30, 31]),
        (0..4).map(answered_by).collect(),
        named(&["answered in the strip"]),
        refused("asking ", &[20, 21, 22, 23, 24, 31]),
        named(&["delays of questions"]),
        refused("delay ", &[20, 21, 22, 23, 24, 25, 31]),
        named(&["delays of TEC", "delay of TEC refused 25", "joined"]),
        refused("joining ", &[11, 31, 40, 41, 42]),
        named(&[
            "chains joined",
            "chains refused",
            "moved",
            "moving refused 7",
        ]),
    ]
    .concat()
}

fn inside_the_maps(number: u8) -> String {
    format!("refused {number} inside the maps")
}

fn answered_by(method: i64) -> String {
    format!("answered by method {method}")
}

/// Under which of these a job is counted.
fn counted(job: &Job, outcome: &Outcome) -> Vec<String> {
    let number = outcome.refusal().map(|refusal| refusal.number());
    let by_number = |done: &str, refused: &str| match number {
        None => vec![done.to_string()],
        Some(number) => vec![format!("{refused}refused {number}")],
    };
    let either = |done: &str, refused: &str| match number {
        None => vec![done.to_string()],
        Some(_) => vec![refused.to_string()],
    };
    match job {
        Job::Read { text, .. } => {
            let mut rows = by_number("accepted", "");
            if let Some(Refusal::Place { line, number, .. }) = outcome.refusal() {
                if header_end(text).is_some_and(|end| line > end) {
                    rows.push(inside_the_maps(number));
                }
            }
            rows
        }
        Job::Twins { text, twin, .. } if text == twin => Vec::new(),
        Job::Twins { .. } => either("remarks rewritten, accepted", "remarks rewritten, refused"),
        Job::Needs { .. } => either("measured", "measuring refused"),
        Job::Write { .. } => by_number("written", "writing "),
        Job::Ask { set, question, .. } => {
            let mut rows = by_number(&answered_by(question.method), "asking ");
            if number.is_none() && set.in_strip(question.longitude) {
                rows.push("answered in the strip".to_string());
            }
            rows
        }
        Job::Delay { .. } => by_number("delays of questions", "delay "),
        Job::TecuDelay { .. } => by_number("delays of TEC", "delay of TEC "),
        Job::Join { .. } => by_number("joined", "joining "),
        Job::Chain { .. } => either("chains joined", "chains refused"),
        Job::Move { .. } => by_number("moved", "moving "),
    }
}

/// The line number of the first END OF HEADER outside aux blocks.
fn header_end(text: &[u8]) -> Option<u64> {
    let mut aux = false;
    for (k, line) in text.split(|&b| b == b'\n').enumerate() {
        match line.get(60..).unwrap_or(b"").trim_ascii_end() {
            b"START OF AUX DATA" => aux = true,
            b"END OF AUX DATA" => aux = false,
            b"END OF HEADER" if !aux => return Some(k as u64 + 1),
            _ => {}
        }
    }
    None
}

/// Every job of the seeds run by one library and judged. Prints the counts.
pub fn self_check(library: &dyn Library, count: u64, seed: u64) -> Tally {
    over_seeds(count, seed, |job| {
        let outcome = run::run(library, job);
        let complaint = judge(library, job, &outcome);
        (outcome, complaint)
    })
}

/// Every job of the seeds run by two libraries, which must agree in everything.
pub fn compare(a: &dyn Library, b: &dyn Library, count: u64, seed: u64) -> Tally {
    over_seeds(count, seed, |job| {
        let first = run::run(a, job);
        let second = run::run(b, job);
        let complaint = run::difference(&first, &second);
        (first, complaint)
    })
}

fn over_seeds(count: u64, seed: u64, try_job: impl Fn(&Job) -> (Outcome, Option<String>)) -> Tally {
    Comparison::over(count, seed, expected_often(), |comparison, seed| {
        for (k, job) in jobs::jobs(seed).iter().enumerate() {
            let (outcome, complaint) = try_job(job);
            for row in counted(job, &outcome) {
                comparison.count(row, 1);
            }
            let complaint = complaint.map(|words| format!("job {k} ({}): {words}", job.name()));
            comparison.judge(seed, complaint, || leave(seed, k, job));
        }
    })
}

/// Leaves what a failed job was given.
fn leave(seed: u64, k: usize, job: &Job) {
    match job {
        Job::Twins { text, twin, .. } => {
            tally::leave(&format!("{seed}-{k}.inx"), text);
            tally::leave(&format!("{seed}-{k}-twin.inx"), twin);
        }
        Job::Read { text, .. } | Job::Needs { text, .. } => {
            tally::leave(&format!("{seed}-{k}.inx"), text)
        }
        _ => tally::leave_words(&format!("{seed}-{k}.txt"), job),
    }
}

/// What is wrong with an outcome, if anything is.
fn judge(library: &dyn Library, job: &Job, outcome: &Outcome) -> Option<String> {
    match (job, outcome) {
        (Job::Read { text, lent, truth }, Outcome::Read { answer, areas }) => {
            judge_reading(library, text, lent, truth, answer, areas)
        }
        (Job::Twins { .. }, Outcome::Twins { .. }) => remarks::differs(outcome),
        (Job::Needs { text, truth }, Outcome::Needs(answer)) => {
            judge_needs(library, text, truth, answer)
        }
        (Job::Write { set, out, known }, Outcome::Write { answer, out: after }) => {
            judge_writing(library, set, out, *known, answer, after)
        }
        (
            Job::Ask {
                set,
                question,
                known,
            },
            Outcome::Ask(answer),
        ) => match answer {
            Err(Refusal::Bare { number: 31 }) if *known == Known::Open => None,
            _ => oracle::wrong(set, question, answer),
        },
        (Job::TecuDelay { x, carrier }, Outcome::Delay(answer)) => {
            delays::wrong(*x, *carrier, answer)
        }
        (
            Job::Delay {
                set,
                question,
                carrier,
                ..
            },
            Outcome::Delay(answer),
        ) => judge_delay(library, set, question, *carrier, answer),
        (
            Job::Join {
                earlier,
                later,
                lent,
            },
            Outcome::Read { answer, areas },
        ) => joins::wrong(library, [earlier, later], lent, answer, areas),
        (Job::Chain { .. }, Outcome::Chain(answers)) => joins::disagree(answers),
        (Job::Move { epoch, by }, Outcome::Move(answer)) => judge_moving(*epoch, *by, answer),
        _ => Some("a panic".to_string()),
    }
}

/// How often each number, column and part of the text occurs among the refusals
/// of reading: 'h' up to END OF HEADER, 'm' after it.
pub fn places(library: &dyn Library, count: u64, seed: u64) {
    let mut places = BTreeMap::new();
    for seed in seed..seed.saturating_add(count) {
        for job in jobs::jobs(seed) {
            let Job::Read { text, .. } = &job else {
                continue;
            };
            if let Some(Refusal::Place {
                number,
                line,
                column,
            }) = run::run(library, &job).refusal()
            {
                let deep = header_end(text).is_some_and(|end| line > end);
                let part = if deep { 'm' } else { 'h' };
                *places.entry((number, part, column)).or_insert(0u64) += 1;
            }
        }
    }
    let mut last = None;
    for ((number, part, column), times) in places {
        if last != Some((number, part)) {
            print!("{}{number} {part}:", if last.is_some() { "\n" } else { "" });
            last = Some((number, part));
        }
        print!(" {column}x{times}");
    }
    println!();
}

fn must(good: bool, complaint: &str) -> Option<String> {
    (!good).then(|| complaint.to_string())
}

fn judge_reading(
    library: &dyn Library,
    text: &[u8],
    lent: &Buffers,
    truth: &Truth,
    answer: &Reading,
    areas: &Buffers,
) -> Option<String> {
    match (truth, answer) {
        (Truth::Set(set), Reading::Accepted { header, texts }) => {
            must(*header == set.header, "not the header generated")
                .or_else(|| must(*texts == set.texts, "not the texts generated"))
                .or_else(|| {
                    let expected = overlaid(lent, &set.areas);
                    must(*areas == expected, "not the areas generated")
                })
                .or_else(|| round_trip(library, set))
        }
        (Truth::Set(_), Reading::Refused(refusal)) => Some(format!("a good text: {refusal}")),
        (Truth::Short { area, need }, Reading::Refused(refusal)) => {
            let expected = Refusal::Area {
                area: *area,
                need: *need,
            };
            must(*refusal == expected, "not the short area")
                .or_else(|| must(areas == lent, "a refusal changed an area"))
        }
        (Truth::Short { .. }, _) => Some("accepted with a short area".to_string()),
        (Truth::Open, Reading::Refused(refusal)) => {
            must(areas == lent, "a refusal changed an area")
                .or_else(|| place(text, refusal))
                .or_else(|| cut_at(library, text, lent, refusal))
        }
        (Truth::Open, Reading::Accepted { header, texts }) => {
            let found = MapSet {
                header: *header,
                texts: *texts,
                areas: areas.clone(),
            };
            let cut = found.cut();
            let expected = overlaid(lent, &cut.areas);
            must(*areas == expected, "more than the needs was changed")
                .or_else(|| round_trip(library, &cut))
        }
    }
}

/// With areas of what is needed a text is read, with one element less it is 11; it is refused as its reading is.
fn judge_needs(
    library: &dyn Library,
    text: &[u8],
    truth: &Option<[usize; 6]>,
    answer: &Result<[usize; 6], Refusal>,
) -> Option<String> {
    let read = |lengths: [usize; 6]| library.read(text, &mut rubbish(lengths, 1));
    match answer {
        Err(refusal) => must(truth.is_none(), "a good text is refused").or_else(|| {
            let same = read([0; 6]) == Reading::Refused(*refusal);
            must(same && refusal.number() != 11, "not refused as its reading")
        }),
        Ok(needs) => must(truth.is_none_or(|truth| truth == *needs), "not the needs")
            .or_else(|| {
                let done = matches!(read(*needs), Reading::Accepted { .. });
                must(done, "not accepted with what it needs")
            })
            .or_else(|| {
                (0..6).filter(|&area| needs[area] > 0).find_map(|area| {
                    let mut lengths = *needs;
                    lengths[area] -= 1;
                    let short = Reading::Refused(Refusal::Area {
                        area: area as u8 + 1,
                        need: needs[area] as u64,
                    });
                    must(read(lengths) == short, "one less is not 11")
                })
            }),
    }
}

/// Whether a refusal's place can be one in this text.
fn place(text: &[u8], refusal: &Refusal) -> Option<String> {
    let Refusal::Place {
        number,
        line,
        column,
    } = *refusal
    else {
        return must(refusal.number() == 11, "no refusal of reading");
    };
    let mut lines: Vec<&[u8]> = text.split(|&b| b == b'\n').collect();
    if lines.last().is_some_and(|last| last.is_empty()) {
        lines.pop();
    }
    if number == 10 {
        return must(line == lines.len() as u64 + 1 && column == 0, "not the end");
    }
    let Some(bytes) = lines.get((line as usize).wrapping_sub(1)) else {
        return Some("a line that is not there".to_string());
    };
    let good = match number {
        1 => bytes.len() > 80 && column == 81,
        2 => bytes
            .get(column as usize - 1)
            .is_some_and(|b| !(32..=126).contains(b)),
        3 => [61, 1, 21, 41].contains(&column),
        4 | 5 => column == 61,
        6 => (1..=80).contains(&column),
        7 | 8 => column <= 31,
        9 => column == 0,
        _ => false,
    };
    must(good, &format!("{refusal} cannot be"))
}

/// "Lowest line first": cut before the refused line, the text ends too early (or
/// was over already); cut after it, it is refused the same way.
fn cut_at(library: &dyn Library, text: &[u8], lent: &Buffers, refusal: &Refusal) -> Option<String> {
    let Refusal::Place { number, line, .. } = *refusal else {
        return None;
    };
    if number == 10 {
        return None;
    }
    let starts: Vec<usize> = std::iter::once(0)
        .chain((0..text.len()).filter(|&k| text[k] == b'\n').map(|k| k + 1))
        .collect();
    let read = |end: usize| library.read(&text[..end], &mut lent.clone());
    let before = read(starts[line as usize - 1]);
    let early = Reading::Refused(Refusal::Place {
        number: 10,
        line,
        column: 0,
    });
    let over = match before {
        Reading::Accepted { .. } => true,
        Reading::Refused(refusal) => refusal.number() == 11,
    };
    must(before == early || over, "refused before the line cut off").or_else(|| {
        let end = starts.get(line as usize).copied().unwrap_or(text.len());
        let same = read(end) == Reading::Refused(*refusal);
        must(same, "refused otherwise when cut after the line")
    })
}

/// The canonical text read again gives the set again, and is a fixed point.
pub fn round_trip(library: &dyn Library, set: &MapSet) -> Option<String> {
    let expected = second::write::canonical(&set.header, &set.texts, &set.areas.view());
    let mut text = vec![0; expected.len() + 10];
    match library.write(set, &mut text) {
        Ok(length) => text.truncate(length),
        Err(refusal) => return Some(format!("a good set is not written: {refusal}")),
    }
    let mut areas = rubbish(set.areas.lengths(), 1);
    let Reading::Accepted { header, texts } = library.read(&text, &mut areas) else {
        return Some("the canonical text is refused".to_string());
    };
    let again = MapSet {
        header,
        texts,
        areas,
    };
    if again != *set {
        return Some("the canonical text gives another set".to_string());
    }
    let mut second = vec![0; text.len()];
    let length = library.write(&again, &mut second);
    must(
        length == Ok(text.len()) && second == text,
        "the canonical text is no fixed point",
    )
}

fn judge_writing(
    library: &dyn Library,
    set: &MapSet,
    out: &[u8],
    known: Known,
    answer: &Result<usize, Refusal>,
    after: &[u8],
) -> Option<String> {
    match answer {
        Err(Refusal::Bare { number: 31 }) => must(known != Known::Valid, "a good set is refused")
            .or_else(|| must(after == out, "a refusal changed the output")),
        Err(Refusal::Output { need }) => must(known != Known::Invalid, "30 for no set")
            .or_else(|| must(*need > out.len() as u64, "a need that was lent"))
            .or_else(|| must(after == out, "a refusal changed the output"))
            .or_else(|| {
                let mut enough = vec![0; *need as usize];
                let length = library.write(set, &mut enough);
                must(length == Ok(enough.len()), "not the need")
            })
            .or_else(|| round_trip(library, &set.cut())),
        Ok(length) => must(known != Known::Invalid, "no set is written")
            .or_else(|| must(after[*length..] == out[*length..], "bytes past the text"))
            .or_else(|| round_trip(library, &set.cut())),
        Err(refusal) => Some(format!("{refusal} is no refusal of writing")),
    }
}

/// As the question is answered, and the answer then a delay; a height is none.
fn judge_delay(
    library: &dyn Library,
    set: &MapSet,
    question: &Question,
    carrier: f64,
    answer: &Result<Bits, Refusal>,
) -> Option<String> {
    let refused = |number: u8| {
        let found = answer.err().map(|refusal| refusal.number());
        must(
            found == Some(number),
            &format!("{answer:?} is not {number}"),
        )
    };
    match library.ask(set, question) {
        _ if question.kind == 2 => refused(23),
        Ok(Answer::ThousandthsOfTecu(x)) => delays::wrong(x as i32, carrier, answer),
        Ok(Answer::ThousandthsOfKilometre(_)) => Some("a height".to_string()),
        Err(refusal) => refused(refusal.number()),
    }
}

fn judge_moving(epoch: u64, by: i64, answer: &Result<u64, Refusal>) -> Option<String> {
    let end = i128::from(second::calendar::END);
    let result = i128::from(epoch) + i128::from(by);
    let good = i128::from(epoch) < end && (0..end).contains(&result);
    match answer {
        Ok(moved) => must(good && i128::from(*moved) == result, "wrongly moved"),
        Err(refusal) => must(
            !good && *refusal == Refusal::Bare { number: 7 },
            "wrongly refused",
        ),
    }
}
