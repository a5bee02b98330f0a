//! Many questions about one map set: each as if it were asked alone.

mod common;
use common::*;
use second::many::{ask_all, Many};
use second::{ask, Answer, Question};

/// Latitude, longitude and seconds after the first map.
const QUESTIONS: [(i32, i32, u64); 8] = [
    (1000, 0, 0),
    (500, 500, 3_600),
    (1000, 2000, 7_201),
    (0, 2000, 7_200),
    (-1, 0, 0),
    (1000, 2001, 1),
    (0, 0, 1),
    (777, 333, 5_000),
];

fn slices() -> (Vec<i32>, Vec<i32>, Vec<u64>) {
    let lats = QUESTIONS.iter().map(|question| question.0).collect();
    let lons = QUESTIONS.iter().map(|question| question.1).collect();
    let seconds = QUESTIONS
        .iter()
        .map(|question| FIRST + question.2)
        .collect();
    (lats, lons, seconds)
}

fn many<'a>(kind: i64, method: i64, of: &'a (Vec<i32>, Vec<i32>, Vec<u64>)) -> Many<'a> {
    Many {
        kind,
        method,
        layer: 0,
        latitudes: &of.0,
        longitudes: &of.1,
        seconds: &of.2,
    }
}

#[test]
fn each_as_if_alone() {
    let (header, texts, own) = set();
    let of = slices();
    for (kind, method) in [(0, 0), (0, 1), (1, 0), (1, 1), (2, 1)] {
        let (mut answers, mut values) = ([77; 8], [-7; 8]);
        let many = many(kind, method, &of);
        let done = ask_all(
            &header,
            &texts,
            &own.view(),
            &many,
            &mut answers,
            &mut values,
        );
        assert_eq!(done, Ok(()));
        for (k, (latitude, longitude, after)) in QUESTIONS.into_iter().enumerate() {
            let question = Question {
                kind,
                method,
                layer: 0,
                latitude: latitude.into(),
                longitude: longitude.into(),
                second: FIRST + after,
            };
            let expected = match ask(&header, &texts, &own.view(), &question) {
                Ok(Answer::ThousandthsOfTecu(value) | Answer::ThousandthsOfKilometre(value)) => {
                    (0, value as i32)
                }
                Err(refusal) => (refusal.number(), -7),
            };
            assert_eq!((answers[k], values[k]), expected, "{question:?}");
        }
    }
    // By hand: 100, halfway in all three from 300 to 1300, late, 1600, south, east, just behind 400 and in between.
    let (mut answers, mut values) = ([77; 8], [-7; 8]);
    let between = many(0, 1, &of);
    let _ = ask_all(
        &header,
        &texts,
        &own.view(),
        &between,
        &mut answers,
        &mut values,
    );
    assert_eq!(answers, [0, 0, 20, 0, 21, 21, 0, 0]);
    assert_eq!(values[..7], [100, 800, -7, 1600, -7, -7, 400]);
}

#[test]
fn as_many_as_the_shortest() {
    let (header, texts, own) = set();
    for shortest in 0..5 {
        let mut of = slices();
        let (mut answers, mut values) = (vec![77; 8], vec![-7; 8]);
        match shortest {
            0 => of.0.truncate(2),
            1 => of.1.truncate(2),
            2 => of.2.truncate(2),
            3 => answers.truncate(2),
            _ => values.truncate(2),
        }
        let many = many(0, 1, &of);
        let done = ask_all(
            &header,
            &texts,
            &own.view(),
            &many,
            &mut answers,
            &mut values,
        );
        assert_eq!(done, Ok(()));
        assert_eq!(
            (&answers[..2], &values[..2]),
            (&[0, 0][..], &[100, 800][..])
        );
        assert!(answers[2..].iter().all(|&answer| answer == 77));
        assert!(values[2..].iter().all(|&value| value == -7));
    }
}

#[test]
fn refused_as_a_whole() {
    let (mut header, texts, own) = set();
    let (of, none) = (slices(), (vec![], vec![], vec![]));
    let refused = |header: &_, kind, method| {
        [&of, &none].map(|of| {
            let (mut answers, mut values) = ([77; 8], [-7; 8]);
            let many = many(kind, method, of);
            let done = ask_all(
                header,
                &texts,
                &own.view(),
                &many,
                &mut answers,
                &mut values,
            );
            assert_eq!((answers, values), ([77; 8], [-7; 8]));
            done.map_or_else(|refusal| refusal.number(), |()| 0)
        })
    };
    assert_eq!(refused(&header, 3, 1), [23; 2]);
    assert_eq!(refused(&header, 0, 4), [23; 2]);
    assert_eq!(refused(&header, 0, 2), [24; 2]);
    header.maps = 3;
    assert_eq!(refused(&header, 0, 2), [31; 2]);
    assert_eq!(refused(&header, -1, 2), [23; 2]);
}
