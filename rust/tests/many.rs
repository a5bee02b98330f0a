//! Many questions in one call: each as if it were asked alone.

use ionex::{Axis, Epoch, Kind, MapSet, Method, Place, Questions};

const METHODS: [Method; 4] = [
    Method::Nearest,
    Method::Between,
    Method::Sun,
    Method::NearestSun,
];

fn example(name: &str) -> MapSet {
    let text = std::fs::read(format!("../tests/examples/{name}.inx")).expect("an example");
    MapSet::read(&text).expect("accepted")
}

/// Places and times inside the grid and a little outside, the times up and down.
fn questions(maps: &MapSet) -> Vec<(Place, Epoch)> {
    let header = maps.header();
    let within = |axis: &Axis, k: i32, step: i32| {
        let (low, high) = (
            axis.first.min(axis.last) as i32,
            axis.first.max(axis.last) as i32,
        );
        10 * low - 50 + (k * step) % (10 * (high - low) + 100)
    };
    let (first, span) = (
        header.first.seconds(),
        header.last.seconds() - header.first.seconds(),
    );
    (0..3_000_i32)
        .map(|k| {
            let place = Place::new(
                within(&header.latitudes, k, 97),
                within(&header.longitudes, k, 1_931),
            );
            let after = u64::from(k as u32) * 7_919 % (span + 10);
            (place, Epoch::from_seconds(first - 5 + after))
        })
        .collect()
}

#[test]
fn each_as_if_alone() {
    let mut counts = [0; 4];
    for name in [
        "accepted-canonical",
        "accepted-3d",
        "001-table-3",
        "accepted-2d-freedoms",
    ] {
        let maps = example(name);
        let questions = questions(&maps);
        for (kind, method) in Kind::ALL
            .iter()
            .flat_map(|kind| METHODS.map(|method| (*kind, method)))
        {
            let alone = |(place, time)| maps.ask(kind, method, 0, place, time);
            let all = match maps.ask_all(kind, method, 0, questions.iter().copied()) {
                Ok(all) => all,
                Err(refusal) => {
                    assert_eq!(alone(questions[0]), Err(refusal));
                    assert_eq!(refusal.number(), 24);
                    continue;
                }
            };
            assert_eq!(all.len(), questions.len());
            for (question, answer) in questions.iter().zip(all) {
                assert_eq!(answer, alone(*question), "{name} {question:?}");
                let number = answer.map_or_else(|refusal| refusal.number(), |_| 0);
                counts[[0, 20, 21, 22]
                    .iter()
                    .position(|n| *n == number)
                    .expect("a question's")] += 1;
            }
        }
    }
    assert!(counts.iter().all(|count| *count > 100), "{counts:?}");
}

#[test]
fn none_is_answered_too() {
    let maps = example("accepted-canonical");
    assert_eq!(maps.ask_all(Kind::Tec, Method::Between, 0, []), Ok(vec![]));
    let refusal = maps.ask_all(Kind::Tec, Method::Sun, 0, []).unwrap_err();
    assert_eq!(refusal.number(), 24);
    let mut areas = maps.into_areas();
    areas.header[0] = 0;
    let refusal = MapSet::from_areas(areas).ask_all(Kind::Tec, Method::Between, 0, []);
    assert_eq!(refusal.unwrap_err().number(), 31);
}

#[test]
fn as_many_as_the_shortest() {
    let maps = example("accepted-canonical");
    let second = maps.header().first.seconds();
    let questions = Questions {
        lats: &[1000, 0, -1, 0],
        lons: &[0, 2000, 0],
        seconds: &[second; 9],
    };
    let (mut answers, mut values) = ([77; 5], [-7; 4]);
    let ask = |answers: &mut [u8], values: &mut [i32]| {
        maps.ask_all_into(Kind::Tec, Method::Between, 0, questions, answers, values)
    };
    assert_eq!(ask(&mut answers, &mut values), Ok(3));
    assert_eq!((answers, values), ([0, 0, 21, 77, 77], [100, 600, -7, -7]));
    let (mut answers, mut values) = ([77; 5], [-7; 1]);
    assert_eq!(ask(&mut answers, &mut values), Ok(1));
    assert_eq!((answers, values), ([0, 77, 77, 77, 77], [100]));
    let layer = maps.ask_all_into(
        Kind::Tec,
        Method::Between,
        1,
        questions,
        &mut answers,
        &mut [5; 9],
    );
    assert_eq!((layer, answers), (Ok(3), [21, 21, 21, 77, 77]));
}
