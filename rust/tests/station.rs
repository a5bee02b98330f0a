//! The maps in force against a model: of each source the texts that were accepted, the last that covers a second answering.

use ionex::station::{InForce, Station, HELD};
use ionex::{Epoch, Kind, Method, Place};
use std::collections::HashMap;
use std::sync::atomic::{AtomicBool, AtomicU64, Ordering};
use std::sync::Arc;

/// A text from one hour of 2000-01-01 to another, a map for each second hour, every node of the same tenths of a TECU: an
/// answer tells the text that it came from. `columns` is how many columns a row has.
fn text_of(first: u64, last: u64, tenths: u64, columns: u64) -> String {
    let record = |words: String, label: &str| format!("{words:<60}{label}\n");
    let epoch = |hour: u64| {
        let (day, hour) = (1 + hour / 24, hour % 24);
        format!("{:6}{:6}{day:6}{hour:6}{:6}{:6}", 2000, 1, 0, 0)
    };
    let maps = (last - first) / 2 + 1;
    let east = 10 * (columns - 1);
    let grid = |lat: &str| format!("  {lat:>6}   0.0{east:4}.0  10.0 400.0");
    let mut out = record(
        format!("     1.1{:12}IONOSPHERE MAPS     GNS", ""),
        "IONEX VERSION / TYPE",
    ) + &record(
        "program             agency              1-jan-00 00:00".to_string(),
        "PGM / RUN BY / DATE",
    ) + &record(epoch(first), "EPOCH OF FIRST MAP")
        + &record(epoch(last), "EPOCH OF LAST MAP")
        + &record(format!("{:6}", 7200), "INTERVAL")
        + &record(format!("{maps:6}"), "# OF MAPS IN FILE")
        + &record("  COSZ".to_string(), "MAPPING FUNCTION")
        + &record("    20.0".to_string(), "ELEVATION CUTOFF")
        + &record("carrier phase".to_string(), "OBSERVABLES USED")
        + &record("  6371.0".to_string(), "BASE RADIUS")
        + &record("     2".to_string(), "MAP DIMENSION")
        + &record("   400.0 400.0   0.0".to_string(), "HGT1 / HGT2 / DHGT")
        + &record("    10.0   0.0 -10.0".to_string(), "LAT1 / LAT2 / DLAT")
        + &record(format!("     0.0{east:4}.0  10.0"), "LON1 / LON2 / DLON")
        + &record(String::new(), "END OF HEADER");
    for map in 1..=maps {
        out += &record(format!("{map:6}"), "START OF TEC MAP");
        out += &record(epoch(first + 2 * (map - 1)), "EPOCH OF CURRENT MAP");
        for lat in ["10.0", "0.0"] {
            out += &record(grid(lat), "LAT/LON1/LON2/DLON/H");
            // Sixteen values to a line.
            for line in 0..columns.div_ceil(16) {
                let values = (columns - 16 * line).min(16) as usize;
                out += &format!("{}\n", format!("{tenths:5}").repeat(values));
            }
        }
        out += &record(format!("{map:6}"), "END OF TEC MAP");
    }
    out + &record(String::new(), "END OF FILE")
}

fn text(first: u64, last: u64, tenths: u64) -> String {
    text_of(first, last, tenths, 3)
}

/// Half past an hour. Of an even hour the nearest map is that of the hour, in a joined set too.
fn half_past(hour: u64) -> Epoch {
    let midnight: Epoch = "2000-01-01T00:00:00".parse().expect("a time");
    Epoch::from_seconds(midnight.seconds() + 3600 * hour + 1800)
}

/// The tenths that a station answers at half past an hour, with the source.
fn asked(station: &Station, hour: u64) -> Option<(String, u64)> {
    let time = half_past(hour);
    let in_force = station.at(time)?;
    let place = Place::new(500, 500);
    let answer = in_force
        .maps
        .ask(Kind::Tec, Method::Nearest, 0, place, time);
    let thousandths = answer.expect("covered").thousandths();
    Some((in_force.source.clone(), thousandths as u64 / 100))
}

/// An accepted text of the model: its hours, and its tenths.
#[derive(Clone, Copy)]
struct Accepted {
    first: u64,
    last: u64,
    tenths: u64,
}

/// The texts of one source in the order of acceptance. The present is half past `NOW`.
#[derive(Default)]
struct Model(Vec<Accepted>);

const NOW: u64 = 7;

impl Model {
    fn accept(&mut self, new: Accepted) {
        self.0
            .retain(|old| old.first < new.first || old.last > new.last);
        self.0.push(new);
        // Half hours from the present; of two equally far the one that was accepted earlier goes.
        let distance = |text: &Accepted| {
            (2 * text.first).saturating_sub(2 * NOW + 1)
                + (2 * NOW + 1).saturating_sub(2 * text.last)
        };
        while self.0.len() > HELD {
            let most = self.0.iter().map(distance).max().unwrap();
            let at = self
                .0
                .iter()
                .position(|text| distance(text) == most)
                .unwrap();
            self.0.remove(at);
        }
    }

    fn at(&self, hour: u64) -> Option<u64> {
        let mut covering = self.0.iter().rev();
        covering
            .find(|text| text.first <= hour && hour < text.last)
            .map(|text| text.tenths)
    }
}

/// Numbers that follow from the first: Knuth's MMIX constants.
struct Numbers(u64);

impl Numbers {
    fn below(&mut self, limit: u64) -> u64 {
        self.0 = self
            .0
            .wrapping_mul(6_364_136_223_846_793_005)
            .wrapping_add(1_442_695_040_888_963_407);
        (self.0 >> 33) % limit
    }
}

/// A text cut, or with one byte of it wrong: refused wherever that is.
fn spoilt(text: &str, numbers: &mut Numbers) -> Vec<u8> {
    let mut bytes = text.as_bytes().to_vec();
    let at = numbers.below(bytes.len() as u64 - 100) as usize;
    if numbers.below(2) == 0 {
        bytes.truncate(at);
    } else {
        bytes[at] = 0x07;
    }
    bytes
}

#[test]
fn the_last_accepted_text_that_covers_a_second_answers() {
    let mut numbers = Numbers(1);
    for _ in 0..40 {
        let station = Station::new(["cod", "igs"]);
        let mut models = [("cod", Model::default()), ("igs", Model::default())];
        for tenths in 1..=30 {
            let (name, model) = &mut models[numbers.below(2) as usize];
            let first = 2 * numbers.below(8);
            let last = first + 2 * (1 + numbers.below(4));
            let whole = text(first, last, tenths);
            let now = half_past(NOW);
            if numbers.below(3) == 0 {
                let before = station.in_force();
                let bytes = spoilt(&whole, &mut numbers);
                let judged = station.offer_all(name, &[("spoilt", &bytes)], now);
                assert!(judged[0].is_err());
                assert_eq!(station.in_force(), before);
            } else {
                let judged = station.offer_all(name, &[("whole", whole.as_bytes())], now);
                assert!(judged[0].is_ok());
                model.accept(Accepted {
                    first,
                    last,
                    tenths,
                });
            }
            for hour in (0..26).step_by(2) {
                let expected = models.iter().find_map(|(name, model)| {
                    model.at(hour).map(|tenths| (name.to_string(), tenths))
                });
                assert_eq!(asked(&station, hour), expected, "hour {hour}");
            }
        }
    }
}

#[test]
fn what_meets_is_joined_and_what_does_not_stands_apart() {
    let station = Station::new(["cod"]);
    let offer = |name: &str, text: String| {
        station
            .offer_all("cod", &[(name, text.as_bytes())], half_past(NOW))
            .remove(0)
    };
    offer("monday", text(0, 24, 1)).unwrap();
    offer("tuesday", text(24, 48, 2)).unwrap();
    let joined = station.over(half_past(23), half_past(24)).expect("joined");
    assert_eq!(joined.name(), "monday + tuesday");
    assert_eq!((joined.generation, joined.maps.maps()), (2, 25));
    // A gap, and then another grid, are no neighbours.
    offer("thursday", text(72, 96, 3)).unwrap();
    offer("sunday", text_of(96, 120, 4, 4)).unwrap();
    assert!(station.over(half_past(95), half_past(96)).is_none());
    assert_eq!(asked(&station, 94).unwrap().1, 3);
    assert_eq!(asked(&station, 96).unwrap().1, 4);
    // What did not change keeps its generation.
    assert_eq!(station.at(half_past(0)).unwrap().generation, 2);
    assert_eq!(station.in_force().len(), 3);
}

#[test]
fn two_renewed_together_are_one_step() {
    let station = Station::new(["cod"]);
    let days = |tenths: u64| [text(0, 24, tenths), text(24, 48, tenths + 1)];
    let offer = |[early, late]: [String; 2]| {
        let both = [("early", early.as_bytes()), ("late", late.as_bytes())];
        station.offer_all("cod", &both, half_past(NOW))
    };
    assert!(offer(days(1)).iter().all(Result::is_ok));
    let before = station.in_force();
    assert_eq!((before.len(), before[0].generation), (1, 1));
    assert!(offer(days(3)).iter().all(Result::is_ok));
    let after = station.in_force();
    assert_eq!((after.len(), after[0].generation), (1, 2));
    assert_eq!(asked(&station, 0).unwrap().1, 3);
    assert_eq!(asked(&station, 30).unwrap().1, 4);
    // One of two refused: the other takes its place.
    let [early, late] = days(5);
    let judged = offer([early, late.replace("END OF FILE", "END OF FILM")]);
    assert_eq!(
        judged[0]
            .as_ref()
            .unwrap()
            .in_force
            .as_ref()
            .unwrap()
            .generation,
        3
    );
    assert_eq!(judged[1].as_ref().unwrap_err().number(), 4);
    assert_eq!(
        (
            asked(&station, 0).unwrap().1,
            asked(&station, 30).unwrap().1
        ),
        (5, 4)
    );
}

#[test]
fn a_text_that_comes_again_changes_nothing() {
    let station = Station::new(["cod"]);
    let offer = |name: &str, text: String| {
        let judged = station.offer_all("cod", &[(name, text.as_bytes())], half_past(NOW));
        let accepted = judged.into_iter().next().unwrap().unwrap();
        accepted.in_force.unwrap().generation
    };
    assert_eq!(offer("day", text(0, 24, 1)), 1);
    assert_eq!(offer("day", text(0, 24, 1)), 1);
    // Of another name it is another text; and behind one that took some of its seconds it takes them back.
    assert_eq!(offer("other", text(0, 24, 1)), 2);
    assert_eq!(offer("part", text(6, 10, 2)), 3);
    assert_eq!(asked(&station, 6).unwrap().1, 2);
    assert!(offer("other", text(0, 24, 1)) > 3);
    assert_eq!(asked(&station, 6).unwrap().1, 1);
}

#[test]
fn neither_an_old_text_nor_one_of_a_wrong_year_puts_away_what_covers_now() {
    let station = Station::new(["cod"]);
    let offer = |text: String| {
        station
            .offer_all("cod", &[("live", text.as_bytes())], half_past(NOW))
            .remove(0)
            .unwrap()
    };
    assert!(offer(text(0, 24, 1)).in_force.is_some());
    for year in 2090..2090 + 2 * HELD as u64 {
        let early = 1900 + (year - 2090);
        offer(text(0, 24, 2).replace("  2000     1", &format!("  {year}     1")));
        offer(text(0, 24, 3).replace("  2000     1", &format!("  {early}     1")));
    }
    assert_eq!(asked(&station, NOW).unwrap().1, 1);
    assert_eq!(station.in_force().len(), HELD);
    // Farther than all that are held: accepted, and put away.
    assert!(
        offer(text(0, 24, 4).replace("  2000     1", "  2199     1"))
            .in_force
            .is_none()
    );
    assert_eq!(station.current(half_past(NOW)), station.at(half_past(NOW)));
}

#[test]
fn an_unknown_source_comes_last_and_nothing_offered_changes_nothing() {
    let station = Station::new(["cod"]);
    assert!(station.offer_all("cod", &[], half_past(NOW)).is_empty());
    station
        .offer("new", "text", text(0, 24, 1).as_bytes())
        .unwrap();
    assert_eq!(asked(&station, 2), Some(("new".to_string(), 1)));
    station
        .offer("cod", "text", text(0, 12, 2).as_bytes())
        .unwrap();
    assert_eq!(asked(&station, 2), Some(("cod".to_string(), 2)));
    assert_eq!(asked(&station, 14), Some(("new".to_string(), 1)));
    assert_eq!(station.current(half_past(90)).unwrap().source, "new");
}

fn names_of(in_force: &InForce) -> Vec<String> {
    in_force
        .parts
        .iter()
        .map(|part| part.name.clone())
        .collect()
}

/// One thread asks: every answer is of a text that the maps in force name, and one generation has always the same texts.
fn ask_until(done: &AtomicBool, station: &Station) -> HashMap<u64, Vec<String>> {
    let mut seen = HashMap::new();
    let mut hour = 0;
    while !done.load(Ordering::Relaxed) {
        hour = (hour + 2) % 48;
        let Some(in_force) = station.at(half_past(hour)) else {
            continue;
        };
        let answer = in_force.maps.ask(
            Kind::Tec,
            Method::Nearest,
            0,
            Place::new(500, 500),
            half_past(hour),
        );
        let tenths = answer.expect("covered").thousandths() / 100;
        assert!(
            names_of(&in_force).contains(&tenths.to_string()),
            "{tenths} of {:?}",
            names_of(&in_force)
        );
        let names = seen
            .entry(in_force.generation)
            .or_insert_with(|| names_of(&in_force));
        assert_eq!(*names, names_of(&in_force));
    }
    seen
}

#[test]
fn threads_ask_while_texts_are_offered() {
    let (station, done) = (Station::new(["cod", "igs"]), AtomicBool::new(false));
    let mut numbers = Numbers(7);
    let seen: Vec<HashMap<u64, Vec<String>>> = std::thread::scope(|scope| {
        let readers: Vec<_> = (0..3)
            .map(|_| scope.spawn(|| ask_until(&done, &station)))
            .collect();
        for tenths in 1..=600 {
            let source = ["cod", "igs"][numbers.below(2) as usize];
            let first = 24 * numbers.below(2);
            let whole = text(first, first + 24, tenths);
            let name = tenths.to_string();
            let now = half_past(NOW);
            if numbers.below(3) == 0 {
                let bytes = spoilt(&whole, &mut numbers);
                assert!(station.offer_all(source, &[(&name, &bytes)], now)[0].is_err());
            } else {
                assert!(station.offer_all(source, &[(&name, whole.as_bytes())], now)[0].is_ok());
            }
        }
        done.store(true, Ordering::Relaxed);
        readers
            .into_iter()
            .map(|reader| reader.join().expect("no answer was wrong"))
            .collect()
    });
    let mut all: HashMap<u64, Vec<String>> = HashMap::new();
    for (generation, names) in seen.into_iter().flatten() {
        assert_eq!(
            *all.entry(generation).or_insert_with(|| names.clone()),
            names
        );
    }
    assert!(all.len() > 1, "the readers saw one generation alone");
}

/// A question is answered between the beginning and the end of an offer: the offer's lock is not the reader's.
#[test]
fn asking_does_not_wait_for_a_reading() {
    let station = Arc::new(Station::new(["cod"]));
    let long = text_of(0, 24 * 20, 1, 30);
    station.offer("cod", "long", long.as_bytes()).unwrap();
    let (asked, done) = (AtomicU64::new(0), AtomicBool::new(false));
    std::thread::scope(|scope| {
        scope.spawn(|| {
            while !done.load(Ordering::Relaxed) {
                assert!(station.at(half_past(1)).is_some());
                asked.fetch_add(1, Ordering::Relaxed);
            }
        });
        let during = (0..5000).any(|_| {
            let before = asked.load(Ordering::Relaxed);
            station.offer("cod", "long", long.as_bytes()).unwrap();
            asked.load(Ordering::Relaxed) > before + 1
        });
        done.store(true, Ordering::Relaxed);
        assert!(during, "no question was answered while a text was read");
    });
}
