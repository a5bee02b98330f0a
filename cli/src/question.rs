//! A question: which kind of map, by which method, in which layer; and its refusals in words.

use crate::args::Args;
use crate::json::Object;
use crate::numbers::tenths;
use crate::status::Stop;
use crate::time;
use ionex::{Answer, Axis, Epoch, Kind, MapSet, Method, Place, Refusal};

/// Each list begins with what is taken where nothing is said.
pub const KINDS: [(&str, Kind); 3] = [
    ("tec", Kind::Tec),
    ("rms", Kind::Rms),
    ("height", Kind::Height),
];
pub const METHODS: [(&str, Method); 4] = [
    ("between", Method::Between),
    ("nearest", Method::Nearest),
    ("sun", Method::Sun),
    ("nearest-sun", Method::NearestSun),
];

#[derive(Clone, Copy, Debug)]
pub struct Question {
    pub kind: Kind,
    pub method: Method,
    pub layer: u64,
}

impl Question {
    pub fn of(args: &Args) -> Result<Question, Stop> {
        Ok(Question {
            kind: args.choice("--kind", &KINDS)?,
            method: args.choice("--method", &METHODS)?,
            layer: args.number("--layer", 0)?.unwrap_or(0),
        })
    }

    /// The answer to each; a refusal of all of them is that of each.
    pub fn ask_all(&self, maps: &MapSet, asked: &[(Place, Epoch)]) -> Vec<Result<Answer, Refusal>> {
        let all = maps.ask_all(self.kind, self.method, self.layer, asked.iter().copied());
        all.unwrap_or_else(|refusal| vec![Err(refusal); asked.len()])
    }

    /// What was asked, for machines.
    pub fn json(&self, place: Place, time: Epoch) -> Object {
        let place = place.to_string();
        let (lat, lon) = place.split_once(',').unwrap_or((&place, "0"));
        Object::new()
            .raw("lat", lat)
            .raw("lon", lon)
            .text("time", &time.to_string())
            .text("kind", kind_name(self.kind))
            .text("method", self.method_name())
            .raw("layer", self.layer)
    }

    pub fn method_name(&self) -> &'static str {
        name_of(&METHODS, self.method)
    }

    /// What a refusal says, and what in the file stands against it.
    pub fn reason(&self, maps: &MapSet, place: Place, time: Epoch, refusal: &Refusal) -> String {
        let cause = match refusal.number() {
            20 => outside_time(maps, time),
            21 => self.outside_grid(maps, place),
            22 => self.no_value(maps),
            24 => not_turned(maps),
            _ => None,
        };
        match cause {
            Some(cause) => format!("{}: {cause}", refusal.meaning()),
            None => refusal.meaning().to_string(),
        }
    }

    fn outside_grid(&self, maps: &MapSet, place: Place) -> Option<String> {
        let header = maps.header();
        if self.layer >= maps.layers() as u64 {
            return Some(format!(
                "layer {} of {}, counted from 0",
                self.layer,
                maps.layers()
            ));
        }
        let axis = &header.latitudes;
        let (low, high) = (axis.first.min(axis.last), axis.first.max(axis.last));
        let (lat, lon) = place
            .to_string()
            .split_once(',')
            .map(|(lat, lon)| (lat.to_string(), lon.to_string()))?;
        if (10 * low..=10 * high).contains(&i64::from(place.lat)) {
            return Some(format!(
                "longitude {lon} is not within {}",
                span(&header.longitudes)
            ));
        }
        Some(format!("latitude {lat} is not within {}", span(axis)))
    }

    fn no_value(&self, maps: &MapSet) -> Option<String> {
        let none = (0..maps.maps()).all(|map| !maps.has(self.kind, map));
        none.then(|| format!("the file has no {} map", self.kind))
    }
}

pub fn kind_name(kind: Kind) -> &'static str {
    name_of(&KINDS, kind)
}

fn name_of<T: PartialEq>(names: &[(&'static str, T)], wanted: T) -> &'static str {
    let found = names.iter().find(|(_, value)| *value == wanted);
    found.map_or("", |(name, _)| name)
}

fn span(axis: &Axis) -> String {
    format!("{} to {}", tenths(axis.first), tenths(axis.last))
}

fn outside_time(maps: &MapSet, time: Epoch) -> Option<String> {
    let [time, first, last] = [time, maps.header().first, maps.header().last].map(time::words);
    Some(format!("{time} is not within {first} to {last}"))
}

/// Which of the three conditions of turning with the Sun is not kept.
fn not_turned(maps: &MapSet) -> Option<String> {
    let axis = &maps.header().longitudes;
    let turn = axis.first + 3600;
    if axis.last != turn && axis.last + axis.step != turn {
        return Some(format!(
            "longitudes {} by {} do not go round",
            span(axis),
            tenths(axis.step)
        ));
    }
    if axis.step > 50 {
        return Some(format!("columns are {} degrees apart", tenths(axis.step)));
    }
    let epochs = maps.epochs();
    let wide = epochs
        .windows(2)
        .position(|pair| pair[1].seconds() - pair[0].seconds() > 7200)?;
    let gap = epochs[wide + 1].seconds() - epochs[wide].seconds();
    Some(format!(
        "maps {} and {} are {gap} s apart",
        wide + 1,
        wide + 2
    ))
}
