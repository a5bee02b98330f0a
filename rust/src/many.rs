//! Many questions about one map set, in one call of the archive.

use crate::epoch::Epoch;
use crate::ffi;
use crate::mapset::MapSet;
use crate::place::Place;
use crate::refusal::Refusal;
use crate::value::{Answer, Kind, Method};

/// Places and times as the archive takes them. There are as many questions as the shortest has elements.
#[derive(Clone, Copy, Debug)]
pub struct Questions<'a> {
    /// Latitudes, in hundredths of a degree.
    pub lats: &'a [i32],
    /// Longitudes, in hundredths of a degree.
    pub lons: &'a [i32],
    /// Seconds from 1900-01-01 00:00:00.
    pub seconds: &'a [u64],
}

impl MapSet {
    /// What [`MapSet::ask`] answers to each of many questions, in their order. The map set is judged once for all of them, so
    /// that many cost much less than as many calls. The times may come in any order.
    ///
    /// Refused as a whole where no question could be answered: 24, and 31 as [`MapSet::ask`]. Else each question has its answer
    /// or its refusal: 20, 21 or 22.
    ///
    /// ```
    /// use ionex::{Epoch, Kind, MapSet, Method, Place};
    ///
    /// let maps = MapSet::read(&std::fs::read("../tests/examples/accepted-canonical.inx")?)?;
    /// let time: Epoch = "2000-01-01T00:30:00".parse()?;
    /// let rovers = [Place::new(500, 500), Place::new(1000, 2000), Place::new(9001, 0)];
    /// let answers = maps.ask_all(Kind::Tec, Method::Between, 0, rovers.map(|rover| (rover, time)))?;
    /// assert_eq!(answers[0].unwrap().to_string(), "0.550 TECU");
    /// assert_eq!(answers[1], maps.ask(Kind::Tec, Method::Between, 0, rovers[1], time));
    /// assert_eq!(answers[2].unwrap_err().number(), 21);
    /// # Ok::<(), Box<dyn std::error::Error>>(())
    /// ```
    pub fn ask_all(
        &self,
        kind: Kind,
        method: Method,
        layer: u64,
        questions: impl IntoIterator<Item = (Place, Epoch)>,
    ) -> Result<Vec<Result<Answer, Refusal>>, Refusal> {
        let (places, seconds): (Vec<Place>, Vec<u64>) = questions
            .into_iter()
            .map(|(place, time)| (place, time.seconds()))
            .unzip();
        let lats: Vec<i32> = places.iter().map(|place| place.lat).collect();
        let lons: Vec<i32> = places.iter().map(|place| place.lon).collect();
        let (mut answers, mut values) = (vec![0; seconds.len()], vec![0; seconds.len()]);
        let questions = Questions {
            lats: &lats,
            lons: &lons,
            seconds: &seconds,
        };
        self.ask_all_into(kind, method, layer, questions, &mut answers, &mut values)?;
        let answer = |(number, value)| match number {
            0 => Ok(kind.answer(value)),
            number => Err(Refusal::plain(u64::from(number))),
        };
        Ok(answers.into_iter().zip(values).map(answer).collect())
    }

    /// As [`MapSet::ask_all`], into areas that are there already, so that nothing is allocated: how many questions there were,
    /// which is as many as the shortest of all five slices has elements. For each of them `answers` has 0 and `values` the
    /// thousandths of the kind's unit, or `answers` has the refusal's number and `values` is as it was. Nothing behind the last
    /// question is changed, and nothing at all where the call is refused.
    pub fn ask_all_into(
        &self,
        kind: Kind,
        method: Method,
        layer: u64,
        questions: Questions,
        answers: &mut [u8],
        values: &mut [i32],
    ) -> Result<usize, Refusal> {
        let Questions {
            lats,
            lons,
            seconds,
        } = questions;
        let many = ffi::Many {
            kind: kind as u64,
            method: method as u64,
            layer,
            lats,
            lons,
            seconds,
        };
        let given = lats.len().min(lons.len()).min(seconds.len());
        let count = given.min(answers.len()).min(values.len());
        match ffi::ask_all(self.as_areas().given(), many, answers, values) {
            0 => Ok(count),
            number => Err(Refusal::plain(number)),
        }
    }
}
