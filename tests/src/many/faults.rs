//! Planted faults of many questions in one call: the second program with one thing wrong, which the comparison must find.

use super::{calls, compare_call, Asking, Call, Chosen, Many};
use crate::archive::Archive;
use crate::boundary::{Given, Plain, HEADER, TEXTS};
use crate::tally;

listed! {
    /// One thing wrong with many questions.
    pub enum Fault {
        FirstForAll,
        /// The value of a refused question set to 0, or to the one before.
        RefusedZero,
        RefusedAsBefore,
        /// The length of one of the five slices not looked at.
        Length(usize) in (0..5).map(Fault::Length),
        /// The length of one of them taken alone, as far as there is room.
        LengthOf(usize) in (0..5).map(Fault::LengthOf),
        OneLess,
        TailAnswers,
        TailValues,
        /// Nothing answered behind the first question that is refused.
        Stops,
        /// A question's refusal told of the whole call, or the call's of each question.
        RefusedAsCall,
        RefusedEach,
        /// No question, and so no look at the set.
        NoneUnjudged,
        /// The maps looked for from those of the question before, and never back.
        OnlyForward,
        /// The maps of the first question for all.
        SameMaps,
        LayerFirst,
        Swapped,
        AnswersWhenRefused,
        ValuesWhenRefused,
        /// 102 told before 101.
        OwnOrder,
    }
}

/// The seed and the difference at which the comparison with the library finds a fault, within `count` seeds.
pub fn find(fault: Fault, count: u64, seed: u64) -> Option<(u64, String)> {
    let differs = |call: &Call| compare_call(&Archive, &Faulty(fault), call).1;
    tally::first(count, seed, |seed| calls(seed).iter().find_map(differs))
}

/// The second program with one thing wrong.
pub struct Faulty(pub Fault);

impl Many for Faulty {
    fn ask_all(
        &self,
        given: &Given,
        chosen: &Chosen,
        asking: &Asking,
        answers: &mut [u8],
        values: &mut [i32],
    ) -> u64 {
        let lengths = [
            asking.lats.len(),
            asking.lons.len(),
            asking.seconds.len(),
            answers.len(),
            values.len(),
        ];
        let count = lengths.into_iter().min().unwrap_or(0);
        match self.0 {
            Fault::NoneUnjudged if count == 0 && given.header.len() >= HEADER => return 0,
            Fault::OwnOrder if given.texts.len() < TEXTS => return 102,
            _ => {}
        }
        let (before, found) = (answers.to_vec(), values.to_vec());
        let taken = self.taken(lengths);
        let (chosen, asking) = self.asked(chosen, asking, taken);
        let mut told = resized(answers, taken);
        let mut valued = resized(values, taken);
        let answer = Plain.ask_all(given, &chosen, &asking, &mut told, &mut valued);
        // What is written past the end is lost.
        answers.copy_from_slice(&told[..answers.len()]);
        values.copy_from_slice(&valued[..values.len()]);
        if answer != 0 {
            return self.refused(answer, answers, values);
        }
        let first_refused = answers[..count].iter().position(|&number| number != 0);
        match (self.0, first_refused) {
            (Fault::FirstForAll, _) if count > 0 => {
                let (answer, value) = (answers[0], values[0]);
                answers[..count].fill(answer);
                values[..count].fill(value);
            }
            (Fault::RefusedZero, Some(k)) => values[k] = 0,
            (Fault::RefusedAsBefore, Some(k)) if k > 0 => values[k] = values[k - 1],
            (Fault::OneLess, _) if count > 0 => {
                answers[count - 1] = before[count - 1];
                values[count - 1] = found[count - 1];
            }
            (Fault::TailAnswers, _) => answers.iter_mut().skip(count).for_each(|n| *n = 0),
            (Fault::TailValues, _) => values.iter_mut().skip(count).for_each(|n| *n = 0),
            (Fault::Stops, Some(k)) => {
                answers[k + 1..].copy_from_slice(&before[k + 1..]);
                values[k + 1..].copy_from_slice(&found[k + 1..]);
            }
            (Fault::RefusedAsCall, Some(k)) => return u64::from(answers[k]),
            _ => {}
        }
        answer
    }
}

impl Faulty {
    /// How many questions there are taken to be.
    fn taken(&self, lengths: [usize; 5]) -> usize {
        let looked_at = |slice: usize| match self.0 {
            Fault::Length(other) => slice != other,
            Fault::LengthOf(other) => slice == other,
            _ => true,
        };
        let slices = (0..5).filter(|&slice| looked_at(slice));
        slices.map(|slice| lengths[slice]).min().unwrap_or(0)
    }

    /// What the questions are mistaken for; what is not there is read as 0.
    fn asked(&self, chosen: &Chosen, asking: &Asking, taken: usize) -> (Chosen, Asking) {
        let mut chosen = *chosen;
        let mut asking = Asking {
            lats: resized(&asking.lats, taken),
            lons: resized(&asking.lons, taken),
            seconds: resized(&asking.seconds, taken),
        };
        asking.lats.truncate(taken);
        match self.0 {
            Fault::OnlyForward => {
                let mut latest = 0;
                for second in &mut asking.seconds {
                    latest = latest.max(*second);
                    *second = latest;
                }
            }
            Fault::SameMaps => {
                let first = asking.seconds.first().copied().unwrap_or(0);
                asking.seconds.fill(first);
            }
            Fault::LayerFirst => chosen.layer = 0,
            Fault::Swapped => {
                asking.lons.truncate(taken);
                std::mem::swap(&mut asking.lats, &mut asking.lons);
            }
            _ => {}
        }
        (chosen, asking)
    }

    /// What is wrong with a call that is refused.
    fn refused(&self, answer: u64, answers: &mut [u8], values: &mut [i32]) -> u64 {
        match (self.0, answer) {
            (Fault::RefusedEach, 20..=31) => {
                answers.fill(answer as u8);
                return 0;
            }
            (Fault::AnswersWhenRefused, _) => answers.iter_mut().for_each(|n| *n = answer as u8),
            (Fault::ValuesWhenRefused, _) => values.iter_mut().for_each(|n| *n = 0),
            _ => {}
        }
        answer
    }
}

/// A slice made at least so long.
fn resized<T: Copy + Default>(slice: &[T], length: usize) -> Vec<T> {
    let mut longer = slice.to_vec();
    longer.resize(slice.len().max(length), T::default());
    longer
}
