//! Many questions about one map set. 02 does not ask for this: each answer is that of the question alone.

use crate::ask::{self, Answer, Question};
use crate::header::{Header, Texts};
use crate::maps::View;
use crate::refusal::Refusal;

/// Questions of one kind, method and layer: places in hundredths of a degree, and
/// seconds from 1900.
#[derive(Clone, Copy, Debug)]
pub struct Many<'a> {
    pub kind: i64,
    pub method: i64,
    pub layer: i64,
    pub latitudes: &'a [i32],
    pub longitudes: &'a [i32],
    pub seconds: &'a [u64],
}

/// As many questions as the shortest of the five slices has elements. 23, 31 and 24
/// are the call's own; 20, 21 and 22 a question's, whose value is left as it was.
pub fn ask_all(
    header: &Header,
    texts: &Texts,
    areas: &View,
    many: &Many,
    answers: &mut [u8],
    values: &mut [i32],
) -> Result<(), Refusal> {
    ask::served(header, texts, areas, many.kind, many.method)?;
    let places = many.latitudes.iter().zip(many.longitudes);
    let told = answers.iter_mut().zip(values);
    for (((&latitude, &longitude), &second), (answer, value)) in places.zip(many.seconds).zip(told)
    {
        let question = Question {
            kind: many.kind,
            method: many.method,
            layer: many.layer,
            latitude: i64::from(latitude),
            longitude: i64::from(longitude),
            second,
        };
        *answer = match ask::ask(header, texts, areas, &question) {
            Ok(Answer::ThousandthsOfTecu(found) | Answer::ThousandthsOfKilometre(found)) => {
                // "held in signed 32 bits, which holds every answer"
                *value = i32::try_from(found).expect("an answer of 32 bits");
                0
            }
            Err(refusal) => refusal.number(),
        };
    }
    Ok(())
}
