//! 02, Ask 10: where an answer came from.

use crate::ask::{self, Aim, Answer, Cause, Part, Question};
use crate::fraction::Fraction;
use crate::header::{Header, Texts};
use crate::maps::View;
use crate::refusal::Refusal;

/// "each needed node with its map, layer, row, column, value in thousandths and
/// whole-number weight". Maps count from 1, the others from 0.
#[derive(Clone, Copy, Debug, PartialEq, Eq)]
pub struct Node {
    pub map: u64,
    pub layer: u64,
    pub row: u64,
    pub column: u64,
    pub value: i64,
    pub weight: i64,
}

#[derive(Clone, Debug, PartialEq, Eq)]
pub struct Explanation {
    /// In the order map, row, column.
    pub nodes: Vec<Node>,
    pub denominator: i64,
    /// The weighted sum, rounded once.
    pub answer: Answer,
}

/// A refusal, and for 22 "the first needed node without a value, in the order map,
/// row, column, with the cause that makes it so".
#[derive(Clone, Copy, Debug, PartialEq, Eq)]
pub struct Unexplained {
    pub refusal: Refusal,
    pub lacking: Option<Lacking>,
}

/// Counted as a [`Node`].
#[derive(Clone, Copy, Debug, PartialEq, Eq)]
pub struct Lacking {
    pub map: u64,
    pub layer: u64,
    pub row: u64,
    pub column: u64,
    pub cause: Cause,
}

/// "Refusals: as the question itself."
pub fn explain(
    header: &Header,
    texts: &Texts,
    areas: &View,
    question: &Question,
) -> Result<Explanation, Unexplained> {
    let aim = ask::aim(header, texts, areas, question).map_err(|refusal| Unexplained {
        refusal,
        lacking: None,
    })?;
    let denominator = denominator(header, areas, question, &aim);
    let mut nodes = Vec::new();
    for (map, columns) in &aim.maps {
        // "by column number, in the strip too": there the last column comes behind the first.
        let mut columns = columns.clone();
        columns.sort_by_key(|column| column.place);
        for row in &aim.rows {
            for column in &columns {
                let needed = [map, row, column];
                nodes.push(node(areas, &aim, needed, denominator).map_err(no_value)?);
            }
        }
    }
    let weighted = nodes
        .iter()
        .map(|node| i128::from(node.value) * i128::from(node.weight));
    let sum = Fraction::new(weighted.sum(), i128::from(denominator));
    Ok(Explanation {
        answer: aim.in_unit(sum.rounded()),
        nodes,
        denominator,
    })
}

fn no_value(lacking: Lacking) -> Unexplained {
    Unexplained {
        refusal: Refusal::Bare { number: 22 },
        lacking: Some(lacking),
    }
}

/// A needed node: its map, row and column, each with its weight.
fn node(areas: &View, aim: &Aim, needed: [&Part; 3], denominator: i64) -> Result<Node, Lacking> {
    let [map, row, column] = needed.map(|part| part.place);
    let block = aim.layer * aim.grid.rows + row;
    let value = ask::node(&aim.grid, areas, aim.kind, map, block, column);
    let weight = needed
        .iter()
        .fold(Fraction::from(denominator), |weight, part| {
            weight.times(part.weight)
        });
    let [map, layer, row, column] = [map + 1, aim.layer, row, column].map(|place| place as u64);
    match value {
        Ok(value) => Ok(Node {
            map,
            layer,
            row,
            column,
            value,
            weight: whole(weight),
        }),
        Err(cause) => Err(Lacking {
            map,
            layer,
            row,
            column,
            cause,
        }),
    }
}

/// A weight is a "whole-number weight" over the common denominator.
fn whole(weight: Fraction) -> i64 {
    let number = weight.floor();
    assert_eq!(Fraction::new(number, 1), weight, "a weight in parts");
    i64::try_from(number).expect("a weight of 64 bits")
}

/// "|DLAT| times DLON in hundredths of a degree (DLON in 1/1200 of a degree for
/// methods 2 and 3), and for methods 1 and 2, before the last epoch, also times the
/// gap in seconds". The axes are in tenths.
fn denominator(header: &Header, areas: &View, question: &Question, aim: &Aim) -> i64 {
    let latitude = 10 * header.latitudes.step.abs();
    let longitude = match question.method {
        0 | 1 => 10 * header.longitudes.step,
        _ => 120 * header.longitudes.step,
    };
    let epochs = &areas.epochs[..aim.grid.maps];
    // The first map after the second; there is none at the last epoch.
    let next = epochs.iter().position(|&epoch| epoch > question.second);
    let gap = match (question.method, next) {
        (1 | 2, Some(next)) => (epochs[next] - epochs[next - 1]) as i64,
        _ => 1,
    };
    latitude * longitude * gap
}
