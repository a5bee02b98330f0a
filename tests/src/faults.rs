//! Planted faults: a library that answers as the second program does but for one
//! thing. Each must be found by the comparison.

use crate::delays::Bits;
use crate::jobs::{self, Job};
use crate::library::{Library, Second};
use crate::oracle;
use crate::remarks::Leak;
use crate::run;
use crate::set::MapSet;
use crate::tally;
use second::maps::Grid;
use second::{Answer, Axis, Buffers, Header, Question, Reading, Refusal, Texts};

listed! {
    pub enum Fault {
        // Reading: the answer.
        AcceptedAsRefused,
        RefusedAsAccepted,
        Number,
        Line,
        /// A line of 16 bits.
        LineNarrow,
        /// Of the wrong fields of an epoch, the last told.
        EpochLast,
        Column,
        ShortArea,
        ShortNeed,
        // Reading: the header record, its axes (0 heights, 1 latitudes, 2 longitudes;
        // first, last, step) and its starred records.
        Version,
        /// GPS and GLO under 1.1 too, or not at all; 1.0 read or written as 1.1.
        GpsInAny,
        GpsInNone,
        ReadAsNew,
        WrittenAsNew,
        FileType,
        Code,
        FirstEpoch,
        LastEpoch,
        Interval,
        Maps,
        Cutoff,
        Radius,
        Dimension,
        AxisNumber(usize, usize) in (0..9).map(|k| Fault::AxisNumber(k / 3, k % 3)),
        StationsFlag,
        StationsCount,
        SatellitesFlag,
        SatellitesCount,
        SystemFlag(usize) in (0..7).map(Fault::SystemFlag),
        SystemStations(usize) in (0..7).map(Fault::SystemStations),
        SystemSatellites(usize) in (0..7).map(Fault::SystemSatellites),
        Descriptions,
        // Reading: a text, the last needed element of an area, the guard behind it,
        // an area touched by a refusal.
        Text(usize) in (0..6).map(Fault::Text),
        /// Descriptions in reverse, the last one or a blank one lost, or one that stands in an aux block taken.
        DescriptionsReversed,
        DescriptionLost,
        BlankDescriptionLost,
        DescriptionOfAux,
        /// The twenty-first description skipped, or the twentieth refused.
        TwentyFirstTaken,
        TwentiethRefused,
        Area(usize) in (0..6).map(Fault::Area),
        Guard(usize) in (0..6).map(Fault::Guard),
        Touched(usize) in (0..6).map(Fault::Touched),
        /// The exponent set back to -1 at each map.
        ExponentReset,
        /// A second aux block refused.
        OneAux,
        /// A point with no digit after it taken as 0.
        PointAlone,
        /// A byte of a remark let through.
        Leak(Leak) in Leak::all().into_iter().map(Fault::Leak),
        // Needs: one of them, or the place of a refusal.
        Need(usize) in (0..6).map(Fault::Need),
        NeedOfNone,
        NeedsLine,
        NeedsAccepted,
        // Writing.
        WrittenByte,
        WrittenPast,
        WrittenLength,
        WriteNeed,
        WriteNumber,
        WriteTouched,
        /// Descriptions in reverse, the last one lost, or all of them behind OBSERVABLES USED.
        WrittenReversed,
        WrittenLost,
        WrittenLate,
        /// Bytes behind the last description not looked at, or only whether they can be printed: writing, asking, joining.
        BehindWritten,
        BehindAsked,
        BehindJoined,
        PrintableBehind,
        // Asking.
        Value,
        Unit,
        AskNumber,
        /// The place of a value in 16 bits, of a map in 8.
        NodeNarrow,
        MapNarrow,
        /// Rounding in space and again in time.
        RoundedTwice,
        /// The later of two equally near maps.
        LaterMap,
        /// Refusing for an absent node whose weight is zero.
        ZeroWeight,
        /// 9999 taken as a value.
        AbsentAsValue,
        /// In the strip, the column before the last in the place of the first.
        ColumnBefore,
        /// Maps that turn: the later one moved forward too, both moved by the time since the earlier, moved ten times as far.
        LaterForward,
        SameTime,
        TenTimes,
        /// Rounded in each of the maps that turn, and again in time.
        RoundedPerMap,
        /// 24 told after 20, or only for the gap around the second asked for.
        TurnsLate,
        GapAround,
        // Delays: divided by 1000 after the product, by the carrier twice, by the carrier alone.
        ThousandLast,
        CarrierTwice,
        NotSquared,
        /// The record in thousandths.
        RecordThousandths,
        /// The limits themselves refused.
        LimitsRefused,
        /// A height map's value taken as TEC.
        HeightDelay,
        /// 25 before the refusals of the question.
        CarrierFirst,
        // Joining: the shared map from the earlier set, its RMS map lost.
        SharedEarlier,
        SharedRmsLost,
        /// The later set's INTERVAL kept, or an INTERVAL of 0 taken as the other set's.
        IntervalKept,
        IntervalOther,
        TextsEarlier,
        DescriptionsEarlier,
        LastEpochEarlier,
        /// The exponents of all kinds one behind the other.
        ExponentsTogether,
        /// 42 before 41, or 41 before 40.
        LimitFirst,
        MeetFirst,
        JoinNeed,
        JoinTouched(usize) in (0..6).map(Fault::JoinTouched),
        JoinGuard(usize) in (0..6).map(Fault::JoinGuard),
        // Moving.
        MovedValue,
        MovedRefusal,
    }
}

/// The seed at which the comparison with a library finds the fault, the job and the difference, within `count` seeds.
pub fn find(library: &dyn Library, fault: Fault, count: u64, seed: u64) -> Option<(u64, String)> {
    let faulty = Faulty(fault);
    let differs = |(k, job): (usize, &Job)| {
        let difference = run::difference(&run::run(library, job), &run::run(&faulty, job))?;
        Some(format!("job {k}: {difference}"))
    };
    tally::first(count, seed, |seed| {
        jobs::jobs(seed).iter().enumerate().find_map(differs)
    })
}

pub struct Faulty(pub Fault);

impl Library for Faulty {
    fn name(&self) -> String {
        format!("second with {:?}", self.0)
    }

    fn read(&self, text: &[u8], areas: &mut Buffers) -> Reading {
        if let Fault::Leak(leak) = self.0 {
            let mut answer = Second.read(text, areas);
            leak.into_reading(text, &mut answer, areas);
            return answer;
        }
        let before = areas.clone();
        match Second.read(text, areas) {
            Reading::Accepted { header, texts } => {
                self.accepted(text, before, areas, header, texts)
            }
            Reading::Refused(refusal) => match with_zero(text, refusal) {
                Some(text) if self.0 == Fault::PointAlone => Second.read(&text, areas),
                _ if self.0 == Fault::GpsInAny => match as_old(text, refusal) {
                    Some(text) => Second.read(&text, areas),
                    None => Reading::Refused(refusal),
                },
                _ if self.0 == Fault::EpochLast => Reading::Refused(last_wrong(text, refusal)),
                _ if self.0 == Fault::TwentyFirstTaken => match without_more(text, refusal) {
                    Some(text) => self.read(&text, areas),
                    None => Reading::Refused(refusal),
                },
                _ => self.refused(areas, refusal),
            },
        }
    }

    fn needs(&self, text: &[u8]) -> Result<[usize; 6], Refusal> {
        let mut answer = Second.needs(text);
        match (self.0, &mut answer) {
            (Fault::Need(k), Ok(needs)) => needs[k] += 1,
            // RMS maps taken to be there in every text.
            (Fault::NeedOfNone, Ok(needs)) => needs[1] = needs[0],
            (Fault::NeedsLine, Err(Refusal::Place { line, .. })) => *line += 1,
            (Fault::Leak(leak), Ok(needs)) => leak.into_needs(text, needs),
            (Fault::NeedsAccepted, Err(_)) => return Ok([1; 6]),
            _ => {}
        }
        answer
    }

    fn write(&self, set: &MapSet, out: &mut [u8]) -> Result<usize, Refusal> {
        let answer = match self.0 {
            Fault::BehindWritten => Second.write(&blank_behind(set), out),
            Fault::PrintableBehind => Second.write(&blank_printable_behind(set), out),
            _ => Second.write(set, out),
        };
        match (self.0, answer) {
            (Fault::WrittenReversed, Ok(_)) => {
                let mut changed = set.clone();
                described(&mut changed.header, &mut changed.texts).reverse();
                Second.write(&changed, out)
            }
            (Fault::WrittenLost, Ok(_)) => {
                let mut changed = set.clone();
                lose(&mut changed.header, &mut changed.texts);
                Second.write(&changed, out)
            }
            (Fault::WrittenLate, Ok(length)) => {
                let late = with_late_descriptions(&out[..length]);
                out[..length].copy_from_slice(&late);
                Ok(length)
            }
            (Fault::WrittenAsNew, Ok(length)) => {
                out[7] = b'1';
                Ok(length)
            }
            (Fault::WrittenByte, Ok(length)) => {
                out[length / 2] ^= 1;
                Ok(length)
            }
            (Fault::WrittenPast, Ok(length)) => {
                if length < out.len() {
                    out[length] ^= 1;
                }
                Ok(length)
            }
            (Fault::WrittenLength, Ok(length)) => Ok(length - 1),
            (Fault::WriteNeed, Err(Refusal::Output { need })) => {
                Err(Refusal::Output { need: need + 1 })
            }
            (Fault::WriteNumber, Err(Refusal::Bare { .. })) => Err(Refusal::Output { need: 1 }),
            (Fault::WriteTouched, Err(refusal)) => {
                if let Some(byte) = out.first_mut() {
                    *byte ^= 1;
                }
                Err(refusal)
            }
            _ => answer,
        }
    }

    fn ask(&self, set: &MapSet, question: &Question) -> Result<Answer, Refusal> {
        let answer = match self.0 {
            Fault::BehindAsked => Second.ask(&blank_behind(set), question),
            _ => Second.ask(set, question),
        };
        let turned =
            question.method > 1 && matches!(answer, Ok(_) | Err(Refusal::Bare { number: 22 }));
        match (self.0, answer) {
            (Fault::LaterForward, _) if turned => turned_by(set, question, |since, _| since.abs()),
            (Fault::SameTime, _) if turned => turned_by(set, question, |_, first| first),
            (Fault::TenTimes, _) if turned => turned_by(set, question, |since, _| 10 * since),
            (Fault::RoundedPerMap, Ok(right)) if question.method == 2 => {
                Ok(rounded_per_map(set, question).unwrap_or(right))
            }
            (Fault::TurnsLate, Err(Refusal::Bare { number: 24 })) if !in_time(set, question) => {
                Err(Refusal::Bare { number: 20 })
            }
            (Fault::GapAround, Err(Refusal::Bare { number: 24 })) if in_time(set, question) => {
                Second.ask(&around(set, question.second), question)
            }
            (Fault::Value, Ok(Answer::ThousandthsOfTecu(value))) => {
                Ok(Answer::ThousandthsOfTecu(value + 1))
            }
            (Fault::Unit, Ok(Answer::ThousandthsOfKilometre(value))) => {
                Ok(Answer::ThousandthsOfTecu(value))
            }
            (Fault::AskNumber, Err(Refusal::Bare { number: 21 })) => {
                Err(Refusal::Bare { number: 22 })
            }
            (Fault::NodeNarrow, _) => Second.ask(&with_values_of(set, 1 << 16, 1), question),
            (Fault::MapNarrow, _) => {
                Second.ask(&with_values_of(set, 256, set.grid().values()), question)
            }
            (Fault::RoundedTwice, Ok(right)) => Ok(rounded_twice(set, question).unwrap_or(right)),
            (Fault::LaterMap, Ok(right)) if question.method == 0 => {
                let later = Question {
                    second: question.second + 1,
                    ..*question
                };
                Ok(Second.ask(set, &later).unwrap_or(right))
            }
            (Fault::ZeroWeight, Ok(right)) => {
                let aside = Question {
                    longitude: question.longitude + 1,
                    ..*question
                };
                match Second.ask(set, &aside) {
                    Err(refusal) if refusal.number() == 22 => Err(refusal),
                    _ => Ok(right),
                }
            }
            (Fault::AbsentAsValue, Err(refusal)) if refusal.number() == 22 => {
                let mut filled = set.clone();
                for values in [
                    &mut filled.areas.tec,
                    &mut filled.areas.rms,
                    &mut filled.areas.height,
                ] {
                    for value in values.iter_mut().filter(|v| **v == 9999) {
                        *value = 9998;
                    }
                }
                Second.ask(&filled, question)
            }
            (Fault::ColumnBefore, Ok(_) | Err(Refusal::Bare { number: 22 }))
                if set.in_strip(question.longitude) =>
            {
                Second.ask(&with_column_before(set), question)
            }
            _ => answer,
        }
    }

    fn tecu_delay(&self, x: i32, carrier: f64) -> Result<Bits, Refusal> {
        let [_, tecu, metres] = Second.tecu_delay(x, carrier)?.map(f64::from_bits);
        let x = f64::from(x);
        let record = match self.0 {
            Fault::ThousandLast => [carrier, tecu, x * 4.03e17 / 1000.0 / (carrier * carrier)],
            Fault::CarrierTwice => [carrier, tecu, tecu * 4.03e17 / carrier / carrier],
            Fault::NotSquared => [carrier, tecu, tecu * 4.03e17 / carrier],
            Fault::RecordThousandths => [carrier, x, metres],
            Fault::LimitsRefused if [1.0e9, 2.0e9].contains(&carrier) => {
                return Err(Refusal::Bare { number: 25 })
            }
            _ => [carrier, tecu, metres],
        };
        Ok(record.map(f64::to_bits))
    }

    fn delay(&self, set: &MapSet, question: &Question, carrier: f64) -> Result<Bits, Refusal> {
        let answer = match (self.0, Second.delay(set, question, carrier)) {
            (Fault::HeightDelay, _) if question.kind == 2 => Second.ask(set, question),
            (Fault::CarrierFirst, Err(refusal)) => {
                Second.tecu_delay(0, carrier)?;
                return Err(refusal);
            }
            (_, Err(refusal)) => return Err(refusal),
            (_, Ok(_)) => Second.ask(set, question),
        };
        match answer? {
            Answer::ThousandthsOfTecu(x) | Answer::ThousandthsOfKilometre(x) => {
                self.tecu_delay(x as i32, carrier)
            }
        }
    }

    fn join(&self, earlier: &MapSet, later: &MapSet, areas: &mut Buffers) -> Reading {
        let mut answer = match self.0 {
            Fault::SharedEarlier => Second.join(earlier, &with_shared(earlier, later), areas),
            Fault::SharedRmsLost => Second.join(earlier, &without_rms(later), areas),
            Fault::BehindJoined => Second.join(&blank_behind(earlier), &blank_behind(later), areas),
            _ => Second.join(earlier, later, areas),
        };
        match &mut answer {
            Reading::Accepted { header, texts } => {
                self.joined(earlier, later, areas, header, texts)
            }
            Reading::Refused(refusal) => self.not_joined(earlier, later, areas, refusal),
        }
        answer
    }

    fn moved(&self, epoch: u64, by: i64) -> Result<u64, Refusal> {
        let answer = Second.moved(epoch, by);
        match (self.0, answer) {
            (Fault::MovedValue, Ok(moved)) => Ok(moved + 1),
            (Fault::MovedRefusal, Err(_)) => Ok(epoch.wrapping_add_signed(by)),
            _ => answer,
        }
    }
}

impl Faulty {
    /// What is wrong with a set that is joined.
    fn joined(
        &self,
        earlier: &MapSet,
        later: &MapSet,
        areas: &mut Buffers,
        header: &mut Header,
        texts: &mut Texts,
    ) {
        match self.0 {
            Fault::IntervalKept => header.interval = later.header.interval,
            Fault::IntervalOther => {
                header.interval = match (earlier.header.interval, later.header.interval) {
                    (0, other) | (other, 0) => other,
                    _ => header.interval,
                }
            }
            Fault::TextsEarlier => *texts = earlier.texts,
            Fault::DescriptionsEarlier => {
                header.descriptions = earlier.header.descriptions;
                texts.descriptions = earlier.texts.descriptions;
            }
            Fault::LastEpochEarlier => header.last_epoch = earlier.header.last_epoch,
            Fault::ExponentsTogether => {
                let blocks = earlier.grid().blocks();
                let kept = 3 * (earlier.grid().maps - 1) * blocks;
                let all = 3 * later.grid().maps * blocks;
                areas.exponents[..kept].copy_from_slice(&earlier.areas.exponents[..kept]);
                areas.exponents[kept..kept + all].copy_from_slice(&later.areas.exponents[..all]);
            }
            Fault::JoinGuard(k) => {
                let need = Grid::of(header).needs(&areas.marks)[k];
                if need < areas.lengths()[k] {
                    flip(areas, k, need);
                }
            }
            _ => {}
        }
    }

    /// What is wrong with a refusal to join.
    fn not_joined(
        &self,
        earlier: &MapSet,
        later: &MapSet,
        areas: &mut Buffers,
        refusal: &mut Refusal,
    ) {
        let apart = earlier.header.last_epoch != later.header.first_epoch;
        match (self.0, refusal) {
            (Fault::LimitFirst, Refusal::Bare { number })
                if *number == 41 && earlier.header.maps + later.header.maps > 301 =>
            {
                *number = 42
            }
            (Fault::MeetFirst, Refusal::Bare { number }) if *number == 40 && apart => *number = 41,
            (Fault::JoinNeed, Refusal::Area { need, .. }) => *need += 1,
            (Fault::JoinTouched(k), _) if areas.lengths()[k] > 0 => flip(areas, k, 0),
            _ => {}
        }
    }

    fn accepted(
        &self,
        text: &[u8],
        before: Buffers,
        areas: &mut Buffers,
        mut header: Header,
        mut texts: Texts,
    ) -> Reading {
        match self.0 {
            Fault::AcceptedAsRefused => {
                *areas = before;
                return Reading::Refused(Refusal::Place {
                    number: 10,
                    line: 1,
                    column: 0,
                });
            }
            Fault::GpsInNone if header.code > 8 => {
                *areas = before;
                return Reading::Refused(Refusal::Place {
                    number: 3,
                    line: 1,
                    column: 41,
                });
            }
            Fault::ReadAsNew => header.version = 11,
            Fault::Version => header.version += 1,
            Fault::FileType => header.file_type ^= 1,
            Fault::Code => header.code += 1,
            Fault::FirstEpoch => header.first_epoch += 1,
            Fault::LastEpoch => header.last_epoch += 1,
            Fault::Interval => header.interval += 1,
            Fault::Maps => header.maps += 1,
            Fault::Cutoff => header.cutoff += 1,
            Fault::Radius => header.radius += 1,
            Fault::Dimension => header.dimension = 5 - header.dimension,
            Fault::AxisNumber(axis, number) => {
                let axis = match axis {
                    0 => &mut header.heights,
                    1 => &mut header.latitudes,
                    _ => &mut header.longitudes,
                };
                shift(axis, number);
            }
            Fault::StationsFlag => header.stations.stands ^= true,
            Fault::StationsCount => header.stations.count += 1,
            Fault::SatellitesFlag => header.satellites.stands ^= true,
            Fault::SatellitesCount => header.satellites.count += 1,
            Fault::SystemFlag(k) => header.systems[k].stands ^= true,
            Fault::SystemStations(k) => header.systems[k].stations += 1,
            Fault::SystemSatellites(k) => header.systems[k].satellites += 1,
            Fault::Descriptions => header.descriptions += 1,
            Fault::DescriptionsReversed => described(&mut header, &mut texts).reverse(),
            Fault::DescriptionLost => lose(&mut header, &mut texts),
            Fault::BlankDescriptionLost => {
                let mut kept = described(&mut header, &mut texts).to_vec();
                kept.retain(|line| *line != BLANK);
                header.descriptions = kept.len() as i64;
                kept.resize(texts.descriptions.len(), BLANK);
                texts.descriptions.copy_from_slice(&kept);
            }
            Fault::DescriptionOfAux => {
                *areas = before;
                return Second.read(&with_described_aux(text), areas);
            }
            Fault::TwentiethRefused if header.descriptions == 20 => {
                *areas = before;
                return Reading::Refused(Refusal::Place {
                    number: 5,
                    line: 22,
                    column: 61,
                });
            }
            Fault::Text(k) => {
                let parts: [&mut [u8]; 6] = [
                    &mut texts.program,
                    &mut texts.agency,
                    &mut texts.date,
                    &mut texts.mapping,
                    &mut texts.observables,
                    texts.descriptions.as_flattened_mut(),
                ];
                for (at, part) in parts.into_iter().enumerate() {
                    if at == k {
                        part[part.len() - 1] ^= 1;
                    }
                }
            }
            Fault::Area(k) => {
                let need = Grid::of(&header).needs(&areas.marks)[k];
                if need > 0 {
                    flip(areas, k, need - 1);
                }
            }
            Fault::Guard(k) => {
                let need = Grid::of(&header).needs(&areas.marks)[k];
                if need < areas.lengths()[k] {
                    flip(areas, k, need);
                }
            }
            Fault::ExponentReset => {
                *areas = before;
                return Second.read(&with_resets(text), areas);
            }
            Fault::OneAux => {
                if let Some(line) = second_aux(text) {
                    *areas = before;
                    return Reading::Refused(Refusal::Place {
                        number: 5,
                        line,
                        column: 61,
                    });
                }
            }
            _ => {}
        }
        Reading::Accepted { header, texts }
    }

    fn refused(&self, areas: &mut Buffers, refusal: Refusal) -> Reading {
        let changed = match (self.0, refusal) {
            (Fault::RefusedAsAccepted, _) => {
                return Reading::Accepted {
                    header: Header::default(),
                    texts: Texts::default(),
                }
            }
            (
                Fault::Number,
                Refusal::Place {
                    number,
                    line,
                    column,
                },
            ) => Refusal::Place {
                number: number % 10 + 1,
                line,
                column,
            },
            (
                Fault::Line,
                Refusal::Place {
                    number,
                    line,
                    column,
                },
            ) => Refusal::Place {
                number,
                line: line + 1,
                column,
            },
            (
                Fault::LineNarrow,
                Refusal::Place {
                    number,
                    line,
                    column,
                },
            ) => Refusal::Place {
                number,
                line: line & 0xffff,
                column,
            },
            (
                Fault::Column,
                Refusal::Place {
                    number,
                    line,
                    column,
                },
            ) => Refusal::Place {
                number,
                line,
                column: column + 1,
            },
            (Fault::ShortArea, Refusal::Area { area, need }) => Refusal::Area {
                area: area % 6 + 1,
                need,
            },
            (Fault::ShortNeed, Refusal::Area { area, need }) => Refusal::Area {
                area,
                need: need + 1,
            },
            (Fault::Touched(k), refusal) => {
                if areas.lengths()[k] > 0 {
                    flip(areas, k, 0);
                }
                refusal
            }
            (_, refusal) => refusal,
        };
        Reading::Refused(changed)
    }
}

fn shift(axis: &mut Axis, number: usize) {
    match number {
        0 => axis.first += 1,
        1 => axis.last += 1,
        _ => axis.step += 1,
    }
}

/// Changes one element of an area.
fn flip(areas: &mut Buffers, area: usize, at: usize) {
    match area {
        0 => areas.tec[at] ^= 1,
        1 => areas.rms[at] ^= 1,
        2 => areas.height[at] ^= 1,
        3 => areas.exponents[at] ^= 1,
        4 => areas.epochs[at] ^= 1,
        _ => areas.marks[at] ^= 1,
    }
}

/// The text with EXPONENT -1 after each START record of a map.
fn with_resets(text: &[u8]) -> Vec<u8> {
    let reset = crate::gen::record(b"    -1", "EXPONENT");
    let mut lines: Vec<&[u8]> = Vec::new();
    for line in text.split(|&b| b == b'\n') {
        lines.push(line);
        let label = line.get(60..).unwrap_or(b"").trim_ascii_end();
        if label.starts_with(b"START OF") && label.ends_with(b" MAP") {
            lines.push(&reset);
        }
    }
    lines.join(&b'\n')
}

/// The text with 0.0 in the place of a point alone, where that is what is refused.
fn with_zero(text: &[u8], refusal: Refusal) -> Option<Vec<u8>> {
    let Refusal::Place {
        number: 6,
        line,
        column,
    } = refusal
    else {
        return None;
    };
    let start = line_start(text, line) + column as usize - 1;
    [6, 8].into_iter().find_map(|width| {
        let mut changed = text.to_vec();
        let field = changed.get_mut(start..start + width)?;
        let zero = match field.trim_ascii_start() {
            b"." => "0.0",
            b"-." => "-0.0",
            _ => return None,
        };
        field.copy_from_slice(format!("{zero:>width$}").as_bytes());
        Some(changed)
    })
}

const BLANK: [u8; 60] = [b' '; 60];

/// The lines that there are.
fn described<'a>(header: &mut Header, texts: &'a mut Texts) -> &'a mut [[u8; 60]] {
    &mut texts.descriptions[..header.descriptions as usize]
}

/// Drops the last description, where there is one.
fn lose(header: &mut Header, texts: &mut Texts) {
    if let Some(line) = described(header, texts).last_mut() {
        *line = BLANK;
        header.descriptions -= 1;
    }
}

/// The set with blanks behind its last description, where their number is one that may be.
fn blank_behind(set: &MapSet) -> MapSet {
    with_behind(set, |_| b' ')
}

/// The set with blanks in the place of printable bytes there.
fn blank_printable_behind(set: &MapSet) -> MapSet {
    with_behind(set, |byte| match byte {
        32..=126 => b' ',
        other => other,
    })
}

fn with_behind(set: &MapSet, change: fn(u8) -> u8) -> MapSet {
    let mut changed = set.clone();
    let lines = changed.texts.descriptions.iter_mut();
    for byte in lines
        .skip(set.header.descriptions.max(0) as usize)
        .flatten()
    {
        *byte = change(*byte);
    }
    changed
}

fn label_of(line: &[u8]) -> &[u8] {
    line.get(60..).unwrap_or(b"").trim_ascii_end()
}

/// The text with COMMENT in the place of a description that is refused after 20 others.
fn without_more(text: &[u8], refusal: Refusal) -> Option<Vec<u8>> {
    let Refusal::Place {
        number: 5, line, ..
    } = refusal
    else {
        return None;
    };
    let start = line_start(text, line);
    let before = text[..start].split(|&b| b == b'\n');
    let others = before.filter(|line| label_of(line) == b"DESCRIPTION");
    if others.count() < 20 {
        return None;
    }
    let mut changed = text.to_vec();
    let label = changed.get_mut(start + 60..start + 71)?;
    if label != b"DESCRIPTION" {
        return None;
    }
    label.copy_from_slice(b"COMMENT    ");
    Some(changed)
}

/// A canonical text with its descriptions behind OBSERVABLES USED.
fn with_late_descriptions(text: &[u8]) -> Vec<u8> {
    let lines: Vec<&[u8]> = text.split_inclusive(|&b| b == b'\n').collect();
    let (descriptions, mut others): (Vec<&[u8]>, Vec<&[u8]>) = lines
        .into_iter()
        .partition(|line| label_of(line) == b"DESCRIPTION");
    let observables = others
        .iter()
        .position(|line| label_of(line) == b"OBSERVABLES USED");
    let behind = observables.map_or(0, |at| at + 1);
    others.splice(behind..behind, descriptions);
    others.concat()
}

/// The text with the descriptions of its aux blocks behind them too.
fn with_described_aux(text: &[u8]) -> Vec<u8> {
    let (mut inside, mut over) = (false, false);
    let (mut lines, mut found): (Vec<&[u8]>, Vec<&[u8]>) = (Vec::new(), Vec::new());
    for line in text.split_inclusive(|&b| b == b'\n') {
        lines.push(line);
        match label_of(line) {
            b"START OF AUX DATA" if !over => inside = true,
            b"END OF HEADER" if !inside => over = true,
            b"DESCRIPTION" if inside => found.push(line),
            b"END OF AUX DATA" => {
                inside = false;
                lines.append(&mut found);
            }
            _ => {}
        }
    }
    lines.concat()
}

fn line_start(text: &[u8], line: u64) -> usize {
    let lines = text.split_inclusive(|&b| b == b'\n');
    lines.take(line as usize - 1).map(<[u8]>::len).sum()
}

/// The line of the second aux block, where there is one.
fn second_aux(text: &[u8]) -> Option<u64> {
    let (mut inside, mut blocks) = (false, 0);
    for (k, line) in text.split(|&b| b == b'\n').enumerate() {
        match line.get(60..).unwrap_or(b"").trim_ascii_end() {
            b"END OF AUX DATA" => inside = false,
            b"START OF AUX DATA" if !inside => {
                inside = true;
                blocks += 1;
            }
            b"END OF HEADER" if !inside => return None,
            _ => {}
        }
        if blocks == 2 {
            return Some(k as u64 + 1);
        }
    }
    None
}

/// A refusal 7 of an epoch's field with the last wrong field in its place.
fn last_wrong(text: &[u8], refusal: Refusal) -> Refusal {
    let Refusal::Place {
        number: 7, line, ..
    } = refusal
    else {
        return refusal;
    };
    let found = &text[line_start(text, line)..];
    match wrong_epoch_fields(found).last() {
        Some(k) => Refusal::Place {
            number: 7,
            line,
            column: 6 * *k as u64 + 1,
        },
        None => refusal,
    }
}

/// The fields of an epoch record that are no number, or a number outside their own range; none of another line.
pub fn wrong_epoch_fields(line: &[u8]) -> Vec<usize> {
    let ranges = [1900..=2199, 1..=12, 1..=31, 0..=23, 0..=59, 0..=59];
    if !line
        .get(60..)
        .is_some_and(|label| label.starts_with(b"EPOCH OF"))
    {
        return Vec::new();
    }
    let wrong = |k: usize| {
        let number = second::fields::integer(&line[6 * k..6 * k + 6]);
        !number.is_some_and(|number| ranges[k].contains(&number))
    };
    (0..6).filter(|&k| wrong(k)).collect()
}

/// The text as one of version 1.0, where its code is what is refused.
fn as_old(text: &[u8], refusal: Refusal) -> Option<Vec<u8>> {
    let Refusal::Place {
        number: 3,
        line,
        column: 41,
    } = refusal
    else {
        return None;
    };
    let mut changed = text.to_vec();
    changed[line_start(text, line) + 7] = b'0';
    Some(changed)
}

/// The set with the column before the last in the place of the first.
fn with_column_before(set: &MapSet) -> MapSet {
    let mut changed = set.clone();
    let columns = set.grid().columns;
    let areas = &mut changed.areas;
    for values in [&mut areas.tec, &mut areas.rms, &mut areas.height] {
        for row in values.chunks_exact_mut(columns) {
            row[0] = row[columns - 2];
        }
    }
    changed
}

/// The set with each part of its TEC values, so many of `size`, as the first.
fn with_values_of(set: &MapSet, parts: usize, size: usize) -> MapSet {
    let mut changed = set.clone();
    for at in parts * size..set.areas.tec.len() {
        changed.areas.tec[at] = set.areas.tec[at % (parts * size)];
    }
    changed
}

/// The later of two sets with the values of the earlier one's last map in its first.
fn with_shared(earlier: &MapSet, later: &MapSet) -> MapSet {
    let mut changed = later.clone();
    let size = earlier.grid().values();
    let last = (earlier.grid().maps - 1) * size;
    let shared = earlier.areas.tec.get(last..last + size);
    if let (Some(place), Some(shared)) = (changed.areas.tec.get_mut(..size), shared) {
        place.copy_from_slice(shared);
    }
    changed
}

/// The set with its first RMS map absent.
fn without_rms(set: &MapSet) -> MapSet {
    let mut changed = set.clone();
    let (size, blocks) = (set.grid().values(), set.grid().blocks());
    let rms = set.grid().maps * blocks;
    let areas = &mut changed.areas;
    if areas.marks.first().is_some_and(|mark| mark & 1 != 0) && areas.rms.len() >= size {
        areas.marks[0] &= 2;
        areas.rms[..size].fill(9999);
        if let Some(exponents) = areas.exponents.get_mut(rms..rms + blocks) {
            exponents.fill(-1);
        }
    }
    changed
}

fn in_time(set: &MapSet, question: &Question) -> bool {
    (set.header.first_epoch..=set.header.last_epoch).contains(&question.second)
}

/// The set cut to the map that is in force at a second, and the next.
fn around(set: &MapSet, second: u64) -> MapSet {
    let grid = set.grid();
    let epochs = &set.areas.epochs[..grid.maps];
    let map = epochs.iter().rposition(|&t| t <= second).unwrap_or(0);
    let end = (map + 2).min(grid.maps);
    let kept = end - map;
    let (values, blocks) = (grid.values(), grid.blocks());
    let mut cut = set.clone();
    let areas = &mut cut.areas;
    for area in [&mut areas.tec, &mut areas.rms, &mut areas.height] {
        *area = area.get(map * values..end * values).unwrap_or(&[]).to_vec();
    }
    areas.exponents = (0..3)
        .flat_map(|kind| {
            let start = (kind * grid.maps + map) * blocks;
            set.areas.exponents[start..start + kept * blocks].to_vec()
        })
        .collect();
    areas.epochs = epochs[map..end].to_vec();
    areas.marks = set.areas.marks[map..end].to_vec();
    cut.header.maps = kept as i64;
    cut.header.first_epoch = areas.epochs[0];
    cut.header.last_epoch = areas.epochs[kept - 1];
    cut
}

/// The answer where each map is moved by another number of seconds: made of those since its epoch, and of those since
/// the first epoch used.
fn turned_by(
    set: &MapSet,
    question: &Question,
    seconds: fn(i128, i128) -> i128,
) -> Result<Answer, Refusal> {
    let epochs = &set.areas.epochs[..set.grid().maps];
    let first = epochs[oracle::maps(epochs, question)[0].0];
    let since = |epoch: u64| i128::from(question.second) - i128::from(epoch);
    let asked = 12 * i128::from(question.longitude);
    let moved = |_: &Question, epoch: u64| asked + 5 * seconds(since(epoch), since(first));
    match oracle::answer(set, question, &moved) {
        Ok(value) => Ok(in_unit(question, rounded(value.sum, value.all))),
        Err(number) => Err(Refusal::Bare { number }),
    }
}

/// Formula (3) with the value of each map rounded first.
fn rounded_per_map(set: &MapSet, question: &Question) -> Option<Answer> {
    let epochs = &set.areas.epochs[..set.grid().maps];
    let (mut sum, mut all) = (0, 0);
    for (map, shares) in oracle::maps(epochs, question) {
        let at = oracle::longitude_at(question, epochs[map]);
        let value = oracle::of_map(set, question, map, at).ok()?;
        sum += shares * rounded(value.sum, value.all);
        all += shares;
    }
    Some(in_unit(question, rounded(sum, all)))
}

fn rounded(sum: i128, all: i128) -> i128 {
    (2 * sum.abs() + all) / (2 * all) * sum.signum()
}

fn in_unit(question: &Question, value: i128) -> Answer {
    match question.kind {
        2 => Answer::ThousandthsOfKilometre(value as i64),
        _ => Answer::ThousandthsOfTecu(value as i64),
    }
}

fn rounded_twice(set: &MapSet, question: &Question) -> Option<Answer> {
    if question.method != 1 {
        return None;
    }
    let epochs = &set.areas.epochs[..set.grid().maps];
    let after = epochs.iter().position(|&t| t > question.second)?;
    let (from, to) = (epochs[after - 1], epochs[after]);
    let at = |second| {
        let alone = Question {
            second,
            ..*question
        };
        match Second.ask(set, &alone) {
            Ok(Answer::ThousandthsOfTecu(value)) => Some(value),
            _ => None,
        }
    };
    let (before, after) = (to - question.second, question.second - from);
    let sum = at(from)? * before as i64 + at(to)? * after as i64;
    let value = rounded(i128::from(sum), i128::from(to - from));
    Some(Answer::ThousandthsOfTecu(value as i64))
}
