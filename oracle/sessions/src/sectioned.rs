//! The port's `map_section` and the original's, on random records; before each call the same one is made with one
//! thing wrong. Everything is lent between guards.

use crate::guarded::Guarded;
use crate::record;
use asked::rows::Rows;
use enonkasse_sys::records::{map_section, PolType};
use enonkasse_sys::{MAX_RECORDS, SECTIONS};
use judge::random::Random;
use judge::refusals::{FULL, MALFORMED};
use plans::mapped::{BySection, Record, Widths};
use plans::question::{Answer, Given, Question};
use plans::sections::Placed;
use plans::tally::{Labelled, Questions, Said, Tally};
use std::sync::Mutex;

/// N1 of the sections, N and N3.
const WIDTHS: usize = 3 * SECTIONS;

/// One question of so many has any number of records up to the limit, the others few.
const MANY_EVERY: u64 = 50;
const FEW: usize = 40;

/// What stands in columns and widths at first.
const UNWRITTEN: u16 = u16::from_ne_bytes([record::UNWRITTEN; 2]);

/// Records of known sections, with any dimensions and positions.
pub fn questions(seed: u64, index: u64) -> Questions {
    let random = &mut Random::new(seed, index);
    let (label, most) = match index % MANY_EVERY {
        0 => ("sections, many records", MAX_RECORDS),
        _ => ("sections", FEW),
    };
    let (sections, count) = (random.between(1, SECTIONS), random.between(0, most));
    let records = (0..count).map(|_| Record {
        section: random.below(sections),
        dimension: dimension(random),
        position: random.below(usize::from(u16::MAX) + 1),
    });
    Ok(vec![Labelled::new(label, Question::Sections(records.collect()))])
}

/// Mostly one that has a place.
fn dimension(random: &mut Random) -> usize {
    match random.chance(90) {
        true => random.between(1, 3),
        false => random.pick(&[0, 4, 5, usize::from(u16::MAX)]),
    }
}

/// What is wrong with a call.
#[derive(Clone, Copy, Debug)]
enum Fault {
    Section,
    Columns,
    Widths,
    TooMany,
    /// Of the first record past the limit.
    SectionPastLimit,
    /// Of one that is not read.
    SectionUnread,
}

const FAULTS: [Fault; 6] = [
    Fault::Section,
    Fault::Columns,
    Fault::Widths,
    Fault::TooMany,
    Fault::SectionPastLimit,
    Fault::SectionUnread,
];

/// No section has one of these numbers.
const NO_SECTIONS: [u16; 3] = [SECTIONS as u16, 0x100, u16::MAX];

/// What is lent: records, the three columns, the widths.
#[derive(Clone, Debug, PartialEq, Eq)]
pub struct Lent {
    pub records: Vec<PolType>,
    pub columns: [Vec<u16>; 3],
    pub widths: Vec<u16>,
}

impl Lent {
    /// That of a seed and index, where all is well.
    pub fn random(seed: u64, index: u64) -> Result<Lent, String> {
        match questions(seed, index)?.swap_remove(0).question {
            Question::Sections(records) => Lent::of(&records),
            _ => Err("records come first".to_string()),
        }
    }

    fn of(records: &[Record]) -> Result<Lent, String> {
        let number = |number: usize| u16::try_from(number).map_err(|_| format!("{}\n", number));
        let record = |record: &Record| {
            Ok(PolType {
                section: number(record.section)?,
                dim: number(record.dimension)?,
                section_pos: number(record.position)?,
            })
        };
        Ok(Lent::new(records.iter().map(record).collect::<Result<_, String>>()?))
    }

    fn new(records: Vec<PolType>) -> Lent {
        let columns = [(); 3].map(|()| vec![UNWRITTEN; records.len()]);
        Lent { records, columns, widths: vec![UNWRITTEN; WIDTHS] }
    }

    /// The answer's number, and what stands after it.
    fn call(&self) -> Result<(u8, Lent), String> {
        let mut records = Guarded::new(&self.records);
        let [mut sections, mut dims, mut positions] =
            [0, 1, 2].map(|place| Guarded::new(&self.columns[place]));
        let mut widths = Guarded::new(&self.widths);
        let number = map_section(
            records.lent(),
            sections.lent(),
            dims.lent(),
            positions.lent(),
            widths.lent(),
        );
        let guarded = [&sections, &dims, &positions, &widths];
        if !guarded.iter().all(|part| part.guards_stand()) || !records.guards_stand() {
            return Err(format!("the answer is {}, and a guard was overwritten\n", number));
        }
        let [sections, dims, positions, widths] = guarded.map(|part| part.items().to_vec());
        let records = records.items().to_vec();
        Ok((number, Lent { records, columns: [sections, dims, positions], widths }))
    }

    /// The number of a call that is refused, which changes nothing.
    fn refused(&self) -> Result<u8, String> {
        let (number, after) = self.call()?;
        match after == *self {
            true => Ok(number),
            false => Err(format!("refused with {}, and what was lent has changed\n", number)),
        }
    }

    fn spoil(&mut self, fault: Fault, random: &mut Random) {
        let unknown = random.pick(&NO_SECTIONS);
        match fault {
            Fault::Section => {
                let record = PolType { section: unknown, dim: 1, section_pos: 0 };
                let place = random.below(self.records.len() + 1);
                self.records.insert(place, record);
                self.records.truncate(MAX_RECORDS.max(place + 1));
                *self = Lent::new(self.records.clone());
            }
            Fault::Columns => {
                let column = &mut self.columns[random.below(3)];
                if column.pop().is_none() || random.chance(50) {
                    column.extend([UNWRITTEN; 2]);
                }
            }
            Fault::Widths => {
                self.widths.resize(random.pick(&[0, WIDTHS - 1, WIDTHS + 1]), UNWRITTEN)
            }
            Fault::TooMany => self.grow(MAX_RECORDS + 1),
            Fault::SectionPastLimit => {
                self.grow(MAX_RECORDS + 1);
                self.records[MAX_RECORDS].section = unknown;
            }
            Fault::SectionUnread => {
                self.grow(MAX_RECORDS + 2);
                self.records[MAX_RECORDS + 1].section = unknown;
            }
        }
    }

    fn grow(&mut self, count: usize) {
        self.records.resize(count, PolType { section: 1, dim: 1, section_pos: 0 });
        *self = Lent::new(self.records.clone());
    }
}

impl Fault {
    fn number(self) -> u8 {
        match self {
            Fault::TooMany | Fault::SectionUnread => FULL,
            _ => MALFORMED,
        }
    }
}

/// The exported function, and how often something wrong was lent to it.
#[derive(Default)]
pub struct Port {
    pub faults: Mutex<Rows>,
}

/// What was compared, and the first difference.
pub type Compared = Result<(Tally, Option<String>), String>;

impl Port {
    /// Compares so many lists of random records with the original.
    pub fn compare(&self, seed: u64, count: u64) -> Compared {
        plans::tally::compare(seed, count, questions, |question| match question {
            Question::Sections(records) => self.refuses(records).and_then(|()| say(records)),
            _ => Ok(None),
        })
    }

    /// One thing wrong with the same call: its number, and nothing lent has changed.
    fn refuses(&self, records: &[Record]) -> Result<(), String> {
        let drawn = records.iter().fold(records.len() as u64, |sum, record| {
            sum.wrapping_mul(0x0100_0000_01b3).wrapping_add(record.position as u64)
        });
        let random = &mut Random::new(drawn, 0);
        let (fault, mut lent) = (random.pick(&FAULTS), Lent::of(records)?);
        lent.spoil(fault, random);
        let (number, expected) = (lent.refused()?, fault.number());
        if number != expected {
            return Err(format!("with {:?}: the answer is {}, not {}\n", fault, number, expected));
        }
        self.faults.lock().expect("a tally").count(&format!("{:?}", fault), number);
        Ok(())
    }
}

/// The port's answer. Where a section is unknown, which the original passes over, there is none: it must refuse.
pub fn say(records: &[Record]) -> Said {
    let lent = Lent::of(records)?;
    if records.iter().any(|record| record.section >= SECTIONS) {
        return match lent.refused()? {
            MALFORMED => Ok(None),
            number => Err(format!("a section is unknown, and the answer is {}\n", number)),
        };
    }
    let (number, after) = lent.call()?;
    if number != 0 {
        return lent.refused().map(|number| Some(Answer::Refused(number)));
    }
    let placed = after.placed(&lent)?;
    Ok(Some(Answer::Given(Given::Placed(Box::new(placed)))))
}

impl Lent {
    /// What was placed: the columns are the records', and nothing but positions has changed in these.
    fn placed(&self, before: &Lent) -> Result<Placed, String> {
        let column = |part: fn(&PolType) -> u16| self.records.iter().map(part).collect::<Vec<_>>();
        let columns = [
            column(|record| record.section),
            column(|record| record.dim),
            column(|record| record.section_pos),
        ];
        let moved = |(before, after): (&PolType, &PolType)| PolType {
            section_pos: after.section_pos,
            ..*before
        };
        let expected = before.records.iter().zip(&self.records).map(moved);
        if self.columns != columns || !expected.eq(self.records.iter().copied()) {
            return Err("columns are not the records', or more than positions has changed\n".into());
        }
        let by_section = |part: usize| {
            let mut numbers = BySection::default();
            let widths = &self.widths[part * SECTIONS..];
            numbers.iter_mut().zip(widths).for_each(|(number, &width)| *number = width.into());
            numbers
        };
        let positions = columns[2].iter().map(|&position| position.into()).collect();
        let widths = Widths { n1: by_section(0), n: by_section(1), n3: by_section(2) };
        Ok(Placed { positions, widths })
    }
}

#[cfg(test)]
mod tests {
    use super::*;
    use judge::run::on_large_stack;

    #[test]
    fn random_records_are_placed_and_faults_refused() {
        let port = Port::default();
        let (tally, difference) = port.compare(3, 300).unwrap();
        assert_eq!(difference, None);
        assert_eq!(tally.accepted("sections") + tally.accepted("sections, many records"), 300);
        let faults = port.faults.lock().unwrap();
        for fault in FAULTS {
            assert!(faults.of(&format!("{:?}", fault), fault.number()) > 0, "{}", faults);
        }
    }

    #[test]
    fn a_wrong_position_or_width_would_be_found() {
        let changes: [fn(&mut Placed); 3] = [
            |placed| placed.positions.iter_mut().for_each(|position| *position ^= 1),
            |placed| placed.widths.n1[0] += 1,
            |placed| placed.widths.n3[10] += 1,
        ];
        for change in changes {
            let compared = plans::tally::compare(1, 40, questions, |question| match question {
                Question::Sections(records) => on_large_stack(|| say(records)).map(|answer| {
                    answer.map(|answer| match answer {
                        Answer::Given(Given::Placed(mut placed)) => {
                            change(&mut placed);
                            Answer::Given(Given::Placed(placed))
                        }
                        other => other,
                    })
                }),
                _ => Ok(None),
            });
            assert!(compared.unwrap().1.is_some());
        }
    }
}
