//! Plans: the input of `map` beside the pool, as plain numbers, and its byte record.
//!
//! The record is big-endian: nBits and nBitsExt (1 byte each); n_cm1 to n_cm4, q_deg, c_exp (2
//! each); the counts of pu, pe, ci, intermediates, qs, q2exp (2 each); then the entries of each
//! in this order, every number 2 bytes. Nothing comes after it.

use judge::hex::Reader;
use judge::refusals::{FULL, MALFORMED};
use std::collections::BTreeSet;

pub const MAX_RECORDS: usize = 4096;

/// A lookup: its expressions f and t, and numerator and denominator of its product.
#[derive(Clone, Copy, Debug, Default, PartialEq, Eq)]
pub struct Pu {
    pub f: u16,
    pub t: u16,
    pub ratio: Ratio,
}

#[derive(Clone, Copy, Debug, Default, PartialEq, Eq)]
pub struct Ratio {
    pub num: u16,
    pub den: u16,
}

#[derive(Clone, Copy, Debug, Default, PartialEq, Eq)]
pub struct Intermediate {
    pub expression: u16,
    pub cm: u16,
}

#[derive(Clone, Debug, Default, PartialEq, Eq)]
pub struct Plan {
    pub n_bits: u8,
    pub n_bits_ext: u8,
    /// n_cm1 to n_cm4.
    pub n_cm: [u16; 4],
    pub q_deg: u16,
    pub c_exp: u16,
    pub pu: Vec<Pu>,
    pub pe: Vec<Ratio>,
    pub ci: Vec<Ratio>,
    pub intermediates: Vec<Intermediate>,
    pub qs: Vec<u16>,
    pub q2exp: Vec<u16>,
}

impl Plan {
    pub fn bytes(&self) -> Vec<u8> {
        let mut bytes = vec![self.n_bits, self.n_bits_ext];
        let mut push = |number: u16| bytes.extend(number.to_be_bytes());
        self.n_cm.into_iter().chain([self.q_deg, self.c_exp]).for_each(&mut push);
        self.counts().into_iter().for_each(|count| push(count as u16));
        self.pu.iter().flat_map(Pu::numbers).for_each(&mut push);
        self.pe.iter().chain(&self.ci).flat_map(Ratio::numbers).for_each(&mut push);
        self.intermediates.iter().flat_map(|i| [i.expression, i.cm]).for_each(&mut push);
        self.qs.iter().chain(&self.q2exp).copied().for_each(&mut push);
        bytes
    }

    /// The number of a refusal where the record is malformed, or else past its limit.
    pub fn read(bytes: &[u8]) -> Result<Plan, u8> {
        let plan = Plan::decode(bytes).ok_or(MALFORMED)?;
        if plan.records() > MAX_RECORDS {
            return Err(FULL);
        }
        Ok(plan)
    }

    /// The plan of a record that is not malformed, whatever its size.
    pub fn decode(bytes: &[u8]) -> Option<Plan> {
        let plan = Plan::decode_any(Reader::new(bytes)).ok()?;
        let ascends = |pair: &[Intermediate]| pair[0].expression < pair[1].expression;
        Some(plan).filter(|plan| plan.intermediates.windows(2).all(ascends))
    }

    fn decode_any(mut reader: Reader<'_>) -> Result<Plan, String> {
        let (n_bits, n_bits_ext) = (reader.u8()?, reader.u8()?);
        let n_cm = numbers(&mut reader)?;
        let [q_deg, c_exp] = numbers(&mut reader)?;
        let [pu, pe, ci, intermediates, qs, q2exp] = numbers(&mut reader)?;
        let plan = Plan {
            n_bits,
            n_bits_ext,
            n_cm,
            q_deg,
            c_exp,
            pu: entries(pu, &mut reader, Pu::of)?,
            pe: entries(pe, &mut reader, Ratio::of)?,
            ci: entries(ci, &mut reader, Ratio::of)?,
            intermediates: entries(intermediates, &mut reader, |[expression, cm]| Intermediate {
                expression,
                cm,
            })?,
            qs: entries(qs, &mut reader, |[number]| number)?,
            q2exp: entries(q2exp, &mut reader, |[number]| number)?,
        };
        reader.end()?;
        Ok(plan)
    }

    fn counts(&self) -> [usize; 6] {
        [
            self.pu.len(),
            self.pe.len(),
            self.ci.len(),
            self.intermediates.len(),
            self.qs.len(),
            self.q2exp.len(),
        ]
    }

    /// Columns by n_cm1 to n_cm4.
    pub fn columns(&self) -> usize {
        self.n_cm.iter().map(|&count| usize::from(count)).sum()
    }

    /// Products: of pu, pe and ci.
    pub fn products(&self) -> usize {
        self.pu.len() + self.pe.len() + self.ci.len()
    }

    pub fn ratios(&self) -> impl Iterator<Item = Ratio> + '_ {
        self.pu.iter().map(|pu| pu.ratio).chain(self.pe.iter().chain(&self.ci).copied())
    }

    pub fn intermediate(&self, expression: usize) -> Option<Intermediate> {
        let is_it = |i: &&Intermediate| usize::from(i.expression) == expression;
        self.intermediates.iter().find(is_it).copied()
    }

    /// Records, counted as `map` makes them: two for each column of cm1 to cm4 (as many as the
    /// entries need), one for each temporary column, and one each for q and f.
    pub fn records(&self) -> usize {
        let columns = usize::from(self.n_cm[0])
            + 2 * self.pu.len()
            + self.products()
            + self.intermediates.len()
            + usize::from(self.q_deg);
        2 * columns + self.temporary_columns() + 2
    }

    fn temporary_columns(&self) -> usize {
        let of_lookups = self.pu.iter().flat_map(|pu| [pu.f, pu.t]);
        let of_products = self.ratios().flat_map(|ratio| ratio.numbers());
        let expressions: BTreeSet<u16> = of_lookups.chain(of_products).collect();
        let has_column = |&&e: &&u16| self.intermediate(usize::from(e)).is_none();
        expressions.iter().filter(has_column).count()
    }
}

impl Pu {
    fn of([f, t, num, den]: [u16; 4]) -> Pu {
        Pu { f, t, ratio: Ratio { num, den } }
    }

    pub fn numbers(&self) -> [u16; 4] {
        [self.f, self.t, self.ratio.num, self.ratio.den]
    }
}

impl Ratio {
    fn of([num, den]: [u16; 2]) -> Ratio {
        Ratio { num, den }
    }

    pub fn numbers(&self) -> [u16; 2] {
        [self.num, self.den]
    }
}

fn numbers<const N: usize>(reader: &mut Reader<'_>) -> Result<[u16; N], String> {
    let mut numbers = [0; N];
    for number in &mut numbers {
        *number = reader.u16()?;
    }
    Ok(numbers)
}

fn entries<T, const N: usize>(
    count: u16,
    reader: &mut Reader<'_>,
    of: impl Fn([u16; N]) -> T,
) -> Result<Vec<T>, String> {
    (0..count).map(|_| numbers(reader).map(&of)).collect()
}

#[cfg(test)]
mod tests {
    use super::*;

    fn plan() -> Plan {
        Plan {
            n_bits: 3,
            n_bits_ext: 4,
            n_cm: [2, 2, 5, 258],
            q_deg: 258,
            c_exp: 6,
            pu: vec![Pu { f: 1, t: 2, ratio: Ratio { num: 3, den: 1 } }],
            pe: vec![Ratio { num: 4, den: 4 }],
            ci: vec![Ratio { num: 5, den: 0 }],
            intermediates: vec![
                Intermediate { expression: 2, cm: 7 },
                Intermediate { expression: 5, cm: 9 },
            ],
            qs: vec![11, 12, 13],
            q2exp: vec![14],
        }
    }

    #[test]
    fn a_record_leads_back_to_its_plan() {
        let bytes = plan().bytes();
        assert_eq!(bytes.len(), 2 + 2 * (6 + 6 + 4 + 2 + 2 + 2 * 2 + 3 + 1));
        assert_eq!(bytes[..14], [3, 4, 0, 2, 0, 2, 0, 5, 1, 2, 1, 2, 0, 6]);
        assert_eq!(Plan::read(&bytes), Ok(plan()));
        assert_eq!(Plan::read(&bytes[..bytes.len() - 1]), Err(MALFORMED));
        assert_eq!(Plan::read(&[&bytes[..], &[0]].concat()), Err(MALFORMED));
        assert_eq!(Plan::read(&[]), Err(MALFORMED));
    }

    #[test]
    fn intermediates_ascend() {
        for expression in [2, 1] {
            let mut plan = plan();
            plan.intermediates[1].expression = expression;
            assert_eq!(Plan::read(&plan.bytes()), Err(MALFORMED));
        }
    }

    #[test]
    fn records_are_counted_by_entries() {
        // Expressions 0, 1, 3, 4 have temporary columns; 2 and 5 are intermediates.
        assert_eq!(plan().records(), 2 * (2 + 2 + 3 + 2 + 258) + 4 + 2);
    }

    #[test]
    fn past_the_limit_is_9_and_malformed_before_it() {
        let of = |n_cm1, q_deg| Plan { n_cm: [n_cm1, 0, 0, 0], q_deg, ..Plan::default() };
        assert!(Plan::read(&of(2047, 0).bytes()).is_ok());
        assert_eq!(Plan::read(&of(2047, 1).bytes()), Err(FULL));
        assert_eq!(Plan::read(&of(u16::MAX, u16::MAX).bytes()), Err(FULL));
        assert_eq!(Plan::read(&[&of(2048, 0).bytes()[..], &[0]].concat()), Err(MALFORMED));
    }
}
