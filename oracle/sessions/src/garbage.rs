//! Every exported function on good input, on the same with one thing wrong, and on random bytes. None may touch
//! anything outside of what is lent, nor change it where it refuses.

use crate::export::{Export, Lent};
use crate::good::Good;
use asked::rows::Rows;
use enonkasse_sys::records::PolType;
use enonkasse_sys::{CONTEXT_SIZE, STEP_SIZE};
use judge::random::Random;
use judge::run::on_large_stack;
use std::slice;

#[derive(Clone, Copy, Debug)]
enum Input {
    Good,
    /// One byte of a slice, one word or one number is another.
    Changed,
    /// One slice has an item less at its end.
    Short,
    /// Some arguments are those of another good call.
    Mixed,
    /// Every argument is random.
    Random,
}

const INPUTS: [Input; 5] = [Input::Good, Input::Changed, Input::Short, Input::Mixed, Input::Random];

impl Input {
    fn name(self) -> &'static str {
        match self {
            Input::Good => "good",
            Input::Changed => "one byte changed",
            Input::Short => "one item short",
            Input::Mixed => "parts of two",
            Input::Random => "random",
        }
    }

    /// Made of what two good calls are lent.
    fn made_of(self, export: Export, goods: [&Good; 2], random: &mut Random) -> Lent {
        let [mut lent, other] = goods.map(|good| good.lent_to(export));
        match self {
            Input::Good => {}
            Input::Changed => change(&mut lent, random),
            Input::Short => shorten(export, &mut lent, random),
            Input::Mixed => mix(&mut lent, other, random),
            Input::Random => randomise(export, &mut lent, random),
        }
        lent
    }
}

/// Another value, often one that differs in a bit.
fn other(random: &mut Random, value: u64, most: u64) -> u64 {
    let bit = 1 << random.below(most.count_ones() as usize);
    let drawn = random.draw() & most;
    match random.chance(50) || drawn == value {
        true => value ^ bit,
        false => drawn,
    }
}

/// What is lent in a slice, of whatever items.
trait Slice {
    fn is_filled(&self) -> bool;

    fn shorten(&mut self);

    /// Changes one of its items.
    fn change(&mut self, random: &mut Random);
}

impl<T: Part> Slice for Vec<T> {
    fn is_filled(&self) -> bool {
        !self.is_empty()
    }

    fn shorten(&mut self) {
        self.pop();
    }

    fn change(&mut self, random: &mut Random) {
        let at = random.below(self.len());
        self[at] = self[at].another(random);
    }
}

/// An item of a slice, of which there are others.
trait Part: Copy {
    fn another(self, random: &mut Random) -> Self;
}

macro_rules! numbers {
    ($($number:ty),*) => {
        $(impl Part for $number {
            fn another(self, random: &mut Random) -> $number {
                other(random, self.into(), <$number>::MAX.into()) as $number
            }
        })*
    };
}

numbers!(u8, u16, u64);

impl Part for PolType {
    fn another(mut self, random: &mut Random) -> PolType {
        match random.below(3) {
            0 => self.section = self.section.another(random),
            1 => self.dim = self.dim.another(random),
            _ => self.section_pos = self.section_pos.another(random),
        }
        self
    }
}

/// The slices that have an item, of the words only so many; and the numbers.
fn filled(lent: &mut Lent, words: usize) -> (Vec<&mut dyn Slice>, &mut [u64]) {
    let Lent { numbers, bytes, words: all_words, records, columns, .. } = lent;
    let mut slices: Vec<&mut dyn Slice> = Vec::new();
    slices.extend(bytes.iter_mut().map(|slice| slice as &mut dyn Slice));
    slices.extend(all_words.iter_mut().take(words).map(|slice| slice as &mut dyn Slice));
    slices.extend(columns.iter_mut().map(|slice| slice as &mut dyn Slice));
    slices.push(records);
    slices.retain(|slice| slice.is_filled());
    (slices, numbers)
}

/// One of all that is lent; long slices are as likely as short ones.
fn change(lent: &mut Lent, random: &mut Random) {
    let words = lent.words.len();
    let (mut slices, numbers) = filled(lent, words);
    let place = random.below(slices.len() + numbers.len());
    if place < slices.len() {
        slices[place].change(random);
    } else {
        let number = &mut numbers[place - slices.len()];
        *number = number.another(random);
    }
}

/// One of the slices that have an item.
fn shorten(export: Export, lent: &mut Lent, random: &mut Random) {
    let (mut slices, _) = filled(lent, export.word_slices());
    let place = random.below(slices.len());
    slices[place].shorten();
}

fn mix(lent: &mut Lent, other: Lent, random: &mut Random) {
    let Lent { numbers, bytes, words, counts, records, columns } = other;
    swap_some(&mut lent.numbers, numbers, random);
    swap_some(&mut lent.bytes, bytes, random);
    swap_some(&mut lent.words, words, random);
    swap_some(&mut lent.counts, counts, random);
    swap_some(&mut lent.columns, columns, random);
    swap_some(slice::from_mut(&mut lent.records), vec![records], random);
}

fn swap_some<T>(parts: &mut [T], others: Vec<T>, random: &mut Random) {
    let pairs = parts.iter_mut().zip(others);
    pairs.filter(|_| random.chance(50)).for_each(|(part, other)| *part = other);
}

/// Sizes that let a call get past the first look, and any others.
fn size(random: &mut Random) -> usize {
    match random.below(4) {
        0 => CONTEXT_SIZE,
        1 => STEP_SIZE * random.below(8),
        _ => random.below(400),
    }
}

fn random_bytes(random: &mut Random) -> Vec<u8> {
    let size = size(random);
    // Small bytes are those that mean something.
    let most = random.pick(&[u64::from(u8::MAX), 3, 0x2f]);
    (0..size).map(|_| (random.draw() & most) as u8).collect()
}

/// Frames of random bytes, each behind its length.
fn random_frames(random: &mut Random) -> Vec<u8> {
    let mut bytes = Vec::new();
    for _ in 0..random.below(20) {
        let size = random.pick(&[4, 5, 6, 8, 10, 12]);
        bytes.extend([0, size as u8, 1 + random.below(3) as u8]);
        bytes.extend((1..size).map(|_| (random.draw() & 0x17) as u8));
    }
    bytes
}

/// Numbers of 16 bits; small ones are those that mean something.
fn random_number(random: &mut Random) -> u16 {
    let most = random.pick(&[u16::MAX, 3, 0xf]);
    random.draw() as u16 & most
}

/// As many records as there were or fewer; columns as long as these, or not.
fn randomise_records(lent: &mut Lent, random: &mut Random) {
    let count = random.below(lent.records.len() + 1);
    let record = |_| PolType {
        section: random_number(random),
        dim: random_number(random),
        section_pos: random_number(random),
    };
    lent.records = (0..count).map(record).collect();
    let widths = lent.columns.len().saturating_sub(1);
    for (place, column) in lent.columns.iter_mut().enumerate() {
        let size = if place == widths { column.len() } else { count };
        let size = if random.one_of(8) { random.below(size + 2) } else { size };
        *column = (0..size).map(|_| random_number(random)).collect();
    }
}

fn randomise(export: Export, lent: &mut Lent, random: &mut Random) {
    randomise_records(lent, random);
    lent.bytes.iter_mut().for_each(|slice| *slice = random_bytes(random));
    if random.chance(50) && export.reads_frames() {
        lent.bytes[0] = random_frames(random);
    }
    let numbers = lent.numbers.iter_mut().chain(lent.words.iter_mut().flatten());
    numbers.for_each(|number| {
        let shift = random.below(64);
        *number = random.draw() >> shift;
    });
    lent.counts.iter_mut().for_each(|count| *count = random.draw() as usize);
}

/// The answers of so many runs by function and input, and what went wrong first.
pub fn run(seed: u64, runs: u64) -> Result<(Rows, Option<String>), String> {
    on_large_stack(|| {
        let mut rows = Rows::default();
        let mut last = Good::of(seed, runs)?;
        for index in 0..runs {
            let good = Good::of(seed, index)?;
            let random = &mut Random::new(!seed, index);
            for export in Export::ALL {
                for input in INPUTS {
                    let lent = input.made_of(export, [&good, &last], random);
                    let label = format!("{}, {}", export.name(), input.name());
                    match export.ask(&lent) {
                        Ok(number) => rows.count(&label, number),
                        Err(text) => {
                            let place = format!("run {} of seed {}", index, seed);
                            return Ok((rows, Some(format!("{}, {}: {}", place, label, text))));
                        }
                    }
                }
            }
            last = good;
        }
        Ok((rows, None))
    })
}

#[cfg(test)]
mod tests {
    use super::*;
    use asked::rows::ACCEPTED;

    #[test]
    fn good_input_is_accepted_and_garbage_refused() {
        let (rows, fault) = run(3, 60).unwrap();
        assert_eq!(fault, None);
        for export in Export::ALL {
            let good = format!("{}, good", export.name());
            assert!(rows.of(&good, ACCEPTED) > 0, "{}\n{}", good, rows);
        }
        let refused = rows.numbers().into_iter().filter(|&(number, _)| number != ACCEPTED).count();
        assert!(refused > 8, "{}", rows);
    }

    #[test]
    fn what_is_changed_or_shortened_differs() {
        let goods = || (0..20).map(|index| Good::of(3, index)).collect::<Result<Vec<_>, _>>();
        let random = &mut Random::new(1, 1);
        for good in on_large_stack(goods).unwrap() {
            for export in Export::ALL {
                for input in [Input::Changed, Input::Short, Input::Random] {
                    let made = input.made_of(export, [&good, &good], random);
                    assert_ne!(made, good.lent_to(export), "{:?}", export);
                }
            }
        }
    }
}
