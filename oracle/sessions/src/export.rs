//! The exported functions, each called on whatever is lent to it.

use crate::guarded::Guarded;
use enonkasse_sys as library;
use enonkasse_sys::records::{self, map_section, PolType};

#[derive(Clone, Copy, Debug, PartialEq, Eq, PartialOrd, Ord)]
pub enum Export {
    Fresh,
    Serve,
    Build,
    Run,
    Evaluate,
    Map,
    Fix,
    Query,
    Dimension,
    DimensionFirst,
    Search,
    Mark,
    Close,
    ConstraintPool,
    Constraint,
    MapSection,
}

/// What is lent: numbers, byte slices, slices and arrays of words, an array of counts, records and columns of 16-bit
/// numbers, each in the order of the function's parameters.
#[derive(Clone, Debug, Default, PartialEq, Eq)]
pub struct Lent {
    pub numbers: Vec<u64>,
    pub bytes: Vec<Vec<u8>>,
    pub words: Vec<Vec<u64>>,
    pub counts: Vec<usize>,
    pub records: Vec<PolType>,
    pub columns: Vec<Vec<u16>>,
}

impl Lent {
    /// These byte slices, and nothing else.
    pub fn of_bytes(parts: &[&[u8]]) -> Lent {
        Lent { bytes: parts.iter().map(|part| part.to_vec()).collect(), ..Lent::default() }
    }
}

impl Export {
    pub const ALL: [Export; 16] = [
        Export::Fresh,
        Export::Serve,
        Export::Build,
        Export::Run,
        Export::Evaluate,
        Export::Map,
        Export::Fix,
        Export::Query,
        Export::Dimension,
        Export::DimensionFirst,
        Export::Search,
        Export::Mark,
        Export::Close,
        Export::ConstraintPool,
        Export::Constraint,
        Export::MapSection,
    ];

    /// Its name in the library, without what all begin with.
    pub fn name(self) -> &'static str {
        let (name, _) = exports().nth(self as usize).expect("a function of the library");
        name.trim_start_matches("enonkasse_")
    }

    /// Whether the first thing that it is lent are frames.
    pub fn reads_frames(self) -> bool {
        !matches!(self, Export::Fresh | Export::Mark | Export::Close | Export::MapSection)
    }

    /// The byte slices that it may write.
    fn written(self) -> &'static [usize] {
        match self {
            Export::Fresh => &[0],
            Export::Serve => &[1, 2],
            Export::Build => &[1, 3, 4, 5],
            Export::Run => &[1],
            Export::Evaluate | Export::Map | Export::DimensionFirst => &[2],
            Export::Fix | Export::Query | Export::Dimension => &[2, 3, 4],
            Export::Search | Export::MapSection => &[],
            Export::Mark => &[0],
            Export::Close => &[0, 1],
            Export::ConstraintPool => &[1],
            Export::Constraint => &[1, 2, 3, 4, 5, 6, 7, 8, 9, 10, 11],
        }
    }

    /// How many of the words are slices; the others are arrays, which it may write.
    pub fn word_slices(self) -> usize {
        match self {
            Export::Evaluate
            | Export::Search
            | Export::Mark
            | Export::ConstraintPool
            | Export::Constraint => 1,
            _ => 0,
        }
    }

    /// Its answer; or what is wrong with what stands afterwards.
    pub fn ask(self, lent: &Lent) -> Result<u8, String> {
        let mut guarded = Between::guards(lent);
        let number = guarded.call(self, &lent.numbers);
        if !guarded.guards_stand() {
            return Err(format!("the answer is {}, and a guard was overwritten", number));
        }
        if number != 0 && guarded.items(lent) != *lent {
            return Err(format!("refused with {}, and what was lent has changed", number));
        }
        if !self.keeps_what_it_reads(&guarded.items(lent), lent) {
            return Err("what was lent to be read has changed".to_string());
        }
        Ok(number)
    }

    fn keeps_what_it_reads(self, after: &Lent, before: &Lent) -> bool {
        let slices = self.word_slices();
        let kept = |place: &usize| after.bytes[*place] == before.bytes[*place];
        (0..before.bytes.len()).filter(|place| !self.written().contains(place)).all(|p| kept(&p))
            && after.words[..slices] == before.words[..slices]
            && after.records.iter().map(unplaced).eq(before.records.iter().map(unplaced))
    }
}

/// A record but for its position, which alone may be written.
fn unplaced(record: &PolType) -> PolType {
    PolType { section_pos: 0, ..*record }
}

/// Every function of the library with its parameters.
fn exports() -> impl Iterator<Item = &'static (&'static str, &'static str)> {
    library::EXPORTS.iter().chain(records::EXPORTS)
}

/// What is lent, each part between guards.
struct Between {
    bytes: Vec<Guarded<u8>>,
    words: Vec<Guarded<u64>>,
    counts: Guarded<usize>,
    records: Guarded<PolType>,
    columns: Vec<Guarded<u16>>,
}

impl Between {
    fn guards(lent: &Lent) -> Between {
        Between {
            bytes: lent.bytes.iter().map(|part| Guarded::new(part)).collect(),
            words: lent.words.iter().map(|part| Guarded::new(part)).collect(),
            counts: Guarded::new(&lent.counts),
            records: Guarded::new(&lent.records),
            columns: lent.columns.iter().map(|part| Guarded::new(part)).collect(),
        }
    }

    fn guards_stand(&self) -> bool {
        self.bytes.iter().all(Guarded::guards_stand)
            && self.words.iter().all(Guarded::guards_stand)
            && self.counts.guards_stand()
            && self.records.guards_stand()
            && self.columns.iter().all(Guarded::guards_stand)
    }

    /// What stands now, with the numbers of what was lent.
    fn items(&self, lent: &Lent) -> Lent {
        Lent {
            numbers: lent.numbers.clone(),
            bytes: self.bytes.iter().map(|part| part.items().to_vec()).collect(),
            words: self.words.iter().map(|part| part.items().to_vec()).collect(),
            counts: self.counts.items().to_vec(),
            records: self.records.items().to_vec(),
            columns: self.columns.iter().map(|part| part.items().to_vec()).collect(),
        }
    }

    fn call(&mut self, export: Export, numbers: &[u64]) -> u8 {
        let Between { bytes, words, counts, records, columns } = self;
        let mut slices = bytes.iter_mut().map(Guarded::lent);
        let mut next = || slices.next().expect("as many slices as it takes");
        let mut words = words.iter_mut();
        let mut word = || words.next().expect("as many words as it takes");
        let mut columns = columns.iter_mut().map(Guarded::lent);
        let mut column = || columns.next().expect("as many columns as it takes");
        match export {
            Export::Fresh => library::fresh(next()),
            Export::Serve => {
                library::serve(next(), numbers[0] as u8, numbers[1] as u16, next(), next())
            }
            Export::Build => {
                library::build(next(), next(), next(), next(), next(), next(), counts.lent_array())
            }
            Export::Run => library::run(next(), next(), counts.lent_array()),
            Export::Evaluate => {
                let (modulus, values) = (numbers[0] as u32, word().lent());
                library::evaluate(next(), next(), modulus, values, next(), counts.lent_array())
            }
            Export::Map => library::map(next(), next(), next(), counts.lent_array()),
            Export::Fix => {
                let (domain, counter) = (numbers[0] as u8, counts.lent_array());
                library::fix(next(), next(), domain, counter, next(), next(), next())
            }
            Export::Query => library::query(next(), next(), next(), next(), next()),
            Export::Dimension => {
                library::dimension(next(), next(), numbers[0] as u16, next(), next(), next())
            }
            Export::DimensionFirst => library::dimension_first(next(), next(), next()),
            Export::Search => library::search(
                next(),
                word().lent(),
                numbers[0],
                numbers[1],
                numbers[2],
                word().lent_array(),
                word().lent_array(),
            ),
            Export::Mark => library::mark(word().lent(), numbers[0] as usize, next(), next()),
            Export::Close => library::close(numbers[0] as usize, next(), next()),
            Export::ConstraintPool => library::constraint_pool(
                next(),
                word().lent(),
                word().lent_array(),
                numbers[0] as u16,
                numbers[1] as usize,
                numbers[2] as usize,
                numbers[3] as usize,
                numbers[4] as usize,
                next(),
                counts.lent_array(),
            ),
            Export::Constraint => library::constraint(
                next(),
                word().lent(),
                numbers[0] as u16,
                numbers[1],
                numbers[2],
                numbers[3],
                numbers[4] as usize,
                numbers[5] as usize,
                numbers[6] as usize,
                next(),
                next(),
                next(),
                next(),
                next(),
                next(),
                next(),
                next(),
                next(),
                next(),
                next(),
                word().lent_array(),
                word().lent_array(),
                counts.lent_array(),
            ),
            Export::MapSection => {
                map_section(records.lent(), column(), column(), column(), column())
            }
        }
    }
}

#[cfg(test)]
mod tests {
    use super::*;

    #[test]
    fn every_function_of_the_library_is_called_by_its_name() {
        assert_eq!(Export::ALL.len(), exports().count());
        let names: Vec<&str> = Export::ALL.iter().map(|export| export.name()).collect();
        for (export, name) in Export::ALL.iter().zip(&names) {
            assert_eq!(name.replace('_', ""), format!("{:?}", export).to_lowercase());
        }
    }
}
