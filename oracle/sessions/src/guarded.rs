//! A lent buffer with guards on both sides.

use enonkasse_sys::records::PolType;

/// Items of a guard.
const GUARD: usize = 64;

/// What is lent in slices.
pub trait Item: Copy + PartialEq {
    /// A guard's item that is made of a byte.
    fn of_byte(byte: u8) -> Self;
}

macro_rules! numbers {
    ($($number:ty),*) => {
        $(impl Item for $number {
            fn of_byte(byte: u8) -> $number {
                byte.into()
            }
        })*
    };
}

numbers!(u8, u16, u64, usize);

impl Item for PolType {
    fn of_byte(byte: u8) -> PolType {
        let number = byte.into();
        PolType { section: number, dim: number, section_pos: number }
    }
}

/// A guard's item at a place: any that are not all alike.
fn guard<T: Item>(place: usize) -> T {
    T::of_byte((place as u8).wrapping_mul(0x35) ^ 0xa5)
}

/// Items between two guards.
#[derive(Clone, Debug)]
pub struct Guarded<T> {
    all: Vec<T>,
}

impl<T: Item> Guarded<T> {
    pub fn new(items: &[T]) -> Guarded<T> {
        let guards = || (0..GUARD).map(guard);
        Guarded { all: guards().chain(items.iter().copied()).chain(guards()).collect() }
    }

    fn end(&self) -> usize {
        self.all.len() - GUARD
    }

    pub fn items(&self) -> &[T] {
        &self.all[GUARD..self.end()]
    }

    /// The items, to be lent.
    pub fn lent(&mut self) -> &mut [T] {
        let end = self.end();
        &mut self.all[GUARD..end]
    }

    /// The same where they are an array.
    pub fn lent_array<const N: usize>(&mut self) -> &mut [T; N] {
        self.lent().try_into().expect("as many items as the array has")
    }

    pub fn guards_stand(&self) -> bool {
        let stands = |side: &[T]| side.iter().enumerate().all(|(k, item)| *item == guard(k));
        stands(&self.all[..GUARD]) && stands(&self.all[self.end()..])
    }
}

#[cfg(test)]
mod tests {
    use super::*;

    #[test]
    fn what_is_written_outside_is_seen() {
        let guarded = Guarded::new(&[1u64, 2, 3]);
        assert!(guarded.guards_stand());
        assert_eq!(guarded.items(), [1, 2, 3]);
        for place in (0..GUARD).chain(GUARD + 3..2 * GUARD + 3) {
            let mut touched = guarded.clone();
            touched.all[place] ^= 1;
            assert!(!touched.guards_stand(), "{}", place);
        }
        let mut written = guarded;
        written.lent().fill(7);
        assert!(written.guards_stand());
        assert_eq!(*written.lent_array::<3>(), [7; 3]);
    }
}
