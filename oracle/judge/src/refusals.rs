//! The numbers of document 01's refusals.

pub const MALFORMED: u8 = 1;
pub const CHILD_COUNT: u8 = 2;
pub const NOT_THERE: u8 = 3;
pub const CYCLE: u8 = 4;
pub const DOUBLE_PRIME: u8 = 5;
pub const SEARCH_KIND: u8 = 6;
pub const NO_PRIMED_MARK: u8 = 7;
pub const NO_BLOCK: u8 = 8;
pub const FULL: u8 = 9;
pub const NO_RULE: u8 = 10;
pub const COUNTS: u8 = 11;
pub const NO_DIMENSION: u8 = 12;
pub const NO_SET: u8 = 13;
pub const NO_QUOTIENT: u8 = 14;
pub const VISITS: u8 = 15;
pub const BITS: u8 = 16;
pub const NO_IDENTITY: u8 = 17;
