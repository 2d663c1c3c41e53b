//! Sizes and places in the records, as `include/enonkasse.h` has them.

/// Constants with their documentation, and a list of them by name.
macro_rules! constants {
    ($($(#[$meta:meta])* $name:ident = $value:expr;)*) => {
        $($(#[$meta])* pub const $name: usize = $value;)*

        /// Every constant of this module with its name.
        pub const CONSTANTS: &[(&str, usize)] = &[$((stringify!($name), $name)),*];
    };
}

constants! {
    /// Nodes of a pool at the most.
    MAX_NODES = 4096;
    /// Expressions of a pool at the most.
    MAX_EXPRESSIONS = 512;
    /// Requests of a call at the most.
    MAX_REQUESTS = 1024;
    /// Records of a plan at the most.
    MAX_RECORDS = 4096;

    /// Bytes of a context.
    CONTEXT_SIZE = 7178;
    /// Where a context says how many blocks there are.
    BLOCK_COUNT_AT = 4;
    /// Where it says how many steps there are.
    STEP_COUNT_AT = 6;
    /// Where its temporary counter stands.
    TEMPORARY_COUNT_AT = 8;
    /// Where its marks begin, a byte for each expression and row.
    MARKS_AT = 10;
    /// Where its blocks begin.
    BLOCKS_AT = 1034;
    /// Bytes of a block: expression, prime, steps.
    BLOCK_SIZE = 6;
    /// Rows that an expression may be asked at: this one and the next.
    ROWS = 2;

    /// Bytes of a reference: kind, prime, id, dimension, p, tree position, extra.
    REFERENCE_SIZE = 12;
    /// Sources of a step at the most.
    MAX_SOURCES = 3;
    /// Bytes of a step: step, source count, origin, destination and three sources.
    STEP_SIZE = 52;
    /// The origin of a step that no node is known for.
    NO_ORIGIN = 0xffff;
    /// Steps that always suffice for what one pool gives to requests that ask for no result.
    LIST_ROOM = 8192;

    /// Parts of the given values: cm, const, q, public, challenge, eval, x kinds.
    VALUE_PARTS = 7;
    /// Bytes of a cell and its value: kind, prime, id, value.
    CELL_SIZE = 12;

    /// Numbers of 2 bytes at a plan's head.
    PLAN_HEAD = 13;
    /// Sections of a plan's columns.
    SECTIONS = 11;
    /// Offsets in the answer of map: those of the sections, and the total.
    OFFSETS = 12;
    /// Bytes that always suffice for the answer of map.
    MAP_ROOM = 65536;
    /// What exp2pol says of an expression without a record.
    NO_RECORD = 0xffff;

    /// Words of a set of expressions that have a bit for each.
    SET_BIT_WORDS = 8;
    /// Words of a set of expressions: the bits, and how many are set.
    SET_WORDS = 9;

    /// Numbers that the pool with the constraint is told with: c_exp, n_cm3, n_cm4, the first of qs, nCommitments, and
    /// the bytes of its frames.
    CONSTRAINT_NUMBERS = 6;
    /// Totals of the whole constraint: the steps of step3's first, i and last lists, of step42ns's, and the bytes of the
    /// frames.
    CONSTRAINT_TOTALS = 7;
    /// Bytes that always suffice for the frames of a pool: 19 for an addc or mulc, 6 for an expression.
    MAX_FRAMES_SIZE = 19 * MAX_NODES + 6 * MAX_EXPRESSIONS;
}
