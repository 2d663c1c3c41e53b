//! nBits and nBitsExt, which plans and searches take alike.

pub const MAX_BITS: u8 = 24;
pub const MAX_MORE_BITS: u8 = 4;

/// Whether they are not refused (16).
pub fn in_range(n_bits: u8, n_bits_ext: u8) -> bool {
    n_bits <= MAX_BITS && (n_bits..=n_bits + MAX_MORE_BITS).contains(&n_bits_ext)
}
