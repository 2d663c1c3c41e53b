//! The original: six files of eigen-zkvm's `starky/src`, compiled unchanged from where they stand
//! (see build.rs), and the shims that they need to stand alone.

// The files are not ours to tidy.
#![allow(warnings)]

#[macro_use]
extern crate serde_json;

pub mod constant;
mod elsewhere;
pub mod traits;
pub mod visits;

/// The degree rule once more, with its visits counted.
pub mod counted {
    include!(concat!(env!("OUT_DIR"), "/counted.rs"));
}

include!(concat!(env!("OUT_DIR"), "/modules.rs"));
