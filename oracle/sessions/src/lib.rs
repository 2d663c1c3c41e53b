//! The exported functions of the port and the original, on the same random input; and on garbage.

pub mod constrained;
#[cfg(test)]
mod edges;
pub mod evaluation;
mod export;
pub mod garbage;
mod good;
mod guarded;
pub mod many;
mod maps;
#[cfg(test)]
mod plan_edges;
pub mod planned;
pub mod record;
#[cfg(test)]
mod refusals;
#[cfg(test)]
mod search_edges;
pub mod searched;
pub mod sectioned;
mod session;
mod spoiled;
mod spread;
pub mod stack;
pub mod summary;
pub mod whole;
