//! Generation of step lists, planning, the degree search and evaluation, as the proving service calls
//! them: a safe crate over the static library of the crate `host`, whose functions are proved.
//!
//! A [`Pool`] is built node by node and written as [`Frames`]. A [`Context`] serves requests for its
//! expressions and builds a [`Segment`] of three lists. By a [`Plan`], [`map`](map::map) gives columns
//! and [`walks`] fix lists and give dimensions. What is wrong is a [`Refusal`] with document 01's
//! number, and what was lent to a refused call is as it was.
//!
//! A call needs up to 1.5 MiB of stack, where a thread of the standard library has 2 MiB. On less, the
//! process may end, as by any recursion too deep.
//!
//! # Example
//!
//! cm0·cm1 + const0', fused, is one step:
//!
//! ```
//! use enonkasse::{Context, Flags, NodeKind, Pool, Request};
//!
//! let mut pool = Pool::new();
//! let (a, b) = (pool.cm(0), pool.cm(1));
//! let product = pool.mul(a, b);
//! let c = pool.leaf_next(NodeKind::Const, 0);
//! let sum = pool.add(product, c);
//! let expression = pool.expression(sum, Flags::NONE);
//!
//! let frames = pool.frames();
//! let mut context = Context::new();
//! context.serve(&frames.with_requests(&[Request::of(expression).fused()]))?;
//!
//! let steps = context.list().steps(&frames)?;
//! assert_eq!(steps.len(), 1);
//! assert_eq!(steps[0].to_string(), "exp:0 = muladd cm:0 cm:1 const:0'");
//! assert_eq!(context.temporary_count(), 0);
//! # Ok::<(), enonkasse::Refusal>(())
//! ```

#![deny(missing_docs)]
#![forbid(unsafe_code)]

pub mod constraint;
pub mod context;
pub mod evaluate;
pub mod frames;
pub mod kinds;
pub mod list;
pub mod map;
mod numbered;
pub mod plan;
pub mod pool;
pub mod refusal;
pub mod run;
pub mod search;
pub mod sections;
pub mod walks;

pub use context::Context;
pub use enonkasse_literal::Literal;
pub use evaluate::Values;
pub use frames::Frames;
pub use kinds::{NodeKind, ReferenceKind, StepKind};
pub use list::{List, Reference, Segment, Step};
pub use map::Map;
pub use plan::Plan;
pub use pool::{ExpressionId, Flags, Node, NodeId, Pool, Request};
pub use refusal::Refusal;
pub use run::Run;
pub use search::Found;
pub use walks::Domain;
