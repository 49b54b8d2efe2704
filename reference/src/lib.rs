// SPDX-License-Identifier: MIT OR Apache-2.0
//! A plain implementation of document 01: syzygies, frames and liftings over a prime field.
//!
//! It is written for reading and for comparing, not for speed: terms are kept in ordered maps and
//! numbers are wide. Sentences in quotation marks are those of document 01 (or, in `buffers`, of
//! `docs/BUFFERS.md`) that the code beside them renders.
//!
//! - [`limits`]: every limit, so that tests can run with small ones.
//! - [`reader`]: the problem file.
//! - [`order`], [`frame`]: orders, the frame and the reducer rule.
//! - [`lifting`]: division, hybrid, tree, acceptance.
//! - [`reckoning`]: the plain reckoning of a level and of a list of calls.
//! - [`engine`]: the state and the three calls. [`buffers`]: the same on lent buffers.
//! - [`sheet`], [`betti`], [`bidegrees`], [`hilbert`], [`minimal`], [`script`]: what the programs
//!   print.
//! - [`completing`]: a basis from generators.
//! - [`membership`], [`replay`]: of a vector, of recorded picks behind the file. [`behind`]: input
//!   with lines behind E.
//! - [`steps`]: how many steps pick code 2 takes.
//! - [`invariants`]: degrees of generators from the levels.
//! - [`random`], [`completion`], [`generate`]: seeded problem files and lists of calls.

#![forbid(unsafe_code)]
#![warn(missing_docs)]

pub mod behind;
pub mod betti;
pub mod bidegrees;
pub mod buffers;
pub mod completing;
pub mod completion;
pub mod engine;
pub mod field;
pub mod frame;
pub mod generate;
pub mod hilbert;
pub mod invariants;
pub mod lifting;
pub mod limits;
pub mod membership;
pub mod minimal;
pub mod monomial;
pub mod order;
mod program;
pub mod random;
pub mod reader;
pub mod reckoning;
pub mod replay;
pub mod script;
pub mod sheet;
pub mod steps;

pub use limits::Limits;
pub use program::Printed;
