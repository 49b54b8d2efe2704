// SPDX-License-Identifier: MIT OR Apache-2.0
//! What crate `testing` of the repository exports, as safe functions: the tests and benches call it through these.

pub mod frames;
pub mod leaves;
pub mod lifts;
pub mod reader;
pub mod soundness;
