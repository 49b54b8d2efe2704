// SPDX-License-Identifier: MIT OR Apache-2.0
//! What several of the benches use.
//!
//! - [`timing`]: runs in turns, and their medians.
//! - [`rows`]: numbers and rows, the same in every run.
//! - [`plain`]: packed terms, orders, divisibility, products, images and the prime test in plain Rust.

pub mod plain;
pub mod rows;
pub mod timing;
