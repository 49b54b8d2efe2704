// SPDX-License-Identifier: MIT OR Apache-2.0
//! Seeded problem files and lists of calls.
//!
//! - [`problems`]: random Gröbner bases and random sets of elements.
//! - [`files`]: files at and past the limits, and damaged files.
//! - [`degree_lines`], [`weight_lines`]: files with D and G lines, and every way to spoil one.
//! - [`pages`]: files for the Betti page. [`bigraded`]: files for bidegrees. [`low`]: files for the
//!   Hilbert function. [`redundant`]: files for minimal Betti numbers.
//! - [`rooms`]: bases for lifting in less work space.
//! - [`generators`]: files for completing.
//! - [`vectors`], [`logs`]: problem files with V lines, with recorded picks behind them.
//! - [`slow`]: bases on which pick code 2 takes very many steps.
//! - [`states`]: the words of a state that hold degrees, altered.
//! - [`scripts`]: lists of calls, also with limits close to what a run needs.
//! - [`cases`]: the kinds of `reference generate`.

pub mod bigraded;
pub mod cases;
pub mod degree_lines;
pub mod files;
pub mod generators;
pub mod logs;
pub mod low;
pub mod pages;
pub mod problems;
pub mod redundant;
pub mod rooms;
pub mod scripts;
pub mod slow;
pub mod states;
pub mod vectors;
pub mod weight_lines;
