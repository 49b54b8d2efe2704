// SPDX-License-Identifier: MIT OR Apache-2.0
//! The degrees of generators, from the levels of a state.
//!
//! Column 0 is the file's free module, column k + 1 has a generator for each vector of level k.
//! The degree of a generator is that of its leading term's image on level 0; a component has its
//! own.

use crate::engine::{own_degrees, Basis};

/// The degrees of the generators of each column.
pub fn generator_degrees(basis: &Basis) -> Vec<Vec<u64>> {
    let mut columns = vec![basis.degrees.clone()];
    columns.extend((0..basis.levels.len()).map(|k| own_degrees(basis, k)));
    columns
}
