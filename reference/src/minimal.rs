// SPDX-License-Identifier: MIT OR Apache-2.0
//! Minimal Betti numbers (request A7).
//!
//! The constants of all vectors are collected first, entry by entry, in one matrix for each column
//! and degree. A rank is found without going down the rows: of all entries that are left one is
//! taken whose row and column have few others, its column clears its row in the other columns, and
//! both are struck out, until nothing is left.

use crate::betti::{counts, lines, two_degrees, Counts};
use crate::engine::Basis;
use crate::field::Field;
use crate::invariants::generator_degrees;
use crate::lifting::Usage;
use crate::limits::Limits;
use crate::monomial::UNIT;
use crate::program::Program;
use std::collections::BTreeMap;

/// The entries of a matrix that are not zero, by its columns, then by its rows.
pub type Entries = BTreeMap<u64, BTreeMap<u64, u64>>;

/// By a column of the page and a degree: something of the matrix that enters the column there.
pub type Entering<T> = BTreeMap<(u64, u64), T>;

/// The bytes of the page for a file, or `None` when the budget of products (for the file together)
/// is used up; and what the runs took.
pub fn minimal(limits: &Limits, file: &[u8], budget: Option<u64>) -> (Option<Vec<u8>>, Usage) {
    let program = Program {
        // "17 applies as before."
        refuses: two_degrees,
        prints: |basis: &Basis| too_long(limits, basis).unwrap_or_else(|| lines(&numbers(basis))),
    };
    program.run(limits, file, budget)
}

/// "20 (place 9) when level 9 is not empty, tested after all lifting": the X line, if it comes.
fn too_long(limits: &Limits, basis: &Basis) -> Option<String> {
    let last = basis.levels.get(limits.levels as usize)?;
    (!last.is_empty()).then(|| format!("X,20,{}\n", limits.levels))
}

/// "The minimal number is the count less the rank of the matrix leaving that column and less the
/// rank of the one entering it." By row and column of the page, "in the same layout and rows": a row
/// in use there is here too, with zeros. The levels have to reach an empty one.
pub fn numbers(basis: &Basis) -> Counts {
    // numbers with a sign, of which none may come out negative
    let mut numbers: BTreeMap<i64, BTreeMap<u64, i64>> = BTreeMap::new();
    for (row, of_row) in counts(basis) {
        let signed = |(column, count)| (column, i64::try_from(count).expect("a small count"));
        numbers.insert(row, of_row.into_iter().map(signed).collect());
    }
    for ((entered, degree), rank) in ranks(basis) {
        for column in [entered, entered + 1] {
            let row = degree as i64 - column as i64;
            let number = numbers.get_mut(&row).and_then(|row| row.get_mut(&column));
            *number.expect("a generator of this degree is counted") -= rank;
        }
    }
    let unsigned = |(column, number)| {
        let number = u64::try_from(number).expect("a minimal number is never negative");
        (column, number)
    };
    numbers
        .into_iter()
        .map(|(row, of_row)| (row, of_row.into_iter().map(unsigned).collect()))
        .collect()
}

/// The ranks modulo p of all matrices that have an entry.
pub fn ranks(basis: &Basis) -> Entering<i64> {
    let field = Field::new(basis.parameters.p);
    constants(basis)
        .into_iter()
        .map(|(place, entries)| (place, rank(&field, entries)))
        .collect()
}

/// "For each degree, take the matrix of constant coefficients between generators of that degree in
/// neighbouring columns": those that have an entry, with rows for the column that they leave. All
/// generators of a column are numbered from 1, of whichever degree.
pub fn constants(basis: &Basis) -> Entering<Entries> {
    let degrees = generator_degrees(basis);
    let mut matrices: Entering<Entries> = BTreeMap::new();
    for (column, level) in basis.levels.iter().enumerate() {
        for (row, vector) in level.iter().enumerate() {
            let degree = degrees[column + 1][row];
            for term in vector {
                let component = term.monomial.component;
                let constant = term.monomial.exponents == UNIT;
                if constant && degrees[column][component as usize - 1] == degree {
                    let matrix = matrices.entry((column as u64, degree)).or_default();
                    let of_component = matrix.entry(component).or_default();
                    of_component.insert(row as u64 + 1, term.coefficient);
                }
            }
        }
    }
    matrices
}

/// The rank modulo p of the matrix with these entries, each 1 to p − 1; signed, to be taken from a
/// number.
pub fn rank(field: &Field, mut left: Entries) -> i64 {
    let mut rank = 0;
    while let Some((row, column)) = lonely_entry(&left) {
        let own = left.remove(&column).expect("the entry's column");
        for other in left.values_mut() {
            let Some(entry) = other.get(&row) else {
                continue;
            };
            let by = field.negate(field.divide(*entry, own[&row]));
            for (at, value) in &own {
                let before = other.get(at).copied().unwrap_or(0);
                let sum = field.add(before, field.multiply(by, *value));
                match sum {
                    0 => other.remove(at),
                    _ => other.insert(*at, sum),
                };
            }
        }
        // the row has no other entry now
        rank += 1;
    }
    rank
}

/// The row and the column of an entry that has the fewest entries beside it, counted as those of its
/// row times those of its column; `None` where there is no entry.
fn lonely_entry(left: &Entries) -> Option<(u64, u64)> {
    let mut of_row: BTreeMap<u64, u64> = BTreeMap::new();
    for row in left.values().flat_map(BTreeMap::keys) {
        *of_row.entry(*row).or_default() += 1;
    }
    let places = left.iter().flat_map(|(column, entries)| {
        let of_column = entries.len() as u64;
        entries.keys().map(move |row| (of_column, *row, *column))
    });
    places
        .min_by_key(|(of_column, row, _)| (of_column - 1) * (of_row[row] - 1))
        .map(|(_, row, column)| (row, column))
}
