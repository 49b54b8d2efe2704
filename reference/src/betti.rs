// SPDX-License-Identifier: MIT OR Apache-2.0
//! The Betti page (request A1).
//!
//! The degrees that elements and vectors carry are not looked at here: each frame term is walked
//! down to level 0, level by level, and the counts stand in ordered maps.

use crate::engine::Basis;
use crate::frame::{frame, NUMBERING};
use crate::lifting::Usage;
use crate::limits::Limits;
use crate::monomial::{degree, leading_monomial, multiply, Level, Monomial};
use crate::program::Program;
use std::collections::{BTreeMap, BTreeSet};

/// "columns 0 to 10"
pub const COLUMNS: u64 = 11;

/// "a label of 6, then columns 0 to 10 of 6 each"
pub const WIDTH: usize = 6;

/// How many generators there are, by row, then by column. What is not there is zero.
pub type Counts = BTreeMap<i64, BTreeMap<u64, u64>>;

/// The bytes of the Betti page for a file, or `None` when the budget of products (for the file
/// together) is used up; and what the runs took.
pub fn page(limits: &Limits, file: &[u8], budget: Option<u64>) -> (Option<Vec<u8>>, Usage) {
    let program = Program {
        refuses: two_degrees,
        prints: |basis: &Basis| lines(&counts(basis)),
    };
    program.run(limits, file, budget)
}

/// "17, with the first such element as place, when some element has terms of two degrees, tested
/// after acceptance": the X line, if it comes.
pub(crate) fn two_degrees(basis: &Basis) -> Option<String> {
    of_two_degrees(basis).map(|number| format!("X,17,{number}\n"))
}

/// The number, from 1, of the first element that has terms of two degrees.
pub fn of_two_degrees(basis: &Basis) -> Option<u64> {
    (1..)
        .zip(&basis.levels[0])
        .find(|(_, element)| {
            let degrees: BTreeSet<u64> = element
                .iter()
                .map(|term| degree_on_level_0(basis, &term.monomial))
                .collect();
            degrees.len() > 1
        })
        .map(|(number, _)| number)
}

/// "A term's degree is then its monomial's total degree plus its component's, for A1 and 17 too".
fn degree_on_level_0(basis: &Basis, monomial: &Monomial) -> u64 {
    degree(&monomial.exponents) + basis.degrees[monomial.component as usize - 1]
}

/// "Column 0 counts components, column 1 the elements, column k + 1 the vectors of level k .. The
/// row is the degree minus the column". The levels have to be lifted ones.
pub fn counts(basis: &Basis) -> Counts {
    let mut counts = Counts::new();
    let mut count = |column: u64, degree: u64| {
        let row = degree as i64 - column as i64;
        *counts.entry(row).or_default().entry(column).or_default() += 1;
    };
    for degree in &basis.degrees {
        // "where a component has its own"
        count(0, *degree);
    }
    for element in &basis.levels[0] {
        count(1, degree_on_level_0(basis, leading_monomial(element)));
    }
    for k in 1..basis.levels.len() {
        for term in frame(&basis.levels[k - 1], NUMBERING) {
            let image = walked_down(&basis.levels[..k], term);
            count(k as u64 + 1, degree_on_level_0(basis, &image));
        }
    }
    counts
}

/// "its frame term's image monomial in level 0's free module": the image over one level after the
/// other, down to level 0.
fn walked_down(levels: &[Level], term: Monomial) -> Monomial {
    levels.iter().rev().fold(term, |at, level| {
        let below = leading_monomial(&level[at.component as usize - 1]);
        Monomial {
            component: below.component,
            exponents: multiply(&at.exponents, &below.exponents),
        }
    })
}

/// The lines of a page: "Every row from the smallest to the largest in use is printed, labelled by
/// its number and a colon, and a last row `total`."
pub fn lines(counts: &Counts) -> String {
    let mut printed = String::new();
    let mut total = BTreeMap::new();
    let in_use = counts.keys().next().zip(counts.keys().next_back());
    if let Some((first, last)) = in_use {
        for row in *first..=*last {
            let of_row = counts.get(&row).cloned().unwrap_or_default();
            for (column, count) in &of_row {
                *total.entry(*column).or_default() += count;
            }
            printed.push_str(&line(&format!("{row}:"), &of_row));
        }
    }
    printed.push_str(&line("total", &total));
    printed
}

/// A line of 72 columns, "all right-aligned, a dash for zero", and byte 10.
fn line(label: &str, counts: &BTreeMap<u64, u64>) -> String {
    let mut printed = format!("{label:>WIDTH$}");
    for column in 0..COLUMNS {
        let shown = match counts.get(&column) {
            None | Some(0) => "-".to_string(),
            Some(count) => count.to_string(),
        };
        printed.push_str(&format!("{shown:>WIDTH$}"));
    }
    printed.push('\n');
    printed
}
