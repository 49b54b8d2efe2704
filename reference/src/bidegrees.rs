// SPDX-License-Identifier: MIT OR Apache-2.0
//! Bidegrees (request A14).
//!
//! Of the degrees that a state carries none is looked at: the leading monomial of each vector is
//! walked down to level 0. The counts stand in one ordered map, in the sequence of the lines.

use crate::engine::Basis;
use crate::lifting::Usage;
use crate::limits::Limits;
use crate::monomial::{leading_monomial, Monomial, Weights, UNIT};
use crate::order::Modules;
use crate::program::Program;
use crate::reader::read_problem;
use std::collections::{BTreeMap, BTreeSet};

/// The two sums of a monomial of level 0's module.
pub type Bidegree = [u64; 2];

/// How many generators of a column have a bidegree, by column and bidegree. None is zero.
pub type Counts = BTreeMap<(u64, Bidegree), u64>;

/// The bytes of the lines for a file, or `None` when the budget of products (for the file
/// together) is used up; and what the runs took.
pub fn bidegrees(limits: &Limits, file: &[u8], budget: Option<u64>) -> (Option<Vec<u8>>, Usage) {
    // the state does not hold the weights; a file that is not read needs none
    let weights = read_problem(limits, file).map_or(Vec::new(), |problem| problem.weights);
    // "25 here instead of 17, its place the first such element, when some element has terms of two
    // bidegrees, after acceptance"
    let program = Program {
        refuses: |basis: &Basis| {
            of_two_bidegrees(&weights, basis).map(|number| format!("X,25,{number}\n"))
        },
        prints: |basis: &Basis| lines(&counts(&weights, basis)),
    };
    program.run(limits, file, budget)
}

/// "the bidegree of a term is the weighted sums, with D added to the first"
pub fn bidegree(weights: &[Weights], degrees: &[u64], monomial: &Monomial) -> Bidegree {
    let mut sums = [degrees[monomial.component as usize - 1], 0];
    for (of_variable, exponent) in weights.iter().zip(monomial.exponents) {
        for (sum, weight) in sums.iter_mut().zip(of_variable) {
            *sum += weight * exponent;
        }
    }
    sums
}

/// The number, from 1, of the first element that has terms of two bidegrees.
pub fn of_two_bidegrees(weights: &[Weights], basis: &Basis) -> Option<u64> {
    (1..)
        .zip(&basis.levels[0])
        .find(|(_, element)| {
            let of_terms: BTreeSet<Bidegree> = element
                .iter()
                .map(|term| bidegree(weights, &basis.degrees, &term.monomial))
                .collect();
            of_terms.len() > 1
        })
        .map(|(number, _)| number)
}

/// "the number of generators of that column of A1 whose image has that bidegree": column 0 has the
/// components, column k + 1 the elements or vectors of level k. The levels have to be lifted ones.
pub fn counts(weights: &[Weights], basis: &Basis) -> Counts {
    let modules = Modules::new(basis.parameters.file_order(), &basis.levels);
    let mut counts = Counts::new();
    let mut count = |column: u64, monomial: &Monomial| {
        let own = bidegree(weights, &basis.degrees, monomial);
        *counts.entry((column, own)).or_default() += 1;
    };
    for component in 1..=basis.parameters.s {
        // a component's monomial is 1
        let exponents = UNIT;
        count(
            0,
            &Monomial {
                component,
                exponents,
            },
        );
    }
    for (k, level) in basis.levels.iter().enumerate() {
        for vector in level {
            let image = modules.image_below_all(k, leading_monomial(vector));
            count(k as u64 + 1, &image);
        }
    }
    counts
}

/// "`B,column,a,b,count` for all non-zero counts, by column, then a, then b, ascending"
pub fn lines(counts: &Counts) -> String {
    counts
        .iter()
        .map(|((column, [a, b]), count)| format!("B,{column},{a},{b},{count}\n"))
        .collect()
}
