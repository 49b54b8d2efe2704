// SPDX-License-Identifier: MIT OR Apache-2.0
//! The Hilbert function (request A13).
//!
//! Of the degrees that a state carries none is looked at: the leading monomial of each vector is
//! walked down to level 0. There is no table of Pascal's triangle either: the number of power
//! products of a degree is a quotient of products.

use crate::engine::Basis;
use crate::invariants::generator_degrees;
use crate::lifting::Usage;
use crate::limits::Limits;
use crate::program::Program;

/// "For degrees 0 to 32 a program prints `H,degree,value`."
pub const HIGHEST_DEGREE: u64 = 32;

/// The bytes of the lines for a file, or `None` when the budget of products (for the file
/// together) is used up; and what the runs took.
pub fn hilbert(limits: &Limits, file: &[u8], budget: Option<u64>) -> (Option<Vec<u8>>, Usage) {
    // "It holds for inhomogeneous files too, so 17 is not tested, nor 20"
    let program = Program {
        refuses: |_: &Basis| None,
        prints: lines,
    };
    program.run(limits, file, budget)
}

/// The lines of a basis whose levels reach an empty one.
pub fn lines(basis: &Basis) -> String {
    let columns = generator_degrees(basis);
    (0..=HIGHEST_DEGREE)
        .map(|d| format!("H,{d},{}\n", alternating_sum(basis, &columns, d)))
        .collect()
}

/// The value at degree d, any one; the levels have to reach an empty one. It is the dimension of
/// the quotient in that degree where the elements are homogeneous.
pub fn value(basis: &Basis, d: u64) -> i128 {
    alternating_sum(basis, &generator_degrees(basis), d)
}

/// "the alternating sum over the columns, column 0 positive, of the number of monomials of the
/// degree left after the generator's own; a generator of higher degree counts nothing"
fn alternating_sum(basis: &Basis, columns: &[Vec<u64>], d: u64) -> i128 {
    let mut sum = 0;
    let mut sign = 1;
    for column in columns {
        for left in column.iter().filter_map(|own| d.checked_sub(*own)) {
            sum += sign * monomials_of_degree(basis.parameters.n, left);
        }
        sign = -sign;
    }
    sum
}

/// How many power products of degree d there are in n variables.
fn monomials_of_degree(n: u64, d: u64) -> i128 {
    let mut count: i128 = 1;
    for step in 1..n {
        count = count * i128::from(d + step) / i128::from(step);
    }
    count
}
