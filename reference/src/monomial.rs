// SPDX-License-Identifier: MIT OR Apache-2.0
//! Monomials, terms, vectors and the file's parameters.

use crate::order::Order;

/// "A monomial is eight exponents and a component".
pub const VARIABLES: usize = 8;

/// The exponents of x1 to x8. They are wide because the plain reckoning has no bound on them.
pub type Exponents = [u64; VARIABLES];

/// "The unit monomial has all exponents zero."
pub const UNIT: Exponents = [0; VARIABLES];

/// "A monomial is eight exponents and a component; exponents past n are zero." Components are
/// numbered from 1.
#[derive(Clone, Copy, Debug, PartialEq, Eq, PartialOrd, Ord, Hash)]
pub struct Monomial {
    /// the component, from 1
    pub component: u64,
    /// the exponents of x1 to x8
    pub exponents: Exponents,
}

/// A coefficient, 1 to p − 1, and a monomial.
#[derive(Clone, Copy, Debug, PartialEq, Eq)]
pub struct Term {
    /// the coefficient
    pub coefficient: u64,
    /// the monomial
    pub monomial: Monomial,
}

/// An element of the file or a vector of a level: its terms, greatest first.
pub type Vector = Vec<Term>;

/// The vectors of a level in number order.
pub type Level = Vec<Vector>;

/// The numbers of the line `R,p,n,order,s`.
#[derive(Clone, Copy, Debug, PartialEq, Eq)]
pub struct Parameters {
    /// the prime
    pub p: u64,
    /// how many variables
    pub n: u64,
    /// the order code, 1 to 3
    pub order: u64,
    /// how many components
    pub s: u64,
}

/// The weights a and b of a variable (request A14).
pub type Weights = [u64; 2];

/// "Without G the weights are 1 and 0".
pub const PLAIN_WEIGHTS: Weights = [1, 0];

impl Parameters {
    /// The file's order. The order code has to be 1, 2 or 3.
    pub fn file_order(&self) -> Order {
        Order::from_code(self.order).expect("the order code is 1 to 3")
    }
}

/// The product of two power products.
pub fn multiply(a: &Exponents, b: &Exponents) -> Exponents {
    std::array::from_fn(|x| a[x] + b[x])
}

/// `a / b`, if `b` divides `a`.
pub fn quotient(a: &Exponents, b: &Exponents) -> Option<Exponents> {
    divides(b, a).then(|| std::array::from_fn(|x| a[x] - b[x]))
}

/// Whether `a` divides `b`.
pub fn divides(a: &Exponents, b: &Exponents) -> bool {
    (0..VARIABLES).all(|x| a[x] <= b[x])
}

/// The least common multiple.
pub fn lcm(a: &Exponents, b: &Exponents) -> Exponents {
    std::array::from_fn(|x| a[x].max(b[x]))
}

/// The total degree.
pub fn degree(a: &Exponents) -> u64 {
    a.iter().sum()
}

/// The leading monomial of an element that is kept descending.
pub fn leading_monomial(element: &[Term]) -> &Monomial {
    &element[0].monomial
}

/// The leading coefficient of an element that is kept descending.
pub fn leading_coefficient(element: &[Term]) -> u64 {
    element[0].coefficient
}
