// SPDX-License-Identifier: MIT OR Apache-2.0
//! The frame of a level, and the reducer rule.

use crate::monomial::{
    divides, lcm, leading_monomial, quotient, Exponents, Monomial, Vector, UNIT,
};
use crate::order::Order;
use std::collections::BTreeMap;

/// "Frame terms with the same component are .. numbered by ascending lexicographic monomial,
/// whatever the file's order code" (request A10).
pub const NUMBERING: Order = Order::Lexicographic;

/// The frame over the elements `f_1 .. f_r`: "for each i, the minimal generators of the monomial
/// ideal (LM f_1 .. LM f_{i−1}) : LM f_i .. coefficient 1 .. Numbered by i ascending, then
/// monomial ascending" in the given order.
pub fn frame(elements: &[Vector], order: Order) -> Vec<Monomial> {
    let mut terms = Vec::new();
    for i in 0..elements.len() {
        let own = leading_monomial(&elements[i]);
        let candidates = elements[..i]
            .iter()
            .map(|other| leading_monomial(other))
            .filter(|other| other.component == own.component)
            .map(|other| colon(&other.exponents, &own.exponents));
        let mut generators = minimal(candidates);
        generators.sort_by(|a, b| order.compare(a, b));
        terms.extend(generators.into_iter().map(|exponents| Monomial {
            component: i as u64 + 1,
            exponents,
        }));
    }
    terms
}

/// The generator of (a) : b.
fn colon(a: &Exponents, b: &Exponents) -> Exponents {
    quotient(&lcm(a, b), b).unwrap_or(UNIT)
}

/// The minimal ones among the candidates; of equal ones one is kept.
fn minimal(candidates: impl Iterator<Item = Exponents>) -> Vec<Exponents> {
    let mut kept: Vec<Exponents> = Vec::new();
    for candidate in candidates {
        if !kept.iter().any(|other| divides(other, &candidate)) {
            kept.retain(|other| !divides(&candidate, other));
            kept.push(candidate);
        }
    }
    kept
}

/// What the reducer rule answers for a term that has a reducer.
#[derive(Clone, Copy, Debug, PartialEq, Eq)]
pub struct Reducer {
    /// the element's number, from 1
    pub number: u64,
    /// the term's monomial divided by the element's leading monomial
    pub quotient: Exponents,
}

/// The leading monomials of a level, by component and number.
#[derive(Debug)]
pub struct Reducers {
    by_component: BTreeMap<u64, Vec<(u64, Exponents)>>,
}

impl Reducers {
    /// The leading monomials of these elements.
    pub fn new(elements: &[Vector]) -> Reducers {
        let mut by_component: BTreeMap<u64, Vec<(u64, Exponents)>> = BTreeMap::new();
        for (number, element) in (1..).zip(elements) {
            let leading = leading_monomial(element);
            by_component
                .entry(leading.component)
                .or_default()
                .push((number, leading.exponents));
        }
        Reducers { by_component }
    }

    /// "a term is answered with the number of the element whose leading monomial divides it, the
    /// lowest such number; a term for which no element is found is of lower order." Lower order
    /// is `None`.
    pub fn reducer(&self, monomial: &Monomial) -> Option<Reducer> {
        self.by_component
            .get(&monomial.component)?
            .iter()
            .find_map(|(number, leading)| {
                Some(Reducer {
                    number: *number,
                    quotient: quotient(&monomial.exponents, leading)?,
                })
            })
    }
}
