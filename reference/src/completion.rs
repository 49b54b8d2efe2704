// SPDX-License-Identifier: MIT OR Apache-2.0
//! A plain Buchberger completion, used only to make Gröbner bases for tests.

use crate::field::Field;
use crate::frame::Reducers;
use crate::lifting::{descending, Sum};
use crate::monomial::{
    divides, lcm, leading_coefficient, leading_monomial, multiply, quotient, Exponents, Level,
    Monomial, Parameters, Term, Vector,
};
use crate::order::Modules;
use std::collections::btree_map::Entry;
use std::collections::BTreeSet;

/// Sizes at which a completion is given up.
#[derive(Clone, Copy, Debug)]
pub struct Caps {
    /// elements of the basis
    pub elements: usize,
    /// terms of an element
    pub terms: usize,
    /// the greatest exponent of an element
    pub exponent: u64,
    /// products formed
    pub products: u64,
}

/// The work of a completion.
pub struct Completion {
    field: Field,
    parameters: Parameters,
    caps: Caps,
    products: u64,
}

impl Completion {
    /// For elements under these parameters.
    pub fn new(parameters: &Parameters, caps: Caps) -> Completion {
        Completion {
            field: Field::new(parameters.p),
            parameters: *parameters,
            caps,
            products: 0,
        }
    }

    /// A Gröbner basis that contains the given elements, empty ones left out, or `None` past a
    /// cap.
    pub fn complete(&mut self, generators: Level) -> Option<Level> {
        let mut elements = generators;
        elements.retain(|element| !element.is_empty());
        let mut pairs: BTreeSet<(u64, usize, usize)> = BTreeSet::new();
        for j in 0..elements.len() {
            self.add_pairs(&elements, j, &mut pairs);
        }
        while let Some((_, i, j)) = pairs.pop_first() {
            let value = self.s_vector(&elements[i], &elements[j])?;
            let rest = self.reduce(value, &elements)?;
            if rest.is_empty() {
                continue;
            }
            let exponents = rest.iter().flat_map(|term| term.monomial.exponents);
            let too_big = elements.len() >= self.caps.elements
                || rest.len() > self.caps.terms
                || exponents.max() > Some(self.caps.exponent);
            if too_big {
                return None;
            }
            elements.push(rest);
            self.add_pairs(&elements, elements.len() - 1, &mut pairs);
        }
        Some(elements)
    }

    /// The pairs of element j with those before it. Pairs with coprime leading monomials reduce
    /// to zero if there is one component only.
    fn add_pairs(&self, elements: &[Vector], j: usize, pairs: &mut BTreeSet<(u64, usize, usize)>) {
        let own = leading_monomial(&elements[j]);
        for (i, other) in elements[..j].iter().enumerate() {
            let other = leading_monomial(other);
            let common = lcm(&own.exponents, &other.exponents);
            let coprime = common == multiply(&own.exponents, &other.exponents);
            if own.component == other.component && !(coprime && self.parameters.s == 1) {
                pairs.insert((common.iter().sum(), i, j));
            }
        }
    }

    fn s_vector(&mut self, f: &Vector, g: &Vector) -> Option<Sum> {
        let (lf, lg) = (leading_monomial(f), leading_monomial(g));
        let common = lcm(&lf.exponents, &lg.exponents);
        let mut value = Sum::new();
        let by = self.field.inverse(leading_coefficient(f));
        self.add_multiple(&mut value, by, &quotient(&common, &lf.exponents)?, f)?;
        let by = self
            .field
            .negate(self.field.inverse(leading_coefficient(g)));
        self.add_multiple(&mut value, by, &quotient(&common, &lg.exponents)?, g)?;
        Some(value)
    }

    /// Reduces all terms of a value, greatest first.
    fn reduce(&mut self, mut value: Sum, elements: &[Vector]) -> Option<Vector> {
        let reducers = Reducers::new(elements);
        let mut rest = Vector::new();
        while let Some((_, leading)) = value.last_key_value() {
            let leading = *leading;
            if let Some(reducer) = reducers.reducer(&leading.monomial) {
                let element = &elements[reducer.number as usize - 1];
                let by = self
                    .field
                    .divide(leading.coefficient, leading_coefficient(element));
                self.add_multiple(
                    &mut value,
                    self.field.negate(by),
                    &reducer.quotient,
                    element,
                )?;
            } else {
                value.pop_last();
                rest.push(leading);
            }
        }
        Some(rest)
    }

    /// Adds a multiple of an element; `None` when the products are used up.
    pub fn add_multiple(
        &mut self,
        sum: &mut Sum,
        by: u64,
        factor: &Exponents,
        element: &[Term],
    ) -> Option<()> {
        let modules = Modules::new(self.parameters.file_order(), &[]);
        for term in element {
            self.products += 1;
            if self.products > self.caps.products {
                return None;
            }
            let monomial = Monomial {
                component: term.monomial.component,
                exponents: multiply(factor, &term.monomial.exponents),
            };
            let coefficient = self.field.multiply(by, term.coefficient);
            match sum.entry(modules.key(0, &monomial)) {
                Entry::Vacant(place) => {
                    place.insert(Term {
                        coefficient,
                        monomial,
                    });
                }
                Entry::Occupied(mut held) => {
                    let total = self.field.add(held.get().coefficient, coefficient);
                    if total == 0 {
                        held.remove();
                    } else {
                        held.get_mut().coefficient = total;
                    }
                }
            }
        }
        Some(())
    }

    /// The elements whose leading monomials no other one divides (of equal ones the first), each
    /// with its other terms reduced. It is a Gröbner basis if the given one is.
    pub fn reduced(&mut self, elements: &Level) -> Option<Level> {
        let mut minimal: Level = Vec::new();
        for (i, element) in elements.iter().enumerate() {
            let own = leading_monomial(element);
            let needless = elements.iter().enumerate().any(|(j, other)| {
                let other = leading_monomial(other);
                j != i
                    && other.component == own.component
                    && divides(&other.exponents, &own.exponents)
                    && (other != own || j < i)
            });
            if !needless {
                minimal.push(element.clone());
            }
        }
        let mut reduced = Level::new();
        for element in &minimal {
            let mut tail = Sum::new();
            self.add_multiple(&mut tail, 1, &[0; 8], &element[1..])?;
            let mut vector = vec![element[0]];
            vector.extend(self.reduce(tail, &minimal)?);
            reduced.push(vector);
        }
        Some(reduced)
    }

    /// A sum as an element.
    pub fn element(sum: &Sum) -> Vector {
        descending(sum)
    }
}
