// SPDX-License-Identifier: MIT OR Apache-2.0
//! Problem files from terms.

use crate::{Order, Term};
use std::cmp::Ordering;
use std::fmt::Write;

/// A ring and elements, from which [`Problem::file`] writes a problem file.
///
/// The terms of an element may come in any order and are written descending. Nothing else is mended or left out: what a problem file can not say is
/// written so that reading it is refused at its line, so that no other problem is answered.
///
/// ```
/// use tagetessash::{Order, Problem, Term};
/// // x + y and y^2 + 1 modulo 7
/// let mut problem = Problem::new(7, 2, Order::Lexicographic, 1);
/// problem.element([Term::new(1, 1, &[1, 0]), Term::new(1, 1, &[0, 1])]);
/// problem.element([Term::new(1, 1, &[0, 0]), Term::new(1, 1, &[0, 2])]);
/// assert_eq!(problem.file(), b"R,7,2,1,1\nT,1,1,1,1,0\nT,1,1,1,0,1\nT,2,1,1,0,2\nT,2,1,1,0,0\nE,4\n");
/// ```
#[derive(Clone, Debug, PartialEq, Eq, Hash)]
pub struct Problem {
    prime: u16,
    variables: u16,
    order: Order,
    components: u16,
    degrees: Option<Vec<u16>>,
    weights: Option<Vec<(u16, u16)>>,
    elements: Vec<Vec<Term>>,
}

impl Problem {
    /// p, n, the order and s, with no element yet.
    pub fn new(prime: u16, variables: u16, order: Order, components: u16) -> Problem {
        Problem {
            prime,
            variables,
            order,
            components,
            degrees: None,
            weights: None,
            elements: Vec::new(),
        }
    }

    /// The degrees of the components, from the first one's on: a D line. They change no vector, only the degree that each carries
    /// ([`crate::Vector::degree`]); without this they are 0.
    ///
    /// ```
    /// use tagetessash::{Order, Problem, Term};
    /// // x^2 e_1 + y e_2 modulo 7, homogeneous where e_2 has degree 1
    /// let mut problem = Problem::new(7, 2, Order::DegreeReverseLexicographic, 2);
    /// problem.degrees([0, 1]).element([Term::new(1, 1, &[2, 0]), Term::new(1, 2, &[0, 1])]);
    /// assert_eq!(problem.file(), b"R,7,2,3,2\nD,0,1\nT,1,1,1,2,0\nT,1,1,2,0,1\nE,2\n");
    /// ```
    pub fn degrees(&mut self, degrees: impl IntoIterator<Item = u16>) -> &mut Problem {
        self.degrees = Some(degrees.into_iter().collect());
        self
    }

    /// The two weights of each variable, from x1's on: a G line. They change nothing but what [`crate::bidegrees`] prints; without this they are 1 and 0.
    ///
    /// ```
    /// use tagetessash::{Order, Problem, Term};
    /// // x1 y2 - x2 y1 modulo 7, of bidegree (1, 1) where x1 and x2 have (1, 0), y1 and y2 (0, 1)
    /// let mut problem = Problem::new(7, 4, Order::DegreeReverseLexicographic, 1);
    /// problem.weights([(1, 0), (1, 0), (0, 1), (0, 1)]).element([Term::new(6, 1, &[0, 1, 1]), Term::new(1, 1, &[1, 0, 0, 1])]);
    /// assert_eq!(problem.file(), b"R,7,4,3,1\nG,1,0,1,0,0,1,0,1\nT,1,6,1,0,1,1,0\nT,1,1,1,1,0,0,1\nE,2\n");
    /// assert_eq!(tagetessash::bidegrees(&problem.file()), b"B,0,0,0,1\nB,1,1,1,1\n");
    /// ```
    pub fn weights(&mut self, weights: impl IntoIterator<Item = (u16, u16)>) -> &mut Problem {
        self.weights = Some(weights.into_iter().collect());
        self
    }

    /// One more element, its terms in any order.
    pub fn element(&mut self, terms: impl IntoIterator<Item = Term>) -> &mut Problem {
        let mut terms: Vec<Term> = terms.into_iter().collect();
        terms.sort_by(|a, b| self.order.compare(b, a));
        self.elements.push(terms);
        self
    }

    /// The file's bytes.
    pub fn file(&self) -> Vec<u8> {
        let mut text = String::new();
        let mut count = 0;
        let (p, n, s) = (self.prime, usize::from(self.variables), self.components);
        let _ = writeln!(text, "R,{p},{n},{},{s}", self.order.code());
        // not a degree for each component, or one above 255, is refused (1, 18)
        if let Some(degrees) = &self.degrees {
            line(&mut text, 'D', degrees.iter().copied());
        }
        // not two weights for each variable, or one above 15, is refused (1, 24)
        if let Some(weights) = &self.weights {
            line(&mut text, 'G', weights.iter().flat_map(|&(a, b)| [a, b]));
        }
        // a zero element has a term with coefficient 0, which is refused (4)
        let zero = [Term::new(0, 1, &[])];
        for (element, terms) in (1..).zip(&self.elements) {
            for term in if terms.is_empty() {
                &zero[..]
            } else {
                &terms[..]
            } {
                let _ = write!(text, "T,{element},{},{}", term.coefficient, term.component);
                // an exponent past the last variable makes the line too long, which is refused (1)
                let used = term
                    .exponents
                    .iter()
                    .rposition(|&e| e != 0)
                    .map_or(0, |x| x + 1);
                for x in 0..n.max(used) {
                    let _ = write!(text, ",{}", term.exponents.get(x).copied().unwrap_or(0));
                }
                text.push('\n');
                count += 1;
            }
        }
        let _ = writeln!(text, "E,{count}");
        text.into_bytes()
    }
}

/// A letter and numbers.
fn line(text: &mut String, letter: char, numbers: impl Iterator<Item = u16>) {
    text.push(letter);
    for number in numbers {
        let _ = write!(text, ",{number}");
    }
    text.push('\n');
}

impl Order {
    /// The order of level 0's module: monomials first, of equal ones the larger component is greater.
    pub fn compare(&self, a: &Term, b: &Term) -> Ordering {
        let degree = |term: &Term| term.exponents.iter().map(|&e| u16::from(e)).sum::<u16>();
        let by_degree = degree(a).cmp(&degree(b));
        let monomials = match self {
            Order::Lexicographic => a.exponents.cmp(&b.exponents),
            Order::DegreeLexicographic => by_degree.then(a.exponents.cmp(&b.exponents)),
            // at equal degree the last differing exponent decides, and the smaller one is greater
            Order::DegreeReverseLexicographic => {
                by_degree.then_with(|| b.exponents.iter().rev().cmp(a.exponents.iter().rev()))
            }
        };
        monomials.then(a.component.cmp(&b.component))
    }
}
