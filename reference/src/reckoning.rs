// SPDX-License-Identifier: MIT OR Apache-2.0
//! The plain reckoning: what the levels have to hold, by the definition of lifting alone.
//!
//! "No limit binds the reckoning, that on exponents included." It shares the frame, the reducer
//! rule and the orders with the rest, but none of the three ways.

use crate::field::Field;
use crate::frame::{frame, Reducer, Reducers, NUMBERING};
use crate::lifting::{descending, Sum};
use crate::monomial::{
    leading_coefficient, multiply, Exponents, Level, Monomial, Parameters, Term, Vector,
};
use crate::order::{Key, Modules};
use crate::reader::{read_problem, Problem};
use crate::script::Call;
use crate::Limits;
use std::collections::btree_map::Entry;
use std::collections::BTreeMap;

/// The reckoning's budget is used up.
#[derive(Clone, Copy, Debug, PartialEq, Eq)]
pub struct GaveUp;

/// Level k over levels 0 to k − 1 by the plain reckoning, and the steps it took. A step is a
/// product formed or a lifted term added; with a budget it gives up instead of a step more.
pub fn reckon_level(
    parameters: &Parameters,
    below: &[Level],
    budget: Option<u64>,
) -> (Result<Level, GaveUp>, u64) {
    let mut reckoner = Reckoner::new(parameters, below, budget);
    let level = reckoner.level();
    (level, reckoner.steps)
}

/// Levels 0 to h over a basis.
pub fn reckon_levels(
    problem: &Problem,
    h: usize,
    budget: Option<u64>,
) -> Result<Vec<Level>, GaveUp> {
    let mut levels = vec![problem.elements.clone()];
    for _ in 0..h {
        let (level, _) = reckon_level(&problem.parameters, &levels, budget);
        levels.push(level?);
    }
    Ok(levels)
}

struct Reckoner<'a> {
    field: Field,
    modules: Modules<'a>,
    k: usize,
    elements: &'a [Vector],
    reducers: Reducers,
    /// the liftings found so far, each of a monomial with coefficient 1
    known: BTreeMap<Key, Sum>,
    steps: u64,
    budget: Option<u64>,
}

/// A monomial that is still to be lifted: "to −q·e_j plus the liftings of the other terms of
/// −q·f_j".
struct Wanted {
    first: Term,
    others: Vec<Term>,
}

impl<'a> Reckoner<'a> {
    fn new(parameters: &Parameters, below: &'a [Level], budget: Option<u64>) -> Reckoner<'a> {
        let k = below.len();
        Reckoner {
            field: Field::new(parameters.p),
            modules: Modules::new(parameters.file_order(), below),
            k,
            elements: &below[k - 1],
            reducers: Reducers::new(&below[k - 1]),
            known: BTreeMap::new(),
            steps: 0,
            budget,
        }
    }

    fn level(&mut self) -> Result<Level, GaveUp> {
        frame(self.elements, NUMBERING)
            .iter()
            .map(|frame_term| self.vector(frame_term))
            .collect()
    }

    /// "Level k .. has for frame term m·e_i the vector m·e_i plus the liftings of the terms of
    /// m·f_i."
    fn vector(&mut self, frame_term: &Monomial) -> Result<Vector, GaveUp> {
        let element = &self.elements[frame_term.component as usize - 1];
        let terms = self.multiple(1, &frame_term.exponents, element)?;
        self.lift_all(&terms)?;
        let first = Term {
            coefficient: 1,
            monomial: *frame_term,
        };
        Ok(descending(&self.sum_of_liftings(first, &terms)?))
    }

    /// Finds the liftings of all these monomials. The lifting of a term needs only those of
    /// smaller terms: so all terms that are met are gathered first and then lifted upward.
    fn lift_all(&mut self, terms: &[Term]) -> Result<(), GaveUp> {
        let mut met: BTreeMap<Key, Wanted> = BTreeMap::new();
        let mut open: Vec<Monomial> = terms.iter().map(|term| term.monomial).collect();
        while let Some(monomial) = open.pop() {
            // "A term of lower order lifts to zero"
            let Some(reducer) = self.reducers.reducer(&monomial) else {
                continue;
            };
            let key = self.modules.key(self.k - 1, &monomial);
            if met.contains_key(&key) || self.known.contains_key(&key) {
                continue;
            }
            let wanted = self.wanted(&reducer)?;
            open.extend(wanted.others.iter().map(|other| other.monomial));
            met.insert(key, wanted);
        }
        for (key, wanted) in met {
            let lifting = self.sum_of_liftings(wanted.first, &wanted.others)?;
            self.known.insert(key, lifting);
        }
        Ok(())
    }

    /// "t with reducer f_j and q·f_j leading with t", t with coefficient 1.
    fn wanted(&mut self, reducer: &Reducer) -> Result<Wanted, GaveUp> {
        let element = &self.elements[reducer.number as usize - 1];
        let coefficient = self
            .field
            .negate(self.field.inverse(leading_coefficient(element)));
        let first = Term {
            coefficient,
            monomial: Monomial {
                component: reducer.number,
                exponents: reducer.quotient,
            },
        };
        let others = self.multiple(coefficient, &reducer.quotient, &element[1..])?;
        Ok(Wanted { first, others })
    }

    /// A first term plus the liftings of terms whose liftings are known.
    fn sum_of_liftings(&mut self, first: Term, terms: &[Term]) -> Result<Sum, GaveUp> {
        let mut sum = Sum::new();
        sum.insert(self.modules.key(self.k, &first.monomial), first);
        for term in terms {
            let key = self.modules.key(self.k - 1, &term.monomial);
            let Some(lifting) = self.known.get(&key) else {
                continue;
            };
            for (key, lifted) in lifting {
                if self.budget.is_some_and(|budget| self.steps >= budget) {
                    return Err(GaveUp);
                }
                self.steps += 1;
                let coefficient = self.field.multiply(term.coefficient, lifted.coefficient);
                add(&self.field, &mut sum, *key, coefficient, lifted.monomial);
            }
        }
        Ok(sum)
    }

    /// The terms of a multiple of an element.
    fn multiple(
        &mut self,
        coefficient: u64,
        factor: &Exponents,
        terms: &[Term],
    ) -> Result<Vec<Term>, GaveUp> {
        self.steps += terms.len() as u64;
        if self.budget.is_some_and(|budget| self.steps > budget) {
            return Err(GaveUp);
        }
        Ok(terms
            .iter()
            .map(|term| Term {
                coefficient: self.field.multiply(coefficient, term.coefficient),
                monomial: Monomial {
                    component: term.monomial.component,
                    exponents: multiply(factor, &term.monomial.exponents),
                },
            })
            .collect())
    }
}

/// "equal monomials combined, zero terms left out"
fn add(field: &Field, sum: &mut Sum, key: Key, coefficient: u64, monomial: Monomial) {
    match sum.entry(key) {
        Entry::Vacant(place) => {
            place.insert(Term {
                coefficient,
                monomial,
            });
        }
        Entry::Occupied(mut held) => {
            let total = field.add(held.get().coefficient, coefficient);
            if total == 0 {
                held.remove();
            } else {
                held.get_mut().coefficient = total;
            }
        }
    }
}

/// The reckoning of a list of calls. "It holds a basis or none, and its highest complete level
/// h."
#[derive(Clone, Debug, Default)]
pub struct Reckoning {
    basis: Option<(Problem, u64)>,
}

impl Reckoning {
    /// Without a basis, "as at the start".
    pub fn new() -> Reckoning {
        Reckoning::default()
    }

    /// "The reckoning is fed the calls' arguments and, of the answers, whether and by which number
    /// they refuse." The number is 0 where the call was not refused.
    pub fn feed(&mut self, limits: &Limits, call: &Call, number: u64) {
        match (number, call) {
            // "Fetching, and 11, 12, 16, change nothing"
            (_, Call::Fetch { .. }) | (11 | 12 | 16, _) => {}
            // "Not refused, reading sets the basis to the file's elements and h to 0"
            (0, Call::Read { file }) => {
                self.basis = read_problem(limits, file).ok().map(|problem| (problem, 0));
            }
            // "lifting level k sets h to k"
            (0, Call::Lift { level, .. }) => {
                if let Some((_, h)) = &mut self.basis {
                    *h = *level;
                }
            }
            // "any other refusal leaves no basis"
            _ => self.basis = None,
        }
    }

    /// The parameters and h, if there is a basis.
    pub fn held(&self) -> Option<(Parameters, u64)> {
        let (problem, h) = self.basis.as_ref()?;
        Some((problem.parameters, *h))
    }

    /// "After the list exactly levels 0 to h (without a basis .. none) are complete and hold its
    /// vectors".
    pub fn levels(&self, budget: Option<u64>) -> Result<Vec<Level>, GaveUp> {
        match &self.basis {
            None => Ok(Vec::new()),
            Some((problem, h)) => reckon_levels(problem, *h as usize, budget),
        }
    }
}
