// SPDX-License-Identifier: MIT OR Apache-2.0
//! How many steps lifting by pick code 2 takes, and files that take many.
//!
//! A step is one pick. No rule of document 01 bounds their number, so the count here stops at a cap.
//! The vectors themselves are the same by all ways: they come from the tree, which is quick where its
//! cache holds every subtree.

use crate::engine::{Basis, State};
use crate::frame::{frame, Reducers, NUMBERING};
use crate::lifting::{Lifter, Stop, Way};
use crate::limits::Limits;
use crate::monomial::{multiply, Level, Monomial};
use std::collections::BTreeSet;

/// A cache that no file fills.
pub const WHOLE_CACHE: u64 = 1 << 40;

/// The steps of a file, all levels together.
#[derive(Clone, Copy, Debug, PartialEq, Eq)]
pub enum Steps {
    /// so many
    Exactly(u64),
    /// more than so many: the count stopped there
    MoreThan(u64),
}

/// The basis of a file with all levels up to the first empty one, lifted by the tree; `None` if the
/// file is refused, or takes more than so many products.
pub fn lifted_by_tree(limits: &Limits, file: &[u8], products: u64) -> Option<Basis> {
    let mut state = State::new();
    let mut left = products;
    let answer = state.read(limits, file, Some(left)).answer()?;
    if answer.number != 0 {
        return None;
    }
    left -= answer.usage.products;
    for k in 1..=limits.levels {
        let outcome = state.lift(limits, k, Way::Tree, WHOLE_CACHE, Some(left));
        let answer = outcome.answer()?;
        if answer.number != 0 {
            return None;
        }
        left -= answer.usage.products;
        if state.levels()[k as usize].is_empty() {
            break;
        }
    }
    state.basis
}

/// Lifts the terms of every level by pick code 2 over the levels given and counts the picks, up to a
/// cap. A refusal ends the count; its number is the error. Vectors that come to their end have to
/// be the given ones.
pub fn count_steps(limits: &Limits, basis: &Basis, cap: u64) -> Result<Steps, u64> {
    let mut steps = 0;
    let mut whole = true;
    for k in 1..basis.levels.len() {
        let mut lifter = Lifter::new(limits, &basis.parameters, &basis.levels[..k], None);
        let terms = frame(&basis.levels[k - 1], NUMBERING);
        for (term, expected) in terms.iter().zip(&basis.levels[k]) {
            let vector = lifter.hybrid(term, |working| {
                let newest = working.newest()?;
                whole = steps < cap;
                steps += u64::from(whole);
                whole.then_some(newest)
            });
            match vector {
                Err(Stop::Refused(number)) => return Err(number),
                Err(stop) => unreachable!("{stop:?} without a budget"),
                Ok(_) if !whole => return Ok(Steps::MoreThan(cap)),
                Ok(vector) => assert_eq!(&vector, expected, "the ways agree"),
            }
        }
    }
    Ok(Steps::Exactly(steps))
}

/// Whether neither 13 nor 14 can come while the levels given are lifted by the hybrid way, whatever
/// is picked: the monomials that a run can reach, combined or not, are so few that the working value
/// and the vector, which has one term for each of them and the frame term, have room for all.
pub fn no_pick_is_refused(limits: &Limits, basis: &Basis) -> bool {
    (1..basis.levels.len()).all(|k| {
        let below = &basis.levels[k - 1];
        let reducers = Reducers::new(below);
        frame(below, NUMBERING).iter().all(|term| {
            reached(limits, below, &reducers, term)
                .is_some_and(|count| count <= limits.working && count < limits.vector)
        })
    })
}

/// How many monomials with a reducer a run can reach from a frame term; `None` where a product has
/// an exponent above its limit or where they are too many for any run.
fn reached(limits: &Limits, below: &Level, reducers: &Reducers, term: &Monomial) -> Option<u64> {
    let mut seen: BTreeSet<Monomial> = BTreeSet::new();
    let mut multiples = vec![*term];
    while let Some(multiple) = multiples.pop() {
        for own in &below[multiple.component as usize - 1] {
            let product = Monomial {
                component: own.monomial.component,
                exponents: multiply(&multiple.exponents, &own.monomial.exponents),
            };
            if product.exponents.iter().any(|e| *e > limits.exponent) {
                return None;
            }
            let Some(reducer) = reducers.reducer(&product) else {
                continue;
            };
            if seen.insert(product) {
                multiples.push(Monomial {
                    component: reducer.number,
                    exponents: reducer.quotient,
                });
            }
            if seen.len() as u64 > limits.working {
                return None;
            }
        }
    }
    Some(seen.len() as u64)
}
