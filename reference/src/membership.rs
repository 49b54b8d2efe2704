// SPDX-License-Identifier: MIT OR Apache-2.0
//! Whether a vector is in the module (request A12): division by the elements, with quotients and
//! remainder.

use crate::behind::{bytes_that_matter, split, Line, LinesBehind};
use crate::engine::{Basis, State};
use crate::lifting::{Lifter, Stop, Usage};
use crate::limits::Limits;
use crate::monomial::{Monomial, Parameters, Term, Vector};
use crate::order::Modules;
use crate::reader::{padded, read_problem, Refusal};
use crate::sheet::{answered, line, refused};
use std::cmp::Ordering;

/// What division of a vector by the elements gives.
#[derive(Clone, Debug, PartialEq, Eq)]
pub struct Quotients {
    /// the quotient terms, each with the number of its element as its component, descending in the
    /// induced order
    pub quotients: Vector,
    /// the terms without a reducer, descending
    pub remainder: Vector,
}

/// The bytes that are printed of a problem file with V lines behind it, or `None` when the budget of
/// products is used up; and what the runs took.
pub fn membership(limits: &Limits, input: &[u8], budget: Option<u64>) -> (Option<Vec<u8>>, Usage) {
    let mut usage = Usage::default();
    let printed = print(limits, input, budget, &mut usage);
    (printed.map(String::into_bytes), usage)
}

/// The part of an input that can matter: 97,281 bytes by the limits of document 01. What is printed
/// is the same with all of it.
pub fn cut<'a>(limits: &Limits, input: &'a [u8]) -> &'a [u8] {
    let most = bytes_that_matter(limits, &[(limits.working, 2 + limits.variables)]);
    &input[..input.len().min(most)]
}

fn print(limits: &Limits, input: &[u8], budget: Option<u64>, usage: &mut Usage) -> Option<String> {
    let mut printed = String::new();
    let (file, _) = split(input);
    let mut state = State::new();
    let answer = answered(state.read(limits, file, budget), usage)?;
    let n = read_problem(limits, file).map_or(0, |problem| problem.parameters.n as usize);
    let Some(basis) = state.basis else {
        refused(&answer, n, &mut printed);
        return Some(printed);
    };
    // "tested after acceptance and before dividing"
    let vector = match read_vector(limits, &basis.parameters, input) {
        Ok(vector) => vector,
        Err(Refusal { number, place }) => return Some(format!("X,{number},{place}\n")),
    };
    let left = budget.map(|budget| budget - usage.products);
    let (divided, more) = divide(limits, &basis, &vector, left);
    *usage = usage.and(&more);
    match divided {
        Ok(Quotients {
            quotients,
            remainder,
        }) => {
            for term in &quotients {
                // `C,coefficient,element,e1,..,en`
                line("C", term, n, &mut printed);
            }
            for term in &remainder {
                line("W", term, n, &mut printed);
            }
            printed.push_str(&format!("M,{}\n", u64::from(remainder.is_empty())));
            Some(printed)
        }
        Err(Stop::GaveUp) => None,
        // "Limits 13 and 14 count working value, quotients and remainder each, place 0."
        Err(Stop::Refused(number)) => Some(format!("X,{number},0\n")),
        Err(Stop::NoReducer(_)) => unreachable!("such a term goes to the remainder"),
    }
}

/// Divides a vector that is descending by the elements of a basis.
pub fn divide(
    limits: &Limits,
    basis: &Basis,
    vector: &[Term],
    budget: Option<u64>,
) -> (Result<Quotients, Stop>, Usage) {
    let mut lifter = Lifter::new(limits, &basis.parameters, &basis.levels[..1], budget);
    let divided = lifter.divide_vector(vector);
    let divided = divided.map(|(quotients, remainder)| Quotients {
        quotients,
        remainder,
    });
    (divided, lifter.usage)
}

/// The vector of the V lines behind the file. "23 when a line after E is malformed as a V line or out
/// of range, not descending, or the 513th": the first such line.
pub fn read_vector(
    limits: &Limits,
    parameters: &Parameters,
    input: &[u8],
) -> Result<Vector, Refusal> {
    let mut vector = Vector::new();
    for line in LinesBehind::new(limits, input) {
        let refused = Refusal {
            number: 23,
            place: line.number,
        };
        // "up to 512": as many as a working value may have
        if vector.len() as u64 == limits.working {
            return Err(refused);
        }
        let term = read_term(limits, parameters, &line).ok_or(refused)?;
        // "strictly descending"
        let modules = Modules::new(parameters.file_order(), &[]);
        let descends = vector.last().is_none_or(|before: &Term| {
            modules.compare(0, &term.monomial, &before.monomial) == Ordering::Less
        });
        if !descends {
            return Err(refused);
        }
        vector.push(term);
    }
    Ok(vector)
}

/// `V,coefficient,component,e1,..,en` in range, as a T line's numbers are.
fn read_term(limits: &Limits, parameters: &Parameters, line: &Line) -> Option<Term> {
    let numbers = line.numbers(b'V', 2 + parameters.n)?;
    let (coefficient, component, exponents) = (numbers[0], numbers[1], &numbers[2..]);
    let in_range = (1..parameters.p).contains(&coefficient)
        && (1..=parameters.s).contains(&component)
        && exponents.iter().all(|e| *e <= limits.exponent);
    in_range.then(|| Term {
        coefficient,
        monomial: Monomial {
            component,
            exponents: padded(exponents),
        },
    })
}
