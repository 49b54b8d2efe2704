// SPDX-License-Identifier: MIT OR Apache-2.0
//! Gröbner bases on which lifting by pick code 2 takes very many steps, and whose sheets are short.
//!
//! The newest term is followed down to its end before the next is looked at, so that a monomial is
//! lifted again and again where others do it once. All files here have a sheet: see
//! [`no_pick_is_refused`].

use crate::generate::problems::{element_of, problem_file, random_degrees, LARGE_PRIMES, PRIMES};
use crate::limits::Limits;
use crate::monomial::{
    leading_monomial, multiply, Exponents, Level, Monomial, Parameters, Term, Vector, UNIT,
};
use crate::order::Modules;
use crate::random::Random;
use crate::reader::Problem;
use crate::steps::{count_steps, lifted_by_tree, no_pick_is_refused, Steps};
use std::cmp::Ordering;

/// The steps that a slow file takes at least.
pub const SLOW: u64 = 100_000;

/// Products that acceptance and the tree may take.
const PRODUCTS: u64 = 200_000;

/// A file that is accepted, has a sheet, and takes at least [`SLOW`] steps.
pub fn slow_file(random: &mut Random) -> Vec<u8> {
    problem_file(&slow_problem(random))
}

/// The same as a problem.
pub fn slow_problem(random: &mut Random) -> Problem {
    loop {
        let elements = match random.below(5) {
            0 => fibonacci(random),
            1 => several(random),
            2 => powers(random),
            3 => forms(random),
            _ => module(random),
        };
        let (parameters, mut elements) = elements;
        if random.chance(40) {
            random.shuffle(&mut elements);
        }
        let degrees = random_degrees(random, parameters.s);
        let problem = Problem::with_degrees(parameters, degrees, elements);
        if is_slow(&problem_file(&problem)) {
            return problem;
        }
    }
}

/// Whether the file is accepted, has a sheet and takes at least [`SLOW`] steps.
pub fn is_slow(file: &[u8]) -> bool {
    let limits = Limits::document_01();
    let Some(basis) = lifted_by_tree(&limits, file, PRODUCTS) else {
        return false;
    };
    no_pick_is_refused(&limits, &basis)
        && count_steps(&limits, &basis, SLOW - 1) == Ok(Steps::MoreThan(SLOW - 1))
}

fn parameters(random: &mut Random, n: u64, order: u64, s: u64) -> Parameters {
    let primes: &[u64] = match random.below(4) {
        0 => &LARGE_PRIMES,
        _ => &PRIMES,
    };
    Parameters {
        p: *random.pick(primes),
        n,
        order,
        s,
    }
}

fn term(random: &mut Random, parameters: &Parameters, component: u64, first: &[u64]) -> Term {
    let mut exponents = UNIT;
    exponents[..first.len()].copy_from_slice(first);
    Term {
        coefficient: random.between(1, parameters.p - 1),
        monomial: Monomial {
            component,
            exponents,
        },
    }
}

/// `y^d + ..` with at least two further powers of y, and a power of x with `y^e` behind it.
fn power_pair(random: &mut Random, parameters: &Parameters, component: u64, e: u64) -> Level {
    let d = random.between(2, 4);
    let mut first = vec![term(random, parameters, component, &[0, d])];
    for power in 0..d {
        if power + 2 >= d || random.chance(50) {
            first.push(term(random, parameters, component, &[0, power]));
        }
    }
    let lead = match parameters.order {
        1 => random.between(1, 3),
        _ => e + 1,
    };
    let second = [
        term(random, parameters, component, &[lead, 0]),
        term(random, parameters, component, &[0, e]),
    ];
    vec![
        element_of(parameters, &first),
        element_of(parameters, &second),
    ]
}

/// Two elements of one component: the steps grow with e as Fibonacci's numbers do, or faster.
fn fibonacci(random: &mut Random) -> (Parameters, Level) {
    let order = random.between(1, 3);
    let parameters = parameters(random, 2, order, 1);
    let e = match random.chance(30) {
        true => random.between(200, 250),
        false => random.between(15, 60),
    };
    let elements = power_pair(random, &parameters, 1, e);
    (parameters, elements)
}

/// Such pairs in each of several components: none has many steps alone, or each.
fn several(random: &mut Random) -> (Parameters, Level) {
    let (order, s) = (random.between(1, 3), random.between(2, 10));
    let parameters = parameters(random, 2, order, s);
    let mut elements = Level::new();
    for component in 1..=s {
        let e = random.between(10, 28);
        elements.extend(power_pair(random, &parameters, component, e));
    }
    (parameters, elements)
}

/// `x + y^e`, `y + z^b + ..` and at times a power of z, lexicographic: each y has several ends.
fn powers(random: &mut Random) -> (Parameters, Level) {
    let parameters = parameters(random, 3, 1, 1);
    let e = random.between(8, 30);
    let mut y = vec![term(random, &parameters, 1, &[0, 1])];
    for _ in 0..random.between(2, 3) {
        let power = random.between(0, 8);
        y.push(term(random, &parameters, 1, &[0, 0, power]));
    }
    let x = [
        term(random, &parameters, 1, &[1]),
        term(random, &parameters, 1, &[0, e]),
    ];
    let mut elements = vec![element_of(&parameters, &y), element_of(&parameters, &x)];
    if random.chance(40) {
        let power = random.between(2, 255);
        elements.push(vec![term(random, &parameters, 1, &[0, 0, power])]);
    }
    (parameters, elements)
}

/// A form in y and z that leads with a power of y, and one of higher degree that leads with a power
/// of x: homogeneous.
fn forms(random: &mut Random) -> (Parameters, Level) {
    let order = random.between(1, 3);
    let parameters = parameters(random, 3, order, 1);
    let (degree, higher) = (random.between(2, 3), random.between(12, 30));
    let mut first = Vec::new();
    for power in 0..=degree {
        first.push(term(random, &parameters, 1, &[0, power, degree - power]));
    }
    let mut second = vec![
        term(random, &parameters, 1, &[higher]),
        term(random, &parameters, 1, &[0, higher]),
    ];
    for _ in 0..random.below(3) {
        let power = random.below(higher);
        second.push(term(random, &parameters, 1, &[0, power, higher - power]));
    }
    let mut elements = vec![
        element_of(&parameters, &first),
        element_of(&parameters, &second),
    ];
    if random.chance(40) {
        let power = random.between(2, 60);
        elements.push(vec![term(random, &parameters, 1, &[0, 0, power])]);
    }
    (parameters, elements)
}

/// Pairs of powers in some components, where multiples of elements of other components are added to
/// elements that they stay below: the module and the leading monomials stay.
fn module(random: &mut Random) -> (Parameters, Level) {
    let (order, s) = (random.between(1, 3), random.between(2, 4));
    let parameters = parameters(random, 2, order, s);
    let modules = Modules::new(parameters.file_order(), &[]);
    let mut elements = Level::new();
    for component in 1..=s {
        let e = random.between(8, 20);
        elements.extend(power_pair(random, &parameters, component, e));
    }
    for _ in 0..random.between(3, 8) {
        let count = elements.len() as u64;
        let (i, j) = (random.below(count) as usize, random.below(count) as usize);
        let (mut factor, by) = (UNIT, random.between(1, parameters.p - 1));
        factor[1] = random.below(6);
        let sum = with_multiple(&parameters, &elements[i], by, &factor, &elements[j]);
        let front = leading_monomial(&elements[i]);
        let mut own = *leading_monomial(&elements[j]);
        own.exponents = multiply(&factor, &own.exponents);
        let stays = modules.compare(0, &own, front) == Ordering::Less;
        if stays && own.component != front.component {
            elements[i] = sum;
        }
    }
    (parameters, elements)
}

fn with_multiple(
    parameters: &Parameters,
    element: &[Term],
    by: u64,
    factor: &Exponents,
    other: &[Term],
) -> Vector {
    let mut terms = element.to_vec();
    terms.extend(other.iter().map(|term| Term {
        coefficient: by * term.coefficient % parameters.p,
        monomial: Monomial {
            component: term.monomial.component,
            exponents: multiply(factor, &term.monomial.exponents),
        },
    }));
    element_of(parameters, &terms)
}
