// SPDX-License-Identifier: MIT OR Apache-2.0
//! Bases for lifting in less work space (request A11): how many terms the working value of the
//! hybrid way has at most is known, or is near 32 or 512.

use crate::generate::problems::{element_of, random_degrees, LARGE_PRIMES, PRIMES};
use crate::monomial::{Exponents, Level, Monomial, Parameters, Term, UNIT};
use crate::random::Random;
use crate::reader::Problem;
use std::collections::BTreeSet;

/// A tail's exponents are below this, so that there are more than 512 of them in two variables.
const TAIL_EXPONENT: u64 = 25;

/// Any of the bases below. A few are refused when they are read: the first vector or working value
/// passes 512 terms.
pub fn roomy_problem(random: &mut Random) -> Problem {
    let terms = random_room(random);
    match random.below(10) {
        0..=2 => tailed(random, terms),
        3 | 4 => twins(random, terms),
        5 | 6 => {
            let others = random.between(1, 6);
            fan(random, terms, others)
        }
        _ => {
            let a = random.between(2, 14);
            let most = if random.chance(15) { 60 } else { 14 };
            let b = random.between(2, most);
            braided(random, a, b)
        }
    }
}

/// A number of terms: near 32, near 512, or any up to a little more than that.
pub fn random_room(random: &mut Random) -> u64 {
    match random.below(10) {
        0..=4 => random.between(28, 42),
        5 => random.between(505, 515),
        6..=8 => random.between(20, 150),
        _ => random.between(20, 515),
    }
}

/// `x + A` and `y`, where A has so many terms, all of them multiples of y: the value of the one
/// frame term, x·e_2, has them all at once and no more; its vector has two terms more.
pub fn tailed(random: &mut Random, terms: u64) -> Problem {
    fan(random, terms, 1)
}

/// `x + A`, `y` and further variables up to so many with y: each of them has a frame term x·e_i
/// whose value and vector are as those of y are. So a level may pass 2,048 terms.
pub fn fan(random: &mut Random, terms: u64, others: u64) -> Problem {
    let parameters = random_parameters(random, others + 2, 1);
    let last = others as usize + 1;
    let mut first = tail(random, &parameters, terms, 1, 1, last);
    first.push(lead(random, &parameters, 0, 1));
    let mut elements = vec![element_of(&parameters, &first)];
    for x in 1..=others as usize {
        let mut exponents = UNIT;
        exponents[x] = 1;
        elements.push(vec![term(random, &parameters, 1, exponents)]);
    }
    with_degrees(random, parameters, elements)
}

/// `x·e_2 + A·e_1` twice and `y·e_1`, where A has so many terms, all of them multiples of y: the
/// value of the one frame term, e_2, has one term more, and by all pick codes but 2 its vector has
/// two terms, since the second step cancels all that is left. By pick code 2 the vector has two
/// more than A before they cancel there.
pub fn twins(random: &mut Random, terms: u64) -> Problem {
    let parameters = random_parameters(random, 3, 2);
    let mut twin = tail(random, &parameters, terms, 1, 1, 2);
    twin.push(lead(random, &parameters, 0, 2));
    let twin = element_of(&parameters, &twin);
    let mut exponents = UNIT;
    exponents[1] = 1;
    let y = vec![term(random, &parameters, 1, exponents)];
    with_degrees(random, parameters, vec![twin.clone(), twin, y])
}

/// `x + A`, `y + B` and `z`, where A and B have so many terms, all of them multiples of z: the
/// value comes to have products of A and B, how many depends on the pick code.
pub fn braided(random: &mut Random, a: u64, b: u64) -> Problem {
    let parameters = random_parameters(random, 4, 1);
    let mut elements = Level::new();
    for (x, terms) in [(0, a), (1, b)] {
        let mut element = tail(random, &parameters, terms, 1, 2, 3);
        element.push(lead(random, &parameters, x, 1));
        elements.push(element_of(&parameters, &element));
    }
    let mut exponents = UNIT;
    exponents[2] = 1;
    elements.push(vec![term(random, &parameters, 1, exponents)]);
    with_degrees(random, parameters, elements)
}

fn random_parameters(random: &mut Random, n: u64, s: u64) -> Parameters {
    let primes: &[u64] = match random.below(4) {
        0 => &LARGE_PRIMES,
        _ => &PRIMES,
    };
    Parameters {
        p: *random.pick(primes),
        n,
        order: random.between(1, 3),
        s,
    }
}

fn with_degrees(random: &mut Random, parameters: Parameters, elements: Level) -> Problem {
    let degrees = random_degrees(random, parameters.s);
    Problem::with_degrees(parameters, degrees, elements)
}

fn term(
    random: &mut Random,
    parameters: &Parameters,
    component: u64,
    exponents: Exponents,
) -> Term {
    Term {
        coefficient: random.between(1, parameters.p - 1),
        monomial: Monomial {
            component,
            exponents,
        },
    }
}

/// A power of a variable that is above every tail of later variables in the file's order.
fn lead(random: &mut Random, parameters: &Parameters, x: usize, component: u64) -> Term {
    let mut exponents = UNIT;
    exponents[x] = match parameters.order {
        1 => 1,
        _ => 2 * TAIL_EXPONENT,
    };
    term(random, parameters, component, exponents)
}

/// So many terms in two variables, all of them multiples of the first.
fn tail(
    random: &mut Random,
    parameters: &Parameters,
    terms: u64,
    component: u64,
    y: usize,
    z: usize,
) -> Vec<Term> {
    let mut chosen = BTreeSet::new();
    while (chosen.len() as u64) < terms {
        let mut exponents = UNIT;
        exponents[y] = random.between(1, TAIL_EXPONENT - 1);
        exponents[z] = random.below(TAIL_EXPONENT);
        chosen.insert(exponents);
    }
    chosen
        .into_iter()
        .map(|exponents| term(random, parameters, component, exponents))
        .collect()
}
