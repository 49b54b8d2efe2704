// SPDX-License-Identifier: MIT OR Apache-2.0
//! Files for completing (request A6): Gröbner bases with elements left out, other generators, and files
//! that pass a limit when something is added.

use crate::generate::files::{damage, edit, limit_file, plain_file};
use crate::generate::low::low_problem;
use crate::generate::pages::graded_problem;
use crate::generate::problems::{
    element_of, problem_file, random_basis, random_set, Size, LARGE_PRIMES, PRIMES,
};
use crate::generate::weight_lines::with_random_weights;
use crate::lifting::{accept, Stop};
use crate::limits::Limits;
use crate::monomial::{Exponents, Level, Monomial, Parameters, Term, Vector, UNIT};
use crate::random::Random;
use crate::reader::Problem;
use std::collections::BTreeSet;

/// Any file for completing: mostly one to which something is added, else one for each refusal.
pub fn generator_file(random: &mut Random) -> Vec<u8> {
    match random.below(100) {
        0..=49 => incomplete_file(random),
        50..=56 => plain_file(random, &Size::small()),
        57..=60 => stuffed_file(random),
        61..=64 => long_file(random),
        65..=67 => wide_file(random),
        68..=70 => high_file(random),
        71..=74 => large_file(random),
        75..=88 => {
            let mut file = incomplete_file(random);
            for _ in 0..random.between(1, 2) {
                damage(random, &mut file);
            }
            file
        }
        89..=95 => {
            let file = incomplete_file(random);
            edit(random, &file)
        }
        _ => limit_file(random),
    }
}

/// A file that is no Gröbner basis, with D and G lines or without.
pub fn incomplete_file(random: &mut Random) -> Vec<u8> {
    let problem = loop {
        let problem = match random.below(10) {
            0..=5 => {
                let problem = any_basis(random);
                left_out(random, problem)
            }
            6 => random_set(random, &Size::tiny()),
            7 => random_set(random, &Size::small().over_large_primes()),
            _ => random_set(random, &Size::small()),
        };
        if is_incomplete(&problem) {
            break problem;
        }
    };
    let file = problem_file(&problem);
    match random.chance(20) {
        true => with_random_weights(random, &file),
        false => file,
    }
}

fn is_incomplete(problem: &Problem) -> bool {
    let limits = Limits::document_01();
    let (accepted, _) = accept(
        &limits,
        &problem.parameters,
        &problem.elements,
        Some(20_000),
    );
    matches!(accepted, Err(refused) if matches!(refused.stop, Stop::NoReducer(_)))
}

fn any_basis(random: &mut Random) -> Problem {
    loop {
        let problem = match random.below(8) {
            0 | 1 => random_basis(random, &Size::tiny()),
            2..=4 => random_basis(random, &Size::small()),
            5 => random_basis(random, &Size::medium()),
            6 => graded_problem(random),
            _ => low_problem(random),
        };
        if problem.elements.len() > 1 {
            return problem;
        }
    }
}

/// The problem, which has two elements or more, without some of them.
pub fn left_out(random: &mut Random, mut problem: Problem) -> Problem {
    let most = problem.elements.len() as u64 - 1;
    for _ in 0..random.between(1, most.min(4)) {
        let place = random.below(problem.elements.len() as u64);
        problem.elements.remove(place as usize);
    }
    problem
}

fn term(random: &mut Random, parameters: &Parameters, component: u64, first: &[u64]) -> Term {
    let mut exponents = UNIT;
    exponents[..first.len()].copy_from_slice(first);
    Term {
        coefficient: random.between(1, parameters.p - 1),
        monomial: Monomial {
            component,
            exponents,
        },
    }
}

/// A set with a component more, for elements that have nothing to do with the others.
fn with_component(random: &mut Random) -> Problem {
    let mut problem = loop {
        let problem = random_set(random, &Size::tiny());
        if is_incomplete(&problem) {
            break problem;
        }
    };
    problem.parameters.s += 1;
    problem.degrees.push(0);
    problem
}

/// Powers of a variable in a component of their own, so that there are about as many elements as
/// there may be before or after something is added: 19.
fn stuffed_file(random: &mut Random) -> Vec<u8> {
    let mut problem = with_component(random);
    let parameters = problem.parameters;
    let elements = random.between(62, 64) as usize;
    while problem.elements.len() < elements {
        let power = random.below(256);
        let place = random.between(0, problem.elements.len() as u64) as usize;
        let element = vec![term(random, &parameters, parameters.s, &[power])];
        problem.elements.insert(place, element);
    }
    problem_file(&problem)
}

/// An element that is the only one in its component and so long that the file has about 2,048 T lines
/// (8) or about 65,536 bytes (1 at line 0).
fn long_file(random: &mut Random) -> Vec<u8> {
    let mut problem = with_component(random);
    let by_bytes = random.chance(50);
    // variables that the others have not
    problem.parameters.n = 8;
    let component = problem.parameters.s;
    let lines: usize = problem.elements.iter().map(Vec::len).sum();
    let wanted = match by_bytes {
        true => 1_200,
        false => 2_048 - lines - random.below(12) as usize,
    };
    let digits = if by_bytes { 100..=255 } else { 0..=9 };
    let mut monomials: BTreeSet<Exponents> = BTreeSet::new();
    let next = |random: &mut Random, monomials: &mut BTreeSet<Exponents>| {
        let exponents = std::array::from_fn(|_| random.between(*digits.start(), *digits.end()));
        monomials.insert(exponents)
    };
    while monomials.len() < wanted {
        next(random, &mut monomials);
    }
    let place = random.between(0, problem.elements.len() as u64) as usize;
    problem.elements.insert(place, Vector::new());
    let with = |problem: &mut Problem, monomials: &BTreeSet<Exponents>| {
        let terms: Vec<Term> = monomials
            .iter()
            .map(|exponents| Term {
                coefficient: 1,
                monomial: Monomial {
                    component,
                    exponents: *exponents,
                },
            })
            .collect();
        problem.elements[place] = element_of(&problem.parameters, &terms);
        problem_file(problem)
    };
    let mut file = with(&mut problem, &monomials);
    if by_bytes {
        let line = (file.len() - 40) / monomials.len();
        let least = 65_536 - random.between(20, 200) as usize;
        while file.len() < least {
            let more = 1 + (least - file.len()) / (line + 2);
            let count = monomials.len() + more;
            while monomials.len() < count {
                next(random, &mut monomials);
            }
            file = with(&mut problem, &monomials);
        }
    }
    file
}

/// `x·e_1 + A` and `x·e_1 + B`, where A and B together have about 512 terms, in the second component or
/// in the first: what is added is long, or 14 comes.
fn wide_file(random: &mut Random) -> Vec<u8> {
    let primes: &[u64] = match random.below(4) {
        0 => &LARGE_PRIMES,
        _ => &PRIMES,
    };
    let parameters = Parameters {
        p: *random.pick(primes),
        n: 3,
        order: 1,
        s: 2,
    };
    let component = random.between(1, 2);
    let together = random.between(509, 514);
    let first = random.between(100, 400);
    let mut elements = Level::new();
    for tail in [0..first, first..together] {
        let mut terms = vec![term(random, &parameters, 1, &[1])];
        for at in tail {
            terms.push(term(
                random,
                &parameters,
                component,
                &[0, at / 200, at % 200],
            ));
        }
        elements.push(element_of(&parameters, &terms));
    }
    problem_file(&Problem::new(parameters, elements))
}

/// `x + y^a` and `x·y^b + ..`, where a + b is about 255: 13, or a power of y is added.
fn high_file(random: &mut Random) -> Vec<u8> {
    let parameters = Parameters {
        p: *random.pick(&PRIMES),
        n: random.between(2, 4),
        order: 1,
        s: 1,
    };
    let a = random.between(1, 254);
    let b = (254 + random.below(3) - a).clamp(1, 255);
    let first = [
        term(random, &parameters, 1, &[1]),
        term(random, &parameters, 1, &[0, a]),
    ];
    let power = random.below(b + 2);
    let second = [
        term(random, &parameters, 1, &[1, b]),
        term(random, &parameters, 1, &[0, power]),
    ];
    let elements = vec![
        element_of(&parameters, &first),
        element_of(&parameters, &second),
    ];
    problem_file(&Problem::new(parameters, elements))
}

/// Many monomials and binomials in many variables: about 128 frame terms or more, at once or after
/// something is added: 15, or 19.
fn large_file(random: &mut Random) -> Vec<u8> {
    let parameters = Parameters {
        p: *random.pick(&PRIMES),
        n: random.between(4, 8),
        order: random.between(1, 3),
        s: 1,
    };
    let elements = (0..random.between(8, 34))
        .map(|_| {
            let terms: Vec<Term> = (0..random.between(1, 2))
                .map(|_| {
                    let mut exponents = UNIT;
                    for _ in 0..2 {
                        exponents[random.below(parameters.n) as usize] += 1;
                    }
                    term(random, &parameters, 1, &exponents)
                })
                .collect();
            element_of(&parameters, &terms)
        })
        .filter(|element| !element.is_empty())
        .collect();
    problem_file(&Problem::new(parameters, elements))
}
