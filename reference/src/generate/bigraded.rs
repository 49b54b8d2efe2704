// SPDX-License-Identifier: MIT OR Apache-2.0
//! Files for bidegrees (request A14): bihomogeneous ones with and without D and G lines, those with
//! an element of two bidegrees in any place, and those that are refused while they are lifted.

use crate::bidegrees::{bidegree, of_two_bidegrees, Bidegree};
use crate::engine::Basis;
use crate::generate::files::{edit, limit_file};
use crate::generate::pages::{
    completed, graded_problem, graded_tails, large_product, multiples_of_one, page_file,
    with_mixed_elements,
};
use crate::generate::problems::{
    element_of, problem_file, random_basis, random_set, Size, LARGE_PRIMES, PRIMES,
};
use crate::generate::weight_lines::{
    damage_weights, random_weights, spoil_weight_line, weighted_file, with_random_weights,
    with_weights,
};
use crate::limits::{MOST_DEGREE, MOST_WEIGHT};
use crate::monomial::{Exponents, Level, Monomial, Parameters, Term, Weights, PLAIN_WEIGHTS, UNIT};
use crate::random::Random;
use crate::reader::Problem;
use std::collections::BTreeMap;

/// Any file for bidegrees: mostly one that has lines, else one for each refusal.
pub fn bidegree_file(random: &mut Random) -> Vec<u8> {
    match random.below(100) {
        0..=41 => bigraded_file(random),
        42..=55 => bimixed_file(random),
        56..=58 => bistopped_file(random),
        59..=66 => weighted_file(random, &Size::small()),
        67..=71 => {
            let file = problem_file(&random_set(random, &Size::small()));
            with_random_weights(random, &file)
        }
        72..=76 => {
            let file = page_file(random);
            with_random_weights(random, &file)
        }
        77..=87 => {
            let mut file = bigraded_file(random);
            for _ in 0..random.between(1, 2) {
                damage_weights(random, &mut file);
            }
            file
        }
        88..=93 => {
            let file = bigraded_file(random);
            edit(random, &file)
        }
        94..=97 => {
            let mut file = bigraded_file(random);
            spoil_weight_line(random, &mut file);
            file
        }
        _ => {
            let file = limit_file(random);
            with_random_weights(random, &file)
        }
    }
}

/// A Gröbner basis each of whose elements has terms of one bidegree.
pub fn bigraded_file(random: &mut Random) -> Vec<u8> {
    let problem = bigraded_problem(random);
    file_of(random, &problem)
}

/// The problem's file; where its weights are 1 and 0, at times with a G line that says so.
fn file_of(random: &mut Random, problem: &Problem) -> Vec<u8> {
    let file = problem_file(problem);
    if random.chance(50) {
        return with_weights(&file, &problem.weights);
    }
    file
}

/// The number, from 1, of the first element of the problem that has terms of two bidegrees.
pub fn first_mixed(problem: &Problem) -> Option<u64> {
    let elements = vec![problem.elements.clone()];
    let basis = Basis::new(problem.parameters, problem.degrees.clone(), elements);
    of_two_bidegrees(&problem.weights, &basis)
}

/// Whether each element of the problem has terms of one bidegree.
pub fn is_bigraded(problem: &Problem) -> bool {
    first_mixed(problem).is_none()
}

/// A random Gröbner basis of bihomogeneous elements; the weights and the components' degrees belong
/// to them.
pub fn bigraded_problem(random: &mut Random) -> Problem {
    loop {
        let problem = match random.below(20) {
            // the plain weights, and one pair for all variables
            0 | 1 => Some(graded_problem(random)),
            2 => {
                let mut problem = graded_problem(random);
                let pair = [0, 1].map(|_| random.between(0, MOST_WEIGHT));
                problem.degrees.fill(random.below(2) * MOST_DEGREE);
                problem.weights.fill(pair);
                Some(problem)
            }
            3 => {
                let mut problem = random_basis(random, &Size::small());
                problem.weights = random_weights(random, problem.parameters.n);
                Some(problem)
            }
            _ => Bigraded::new(random).basis(),
        };
        if let Some(problem) = problem.filter(is_bigraded) {
            return problem;
        }
    }
}

/// Makes one bihomogeneous basis.
struct Bigraded<'a> {
    random: &'a mut Random,
    parameters: Parameters,
    degrees: Vec<u64>,
    weights: Vec<Weights>,
}

impl<'a> Bigraded<'a> {
    fn new(random: &'a mut Random) -> Bigraded<'a> {
        let parameters = Parameters {
            p: match random.below(8) {
                0 => *random.pick(&LARGE_PRIMES),
                _ => *random.pick(&PRIMES),
            },
            n: random.between(2, 6),
            order: random.between(1, 3),
            s: match random.below(10) {
                0..=4 => 1,
                5..=8 => random.between(2, 4),
                _ => random.between(2, 16),
            },
        };
        let weights = two_groups(random, parameters.n);
        let degrees = bigraded_degrees(random, parameters.s, &weights);
        Bigraded {
            random,
            parameters,
            degrees,
            weights,
        }
    }

    fn basis(mut self) -> Option<Problem> {
        let elements = match self.random.below(8) {
            0 | 1 => self.monomials(),
            2 => self.variables(),
            _ => self.sparse(),
        };
        let elements = completed(self.random, &self.parameters, elements)?;
        Some(Problem {
            parameters: self.parameters,
            degrees: self.degrees,
            weights: self.weights,
            elements,
        })
    }

    fn term(&mut self, monomial: Monomial) -> Term {
        Term {
            coefficient: self.random.between(1, self.parameters.p - 1),
            monomial,
        }
    }

    /// Any number of variables, with any weights.
    fn any_variables(&mut self, least: u64) {
        self.parameters.n = self.random.between(least, 8);
        self.weights = random_weights(self.random, self.parameters.n);
    }

    /// Many variables, often all, at times with 1: long lists.
    fn variables(&mut self) -> Level {
        self.any_variables(3);
        let all = self.random.chance(50);
        let component = self.random.between(1, self.parameters.s);
        let mut elements = Level::new();
        for x in 0..self.parameters.n as usize {
            if all || self.random.chance(70) {
                let mut exponents = UNIT;
                exponents[x] = 1;
                elements.push(vec![self.term(Monomial {
                    component,
                    exponents,
                })]);
            }
        }
        if self.random.chance(40) {
            let exponents = UNIT;
            elements.push(vec![self.term(Monomial {
                component,
                exponents,
            })]);
        }
        elements
    }

    /// Monomials of any exponents, at times all at the limit.
    fn monomials(&mut self) -> Level {
        if self.random.chance(20) {
            self.any_variables(1);
        }
        (0..self.random.between(1, 9))
            .map(|_| {
                let most = *self.random.pick(&[1, 1, 2, 2, 3, 9, 60, 255]);
                let mut exponents = UNIT;
                for exponent in exponents.iter_mut().take(self.parameters.n as usize) {
                    *exponent = match self.random.chance(10) {
                        true => most,
                        false => self.random.between(0, most),
                    };
                }
                let component = self.random.between(1, self.parameters.s);
                vec![self.term(Monomial {
                    component,
                    exponents,
                })]
            })
            .collect()
    }

    /// Few terms of one bidegree: a monomial of low degree is taken, and others with its sums.
    fn sparse(&mut self) -> Level {
        let n = self.parameters.n as usize;
        let factor = match self.random.below(12) {
            0 => self.random.between(2, 63),
            _ => 1,
        };
        let low = low_monomials(n, [6, 6, 6, 5, 4, 3, 3][n]);
        let mut all = Vec::new();
        let mut by_bidegree: BTreeMap<Bidegree, Vec<Monomial>> = BTreeMap::new();
        for component in 1..=self.parameters.s {
            for exponents in &low {
                let monomial = Monomial {
                    component,
                    exponents: exponents.map(|e| factor * e),
                };
                let own = bidegree(&self.weights, &self.degrees, &monomial);
                all.push(own);
                by_bidegree.entry(own).or_default().push(monomial);
            }
        }
        (0..self.random.between(1, 5))
            .map(|_| {
                let same = [0, 1].map(|_| &by_bidegree[self.random.pick(&all)]);
                // of two the one with more monomials
                let same = same[usize::from(same[0].len() < same[1].len())];
                let terms: Vec<Term> = (0..self.random.between(1, 4))
                    .map(|_| {
                        let monomial = *self.random.pick(same);
                        self.term(monomial)
                    })
                    .collect();
                element_of(&self.parameters, &terms)
            })
            .collect()
    }
}

/// All power products in n variables of at most this degree.
fn low_monomials(n: usize, degree: u64) -> Vec<Exponents> {
    let mut all = vec![UNIT];
    for x in 0..n {
        let more = |exponents: Exponents| {
            let left = degree - exponents.iter().sum::<u64>();
            (0..=left).map(move |e| {
                let mut other = exponents;
                other[x] = e;
                other
            })
        };
        all = all.into_iter().flat_map(more).collect();
    }
    all
}

/// Weights for two groups of variables: those of a product of spaces, every a at 1, small ones, or
/// any; at times one variable has its own.
fn two_groups(random: &mut Random, n: u64) -> Vec<Weights> {
    let first = random.between(1, n - 1);
    let any = |random: &mut Random| [0, 1].map(|_| random.between(0, MOST_WEIGHT));
    let small = |random: &mut Random| [0, 1].map(|_| random.below(3));
    let (one, other) = match random.below(12) {
        0..=3 => ([1, 0], [0, 1]),
        4 => ([1, 0], [1, 1]),
        5 | 6 => ([1, random.below(4)], [1, random.between(0, MOST_WEIGHT)]),
        7 | 8 => (small(random), small(random)),
        9 => {
            let (a, b) = (
                random.between(1, MOST_WEIGHT),
                random.between(1, MOST_WEIGHT),
            );
            ([a, 0], [0, b])
        }
        _ => (any(random), any(random)),
    };
    let mut weights: Vec<Weights> = (0..n)
        .map(|x| if x < first { one } else { other })
        .collect();
    if random.chance(30) {
        random.shuffle(&mut weights);
    }
    if random.chance(15) {
        let x = random.below(n) as usize;
        weights[x] = if random.chance(50) {
            small(random)
        } else {
            any(random)
        };
    }
    weights
}

/// Degrees of components: none, sums of first weights, so that terms of several components have one
/// bidegree, small ones, or any.
fn bigraded_degrees(random: &mut Random, s: u64, weights: &[Weights]) -> Vec<u64> {
    let kind = random.below(8);
    let mut degree = || match kind {
        0..=2 => 0,
        3 | 4 => (0..random.below(4)).map(|_| random.pick(weights)[0]).sum(),
        5 => random.below(4),
        6 => *random.pick(&[0, 1, 254, 255]),
        _ => random.between(0, MOST_DEGREE),
    };
    (0..s).map(|_| degree()).collect()
}

/// A Gröbner basis with an element of two bidegrees; most have the first one in a place that was
/// chosen, 1 to 64.
pub fn bimixed_file(random: &mut Random) -> Vec<u8> {
    loop {
        let mut problem = match random.below(10) {
            0..=3 => {
                let mut problem = bigraded_problem(random);
                let n = problem.parameters.n;
                if random.chance(50) {
                    problem.weights = random_weights(random, n);
                } else {
                    let x = random.below(n) as usize;
                    problem.weights[x][random.below(2) as usize] = random.between(0, MOST_WEIGHT);
                }
                problem
            }
            4..=6 => {
                let problem = bigraded_problem(random);
                with_mixed_elements(random, problem)
            }
            7 => {
                let count = random.between(2, 64);
                let first = random.between(1, count);
                bimultiples_of_one(random, count, first)
            }
            8 => {
                // one degree and two bidegrees
                let mut problem = graded_problem(random);
                problem.weights = random_weights(random, problem.parameters.n);
                problem
            }
            _ => {
                let mut problem = random_basis(random, &Size::tiny());
                problem.weights = random_weights(random, problem.parameters.n);
                problem
            }
        };
        if random.chance(5) {
            problem.weights.fill(PLAIN_WEIGHTS);
        }
        if !is_bigraded(&problem) {
            return file_of(random, &problem);
        }
    }
}

/// A variable, and multiples of it, in all so many elements, 2 to 64; the first one of two
/// bidegrees is in this place.
pub fn bimultiples_of_one(random: &mut Random, count: u64, first: u64) -> Problem {
    let mut problem = multiples_of_one(random, count, first);
    while {
        problem.weights = random_weights(random, problem.parameters.n);
        is_bigraded(&problem)
    } {}
    problem
}

/// A file that is accepted and then stopped by 13 to 15 while levels are lifted, or almost; about
/// a third have an element of two bidegrees besides, so that 25 comes before that.
pub fn bistopped_file(random: &mut Random) -> Vec<u8> {
    let mut problem = match random.chance(40) {
        true => large_product(random),
        false => graded_tails(random),
    };
    // homogeneous elements are bihomogeneous by one pair for all variables
    if problem.degrees.iter().all(|degree| *degree == 0) && random.chance(70) {
        let pair = [0, 1].map(|_| random.between(0, MOST_WEIGHT));
        problem.weights.fill(pair);
    }
    if random.chance(33) {
        problem = with_mixed_elements(random, problem);
    }
    file_of(random, &problem)
}
