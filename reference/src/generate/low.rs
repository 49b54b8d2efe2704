// SPDX-License-Identifier: MIT OR Apache-2.0
//! Files for the Hilbert function (request A13): its lines show degrees 0 to 32, so that generators
//! have degrees up to 32 and a little above. Two in five are inhomogeneous.

use crate::generate::bigraded::bidegree_file;
use crate::generate::files::{edit, limit_file};
use crate::generate::pages::{
    completed, graded_file, mixed_file, page_file, power_product, stopped_file,
};
use crate::generate::problems::{
    element_of, problem_file, random_basis, random_set, Size, LARGE_PRIMES, PRIMES,
};
use crate::generate::weight_lines::{
    damage_weights, spoil_weight_line, weighted_file, with_random_weights,
};
use crate::hilbert::HIGHEST_DEGREE;
use crate::limits::MOST_DEGREE;
use crate::monomial::{Exponents, Level, Monomial, Parameters, Term, UNIT};
use crate::random::Random;
use crate::reader::Problem;

/// Any file for the Hilbert function: mostly one that has lines, else one for each refusal.
pub fn hilbert_file(random: &mut Random) -> Vec<u8> {
    let mut file = match random.below(100) {
        0..=37 => low_file(random),
        38..=49 => graded_file(random),
        50..=57 => mixed_file(random),
        58..=60 => stopped_file(random),
        61..=66 => page_file(random),
        67..=71 => bidegree_file(random),
        72..=75 => weighted_file(random, &Size::small()),
        76..=79 => problem_file(&random_set(random, &Size::small())),
        80..=88 => {
            let mut file = low_file(random);
            for _ in 0..random.between(1, 2) {
                damage_weights(random, &mut file);
            }
            file
        }
        89..=95 => {
            let file = low_file(random);
            edit(random, &file)
        }
        96 | 97 => {
            let mut file = low_file(random);
            spoil_weight_line(random, &mut file);
            file
        }
        _ => limit_file(random),
    };
    if random.chance(20) {
        file = with_random_weights(random, &file);
    }
    file
}

/// A Gröbner basis whose generators have low degrees, with D and G lines or without.
pub fn low_file(random: &mut Random) -> Vec<u8> {
    let file = problem_file(&low_problem(random));
    match random.chance(25) {
        true => with_random_weights(random, &file),
        false => file,
    }
}

/// A random Gröbner basis whose generators mostly have degrees up to 32 or a little above.
pub fn low_problem(random: &mut Random) -> Problem {
    loop {
        let problem = if random.chance(20) {
            let mut problem = random_basis(random, &Size::small());
            problem.degrees = low_degrees(random, problem.parameters.s);
            Some(problem)
        } else {
            Low::new(random).basis()
        };
        if let Some(problem) = problem {
            return problem;
        }
    }
}

/// Makes one basis.
struct Low<'a> {
    random: &'a mut Random,
    parameters: Parameters,
    degrees: Vec<u64>,
}

impl<'a> Low<'a> {
    fn new(random: &'a mut Random) -> Low<'a> {
        let parameters = Parameters {
            p: match random.below(8) {
                0 => *random.pick(&LARGE_PRIMES),
                _ => *random.pick(&PRIMES),
            },
            n: match random.below(5) {
                0 => random.between(5, 8),
                _ => random.between(1, 4),
            },
            order: random.between(1, 3),
            s: match random.below(10) {
                0..=4 => 1,
                5..=8 => random.between(2, 4),
                _ => random.between(2, 16),
            },
        };
        let degrees = low_degrees(random, parameters.s);
        Low {
            random,
            parameters,
            degrees,
        }
    }

    fn basis(mut self) -> Option<Problem> {
        let mut elements = match self.random.below(9) {
            0 | 1 => self.monomials(),
            2 => self.powers(),
            3 => self.about_the_highest(),
            4 => self.high_leads(),
            _ => self.sparse(),
        };
        if self.random.chance(8) {
            // nothing of this component is left
            let component = self.component();
            let unit = self.term(UNIT, component);
            elements.push(vec![unit]);
        }
        let elements = completed(self.random, &self.parameters, elements)?;
        Some(Problem::with_degrees(
            self.parameters,
            self.degrees,
            elements,
        ))
    }

    fn component(&mut self) -> u64 {
        self.random.between(1, self.parameters.s)
    }

    fn term(&mut self, exponents: Exponents, component: u64) -> Term {
        Term {
            coefficient: self.random.between(1, self.parameters.p - 1),
            monomial: Monomial {
                component,
                exponents,
            },
        }
    }

    /// A term of this component whose monomial has this degree.
    fn term_of_degree(&mut self, component: u64, degree: u64) -> Term {
        let exponents = power_product(self.random, self.parameters.n, degree);
        self.term(exponents, component)
    }

    fn monomials(&mut self) -> Level {
        (0..self.random.between(1, 9))
            .map(|_| {
                let (component, degree) = (self.component(), self.random.between(0, 7));
                vec![self.term_of_degree(component, degree)]
            })
            .collect()
    }

    /// Powers of variables, often of all: long lists.
    fn powers(&mut self) -> Level {
        self.parameters.n = self.random.between(2, 8);
        let (all, component) = (self.random.chance(60), self.component());
        let mut elements = Level::new();
        for x in 0..self.parameters.n as usize {
            if all || self.random.chance(70) {
                let mut exponents = UNIT;
                exponents[x] = *self.random.pick(&[1, 1, 2, 3, 5, 9]);
                elements.push(vec![self.term(exponents, component)]);
            }
        }
        elements
    }

    /// Monomials of degrees about 32, that of their component included.
    fn about_the_highest(&mut self) -> Level {
        (0..self.random.between(1, 6))
            .map(|_| {
                let component = self.component();
                let wanted = self.random.between(HIGHEST_DEGREE - 3, HIGHEST_DEGREE + 2);
                let own = self.degrees[component as usize - 1];
                vec![self.term_of_degree(component, wanted.saturating_sub(own))]
            })
            .collect()
    }

    /// A monomial, and terms of lower degrees in any component behind it.
    fn high_leads(&mut self) -> Level {
        (0..self.random.between(1, 3))
            .map(|_| {
                let degree = *self.random.pick(&[3, 6, 12, 20, 31, 32, 33]);
                let component = self.component();
                let mut terms = vec![self.term_of_degree(component, degree)];
                for _ in 0..self.random.below(3) {
                    let (component, degree) = (self.component(), self.random.below(degree));
                    terms.push(self.term_of_degree(component, degree));
                }
                element_of(&self.parameters, &terms)
            })
            .collect()
    }

    /// Few terms of any low degrees in any components.
    fn sparse(&mut self) -> Level {
        (0..self.random.between(1, 4))
            .map(|_| {
                let terms: Vec<Term> = (0..self.random.between(1, 4))
                    .map(|_| {
                        let (component, degree) = (self.component(), self.random.between(0, 4));
                        self.term_of_degree(component, degree)
                    })
                    .collect();
                element_of(&self.parameters, &terms)
            })
            .collect()
    }
}

/// Degrees of components: none, small ones, some about 32, or any.
fn low_degrees(random: &mut Random, s: u64) -> Vec<u64> {
    let kind = random.below(8);
    let mut degree = || match kind {
        0..=2 => 0,
        3 | 4 => random.below(5),
        5 => random.between(0, HIGHEST_DEGREE + 1),
        6 => *random.pick(&[0, 1, 30, 31, 32, 33, 255]),
        _ => random.between(0, MOST_DEGREE),
    };
    (0..s).map(|_| degree()).collect()
}
