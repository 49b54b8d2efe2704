// SPDX-License-Identifier: MIT OR Apache-2.0
//! Files for minimal Betti numbers (request A7): homogeneous bases in whose vectors constants occur
//! often, in several columns and degrees, and mostly modulo 2 or 3, where ranks drop.

use crate::generate::bigraded::bidegree_file;
use crate::generate::files::{edit, limit_file};
use crate::generate::low::low_file;
use crate::generate::pages::{
    completed, graded_file, graded_problem, is_graded, mixed_file, page_file, power_product,
    stopped_file,
};
use crate::generate::problems::{element_of, problem_file, random_set, Size, LARGE_PRIMES, PRIMES};
use crate::generate::weight_lines::{
    damage_weights, spoil_weight_line, weighted_file, with_random_weights,
};
use crate::limits::MOST_DEGREE;
use crate::monomial::{
    leading_monomial, multiply, Exponents, Level, Monomial, Parameters, Term, Vector, UNIT,
};
use crate::random::Random;
use crate::reader::Problem;
use std::collections::BTreeSet;

/// Any file for minimal Betti numbers: mostly one that has a page, else one for each refusal.
pub fn minimal_file(random: &mut Random) -> Vec<u8> {
    let mut file = match random.below(100) {
        0..=49 => redundant_file(random),
        50..=58 => graded_file(random),
        59..=63 => mixed_file(random),
        64..=66 => stopped_file(random),
        67..=71 => page_file(random),
        72 | 73 => low_file(random),
        74 | 75 => bidegree_file(random),
        76 | 77 => weighted_file(random, &Size::small()),
        78..=80 => problem_file(&random_set(random, &Size::small())),
        81..=88 => {
            let mut file = redundant_file(random);
            for _ in 0..random.between(1, 2) {
                damage_weights(random, &mut file);
            }
            file
        }
        89..=95 => {
            let file = redundant_file(random);
            edit(random, &file)
        }
        96 | 97 => {
            let mut file = redundant_file(random);
            spoil_weight_line(random, &mut file);
            file
        }
        _ => limit_file(random),
    };
    if random.chance(15) {
        file = with_random_weights(random, &file);
    }
    file
}

/// A homogeneous Gröbner basis from whose resolution much can be left out.
pub fn redundant_file(random: &mut Random) -> Vec<u8> {
    problem_file(&redundant_problem(random))
}

/// A random homogeneous Gröbner basis from whose resolution much can be left out.
pub fn redundant_problem(random: &mut Random) -> Problem {
    loop {
        let problem = match random.chance(10) {
            true => {
                let problem = graded_problem(random);
                Some(with_more(random, problem))
            }
            false => Redundant::new(random).basis(),
        };
        if let Some(problem) = problem.filter(is_graded) {
            return problem;
        }
    }
}

/// The problem with one to three elements more, each made of the others of its degree: it stays a
/// basis of the same module, and homogeneous if it was.
pub fn with_more(random: &mut Random, mut problem: Problem) -> Problem {
    for _ in 0..random.between(1, 3) {
        let more = combination(random, &problem);
        let fits = |term: &Term| term.monomial.exponents.iter().all(|e| *e <= 255);
        if problem.elements.len() < 64 && !more.is_empty() && more.iter().all(fits) {
            // in front of what it is made of constants stand in tails, behind it they lead
            let place = match random.below(3) {
                0 => 0,
                1 => problem.elements.len(),
                _ => random.below(problem.elements.len() as u64 + 1) as usize,
            };
            problem.elements.insert(place, more);
        }
    }
    problem
}

/// An element again, times a constant or a variable, and others of the same degree added to it. It
/// may be empty.
fn combination(random: &mut Random, problem: &Problem) -> Vector {
    let parameters = &problem.parameters;
    let degree = |element: &Vector| {
        let lead = leading_monomial(element);
        let own = problem.degrees[lead.component as usize - 1];
        own + lead.exponents.iter().sum::<u64>()
    };
    let first = random.pick(&problem.elements).clone();
    let wanted = degree(&first) + *random.pick(&[0, 0, 0, 1, 1, 2]);
    let others = problem.elements.iter().filter(|f| degree(f) <= wanted);
    let mut made: Vec<&Vector> = others.filter(|_| random.chance(25)).collect();
    made.truncate(2);
    made.push(&first);
    let mut terms = Vec::new();
    for element in made {
        let by = random.between(1, parameters.p - 1);
        let factor = match wanted - degree(element) {
            far if far > 12 => continue,
            left => power_product(random, parameters.n, left),
        };
        terms.extend(element.iter().map(|term| Term {
            coefficient: by * term.coefficient % parameters.p,
            monomial: Monomial {
                component: term.monomial.component,
                exponents: multiply(&factor, &term.monomial.exponents),
            },
        }));
    }
    element_of(parameters, &terms)
}

/// Makes one basis.
struct Redundant<'a> {
    random: &'a mut Random,
    parameters: Parameters,
    degrees: Vec<u64>,
}

impl<'a> Redundant<'a> {
    fn new(random: &'a mut Random) -> Redundant<'a> {
        let parameters = Parameters {
            p: match random.below(10) {
                0..=2 => 2,
                3..=5 => 3,
                6 => *random.pick(&LARGE_PRIMES),
                _ => *random.pick(&PRIMES),
            },
            n: match random.below(6) {
                0 => random.between(1, 8),
                _ => random.between(2, 4),
            },
            order: random.between(1, 3),
            s: 1,
        };
        let degrees = vec![0];
        Redundant {
            random,
            parameters,
            degrees,
        }
    }

    fn basis(mut self) -> Option<Problem> {
        let (elements, is_basis) = match self.random.below(16) {
            0 | 1 => (self.linear_forms(), false),
            2 => (self.monomials(), false),
            3 | 4 => (self.monomials(), true),
            5 | 6 => (self.squarefree(), true),
            7..=9 => (self.variables(), true),
            10 => (self.constants(), false),
            11..=13 => (self.matrix(), false),
            _ => (self.forms(), false),
        };
        let elements = match is_basis {
            // monomials, in any sequence
            true => elements,
            false => completed(self.random, &self.parameters, elements)?,
        };
        if elements.is_empty() {
            return None;
        }
        let problem = Problem::with_degrees(self.parameters, self.degrees, elements);
        Some(match self.random.chance(70) {
            true => with_more(self.random, problem),
            false => problem,
        })
    }

    /// So many components: of degree 0, of degrees that meet those of multiples of others, or far.
    fn components(&mut self, s: u64) {
        self.parameters.s = s;
        let kind = self.random.below(6);
        let least = match self.random.below(4) {
            0 => self.random.between(0, MOST_DEGREE - 3),
            _ => 0,
        };
        let mut degree = || match kind {
            0 => least,
            1..=4 => least + self.random.below(3),
            _ => *self.random.pick(&[0, 0, 1, 2, 200]),
        };
        self.degrees = (0..s).map(|_| degree()).collect();
    }

    fn few_components(&mut self) {
        let s = match self.random.below(3) {
            0 => self.random.between(2, 3),
            _ => 1,
        };
        self.components(s);
    }

    fn component(&mut self) -> u64 {
        self.random.between(1, self.parameters.s)
    }

    fn term(&mut self, exponents: Exponents, component: u64) -> Term {
        Term {
            coefficient: self.random.between(1, self.parameters.p - 1),
            monomial: Monomial {
                component,
                exponents,
            },
        }
    }

    /// A term of this degree, its component's included, if the component allows it.
    fn term_of_degree(&mut self, degree: u64, component: u64) -> Option<Term> {
        let left = degree.checked_sub(self.degrees[component as usize - 1])?;
        let exponents =
            (left <= 12).then(|| power_product(self.random, self.parameters.n, left))?;
        Some(self.term(exponents, component))
    }

    /// More linear forms than there are variables: each that depends on others is left out.
    fn linear_forms(&mut self) -> Level {
        let component = self.component();
        let count = self.random.between(2, self.parameters.n + 2);
        (0..count)
            .map(|_| {
                let most = self.random.between(1, 2);
                let terms: Vec<Term> = (0..most)
                    .filter_map(|_| self.term_of_degree(1, component))
                    .collect();
                element_of(&self.parameters, &terms)
            })
            .collect()
    }

    /// Monomials of few degrees, multiples of each other among them.
    fn monomials(&mut self) -> Level {
        self.few_components();
        let least = self.degrees.iter().min().copied().unwrap_or(0);
        (0..self.random.between(2, 9))
            .filter_map(|_| {
                let component = self.component();
                let degree = least + self.random.between(1, 3);
                Some(vec![self.term_of_degree(degree, component)?])
            })
            .collect()
    }

    /// Variables, and monomials that they divide, in any sequence: of what stands in front of its
    /// divisors constants come in many columns.
    fn variables(&mut self) -> Level {
        self.parameters.n = self.random.between(2, 6);
        let component = self.component();
        let mut elements = Level::new();
        for x in 0..self.parameters.n as usize {
            let mut exponents = UNIT;
            exponents[x] = 1;
            elements.push(vec![self.term(exponents, component)]);
        }
        for _ in 0..self.random.between(1, 4) {
            let degree = *self.random.pick(&[2, 2, 2, 3]);
            let exponents = power_product(self.random, self.parameters.n, degree);
            elements.push(vec![self.term(exponents, component)]);
        }
        self.random.shuffle(&mut elements);
        elements
    }

    /// Products of two or three different variables, as a simplicial complex has them.
    fn squarefree(&mut self) -> Level {
        self.parameters.n = self.random.between(3, 6);
        let component = self.component();
        let mut products = BTreeSet::new();
        for _ in 0..self.random.between(3, 8) {
            let mut exponents = UNIT;
            for _ in 0..self.random.between(2, 3) {
                exponents[self.random.below(self.parameters.n) as usize] = 1;
            }
            products.insert(exponents);
        }
        let mut products: Vec<Exponents> = products.into_iter().collect();
        self.random.shuffle(&mut products);
        products
            .into_iter()
            .map(|exponents| vec![self.term(exponents, component)])
            .collect()
    }

    /// Constants times components of one degree, more of them than are independent.
    fn constants(&mut self) -> Level {
        let s = self.random.between(2, 6);
        self.components(s);
        let own = *self.random.pick(&self.degrees);
        self.rows(1, 7, |_| own)
    }

    /// The rows of a matrix over several components: constants stand where a row has the degree of
    /// a component.
    fn matrix(&mut self) -> Level {
        let s = match self.random.below(12) {
            0 => self.random.between(2, 16),
            _ => self.random.between(2, 4),
        };
        self.components(s);
        let degrees = self.degrees.clone();
        self.rows(2, 5, |random| random.pick(&degrees) + random.below(2))
    }

    /// Forms of few terms and of degrees 1 to 3.
    fn forms(&mut self) -> Level {
        self.few_components();
        let degrees = self.degrees.clone();
        self.rows(1, 4, |random| random.pick(&degrees) + random.between(1, 3))
    }

    /// So many elements, each with terms of one degree in some of the components.
    fn rows(&mut self, least: u64, most: u64, degree: impl Fn(&mut Random) -> u64) -> Level {
        (0..self.random.between(least, most))
            .map(|_| {
                let wanted = degree(self.random);
                let terms: Vec<Term> = (0..self.random.between(1, 4))
                    .filter_map(|_| {
                        let component = self.component();
                        self.term_of_degree(wanted, component)
                    })
                    .collect();
                element_of(&self.parameters, &terms)
            })
            .collect()
    }
}
