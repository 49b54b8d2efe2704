// SPDX-License-Identifier: MIT OR Apache-2.0
//! Random Gröbner bases of many families, and random sets that mostly are none.

use crate::completion::{Caps, Completion};
use crate::field::Field;
use crate::frame::frame;
use crate::lifting::Sum;
use crate::limits::MOST_DEGREE;
use crate::monomial::{
    leading_monomial, multiply, Exponents, Level, Monomial, Parameters, Term, Vector, Weights,
    PLAIN_WEIGHTS, UNIT,
};
use crate::order::Modules;
use crate::random::Random;
use crate::reader::Problem;
use std::cmp::Ordering;

/// The primes that problems use.
pub const PRIMES: [u64; 9] = [2, 3, 5, 7, 11, 101, 251, 32_003, 32_749];
/// Primes that request A4 lets in.
pub const LARGE_PRIMES: [u64; 3] = [65_521, 65_519, 32_771];

/// How large problems may be.
#[derive(Clone, Copy, Debug)]
pub struct Size {
    /// variables, at most
    pub variables: u64,
    /// components, at most
    pub components: u64,
    /// elements before completion
    pub generators: u64,
    /// elements after completion
    pub elements: u64,
    /// T lines
    pub t_lines: u64,
    /// degree of a generator's terms
    pub degree: u64,
    /// terms of a generator
    pub terms: u64,
    /// the primes to choose from
    pub primes: &'static [u64],
}

impl Size {
    /// Over the primes that request A4 lets in.
    pub fn over_large_primes(self) -> Size {
        Size {
            primes: &LARGE_PRIMES,
            ..self
        }
    }

    /// For files of at most 12 T lines.
    pub fn tiny() -> Size {
        Size {
            variables: 5,
            components: 3,
            generators: 3,
            elements: 8,
            t_lines: 12,
            degree: 3,
            terms: 3,
            primes: &PRIMES,
        }
    }

    /// For files of at most 23 T lines.
    pub fn small() -> Size {
        Size {
            variables: 4,
            components: 3,
            generators: 4,
            elements: 10,
            t_lines: 23,
            degree: 3,
            terms: 4,
            primes: &PRIMES,
        }
    }

    /// For files of some hundred T lines.
    pub fn medium() -> Size {
        Size {
            variables: 8,
            components: 4,
            generators: 5,
            elements: 30,
            t_lines: 300,
            degree: 4,
            terms: 6,
            primes: &PRIMES,
        }
    }
}

/// A random Gröbner basis; most have a frame.
pub fn random_basis(random: &mut Random, size: &Size) -> Problem {
    loop {
        let wanted = random.chance(85);
        let maker = Maker::new(random, size);
        let Some(problem) = maker.basis() else {
            continue;
        };
        let order = problem.parameters.file_order();
        if !wanted || !frame(&problem.elements, order).is_empty() {
            return problem;
        }
    }
}

/// Random elements that mostly are no Gröbner basis.
pub fn random_set(random: &mut Random, size: &Size) -> Problem {
    loop {
        let mut maker = Maker::new(random, size);
        maker.parameters.n = maker.parameters.n.max(2);
        let generators = match maker.random.below(5) {
            0 => maker.family(),
            1 => maker.linear_products(),
            2 => maker.binomials(),
            _ => maker.sparse(),
        };
        if let Some(problem) = maker.decorated(generators) {
            return problem;
        }
    }
}

/// Degrees for s components: half of the time all are 0, else small ones, or any and those at the
/// limit.
pub fn random_degrees(random: &mut Random, s: u64) -> Vec<u64> {
    let kind = random.below(6);
    let mut degree = || match kind {
        0..=2 => 0,
        3 | 4 => random.below(4),
        _ if random.chance(25) => MOST_DEGREE,
        _ => random.between(0, MOST_DEGREE),
    };
    (0..s).map(|_| degree()).collect()
}

/// `D,d1,..,ds`, without byte 10.
pub fn degree_line(degrees: &[u64]) -> String {
    let numbers = degrees.iter().map(|degree| format!(",{degree}"));
    format!("D{}", numbers.collect::<String>())
}

/// `G,a1,b1,..,an,bn`, without byte 10.
pub fn weight_line(weights: &[Weights]) -> String {
    let numbers = weights.iter().map(|[a, b]| format!(",{a},{b}"));
    format!("G{}", numbers.collect::<String>())
}

/// The bytes of a problem's file. It has a D line where some component's degree is not 0, and a G
/// line where some variable's weights are not 1 and 0.
pub fn problem_file(problem: &Problem) -> Vec<u8> {
    let Parameters { p, n, order, s } = problem.parameters;
    let mut file = format!("R,{p},{n},{order},{s}\n");
    if problem.degrees.iter().any(|degree| *degree != 0) {
        file.push_str(&format!("{}\n", degree_line(&problem.degrees)));
    }
    if problem.weights.iter().any(|own| *own != PLAIN_WEIGHTS) {
        file.push_str(&format!("{}\n", weight_line(&problem.weights)));
    }
    let mut lines = 0;
    for (number, element) in (1..).zip(&problem.elements) {
        for term in element {
            file.push_str(&format!(
                "T,{number},{},{}",
                term.coefficient, term.monomial.component
            ));
            for exponent in &term.monomial.exponents[..n as usize] {
                file.push_str(&format!(",{exponent}"));
            }
            file.push('\n');
            lines += 1;
        }
    }
    file.push_str(&format!("E,{lines}\n"));
    file.into_bytes()
}

/// An element from terms in any sequence; equal monomials are combined. It may be empty.
pub fn element_of(parameters: &Parameters, terms: &[Term]) -> Vector {
    let caps = Caps {
        elements: usize::MAX,
        terms: usize::MAX,
        exponent: u64::MAX,
        products: u64::MAX,
    };
    let mut sum = Sum::new();
    Completion::new(parameters, caps)
        .add_multiple(&mut sum, 1, &UNIT, terms)
        .expect("there is no cap");
    Completion::element(&sum)
}

/// Makes one problem.
struct Maker<'a> {
    random: &'a mut Random,
    size: Size,
    parameters: Parameters,
    field: Field,
}

impl<'a> Maker<'a> {
    fn new(random: &'a mut Random, size: &Size) -> Maker<'a> {
        let p = *random.pick(size.primes);
        let s = if random.chance(65) {
            1
        } else {
            random.between(1, size.components)
        };
        let parameters = Parameters {
            p,
            n: random.between(1, size.variables),
            order: random.between(1, 3),
            s,
        };
        Maker {
            random,
            size: *size,
            parameters,
            field: Field::new(p),
        }
    }

    fn basis(mut self) -> Option<Problem> {
        let generators = self.family();
        let caps = Caps {
            elements: self.size.elements as usize,
            terms: self.size.t_lines as usize,
            exponent: 100,
            products: 20_000,
        };
        let mut completion = Completion::new(&self.parameters, caps);
        let mut elements = completion.complete(generators)?;
        if self.random.chance(50) {
            elements = completion.reduced(&elements)?;
        }
        self.decorated(elements)
    }

    /// Redundant elements, other coefficients, another sequence; `None` if it is too large.
    fn decorated(mut self, mut elements: Level) -> Option<Problem> {
        elements.retain(|element| !element.is_empty());
        if elements.is_empty() {
            return None;
        }
        while self.random.chance(20) {
            let extra = self.redundant(&elements);
            if !extra.is_empty() {
                elements.push(extra);
            }
        }
        if self.random.chance(60) {
            for element in &mut elements {
                let by = self.coefficient();
                for term in element {
                    term.coefficient = self.field.multiply(by, term.coefficient);
                }
            }
        }
        match self.random.below(4) {
            0 => {}
            1 => self.random.shuffle(&mut elements),
            ascending => {
                let modules = Modules::new(self.parameters.file_order(), &[]);
                elements.sort_by(|a, b| {
                    let order = modules.compare(0, leading_monomial(a), leading_monomial(b));
                    if ascending == 2 {
                        order
                    } else {
                        order.reverse()
                    }
                });
            }
        }
        let t_lines: usize = elements.iter().map(Vec::len).sum();
        let fits = elements.len() as u64 <= self.size.elements.min(64)
            && t_lines as u64 <= self.size.t_lines
            && elements
                .iter()
                .flatten()
                .all(|term| term.monomial.exponents.iter().all(|e| *e <= 255));
        let degrees = random_degrees(self.random, self.parameters.s);
        fits.then_some(Problem::with_degrees(self.parameters, degrees, elements))
    }

    /// A combination of the elements.
    fn redundant(&mut self, elements: &[Vector]) -> Vector {
        let mut terms = Vec::new();
        for _ in 0..self.random.between(1, 2) {
            let element = self.random.pick(elements).clone();
            let by = self.coefficient();
            let factor = if self.random.chance(30) {
                UNIT
            } else {
                self.power_product(2)
            };
            terms.extend(element.iter().map(|term| Term {
                coefficient: self.field.multiply(by, term.coefficient),
                monomial: Monomial {
                    component: term.monomial.component,
                    exponents: multiply(&factor, &term.monomial.exponents),
                },
            }));
        }
        element_of(&self.parameters, &terms)
    }

    /// Generators of a random family.
    fn family(&mut self) -> Level {
        match self.random.below(9) {
            0 => self.monomials(),
            1 => self.linear_products(),
            2 => self.binomials(),
            3 => self.minors(),
            4 => self.triangular(),
            5 => self.tails(),
            6 => self.powers(),
            _ => self.sparse(),
        }
    }

    fn coefficient(&mut self) -> u64 {
        match self.random.below(3) {
            0 => 1,
            1 => self.parameters.p - 1,
            _ => self.random.between(1, self.parameters.p - 1),
        }
    }

    fn component(&mut self) -> u64 {
        self.random.between(1, self.parameters.s)
    }

    fn variable(&self, x: u64) -> Exponents {
        let mut exponents = UNIT;
        exponents[x as usize] = 1;
        exponents
    }

    /// A power product of degree 0 to `degree`.
    fn power_product(&mut self, degree: u64) -> Exponents {
        let degree = self.random.between(0, degree);
        self.power_product_of_degree(degree)
    }

    fn power_product_of_degree(&mut self, degree: u64) -> Exponents {
        let mut exponents = UNIT;
        for _ in 0..degree {
            exponents[self.random.below(self.parameters.n) as usize] += 1;
        }
        exponents
    }

    fn term(&mut self, exponents: Exponents, component: u64) -> Term {
        Term {
            coefficient: self.coefficient(),
            monomial: Monomial {
                component,
                exponents,
            },
        }
    }

    fn element(&self, terms: &[Term]) -> Vector {
        element_of(&self.parameters, terms)
    }

    /// The product of an element by a polynomial.
    fn product(&self, element: &[Term], polynomial: &[Term]) -> Vector {
        let mut terms = Vec::new();
        for a in element {
            for b in polynomial {
                terms.push(Term {
                    coefficient: self.field.multiply(a.coefficient, b.coefficient),
                    monomial: Monomial {
                        component: a.monomial.component,
                        exponents: multiply(&a.monomial.exponents, &b.monomial.exponents),
                    },
                });
            }
        }
        self.element(&terms)
    }

    fn monomials(&mut self) -> Level {
        let count = self.random.between(1, self.size.elements);
        (0..count)
            .map(|_| {
                let exponents = self.power_product(self.size.degree + 1);
                let component = self.component();
                vec![self.term(exponents, component)]
            })
            .collect()
    }

    /// Products of few linear forms.
    fn linear_products(&mut self) -> Level {
        let forms: Vec<Vector> = (0..self.random.between(2, 4))
            .map(|_| self.linear_form())
            .collect();
        let count = self.random.between(1, self.size.generators + 1);
        (0..count)
            .map(|_| {
                let component = self.component();
                let mut product = vec![self.term(UNIT, component)];
                for _ in 0..self.random.between(1, 3) {
                    let form = self.random.pick(&forms).clone();
                    product = self.product(&product, &form);
                }
                product
            })
            .collect()
    }

    fn linear_form(&mut self) -> Vector {
        let mut terms = Vec::new();
        for x in 0..self.parameters.n {
            if self.random.chance(60) {
                terms.push(self.term(self.variable(x), 1));
            }
        }
        if terms.is_empty() || self.random.chance(15) {
            terms.push(self.term(UNIT, 1));
        }
        self.element(&terms)
    }

    /// Differences of two monomials, often of one degree.
    fn binomials(&mut self) -> Level {
        let count = self.random.between(1, self.size.generators);
        let one_degree = self.random.chance(60);
        (0..count)
            .map(|_| {
                let degree = self.random.between(1, self.size.degree);
                let other = if one_degree {
                    degree
                } else {
                    self.random.between(0, self.size.degree)
                };
                let first = self.power_product_of_degree(degree);
                let second = self.power_product_of_degree(other);
                let (a, b) = (self.component(), self.component());
                let mut terms = [self.term(first, a), self.term(second, b)];
                terms[1].coefficient = self.field.negate(terms[0].coefficient);
                self.element(&terms)
            })
            .collect()
    }

    /// The minors of size two of a matrix of variables: a generic one, or one with equal entries
    /// along its counter-diagonals.
    fn minors(&mut self) -> Level {
        let n = self.parameters.n;
        if n < 3 {
            return self.binomials();
        }
        let (columns, second_row) = if n >= 4 && self.random.chance(50) {
            (n / 2, n / 2)
        } else {
            (n - 1, 1)
        };
        let component = self.component();
        let mut minors = Level::new();
        for j in 0..columns {
            for i in 0..j {
                let one = multiply(&self.variable(i), &self.variable(second_row + j));
                let other = multiply(&self.variable(j), &self.variable(second_row + i));
                let mut terms = [self.term(one, component), self.term(other, component)];
                terms[1].coefficient = self.field.negate(terms[0].coefficient);
                minors.push(self.element(&terms));
            }
        }
        minors
    }

    /// Elements that lead with powers of different variables: a Gröbner basis as it stands. Their
    /// exponents are large at times.
    fn triangular(&mut self) -> Level {
        let large = self.random.chance(25);
        let component = self.component();
        let mut elements = Level::new();
        for x in 0..self.parameters.n {
            if self.random.chance(25) {
                continue;
            }
            let power = self.random.between(1, self.size.degree);
            let mut leading = UNIT;
            leading[x as usize] = power;
            let mut terms = vec![self.term(leading, component)];
            for _ in 0..self.random.below(self.size.terms) {
                let mut exponents = self.power_product(self.size.degree);
                if large {
                    let y = self.random.below(self.parameters.n) as usize;
                    exponents[y] += *self.random.pick(&[20, 84, 85, 126, 127, 128, 250, 251]);
                }
                let order = self.parameters.file_order();
                if order.compare(&exponents, &leading) == Ordering::Less {
                    terms.push(self.term(exponents, component));
                }
            }
            elements.push(self.element(&terms));
        }
        elements
    }

    /// Variables with tails in the later variables.
    fn tails(&mut self) -> Level {
        let n = self.parameters.n;
        let leads = self.random.between(1, n);
        let mut elements = Level::new();
        for x in 0..leads {
            let component = self.component();
            let mut terms = vec![self.term(self.variable(x), component)];
            for _ in 0..self.random.below(self.size.terms + 1) {
                let mut exponents = self.power_product(self.size.degree);
                for earlier in exponents.iter_mut().take(leads as usize) {
                    *earlier = 0;
                }
                terms.push(self.term(exponents, component));
            }
            elements.push(self.element(&terms));
        }
        elements
    }

    /// Some elements together with a power of each variable.
    fn powers(&mut self) -> Level {
        let mut elements = self.sparse();
        elements.truncate(2);
        let power = self.random.between(1, self.size.degree);
        for component in 1..=self.parameters.s {
            for x in 0..self.parameters.n {
                let mut exponents = UNIT;
                exponents[x as usize] = power;
                elements.push(vec![self.term(exponents, component)]);
            }
        }
        elements
    }

    /// Elements of few terms, often homogeneous.
    fn sparse(&mut self) -> Level {
        let count = self.random.between(1, self.size.generators);
        let homogeneous = self.random.chance(50);
        (0..count)
            .map(|_| {
                let degree = self.random.between(1, self.size.degree);
                let terms: Vec<Term> = (0..self.random.between(1, self.size.terms))
                    .map(|_| {
                        let exponents = if homogeneous {
                            self.power_product_of_degree(degree)
                        } else {
                            self.power_product(degree)
                        };
                        let component = self.component();
                        self.term(exponents, component)
                    })
                    .collect();
                self.element(&terms)
            })
            .collect()
    }
}
