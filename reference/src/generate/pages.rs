// SPDX-License-Identifier: MIT OR Apache-2.0
//! Files for the Betti page: homogeneous ones with and without a D line, those with an element of
//! two degrees in any place, and those that are refused while they are lifted.

use crate::completion::{Caps, Completion};
use crate::engine::Basis;
use crate::generate::degree_lines::{with_degrees, with_random_degrees};
use crate::generate::files::{damage, edited_file, large_frame_file, limit_file, plain_file};
use crate::generate::problems::{
    element_of, problem_file, random_basis, random_degrees, random_set, Size, LARGE_PRIMES, PRIMES,
};
use crate::limits::MOST_DEGREE;
use crate::monomial::{
    leading_monomial, multiply, Exponents, Level, Monomial, Parameters, Term, Vector, UNIT,
};
use crate::order::Modules;
use crate::random::Random;
use crate::reader::Problem;
use std::cmp::Ordering;
use std::collections::BTreeSet;

/// Any file for a page: mostly one that has a page, else one for each refusal.
pub fn page_file(random: &mut Random) -> Vec<u8> {
    match random.below(100) {
        0..=45 => graded_file(random),
        46..=60 => mixed_file(random),
        61..=63 => stopped_file(random),
        64..=75 => plain_file(random, &Size::small()),
        76..=81 => problem_file(&random_set(random, &Size::small())),
        82..=91 => {
            let mut file = graded_file(random);
            for _ in 0..random.between(1, 2) {
                damage(random, &mut file);
            }
            file
        }
        92..=97 => edited_file(random),
        _ => limit_file(random),
    }
}

/// A Gröbner basis each of whose elements has terms of one degree.
pub fn graded_file(random: &mut Random) -> Vec<u8> {
    let problem = graded_problem(random);
    let zeros = problem.degrees.iter().all(|degree| *degree == 0);
    if zeros && random.chance(20) {
        // a D line of zeros
        return with_degrees(&problem_file(&problem), &problem.degrees);
    }
    problem_file(&problem)
}

/// Whether each element of the problem has terms of one degree.
pub fn is_graded(problem: &Problem) -> bool {
    let elements = vec![problem.elements.clone()];
    let basis = Basis::new(problem.parameters, problem.degrees.clone(), elements);
    crate::betti::of_two_degrees(&basis).is_none()
}

/// A random Gröbner basis of homogeneous elements; the components' degrees belong to them.
pub fn graded_problem(random: &mut Random) -> Problem {
    loop {
        let problem = if random.chance(15) {
            let mut problem = random_basis(random, &Size::small());
            let any = random.below(MOST_DEGREE + 1);
            if random.chance(70) {
                // degrees that are all the same change nothing
                problem.degrees.fill(any * random.below(2));
            }
            Some(problem)
        } else {
            Graded::new(random).basis()
        };
        if let Some(problem) = problem.filter(is_graded) {
            return problem;
        }
    }
}

/// Makes one homogeneous basis.
struct Graded<'a> {
    random: &'a mut Random,
    parameters: Parameters,
    degrees: Vec<u64>,
}

impl<'a> Graded<'a> {
    fn new(random: &'a mut Random) -> Graded<'a> {
        let parameters = Parameters {
            p: match random.below(8) {
                0 => *random.pick(&LARGE_PRIMES),
                _ => *random.pick(&PRIMES),
            },
            n: match random.below(8) {
                0 => random.between(1, 8),
                _ => random.between(1, 4),
            },
            order: random.between(1, 3),
            s: match random.below(10) {
                0..=3 => 1,
                4..=8 => random.between(2, 4),
                _ => random.between(2, 16),
            },
        };
        let degrees = graded_degrees(random, parameters.s);
        Graded {
            random,
            parameters,
            degrees,
        }
    }

    fn basis(mut self) -> Option<Problem> {
        let mut elements = match self.random.below(8) {
            0 | 1 => self.monomials(),
            2 => self.far_monomials(),
            3 => self.variables(),
            _ => self.sparse(),
        };
        while self.random.chance(15) {
            // degree 0 where the component has degree 0: a negative row
            let component = self.component();
            let unit = self.term(UNIT, component);
            elements.push(vec![unit]);
        }
        let elements = completed(self.random, &self.parameters, elements)?;
        Some(Problem::with_degrees(
            self.parameters,
            self.degrees,
            elements,
        ))
    }

    fn component(&mut self) -> u64 {
        self.random.between(1, self.parameters.s)
    }

    fn term(&mut self, exponents: Exponents, component: u64) -> Term {
        Term {
            coefficient: self.random.between(1, self.parameters.p - 1),
            monomial: Monomial {
                component,
                exponents,
            },
        }
    }

    fn power_product(&mut self, degree: u64) -> Exponents {
        power_product(self.random, self.parameters.n, degree)
    }

    fn monomials(&mut self) -> Level {
        (0..self.random.between(1, 9))
            .map(|_| {
                let degree = self.random.between(0, 4);
                let (exponents, component) = (self.power_product(degree), self.component());
                vec![self.term(exponents, component)]
            })
            .collect()
    }

    /// Monomials of degrees far from each other, so that rows between them are empty.
    fn far_monomials(&mut self) -> Level {
        (0..self.random.between(1, 5))
            .map(|_| {
                let most = *self.random.pick(&[0, 1, 9, 60, 255]);
                let mut exponents = UNIT;
                for exponent in exponents.iter_mut().take(self.parameters.n as usize) {
                    if self.random.chance(60) {
                        *exponent = self.random.between(0, most);
                    }
                    if self.random.chance(10) {
                        *exponent = most;
                    }
                }
                let component = self.component();
                vec![self.term(exponents, component)]
            })
            .collect()
    }

    /// Many variables, often all: long lists.
    fn variables(&mut self) -> Level {
        self.parameters.n = self.random.between(3, 8);
        let all = self.random.chance(50);
        let component = self.component();
        let mut elements = Level::new();
        for x in 0..self.parameters.n as usize {
            if all || self.random.chance(70) {
                let mut exponents = UNIT;
                exponents[x] = 1;
                elements.push(vec![self.term(exponents, component)]);
            }
        }
        if self.random.chance(50) {
            elements.push(vec![self.term(UNIT, component)]);
        }
        elements
    }

    /// Few terms of one degree, in any components whose own degree is not above it.
    fn sparse(&mut self) -> Level {
        let least = self.degrees.iter().min().copied().unwrap_or(0);
        (0..self.random.between(1, 4))
            .map(|_| {
                let wanted = match self.random.below(4) {
                    0 => self.random.pick(&self.degrees).saturating_add(1),
                    _ => least + self.random.between(1, 4),
                };
                let terms: Vec<Term> = (0..self.random.between(1, 4))
                    .filter_map(|_| {
                        let component = self.component();
                        let own = self.degrees[component as usize - 1];
                        let rest = wanted.checked_sub(own).filter(|rest| *rest <= 255)?;
                        let exponents = self.power_product(rest);
                        Some(self.term(exponents, component))
                    })
                    .collect();
                element_of(&self.parameters, &terms)
            })
            .collect()
    }
}

/// A power product in n variables of this degree.
pub(crate) fn power_product(random: &mut Random, n: u64, degree: u64) -> Exponents {
    let mut exponents = UNIT;
    for _ in 0..degree {
        exponents[random.below(n) as usize] += 1;
    }
    exponents
}

/// A Gröbner basis of the elements' module, reduced or not, at times with multiples of elements,
/// in any sequence; `None` if it is too large.
pub(crate) fn completed(
    random: &mut Random,
    parameters: &Parameters,
    elements: Level,
) -> Option<Level> {
    let caps = Caps {
        elements: 24,
        terms: 60,
        exponent: 255,
        products: 10_000,
    };
    let mut completion = Completion::new(parameters, caps);
    let mut elements = completion.complete(elements)?;
    if random.chance(40) {
        elements = completion.reduced(&elements)?;
    }
    while !elements.is_empty() && random.chance(15) {
        // a multiple of another element, or that element again
        let mut extra = random.pick(&elements).clone();
        let degree = random.below(3);
        let factor = power_product(random, parameters.n, degree);
        for term in &mut extra {
            term.monomial.exponents = multiply(&factor, &term.monomial.exponents);
        }
        elements.push(extra);
    }
    match random.below(4) {
        0 => {}
        1 => random.shuffle(&mut elements),
        ascending => {
            let modules = Modules::new(parameters.file_order(), &[]);
            elements.sort_by(|a, b| {
                let order = modules.compare(0, leading_monomial(a), leading_monomial(b));
                if ascending == 2 {
                    order
                } else {
                    order.reverse()
                }
            });
        }
    }
    let mut exponents = elements
        .iter()
        .flatten()
        .flat_map(|term| term.monomial.exponents);
    let fits = !elements.is_empty() && elements.len() <= 64 && exponents.all(|e| e <= 255);
    fits.then_some(elements)
}

/// Degrees of components: none, small ones, or some far from the others.
fn graded_degrees(random: &mut Random, s: u64) -> Vec<u64> {
    let kind = random.below(8);
    let mut degree = || match kind {
        0..=2 => 0,
        3 | 4 => random.below(4),
        5 => *random.pick(&[0, 0, 1, 7, 40]),
        6 => *random.pick(&[0, 1, 254, 255]),
        _ => random.between(0, MOST_DEGREE),
    };
    (0..s).map(|_| degree()).collect()
}

/// A Gröbner basis with an element of two degrees; most have the first one in a place that was
/// chosen, 1 to 64.
pub fn mixed_file(random: &mut Random) -> Vec<u8> {
    match random.below(10) {
        0..=3 => {
            let problem = graded_problem(random);
            problem_file(&with_mixed_elements(random, problem))
        }
        4..=6 => problem_file(&with_combination(random)),
        7 => {
            let count = random.between(2, 64);
            let first = random.between(1, count);
            problem_file(&multiples_of_one(random, count, first))
        }
        8 => {
            // other degrees of the components alone
            let file = problem_file(&graded_problem(random));
            with_random_degrees(random, &file)
        }
        _ => plain_file(random, &Size::tiny()),
    }
}

/// The problem with one more component and, in any places, elements that lead there and have terms
/// of two degrees. It has no frame term more, so that it is accepted if it was, and lifted alike.
pub fn with_mixed_elements(random: &mut Random, mut problem: Problem) -> Problem {
    let parameters = &mut problem.parameters;
    while parameters.s < 16 && problem.elements.len() < 64 {
        parameters.s += 1;
        problem.degrees.push(random_degrees(random, 1)[0]);
        let element = mixed_element(random, parameters, &problem.degrees);
        let place = random.between(0, problem.elements.len() as u64);
        problem.elements.insert(place as usize, element);
        if random.chance(70) {
            break;
        }
    }
    problem
}

/// An element of two degrees that leads with the last component; its further terms may be in any.
fn mixed_element(random: &mut Random, parameters: &Parameters, degrees: &[u64]) -> Vector {
    let order = parameters.file_order();
    loop {
        let terms: Vec<Term> = (0..random.between(2, 4))
            .map(|t| Term {
                coefficient: random.between(1, parameters.p - 1),
                monomial: Monomial {
                    component: match t {
                        0 => parameters.s,
                        _ => random.between(1, parameters.s),
                    },
                    exponents: std::array::from_fn(|x| match (x as u64) < parameters.n {
                        true => random.below(4),
                        false => 0,
                    }),
                },
            })
            .collect();
        let of_term = |term: &Term| {
            let exponents: u64 = term.monomial.exponents.iter().sum();
            exponents + degrees[term.monomial.component as usize - 1]
        };
        let element = element_of(parameters, &terms);
        let wanted = element.iter().map(of_term).collect::<BTreeSet<u64>>().len() > 1
            && element[0].monomial.component == parameters.s
            && element[1..].iter().all(|term| {
                let (front, own) = (&element[0].monomial.exponents, &term.monomial.exponents);
                order.compare(own, front) == Ordering::Less
                    || term.monomial.component < parameters.s
            });
        if wanted {
            return element;
        }
    }
}

/// A homogeneous basis where a multiple of one element is added to another that it stays below:
/// the leading monomials and the module stay, and so does the basis.
fn with_combination(random: &mut Random) -> Problem {
    loop {
        let mut problem = graded_problem(random);
        let parameters = problem.parameters;
        let modules = Modules::new(parameters.file_order(), &[]);
        let count = problem.elements.len() as u64;
        for _ in 0..20 {
            let (i, j) = (random.below(count) as usize, random.below(count) as usize);
            let by = random.between(1, parameters.p - 1);
            let mut factor = UNIT;
            for _ in 0..random.below(4) {
                factor[random.below(parameters.n) as usize] += 1;
            }
            let mut sum = problem.elements[i].clone();
            sum.extend(problem.elements[j].iter().map(|term| Term {
                coefficient: by * term.coefficient % parameters.p,
                monomial: Monomial {
                    component: term.monomial.component,
                    exponents: multiply(&factor, &term.monomial.exponents),
                },
            }));
            let added = &sum[problem.elements[i].len()].monomial;
            let front = leading_monomial(&problem.elements[i]);
            let stays = modules.compare(0, added, front) == Ordering::Less;
            let fits = sum
                .iter()
                .all(|term| term.monomial.exponents.iter().all(|e| *e <= 255));
            if i != j && stays && fits {
                problem.elements[i] = element_of(&parameters, &sum);
                if random.chance(80) && !is_graded(&problem) {
                    break;
                }
            }
        }
        if !is_graded(&problem) {
            return problem;
        }
    }
}

/// A variable, and multiples of it, in all so many elements, 2 to 64. The first one of two degrees
/// is in this place, and some of those after it are of two degrees too.
pub fn multiples_of_one(random: &mut Random, count: u64, first: u64) -> Problem {
    let parameters = Parameters {
        p: *random.pick(&PRIMES),
        n: random.between(1, 8),
        order: random.between(1, 3),
        s: 1,
    };
    let x = random.below(parameters.n) as usize;
    let mut one = random.between(1, count - 1);
    if one >= first {
        one += 1;
    }
    let mut multiple = |number: u64| {
        let power = random.between(2, 9);
        let mut powers = vec![power];
        if number == one {
            powers = vec![1];
        } else if number == first || (number > first && random.chance(20)) {
            powers.push(random.between(1, power - 1));
        }
        let mut term = |power| {
            let mut exponents = UNIT;
            exponents[x] = power;
            Term {
                coefficient: random.between(1, parameters.p - 1),
                monomial: Monomial {
                    component: 1,
                    exponents,
                },
            }
        };
        powers.into_iter().map(&mut term).collect()
    };
    let elements = (1..=count).map(&mut multiple).collect();
    Problem::with_degrees(parameters, random_degrees(random, 1), elements)
}

/// A file that is accepted and then stopped by 13 to 15 while levels are lifted, or almost; about
/// a third have an element of two degrees besides, so that 17 comes before that.
pub fn stopped_file(random: &mut Random) -> Vec<u8> {
    let problem = match random.below(6) {
        0 | 1 => large_product(random),
        2..=4 => graded_tails(random),
        _ => return large_frame_file(random),
    };
    if random.chance(33) {
        return problem_file(&with_mixed_elements(random, problem));
    }
    problem_file(&problem)
}

fn element(parameters: &Parameters, terms: &[(u64, u64, &[u64])]) -> Vector {
    let terms: Vec<Term> = terms
        .iter()
        .map(|(coefficient, component, first)| {
            let mut exponents = UNIT;
            exponents[..first.len()].copy_from_slice(first);
            Term {
                coefficient: *coefficient,
                monomial: Monomial {
                    component: *component,
                    exponents,
                },
            }
        })
        .collect();
    element_of(parameters, &terms)
}

/// In u, v, w, x, z, with h = u + v and a power W of w, or with degrees for it:
///
/// ```text
/// z^a·h·W·e_1,  x·h·W·e_1,  h·W·e_1,  v·W·e_1 + z^b·e_2,  h·e_2
/// ```
///
/// The first two cancel in division before v is looked at. The newest term of z^a·x·h·W·e_1 is the
/// one with v, and its reducer makes z^(a + b): 13 at level 1 where that is above 255.
pub fn large_product(random: &mut Random) -> Problem {
    let b = random.between(251, 255);
    let by_degrees = random.chance(50);
    let parameters = Parameters {
        p: *random.pick(&PRIMES),
        n: 5,
        order: match by_degrees {
            true => 1,
            false => random.between(1, 3),
        },
        s: 2,
    };
    let (w, degrees) = match by_degrees {
        true => (0, vec![b - 1, 0]),
        false => (b - 1, vec![0, 0]),
    };
    let a = random.between(1, 3);
    let h = |z, w, x, component| {
        let terms: [(u64, u64, &[u64]); 2] = [
            (1, component, &[1, 0, w, x, z]),
            (1, component, &[0, 1, w, x, z]),
        ];
        element(&parameters, &terms)
    };
    let mut elements = vec![h(a, w, 0, 1), h(0, w, 1, 1), h(0, w, 0, 1)];
    let last: [(u64, u64, &[u64]); 2] = [(1, 1, &[0, 1, w, 0, 0]), (1, 2, &[0, 0, 0, 0, b])];
    elements.push(element(&parameters, &last));
    elements.push(h(0, 0, 0, 2));
    Problem::with_degrees(parameters, degrees, elements)
}

/// Powers of 3 to 5 variables in component 1 with tails in component 2, which has the variables
/// themselves: a vector of level k has k + 1 tails and k + 1 terms more, and no tail is multiplied
/// by another. So 14 comes at level 2 or above, or 15 by terms.
pub fn graded_tails(random: &mut Random) -> Problem {
    let leads = random.between(3, 5) as usize;
    let tail = match leads {
        3 => random.between(165, 175),
        4 => *random.pick(&[126, 127, 128, 168, 169, 170, 171]),
        _ => random.between(98, 104),
    };
    let by_degrees = random.chance(50);
    let parameters = Parameters {
        p: *random.pick(&PRIMES),
        n: leads as u64 + 3,
        order: match by_degrees {
            true => 1,
            false => random.between(1, 3),
        },
        s: 2,
    };
    let degree = random.between(tail - 1, 255);
    let (power, degrees) = match by_degrees {
        true => (1, vec![degree - 1, 0]),
        false => (degree, vec![0, 0]),
    };
    let term = |component, exponents| Term {
        coefficient: 1,
        monomial: Monomial {
            component,
            exponents,
        },
    };
    let mut elements = Level::new();
    for x in 0..leads {
        let mut exponents = UNIT;
        exponents[x] = power;
        let mut terms = vec![term(1, exponents)];
        let mut monomials: BTreeSet<Exponents> = BTreeSet::new();
        while (monomials.len() as u64) < tail {
            let mut exponents = UNIT;
            let first = random.below(degree + 1);
            let second = match random.chance(30) {
                true => 0,
                false => random.below(degree + 1 - first),
            };
            exponents[leads] = first;
            exponents[leads + 1] = second;
            exponents[leads + 2] = degree - first - second;
            monomials.insert(exponents);
        }
        terms.extend(monomials.into_iter().map(|exponents| term(2, exponents)));
        elements.push(element_of(&parameters, &terms));
    }
    for x in 0..leads {
        let mut exponents = UNIT;
        exponents[x] = power;
        elements.push(vec![term(2, exponents)]);
    }
    Problem::with_degrees(parameters, degrees, elements)
}
