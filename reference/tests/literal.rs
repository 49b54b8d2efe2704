// SPDX-License-Identifier: MIT OR Apache-2.0
//! The three ways once more, as literally as possible: terms in plain lists, recursion, counts
//! taken anew each time. They have to agree with the library call for call, refusals included.

use crate::common::*;
use reference::engine::{Basis, State};
use reference::field::Field;
use reference::generate::problems::{problem_file, random_basis, Size};
use reference::lifting::{lift_level, Stop, Way};
use reference::monomial::{divides, multiply, Exponents, Level, Monomial, Term, Vector};
use reference::order::{Modules, Order};
use reference::random::Random;
use reference::Limits;
use std::cmp::Ordering;

struct Literal<'a> {
    limits: Limits,
    field: Field,
    modules: Modules<'a>,
    k: usize,
    elements: &'a Level,
    cache: Vec<(Monomial, Vector)>,
    cache_length: usize,
    /// the terms of each unfinished subtree, and of finished ones that count
    area: Vec<usize>,
    /// more products than this and the case is left out
    left: u64,
}

const OUT_OF_PRODUCTS: u64 = 99;

impl Literal<'_> {
    fn reducer(&self, monomial: &Monomial) -> Option<(u64, Exponents)> {
        for (i, element) in self.elements.iter().enumerate() {
            let leading = &element[0].monomial;
            if leading.component == monomial.component
                && divides(&leading.exponents, &monomial.exponents)
            {
                let mut quotient = monomial.exponents;
                for (x, e) in leading.exponents.iter().enumerate() {
                    quotient[x] -= e;
                }
                return Some((i as u64 + 1, quotient));
            }
        }
        None
    }

    fn product(&mut self, c: u64, factor: &Exponents, term: &Term) -> Result<Term, u64> {
        if self.left == 0 {
            return Err(OUT_OF_PRODUCTS);
        }
        self.left -= 1;
        let exponents = multiply(factor, &term.monomial.exponents);
        if exponents.iter().any(|e| *e > self.limits.exponent) {
            return Err(13);
        }
        Ok(Term {
            coefficient: self.field.multiply(c, term.coefficient),
            monomial: Monomial {
                component: term.monomial.component,
                exponents,
            },
        })
    }

    /// Adds to a list: in place, or last; 14 past the limit.
    fn add_last(&self, list: &mut Vector, term: Term, limit: u64) -> Result<(), u64> {
        if let Some(at) = list.iter().position(|t| t.monomial == term.monomial) {
            let sum = self.field.add(list[at].coefficient, term.coefficient);
            if sum == 0 {
                list.remove(at);
            } else {
                list[at].coefficient = sum;
            }
        } else if list.len() as u64 == limit {
            return Err(14);
        } else {
            list.push(term);
        }
        Ok(())
    }

    fn sort(&self, list: &mut Vector) {
        list.sort_by(|a, b| self.modules.compare(self.k, &b.monomial, &a.monomial));
    }

    fn greatest(&self, working: &Vector) -> usize {
        let mut best = 0;
        for (at, term) in working.iter().enumerate() {
            let (a, b) = (&term.monomial, &working[best].monomial);
            if self.modules.compare(self.k - 1, a, b) == Ordering::Greater {
                best = at;
            }
        }
        best
    }

    /// Division (pick 0) and hybrid (pick 1 to 3).
    fn run(&mut self, frame_term: &Monomial, pick: u64) -> Result<Vector, u64> {
        let mut vector = Vector::new();
        let start = Term {
            coefficient: 1,
            monomial: *frame_term,
        };
        self.add_last(&mut vector, start, self.limits.vector)?;
        let mut working = Vector::new();
        let mut step = Some((1, frame_term.component, frame_term.exponents));
        loop {
            if let Some((c, j, q)) = step {
                let elements = self.elements;
                for term in &elements[j as usize - 1] {
                    let product = self.product(c, &q, term)?;
                    if pick == 0 || self.reducer(&product.monomial).is_some() {
                        self.add_last(&mut working, product, self.limits.working)?;
                    }
                }
            }
            if working.is_empty() {
                self.sort(&mut vector);
                return Ok(vector);
            }
            let at = match pick {
                0 | 1 => self.greatest(&working),
                2 => working.len() - 1,
                _ => 0,
            };
            let picked = working[at];
            step = match self.reducer(&picked.monomial) {
                None => {
                    working.remove(at);
                    None
                }
                Some((j, q)) => {
                    let leading = self.elements[j as usize - 1][0].coefficient;
                    let c = self.field.divide(picked.coefficient, leading);
                    let c = self.field.negate(c);
                    let record = Term {
                        coefficient: c,
                        monomial: Monomial {
                            component: j,
                            exponents: q,
                        },
                    };
                    self.add_last(&mut vector, record, self.limits.vector)?;
                    Some((c, j, q))
                }
            };
        }
    }

    fn area_used(&self) -> usize {
        self.area.iter().sum()
    }

    /// The lifting of a monomial with coefficient 1, and whether it stands in the cache. If not,
    /// its terms still count as the last entry of the area.
    fn subtree(&mut self, monomial: &Monomial) -> Result<(Vector, bool), u64> {
        if let Some((_, part)) = self.cache.iter().find(|(own, _)| own == monomial) {
            return Ok((part.clone(), true));
        }
        let (j, q) = self.reducer(monomial).expect("not of lower order");
        let element = &self.elements[j as usize - 1];
        let c = self
            .field
            .negate(self.field.inverse(element[0].coefficient));
        let own = self.area.len();
        self.area.push(0);
        if self.area_used() as u64 == self.limits.tree {
            return Err(14);
        }
        let mut sum = vec![Term {
            coefficient: c,
            monomial: Monomial {
                component: j,
                exponents: q,
            },
        }];
        self.area[own] = 1;
        for term in &element[1..] {
            let product = self.product(c, &q, term)?;
            if self.reducer(&product.monomial).is_none() {
                continue;
            }
            let (part, cached) = self.subtree(&product.monomial)?;
            for part_term in &part {
                let scaled = Term {
                    coefficient: self
                        .field
                        .multiply(product.coefficient, part_term.coefficient),
                    monomial: part_term.monomial,
                };
                let room = self.limits.tree - (self.area_used() - sum.len()) as u64;
                self.add_last(&mut sum, scaled, room)?;
                self.area[own] = sum.len();
            }
            if !cached {
                self.area.pop();
            }
            assert_eq!(self.area.len(), own + 1);
        }
        self.sort(&mut sum);
        let used: usize = self.cache.iter().map(|(_, part)| part.len() + 1).sum();
        if used + sum.len() < self.cache_length {
            self.cache.push((*monomial, sum.clone()));
            self.area.pop();
            return Ok((sum, true));
        }
        Ok((sum, false))
    }

    fn tree(&mut self, frame_term: &Monomial) -> Result<Vector, u64> {
        let mut vector = Vector::new();
        let start = Term {
            coefficient: 1,
            monomial: *frame_term,
        };
        self.add_last(&mut vector, start, self.limits.vector)?;
        let elements = self.elements;
        for term in &elements[frame_term.component as usize - 1] {
            let product = self.product(1, &frame_term.exponents, term)?;
            if self.reducer(&product.monomial).is_none() {
                continue;
            }
            let (part, cached) = self.subtree(&product.monomial)?;
            for part_term in &part {
                let scaled = Term {
                    coefficient: self
                        .field
                        .multiply(product.coefficient, part_term.coefficient),
                    monomial: part_term.monomial,
                };
                self.add_last(&mut vector, scaled, self.limits.vector)?;
            }
            if !cached {
                self.area.pop();
            }
            assert!(self.area.is_empty());
        }
        self.sort(&mut vector);
        Ok(vector)
    }

    /// All monomials in the box that are multiples into the ideal and minimal among those.
    fn frame(&self) -> Vec<Monomial> {
        let order = Order::Lexicographic;
        let mut terms = Vec::new();
        for (i, element) in self.elements.iter().enumerate() {
            let own = &element[0].monomial;
            let generators = self.elements[..i].iter().map(|other| &other[0].monomial);
            let mut quotients: Vec<Exponents> = generators
                .filter(|other| other.component == own.component)
                .map(|other| {
                    std::array::from_fn(|x| other.exponents[x].saturating_sub(own.exponents[x]))
                })
                .collect();
            quotients.sort_by(|a, b| order.compare(a, b));
            quotients.dedup();
            let minimal = quotients
                .iter()
                .filter(|q| !quotients.iter().any(|r| r != *q && divides(r, q)));
            terms.extend(minimal.map(|q| Monomial {
                component: i as u64 + 1,
                exponents: *q,
            }));
        }
        terms
    }

    fn level(&mut self, way: Way) -> Result<Level, u64> {
        let frame = self.frame();
        if frame.len() as u64 > self.limits.vectors {
            return Err(15);
        }
        let mut level = Level::new();
        for term in &frame {
            level.push(match way {
                Way::Division => self.run(term, 0)?,
                Way::Hybrid(pick) => self.run(term, pick)?,
                Way::Tree => self.tree(term)?,
            });
            let terms: usize = level.iter().map(Vec::len).sum();
            if terms as u64 > self.limits.level_terms {
                return Err(15);
            }
        }
        Ok(level)
    }
}

fn literal_level(
    limits: &Limits,
    basis: &Basis,
    k: usize,
    way: Way,
    cache: u64,
) -> Result<Level, u64> {
    let below = &basis.levels[..k];
    Literal {
        limits: *limits,
        field: Field::new(basis.parameters.p),
        modules: Modules::new(basis.parameters.file_order(), below),
        k,
        elements: &below[k - 1],
        cache: Vec::new(),
        cache_length: cache as usize,
        area: Vec::new(),
        left: 20_000,
    }
    .level(way)
}

/// Compares one level by one way; gives the library's refusal number.
fn compare(limits: &Limits, basis: &Basis, k: usize, way: Way, cache: u64) -> Option<u64> {
    let below = &basis.levels[..k];
    let (result, _) = lift_level(limits, &basis.parameters, below, way, cache, Some(20_000));
    let literal = literal_level(limits, basis, k, way, cache);
    match result {
        Err(Stop::GaveUp) => None,
        Err(Stop::Refused(number)) => {
            assert_eq!(
                literal,
                Err(number),
                "{way:?} {cache}\n{limits:?}\n{basis:?}"
            );
            Some(number)
        }
        Ok(level) => {
            if literal != Err(OUT_OF_PRODUCTS) {
                assert_eq!(literal, Ok(level), "{way:?} {cache}\n{limits:?}\n{basis:?}");
            }
            Some(0)
        }
        Err(Stop::NoReducer(_)) => panic!("lifting drops such a term"),
    }
}

/// A random basis with some of its levels.
fn random_levels(random: &mut Random, size: &Size) -> Basis {
    loop {
        let file = problem_file(&random_basis(random, size));
        let limits = Limits::document_01();
        let mut state = State::new();
        let Some(answer) = state.read(&limits, &file, Some(5_000)).answer() else {
            continue;
        };
        if answer.number != 0 {
            continue;
        }
        for level in 1..=4 {
            let lifted = state.lift(&limits, level, Way::Hybrid(1), 0, Some(5_000));
            if lifted.answer().is_none() || state.basis.is_none() {
                break;
            }
        }
        if let Some(basis) = state.basis {
            return basis;
        }
    }
}

/// A limit drawn close to a number.
fn near(random: &mut Random, most: u64) -> u64 {
    random.between(most.saturating_sub(3), most + 1)
}

#[test]
fn the_ways_agree_with_the_literal_ones() {
    let mut random = Random::new(11);
    let mut seen = [0; 16];
    for _ in 0..1_500 {
        let basis = random_levels(&mut random, &Size::small());
        for k in 1..=basis.levels.len().min(4) {
            for (way, cache) in all_ways() {
                let limits = Limits::document_01();
                let Some(number) = compare(&limits, &basis, k, way, cache) else {
                    continue;
                };
                seen[number as usize] += 1;
                // once more, with limits near to what it took
                let below = &basis.levels[..k];
                let usage =
                    lift_level(&limits, &basis.parameters, below, way, cache, Some(20_000)).1;
                let mut limits = limits;
                match random.below(6) {
                    0 => limits.exponent = near(&mut random, usage.exponent),
                    1 => limits.working = near(&mut random, usage.working),
                    2 => limits.vector = near(&mut random, usage.vector),
                    3 => limits.level_terms = near(&mut random, usage.level_terms),
                    4 => limits.vectors = near(&mut random, usage.frame),
                    _ => {
                        limits.exponent = near(&mut random, usage.exponent);
                        limits.working = near(&mut random, usage.working);
                        limits.vector = near(&mut random, usage.vector);
                    }
                }
                if way == Way::Tree && random.chance(70) {
                    limits = Limits::document_01();
                    limits.tree = near(&mut random, usage.tree);
                    if random.chance(30) {
                        limits.exponent = near(&mut random, usage.exponent);
                    }
                }
                if let Some(number) = compare(&limits, &basis, k, way, cache) {
                    seen[number as usize] += 1;
                }
            }
        }
    }
    assert!(seen[0] > 5_000 && seen[13] > 500 && seen[14] > 1_000 && seen[15] > 500);
}

#[test]
fn altered_states_agree_too() {
    // elements that are no Gröbner basis, vectors that are no syzygies
    let mut random = Random::new(12);
    for _ in 0..1_500 {
        let mut basis = random_levels(&mut random, &Size::tiny());
        let k = random.between(1, basis.levels.len() as u64) as usize;
        basis.levels.truncate(k);
        for _ in 0..random.between(1, 3) {
            let level = &mut basis.levels[k - 1];
            if level.is_empty() {
                break;
            }
            let v = random.below(level.len() as u64) as usize;
            match random.below(3) {
                0 if level[v].len() > 1 => {
                    let at = random.below(level[v].len() as u64) as usize;
                    level[v].remove(at);
                }
                1 => {
                    let at = random.below(level[v].len() as u64) as usize;
                    level[v][at].coefficient = random.between(1, basis.parameters.p - 1);
                }
                _ => {
                    let w = random.below(level.len() as u64) as usize;
                    level.swap(v, w);
                }
            }
        }
        let basis = Basis::new(basis.parameters, basis.degrees, basis.levels);
        assert!(reference::engine::sound(&Limits::document_01(), &basis));
        for (way, cache) in all_ways() {
            compare(&Limits::document_01(), &basis, k, way, cache);
        }
    }
}
