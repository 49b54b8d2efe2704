// SPDX-License-Identifier: MIT OR Apache-2.0
//! Random bases: the ways agree, the vectors are syzygies with their frame terms in front, and
//! the levels resolve.

use crate::common::*;
use reference::completion::{Caps, Completion};
use reference::engine::{Basis, State};
use reference::field::Field;
use reference::frame::frame;
use reference::generate::problems::{problem_file, random_basis, random_set, Size};
use reference::hilbert::value;
use reference::lifting::{Lifter, Way};
use reference::monomial::{divides, multiply, Exponents, Monomial, Term, Vector, UNIT};
use reference::order::{Modules, Order};
use reference::random::Random;
use reference::reader::{read_problem, Problem};
use reference::reckoning::reckon_level;
use reference::Limits;
use std::cmp::Ordering;
use std::collections::BTreeMap;

const BUDGET: Option<u64> = Some(20_000);

/// Sums c·m·f_j over the terms c·m·e_j of a vector; zero terms left out.
fn image(field: &Field, vector: &[Term], elements: &[Vector]) -> BTreeMap<Monomial, u64> {
    let mut sum = BTreeMap::new();
    for term in vector {
        for other in &elements[term.monomial.component as usize - 1] {
            let monomial = Monomial {
                component: other.monomial.component,
                exponents: multiply(&term.monomial.exponents, &other.monomial.exponents),
            };
            let entry = sum.entry(monomial).or_insert(0);
            *entry = field.add(*entry, field.multiply(term.coefficient, other.coefficient));
        }
    }
    sum.retain(|_, coefficient| *coefficient != 0);
    sum
}

/// Checks level k of a basis against the definition of a syzygy and of the frame.
fn check_level(basis: &Basis, k: usize) {
    let field = Field::new(basis.parameters.p);
    let order = basis.parameters.file_order();
    let elements = &basis.levels[k - 1];
    let terms = frame(elements, Order::Lexicographic);
    assert_eq!(terms.len(), basis.levels[k].len());
    let modules = Modules::new(order, &basis.levels[..k]);
    for (vector, frame_term) in basis.levels[k].iter().zip(&terms) {
        assert_eq!(vector[0].coefficient, 1);
        assert_eq!(vector[0].monomial, *frame_term);
        assert!(vector.windows(2).all(|pair| {
            modules.compare(k, &pair[0].monomial, &pair[1].monomial) == Ordering::Greater
        }));
        assert!(image(&field, vector, elements).is_empty());
    }
}

/// Lifts level after level by all ways, as far as no limit and no budget is met; gives how many
/// levels were lifted.
fn compare_all_ways(problem: &Problem, ways: &[(Way, u64)]) -> Option<State> {
    let limits = Limits::document_01();
    let mut state = State::new();
    let answer = state
        .read(&limits, &problem_file(problem), BUDGET)
        .answer()?;
    if answer.number != 0 {
        assert!(matches!(answer.number, 13..=15), "a Gröbner basis");
        return None;
    }
    for level in 1..=9 {
        let basis = state.basis.as_ref().expect("a basis");
        let (reckoned, _) = reckon_level(
            &basis.parameters,
            &basis.levels[..level as usize],
            Some(1_000_000),
        );
        let mut next = None;
        for (way, cache) in ways {
            let mut lifted = state.clone();
            let Some(answer) = lifted.lift(&limits, level, *way, *cache, BUDGET).answer() else {
                continue;
            };
            if answer.number != 0 {
                assert!(matches!(answer.number, 13..=15));
                assert_eq!(answer.place, level);
                assert!(lifted.basis.is_none());
                continue;
            }
            let found = &lifted.levels()[level as usize];
            if let Ok(reckoned) = &reckoned {
                assert_eq!(found, reckoned, "{way:?} {cache} level {level}");
            }
            match &next {
                None => next = Some(lifted),
                Some(other) => assert_eq!(lifted, *other, "{way:?} {cache} level {level}"),
            }
        }
        state = next?;
        let basis = state.basis.as_ref().expect("a basis");
        check_level(basis, level as usize);
        if basis.levels[level as usize].is_empty() {
            return Some(state);
        }
    }
    None
}

#[test]
fn small_bases_by_all_ways() {
    let mut random = Random::new(1);
    let (mut whole, mut deep) = (0, 0);
    for _ in 0..3_000 {
        let problem = random_basis(&mut random, &Size::small());
        let Some(state) = compare_all_ways(&problem, &all_ways()) else {
            continue;
        };
        whole += 1;
        deep += u64::from(state.levels().len() > 3);
        let basis = state.basis.as_ref().expect("a basis");
        let least = problem.degrees.iter().min().expect("a component");
        for d in *least..=least + 6 {
            assert_eq!(value(basis, d), standard_monomials(&problem, d));
        }
    }
    assert!(whole > 2_000 && deep > 300, "{whole} {deep}");
}

#[test]
fn medium_bases_by_all_ways() {
    let mut random = Random::new(2);
    let mut whole = 0;
    for _ in 0..400 {
        let problem = random_basis(&mut random, &Size::medium());
        if let Some(state) = compare_all_ways(&problem, &all_ways()) {
            whole += 1;
            let basis = state.basis.as_ref().expect("a basis");
            let least = problem.degrees.iter().min().expect("a component");
            for d in *least..=least + 3 {
                assert_eq!(value(basis, d), standard_monomials(&problem, d));
            }
        }
    }
    assert!(whole > 200, "{whole}");
}

#[test]
fn whichever_term_is_picked() {
    // "Whichever term each hybrid step picks, codes or not, a run that comes to zero gives its
    // vector."
    let mut random = Random::new(3);
    let limits = Limits::document_01();
    let mut compared = 0;
    for _ in 0..1_000 {
        let problem = random_basis(&mut random, &Size::small());
        let below = [problem.elements.clone()];
        let (Ok(level), _) = reckon_level(&problem.parameters, &below, Some(100_000)) else {
            continue;
        };
        for vector in &level {
            let mut lifter = Lifter::new(&limits, &problem.parameters, &below, BUDGET);
            let picked = lifter.hybrid(&vector[0].monomial, |working| {
                let place = random.below(working.len().max(1) as u64) as usize;
                working.at(place)
            });
            if let Ok(picked) = picked {
                assert_eq!(picked, *vector);
                compared += 1;
            }
        }
    }
    assert!(compared > 2_000);
}

#[test]
fn acceptance_decides_being_a_groebner_basis() {
    let mut random = Random::new(4);
    let limits = Limits::document_01();
    let caps = Caps {
        elements: 1_000,
        terms: 10_000,
        exponent: 100_000,
        products: 200_000,
    };
    let (mut bases, mut others) = (0, 0);
    for case in 0..3_000 {
        let size = if case % 2 == 0 {
            Size::tiny()
        } else {
            Size::small()
        };
        let problem = random_set(&mut random, &size);
        let file = problem_file(&problem);
        assert_eq!(read_problem(&limits, &file).as_ref(), Ok(&problem));
        let answer = State::new().read(&limits, &file, BUDGET).answer();
        let count = problem.elements.len();
        // one pair that does not reduce to zero is enough
        let mut completion = Completion::new(
            &problem.parameters,
            Caps {
                elements: count,
                ..caps
            },
        );
        let is_basis = completion.complete(problem.elements.clone()).is_some();
        match answer.map(|answer| answer.number) {
            Some(0) => {
                assert!(is_basis);
                bases += 1;
            }
            Some(9) => {
                assert!(!is_basis);
                others += 1;
            }
            Some(number) => assert!(matches!(number, 13..=15)),
            None => {}
        }
    }
    assert!(bases > 300 && others > 300, "{bases} {others}");
}

#[test]
fn nine_leaves_a_combination_without_reducer_in_front() {
    let mut random = Random::new(5);
    let limits = Limits::document_01();
    for _ in 0..1_000 {
        let problem = random_set(&mut random, &Size::small());
        let mut state = State::new();
        let Some(answer) = state
            .read(&limits, &problem_file(&problem), BUDGET)
            .answer()
        else {
            continue;
        };
        if answer.number != 9 {
            continue;
        }
        let modules = Modules::new(problem.parameters.file_order(), &[]);
        let value = &answer.vector;
        assert!(value.windows(2).all(|pair| {
            modules.compare(0, &pair[0].monomial, &pair[1].monomial) == Ordering::Greater
        }));
        let leading = &value[0].monomial;
        assert!(!problem.elements.iter().any(|element| {
            element[0].monomial.component == leading.component
                && divides(&element[0].monomial.exponents, &leading.exponents)
        }));
        // it is in the module: adding it and completing gives the same leading monomials in low
        // degrees
        let caps = Caps {
            elements: 60,
            terms: 300,
            exponent: 100,
            products: 30_000,
        };
        let complete = |elements| Completion::new(&problem.parameters, caps).complete(elements);
        let longer = [problem.elements.clone(), vec![value.clone()]].concat();
        if let (Some(one), Some(two)) = (complete(problem.elements.clone()), complete(longer)) {
            for d in 0..=5 {
                let dimension = |elements| {
                    let problem = Problem::new(problem.parameters, elements);
                    standard_monomials(&problem, d)
                };
                assert_eq!(dimension(one.clone()), dimension(two.clone()));
            }
        }
    }
}

#[test]
fn keys_compare_as_the_recursive_definition() {
    let mut random = Random::new(6);
    for _ in 0..300 {
        let problem = random_basis(&mut random, &Size::small());
        let mut levels = vec![problem.elements.clone()];
        for _ in 0..3 {
            let (Ok(level), _) = reckon_level(&problem.parameters, &levels, Some(50_000)) else {
                break;
            };
            levels.push(level);
        }
        let modules = Modules::new(problem.parameters.file_order(), &levels);
        for k in 0..=levels.len() {
            let components = match k {
                0 => problem.parameters.s,
                _ => levels[k - 1].len() as u64,
            };
            if components == 0 {
                continue;
            }
            let mut any = || {
                let mut exponents = UNIT;
                for exponent in exponents.iter_mut().take(problem.parameters.n as usize) {
                    *exponent = random.below(4);
                }
                Monomial {
                    component: random.between(1, components),
                    exponents,
                }
            };
            for _ in 0..20 {
                let (a, b) = (any(), any());
                let order = modules.compare(k, &a, &b);
                assert_eq!(modules.key(k, &a).cmp(&modules.key(k, &b)), order);
                assert_eq!(modules.compare(k, &b, &a), order.reverse());
                assert_eq!(order == Ordering::Equal, a == b);
            }
        }
    }
}

#[test]
fn orders_multiply() {
    let mut random = Random::new(7);
    for _ in 0..20_000 {
        let order = Order::from_code(random.between(1, 3)).expect("a code");
        let mut any = || -> Exponents { std::array::from_fn(|_| random.below(3)) };
        let (a, b, c) = (any(), any(), any());
        let compared = order.compare(&a, &b);
        assert_eq!(
            order.compare(&multiply(&a, &c), &multiply(&b, &c)),
            compared
        );
        assert_ne!(order.compare(&a, &UNIT), Ordering::Less);
    }
}
