// SPDX-License-Identifier: MIT OR Apache-2.0
//! The state and the three calls.

use crate::field::is_prime;
use crate::frame::{frame, NUMBERING};
use crate::lifting::{accept, lift_level, Pick, Stop, Usage, Way};
use crate::limits::{Limits, MOST_DEGREE};
use crate::monomial::{degree, leading_monomial, Level, Parameters, Term, Vector};
use crate::order::{Modules, Order};
use crate::reader::{read_problem, Problem};
use std::cmp::Ordering;

/// An accepted basis and its complete levels: `levels[0]` is the basis, and there is at least
/// this level.
#[derive(Clone, Debug, PartialEq, Eq)]
pub struct Basis {
    /// the numbers of the R line
    pub parameters: Parameters,
    /// the degrees of components 1 to s
    pub degrees: Vec<u64>,
    /// levels 0 to h
    pub levels: Vec<Level>,
    /// for each level the degrees that its elements or vectors carry
    pub carried: Vec<Vec<u64>>,
}

impl Basis {
    /// A basis whose elements and vectors carry their own degrees. No element or vector may be
    /// empty, and each component has to be there.
    pub fn new(parameters: Parameters, degrees: Vec<u64>, levels: Vec<Level>) -> Basis {
        let mut basis = Basis {
            parameters,
            degrees,
            levels,
            carried: Vec::new(),
        };
        basis.carried = (0..basis.levels.len())
            .map(|k| own_degrees(&basis, k))
            .collect();
        basis
    }
}

/// The degrees of level k's elements or vectors: "the degree of its leading term's image", which
/// is found by walking down to level 0, whatever the levels between carry.
pub fn own_degrees(basis: &Basis, k: usize) -> Vec<u64> {
    let modules = Modules::new(basis.parameters.file_order(), &basis.levels[..k]);
    let of_vector = |vector: &Vector| {
        let image = modules.image_below_all(k, leading_monomial(vector));
        degree(&image.exponents) + basis.degrees[image.component as usize - 1]
    };
    basis.levels[k].iter().map(of_vector).collect()
}

/// What the engine keeps between calls.
#[derive(Clone, Debug, Default, PartialEq, Eq)]
pub struct State {
    /// the accepted basis, if there is one
    pub basis: Option<Basis>,
}

/// What a call gives back.
#[derive(Clone, Debug, PartialEq, Eq)]
pub struct Answer {
    /// 0 if the call succeeded, else the refusal's number
    pub number: u64,
    /// 0 if the call succeeded, else the refusal's place
    pub place: u64,
    /// the fetched vector, or the value that 9 leaves
    pub vector: Vector,
    /// what the run took
    pub usage: Usage,
}

impl Answer {
    fn new(number: u64, place: u64, usage: Usage) -> Answer {
        Answer {
            number,
            place,
            vector: Vector::new(),
            usage,
        }
    }

    fn refused(number: u64, place: u64) -> Answer {
        Answer::new(number, place, Usage::default())
    }
}

/// How a call ends.
#[derive(Clone, Debug, PartialEq, Eq)]
pub enum Outcome {
    /// the call came to its end
    Answered(Answer),
    /// the budget of products is used up; the state is as before the call
    GaveUp(Usage),
}

impl Outcome {
    /// The answer of a call that did not give up.
    pub fn answer(self) -> Option<Answer> {
        match self {
            Outcome::Answered(answer) => Some(answer),
            Outcome::GaveUp(_) => None,
        }
    }
}

impl State {
    /// Without a basis, as at the start.
    pub fn new() -> State {
        State::default()
    }

    /// The complete levels; none without a basis.
    pub fn levels(&self) -> &[Level] {
        self.basis.as_ref().map_or(&[], |basis| &basis.levels)
    }

    /// Reads a file and accepts or refuses its basis.
    pub fn read(&mut self, limits: &Limits, file: &[u8], budget: Option<u64>) -> Outcome {
        let Problem {
            parameters,
            degrees,
            elements,
            // no state holds them
            weights: _,
        } = match read_problem(limits, file) {
            Ok(problem) => problem,
            Err(refusal) => {
                self.basis = None;
                return Outcome::Answered(Answer::refused(refusal.number, refusal.place));
            }
        };
        let (result, usage) = accept(limits, &parameters, &elements, budget);
        let mut answer = Answer::new(0, 0, usage);
        match result {
            Ok(()) => {
                // "Each element and vector carries its degree in its record from the reading on"
                let carried = elements.iter().map(|element| {
                    let leading = leading_monomial(element);
                    degree(&leading.exponents) + degrees[leading.component as usize - 1]
                });
                self.basis = Some(Basis {
                    parameters,
                    carried: vec![carried.collect()],
                    degrees,
                    levels: vec![elements],
                });
                return Outcome::Answered(answer);
            }
            Err(refused) => match refused.stop {
                Stop::GaveUp => return Outcome::GaveUp(usage),
                // "for 9 the frame term's number"
                Stop::NoReducer(value) => {
                    answer.number = 9;
                    answer.place = refused.frame_number;
                    answer.vector = value;
                }
                // "for 13 to 15 the level (0 while accepting)"
                Stop::Refused(number) => answer.number = number,
            },
        }
        self.basis = None;
        Outcome::Answered(answer)
    }

    /// Forms the frame of level k and lifts all its terms.
    pub fn lift(
        &mut self,
        limits: &Limits,
        level: u64,
        way: Way,
        cache_terms: u64,
        budget: Option<u64>,
    ) -> Outcome {
        // "no accepted basis, or, for k in 1..9, level k − 1 not complete"
        let Some(basis) = self.sound_basis(limits) else {
            return Outcome::Answered(Answer::refused(11, 0));
        };
        let in_range = (1..=limits.levels).contains(&level);
        if in_range && level > basis.levels.len() as u64 {
            return Outcome::Answered(Answer::refused(11, 0));
        }
        // "level outside 1..9 .. for the hybrid way pick code outside 1..3"
        let wrong_pick = matches!(way, Way::Hybrid(code) if Pick::from_code(code).is_none());
        if !in_range || wrong_pick {
            return Outcome::Answered(Answer::refused(12, 0));
        }
        let below = &basis.levels[..level as usize];
        let (result, usage) =
            lift_level(limits, &basis.parameters, below, way, cache_terms, budget);
        let carried = lifted_degrees(basis, level as usize);
        match (result, &mut self.basis) {
            (Err(Stop::GaveUp), _) => Outcome::GaveUp(usage),
            // "Lifting a complete level again drops the levels above it."
            (Ok(vectors), Some(basis)) => {
                basis.levels.truncate(level as usize);
                basis.levels.push(vectors);
                basis.carried.truncate(level as usize);
                basis.carried.push(carried);
                Outcome::Answered(Answer::new(0, 0, usage))
            }
            (Err(Stop::Refused(number)), _) => {
                self.basis = None;
                Outcome::Answered(Answer::new(number, level, usage))
            }
            (Err(Stop::NoReducer(_)), _) | (Ok(_), None) => {
                unreachable!("lifting drops a leading term without a reducer")
            }
        }
    }

    /// Fetches vector v of level k.
    pub fn fetch(&self, limits: &Limits, level: u64, vector: u64) -> Answer {
        // "no accepted basis, or, for k in 1..9 .. (fetching: level k) [not complete]"
        let Some(basis) = self.sound_basis(limits) else {
            return Answer::refused(11, 0);
        };
        if !(1..=limits.levels).contains(&level) {
            return Answer::refused(12, 0);
        }
        let Some(vectors) = basis.levels.get(level as usize) else {
            return Answer::refused(11, 0);
        };
        // "vector number outside 1..count"
        if !(1..=vectors.len() as u64).contains(&vector) {
            return Answer::refused(12, 0);
        }
        let mut answer = Answer::refused(0, 0);
        answer.vector = vectors[vector as usize - 1].clone();
        answer
    }

    fn sound_basis(&self, limits: &Limits) -> Option<&Basis> {
        self.basis.as_ref().filter(|basis| sound(limits, basis))
    }
}

/// The degrees that the vectors of level k are to carry: each the degree of its frame term m plus
/// what element or vector i of the level below carries, for the frame term m·e_i.
fn lifted_degrees(basis: &Basis, k: usize) -> Vec<u64> {
    frame(&basis.levels[k - 1], NUMBERING)
        .iter()
        .map(|term| degree(&term.exponents) + basis.carried[k - 1][term.component as usize - 1])
        .collect()
}

/// Whether a state's numbers are in their ranges and its elements and vectors not empty, strictly
/// descending and with the degree that they carry. One that is not "counts as no accepted basis
/// (11)".
pub fn sound(limits: &Limits, basis: &Basis) -> bool {
    sound_parameters(limits, &basis.parameters)
        && basis.degrees.len() as u64 == basis.parameters.s
        && basis.degrees.iter().all(|degree| *degree <= MOST_DEGREE)
        && (1..=limits.levels + 1).contains(&(basis.levels.len() as u64))
        && basis.carried.len() == basis.levels.len()
        && (0..basis.levels.len()).all(|k| sound_level(limits, basis, k))
        // "at every level the carried degree is the degree of its leading term's image; a state
        // where it is not counts as no accepted basis (11)"
        && (0..basis.levels.len()).all(|k| basis.carried[k] == own_degrees(basis, k))
}

fn sound_parameters(limits: &Limits, parameters: &Parameters) -> bool {
    is_prime(parameters.p)
        && parameters.p <= limits.prime_bound
        && (1..=limits.variables).contains(&parameters.n)
        && Order::from_code(parameters.order).is_some()
        && (1..=limits.components).contains(&parameters.s)
}

/// The levels below k have to be sound.
fn sound_level(limits: &Limits, basis: &Basis, k: usize) -> bool {
    let level = &basis.levels[k];
    let count = level.len() as u64;
    let terms: u64 = level.iter().map(|vector| vector.len() as u64).sum();
    let (counts_in_range, components) = if k == 0 {
        let in_range = (1..=limits.elements).contains(&count) && terms <= limits.t_lines;
        (in_range, basis.parameters.s)
    } else {
        let in_range = count <= limits.vectors
            && terms <= limits.level_terms
            && level
                .iter()
                .all(|vector| vector.len() as u64 <= limits.vector);
        (in_range, basis.levels[k - 1].len() as u64)
    };
    let modules = Modules::new(basis.parameters.file_order(), &basis.levels[..k]);
    counts_in_range
        && level.iter().all(|vector| {
            !vector.is_empty()
                && vector
                    .iter()
                    .all(|term| sound_term(limits, &basis.parameters, components, term))
                && vector.windows(2).all(|pair| {
                    modules.compare(k, &pair[0].monomial, &pair[1].monomial) == Ordering::Greater
                })
        })
}

fn sound_term(limits: &Limits, parameters: &Parameters, components: u64, term: &Term) -> bool {
    let n = parameters.n as usize;
    let exponents = &term.monomial.exponents;
    (1..parameters.p).contains(&term.coefficient)
        && (1..=components).contains(&term.monomial.component)
        && exponents[..n].iter().all(|e| *e <= limits.exponent)
        && exponents[n..].iter().all(|e| *e == 0)
}
