// SPDX-License-Identifier: MIT OR Apache-2.0
//! Sound states: levels of any vectors that are in range and descend, lifted or not; and their words altered.

use crate::buffers::{
    carried, count, exponent_at, exponents, rows, COEFFICIENT, COMPONENT, DEGREES, HEAD, LEVELS,
    PRIME, ROW, STATE, VARIABLES, VECTORS,
};
use reference::buffers::write_state;
use reference::engine::{Basis, State};
use reference::generate::problems::random_degrees;
use reference::generate::states::{alter_degree, carry};
use reference::monomial::{Exponents, Level, Monomial, Parameters, Term, Vector};
use reference::order::Modules;
use reference::random::Random;
use reference::reader::Problem;
use reference::Limits;

const PRIMES: [u64; 10] = [2, 3, 5, 7, 101, 251, 32_719, 32_749, 65_519, 65_521];

/// How large a state may become.
#[derive(Clone, Copy)]
pub struct Size {
    pub levels: u64,
    pub vectors: u64,
    pub terms: u64,
    /// exponents below this bound are the rule, so that images and components tie often
    pub exponent: u64,
}

/// A problem's elements as level 0, without acceptance.
pub fn basis_of(problem: Problem) -> Basis {
    Basis::new(problem.parameters, problem.degrees, vec![problem.elements])
}

/// The words of a state that holds this basis, whose elements and vectors carry their own degrees whatever it says of them.
pub fn write_basis(basis: Basis, state: &mut [u16]) {
    let basis = Basis::new(basis.parameters, basis.degrees, basis.levels);
    write_state(&Limits::document_01(), &State { basis: Some(basis) }, state);
}

/// Whether a row holds this term.
pub fn row_is(row: &[u16], term: &Term) -> bool {
    u64::from(row[COEFFICIENT]) == term.coefficient
        && u64::from(row[COMPONENT]) == term.monomial.component
        && exponents(row).map(u64::from) == term.monomial.exponents
}

/// A variable that the level's leading monomials have, if there is one.
pub fn leading_variable(random: &mut Random, level: &[Vector], n: u64) -> usize {
    let leads = || level.iter().map(|vector| vector[0].monomial);
    (0..8)
        .filter(|x| leads().any(|leading| leading.exponents[*x] > 0))
        .nth(random.below(n.max(1)) as usize)
        .unwrap_or(0)
}

pub fn random_basis(random: &mut Random, size: &Size) -> Basis {
    let parameters = Parameters {
        p: *random.pick(&PRIMES),
        n: random.between(1, 8),
        order: random.between(1, 3),
        s: if random.chance(80) {
            random.between(1, 3)
        } else {
            random.between(1, 16)
        },
    };
    let mut levels: Vec<Level> = Vec::new();
    for k in 0..random.between(1, size.levels) as usize {
        let components = match k {
            0 => parameters.s,
            _ => levels[k - 1].len() as u64,
        };
        let most = if k == 0 {
            size.vectors.min(64)
        } else {
            size.vectors.min(128)
        };
        let count = match (k, components) {
            (_, 0) => 0,
            (0, _) => random.between(1, most),
            _ => random.between(0, most),
        };
        let level = (0..count)
            .map(|_| {
                let terms = random.between(1, size.terms);
                vector(
                    random,
                    &parameters,
                    &levels,
                    components,
                    terms,
                    size.exponent,
                )
            })
            .collect();
        levels.push(level);
    }
    let degrees = random_degrees(random, parameters.s);
    Basis::new(parameters, degrees, levels)
}

/// Ten levels as full as they may be: 2,048 terms each.
pub fn full_basis(random: &mut Random, order: u64) -> Basis {
    let parameters = Parameters {
        p: 32_749,
        n: 8,
        order,
        s: 16,
    };
    let mut levels: Vec<Level> = Vec::new();
    for k in 0..10 {
        let (count, terms, components) = match k {
            0 => (64, 32, 16),
            _ => (128, 16, levels[k - 1].len() as u64),
        };
        let level = (0..count)
            .map(|_| exact_vector(random, &parameters, &levels, components, terms))
            .collect();
        levels.push(level);
    }
    let degrees = random_degrees(random, parameters.s);
    Basis::new(parameters, degrees, levels)
}

/// At the limits of counts and lengths: 512 terms in a vector, 2,048 in a level, 64 and 128 vectors.
pub fn long_basis(random: &mut Random) -> Basis {
    let parameters = Parameters {
        p: 32_749,
        n: 8,
        order: random.between(1, 3),
        s: 4,
    };
    let mut levels: Vec<Level> = Vec::new();
    levels.push(vec![exact_vector(random, &parameters, &levels, 4, 2_048)]);
    let four = (0..4)
        .map(|_| exact_vector(random, &parameters, &levels, 1, 512))
        .collect();
    levels.push(four);
    let many = (0..128)
        .map(|_| exact_vector(random, &parameters, &levels, 4, 1))
        .collect();
    levels.push(many);
    let degrees = random_degrees(random, parameters.s);
    Basis::new(parameters, degrees, levels)
}

/// At most so many terms: monomials that come twice are left out.
fn vector(
    random: &mut Random,
    parameters: &Parameters,
    below: &[Level],
    components: u64,
    terms: u64,
    exponent: u64,
) -> Vector {
    let monomials: Vec<Monomial> = (0..terms)
        .map(|_| {
            let bound = if random.chance(5) { 256 } else { exponent };
            monomial(random, parameters, components, bound)
        })
        .collect();
    descending(random, parameters, below, &monomials)
}

fn exact_vector(
    random: &mut Random,
    parameters: &Parameters,
    below: &[Level],
    components: u64,
    terms: usize,
) -> Vector {
    let mut monomials = Vec::new();
    let mut seen = std::collections::HashSet::new();
    while monomials.len() < terms {
        let m = monomial(random, parameters, components, 256);
        if seen.insert(m) {
            monomials.push(m);
        }
    }
    descending(random, parameters, below, &monomials)
}

fn monomial(random: &mut Random, parameters: &Parameters, components: u64, bound: u64) -> Monomial {
    let mut exponents: Exponents = [0; 8];
    for e in exponents.iter_mut().take(parameters.n as usize) {
        *e = random.below(bound);
    }
    Monomial {
        component: random.between(1, components),
        exponents,
    }
}

fn descending(
    random: &mut Random,
    parameters: &Parameters,
    below: &[Level],
    monomials: &[Monomial],
) -> Vector {
    let modules = Modules::new(parameters.file_order(), below);
    let mut keyed: Vec<_> = monomials
        .iter()
        .map(|m| (modules.key(below.len(), m), *m))
        .collect();
    keyed.sort_by_key(|(key, _)| std::cmp::Reverse(*key));
    keyed.dedup_by(|a, b| a.0 == b.0);
    keyed
        .into_iter()
        .map(|(_, monomial)| Term {
            coefficient: random.between(1, parameters.p - 1),
            monomial,
        })
        .collect()
}

/// The words that hold degrees of a state with this basis: those of its components, and those that the vectors of its levels carry.
pub fn degree_words(basis: &Basis) -> Vec<usize> {
    let mut words: Vec<usize> = (DEGREES..DEGREES + basis.degrees.len()).collect();
    for (k, level) in basis.levels.iter().enumerate() {
        words.extend(carried(k)..carried(k) + level.len());
    }
    words
}

/// Whether the words of a sound state stay those of one if this degree word is changed to that: a word that the counts do not name, or the degree of a
/// component that no element leads with.
pub fn degree_is_free(basis: &Basis, at: usize, word: u16) -> bool {
    let leads = |component: usize| {
        let mut leading = basis.levels[0].iter().map(|element| element[0].monomial);
        leading.any(|monomial| monomial.component as usize == component)
    };
    if !degree_words(basis).contains(&at) {
        return true;
    }
    at < carried(0) && !leads(at - DEGREES + 1) && word <= 255
}

/// Alters a word, an exponent, a whole row or a degree; gives what stood there. Two times out of three what the vectors carry follows the rows, so that a
/// state may stay sound whose leading terms were altered.
pub fn alter(random: &mut Random, basis: &Basis, state: &mut [u16]) -> Vec<(usize, u16)> {
    let limits = Limits::document_01();
    if random.chance(8) {
        return vec![alter_degree(random, &limits, basis, state)];
    }
    let mut before = alter_words(random, basis, state);
    if random.below(3) > 0 {
        before.extend(carry(&limits, state));
    }
    before
}

fn alter_words(random: &mut Random, basis: &Basis, state: &mut [u16]) -> Vec<(usize, u16)> {
    let k = random.below(basis.levels.len() as u64) as usize;
    let used: usize = basis.levels[k].iter().map(Vec::len).sum();
    let row = |random: &mut Random| rows(k) + ROW * random.below(used.max(1) as u64) as usize;
    if random.chance(25) {
        let at = row(random);
        return vec![alter_exponent(random, state, at)];
    }
    if random.chance(10) && used > 1 {
        // the row before again, or two neighbours exchanged: equal or ascending neighbours
        let at = rows(k) + ROW * random.between(1, used as u64 - 1) as usize;
        let exchanged = random.chance(50);
        let before: Vec<(usize, u16)> = (at - ROW..at + ROW).map(|i| (i, state[i])).collect();
        for i in 1..ROW {
            let old = state[at + i];
            state[at + i] = state[at - ROW + i];
            if exchanged {
                state[at - ROW + i] = old;
            }
        }
        return before;
    }
    let at = match random.below(100) {
        0..=9 => random.below(HEAD as u64) as usize,
        10..=24 => count(k) + random.below(1 + VECTORS as u64) as usize,
        25..=34 => count(k) + 1 + random.below(basis.levels[k].len().max(1) as u64) as usize,
        35..=84 => row(random) + random.below(ROW as u64) as usize,
        85..=87 => DEGREES + random.below((STATE - DEGREES) as u64) as usize,
        88 | 89 => carried(k.min(LEVELS - 1)) + random.below(VECTORS as u64) as usize,
        _ => random.below(state.len() as u64) as usize,
    };
    let old = state[at];
    state[at] = match random.below(12) {
        0 => random.below(65_536) as u16,
        1 => old.wrapping_add(1),
        2 => old.wrapping_sub(1),
        3 => random.below(4) as u16,
        4 => *random.pick(&[0, 255, 256, 257, 65_535]),
        5 => state[PRIME].wrapping_sub(random.below(3) as u16),
        6 => random.below(256) as u16,
        7 => *random.pick(&[64, 65, 128, 129, 512, 513, 2_048, 2_049]),
        8 => state[(at + ROW).min(state.len() - 1)],
        9 => state[at.saturating_sub(ROW)],
        10 => old ^ (1 << random.below(16)),
        _ => old.wrapping_add(random.below(5) as u16).wrapping_sub(2),
    };
    vec![(at, old)]
}

/// Alters one exponent of the row at this word, any of the eight: past n every number but 0 is out of range.
fn alter_exponent(random: &mut Random, state: &mut [u16], at: usize) -> (usize, u16) {
    let (word, one) = exponent_at(random.below(VARIABLES as u64) as usize);
    let at = at + word;
    let old = state[at];
    let exponent = (old / one) as u8;
    let altered = match random.below(8) {
        0 => random.below(256) as u8,
        1 => exponent.wrapping_add(1),
        2 => exponent.wrapping_sub(1),
        3 => random.below(4) as u8,
        4 => *random.pick(&[0, 1, 254, 255]),
        5 => (state[at.saturating_sub(ROW)] / one) as u8,
        6 => exponent ^ (1 << random.below(8)),
        _ => exponent.wrapping_add(random.below(5) as u8).wrapping_sub(2),
    };
    state[at] = old - u16::from(exponent) * one + u16::from(altered) * one;
    (at, old)
}
