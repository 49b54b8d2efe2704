// SPDX-License-Identifier: MIT OR Apache-2.0
//! The words of a state that hold degrees, altered.

use crate::buffers::{read_state, Layout};
use crate::engine::Basis;
use crate::limits::{Limits, MOST_DEGREE};
use crate::monomial::{degree, leading_monomial};
use crate::random::Random;

/// The words that hold the degrees of components 1 to s.
pub fn component_words(limits: &Limits, basis: &Basis) -> Vec<usize> {
    let first = Layout::new(limits).first_degree();
    (first..first + basis.degrees.len()).collect()
}

/// The words that hold the degrees that the elements and vectors of the complete levels carry.
pub fn carried_words(limits: &Limits, basis: &Basis) -> Vec<usize> {
    let layout = Layout::new(limits);
    let of_level = |(k, level): (usize, &Vec<u64>)| {
        let first = layout.first_carried(k);
        first..first + level.len()
    };
    basis
        .carried
        .iter()
        .enumerate()
        .flat_map(of_level)
        .collect()
}

/// Changes one of the degrees of a state that holds the basis; gives its word and what stood there.
/// A sound state is no longer sound then, unless it is the degree of a component that no element
/// leads with, and stays in its range.
pub fn alter_degree(
    random: &mut Random,
    limits: &Limits,
    basis: &Basis,
    words: &mut [u16],
) -> (usize, u16) {
    let mut places = component_words(limits, basis);
    if random.chance(75) || places.is_empty() {
        places = carried_words(limits, basis);
    }
    if places.is_empty() {
        // a state that is not sound anyway
        places.push(Layout::new(limits).first_degree());
    }
    let at = *random.pick(&places);
    let old = words[at];
    while words[at] == old {
        words[at] = match random.below(8) {
            0 => old.wrapping_add(1),
            1 => old.wrapping_sub(1),
            2 => old ^ (1 << random.below(16)),
            3 => random.bits() as u16,
            4 => words[*random.pick(&places)],
            5 => *random.pick(&[0, 1, MOST_DEGREE as u16, MOST_DEGREE as u16 + 1, 65_535]),
            6 => old.wrapping_add(256),
            _ => random.below(12) as u16,
        };
    }
    (at, old)
}

/// Lets each element and vector of the complete levels carry its own degree, as the rows and the
/// components' degrees are; gives the words that changed and what stood there. Where a component
/// is not there the degree stays as it is.
pub fn carry(limits: &Limits, words: &mut [u16]) -> Vec<(usize, u16)> {
    let Some(basis) = read_state(limits, words).basis else {
        return Vec::new();
    };
    let layout = Layout::new(limits);
    let mut changed = Vec::new();
    let mut below = basis.degrees;
    for (k, level) in basis.levels.iter().enumerate() {
        let mut own = basis.carried[k].clone();
        for (v, vector) in level.iter().enumerate() {
            let leading = leading_monomial(vector);
            let under = leading.component.checked_sub(1);
            if let Some(under) = under.and_then(|i| below.get(i as usize)) {
                own[v] = degree(&leading.exponents) + under;
                let at = layout.first_carried(k) + v;
                let old = std::mem::replace(&mut words[at], own[v] as u16);
                if old != words[at] {
                    changed.push((at, old));
                }
            }
        }
        below = own;
    }
    changed
}

/// The basis with other degrees of its components, and with all that follows from them: a sound
/// one if the basis is sound.
pub fn with_other_degrees(random: &mut Random, basis: &Basis) -> Basis {
    let degrees = (0..basis.parameters.s).map(|_| random.between(0, MOST_DEGREE));
    Basis::new(basis.parameters, degrees.collect(), basis.levels.clone())
}
