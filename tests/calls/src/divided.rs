// SPDX-License-Identifier: MIT OR Apache-2.0
//! The call that divides a lent vector, from docs/BUFFERS.md, "A vector divided", on parts of the unrelated implementation: its states, its order of terms and
//! its division.

use common::buffers::{row, OUT, ROW, STATE};
use reference::buffers::{read_rows, read_state};
use reference::engine::{sound, Basis};
use reference::lifting::Stop;
use reference::membership::{divide, Quotients};
use reference::monomial::{Parameters, Term};
use reference::order::Modules;
use reference::Limits;
use std::cmp::Ordering;

/// Number and place; `None`, and no buffer is changed, where it takes more products than that.
pub fn divide_call_within(
    limits: &Limits,
    state: &[u16],
    vector: &[u16],
    quotients: &mut [u16],
    remainder: &mut [u16],
    budget: u64,
) -> Option<(u64, u64)> {
    if state.len() < STATE || quotients.len() < OUT || remainder.len() < OUT {
        return Some((16, 0));
    }
    let Some(basis) = sound_basis(limits, state) else {
        return Some((11, 0));
    };
    let terms = read_rows(&vector[..vector.len() / ROW * ROW]);
    let bad = first_bad(limits, &basis.parameters, &terms);
    let answer = match bad {
        Some(place) => Err((23, place)),
        None => match divide(limits, &basis, &terms, Some(budget)).0 {
            Ok(divided) => Ok(divided),
            Err(Stop::Refused(number)) => Err((number, 0)),
            Err(Stop::GaveUp) => return None,
            Err(Stop::NoReducer(_)) => unreachable!("such a term goes to the remainder"),
        },
    };
    quotients.fill(0);
    remainder.fill(0);
    match answer {
        Err(refused) => Some(refused),
        Ok(divided) => {
            let Quotients {
                quotients: own,
                remainder: rest,
            } = divided;
            write(&own, quotients);
            write(&rest, remainder);
            Some((0, 0))
        }
    }
}

/// What a state holds that counts as an accepted basis.
pub fn sound_basis(limits: &Limits, state: &[u16]) -> Option<Basis> {
    let held = read_state(limits, state).basis;
    held.filter(|basis| sound(limits, basis))
}

/// The number of the first bad row, from 1.
fn first_bad(limits: &Limits, parameters: &Parameters, terms: &[Term]) -> Option<u64> {
    let modules = Modules::new(parameters.file_order(), &[]);
    let mut before: Option<&Term> = None;
    for (place, term) in (1..).zip(terms) {
        let past = &term.monomial.exponents[parameters.n as usize..];
        let good = (1..parameters.p).contains(&term.coefficient)
            && (1..=parameters.s).contains(&term.monomial.component)
            && past.iter().all(|e| *e == 0)
            && place <= limits.working
            && before.is_none_or(|before| {
                modules.compare(0, &before.monomial, &term.monomial) == Ordering::Greater
            });
        if !good {
            return Some(place);
        }
        before = Some(term);
    }
    None
}

/// The rows of these terms.
pub fn rows_of(terms: &[Term]) -> Vec<u16> {
    let mut words = vec![0; ROW * terms.len()];
    write(terms, &mut words);
    words
}

fn write(terms: &[Term], words: &mut [u16]) {
    for (term, own) in terms.iter().zip(words.chunks_exact_mut(ROW)) {
        let exponents = term.monomial.exponents.map(|e| e as u8);
        let component = term.monomial.component as u16;
        own.copy_from_slice(&row(term.coefficient as u16, component, exponents));
    }
}
