// SPDX-License-Identifier: MIT OR Apache-2.0
//! The sheet printed.

use crate::engine::{Answer, Outcome, State};
use crate::lifting::{Usage, Way};
use crate::limits::Limits;
use crate::monomial::Term;
use crate::reader::read_problem;
use crate::steps::WHOLE_CACHE;

/// The bytes of the sheet for a file, or `None` when the budget of products (for the file
/// together) is used up; and what the runs took.
pub fn sheet(limits: &Limits, file: &[u8], budget: Option<u64>) -> (Option<Vec<u8>>, Usage) {
    // "Levels 1 on, hybrid, pick code 2"
    sheet_by(limits, file, (Way::Hybrid(2), 0), budget)
}

/// The sheet with all levels lifted by the tree with a cache that holds every subtree. It is the
/// sheet wherever neither has 13 or 14 while lifting, and quick where pick code 2 takes many steps.
pub fn tree_sheet(limits: &Limits, file: &[u8], budget: Option<u64>) -> (Option<Vec<u8>>, Usage) {
    sheet_by(limits, file, (Way::Tree, WHOLE_CACHE), budget)
}

fn sheet_by(
    limits: &Limits,
    file: &[u8],
    way: (Way, u64),
    budget: Option<u64>,
) -> (Option<Vec<u8>>, Usage) {
    let mut printed = String::new();
    let mut usage = Usage::default();
    let whole = print(limits, file, way, budget, &mut printed, &mut usage);
    (whole.map(|()| printed.into_bytes()), usage)
}

fn print(
    limits: &Limits,
    file: &[u8],
    (way, cache_terms): (Way, u64),
    budget: Option<u64>,
    printed: &mut String,
    usage: &mut Usage,
) -> Option<()> {
    let mut state = State::new();
    let outcome = state.read(limits, file, budget);
    let answer = answered(outcome, usage)?;
    let n = read_problem(limits, file).map_or(0, |problem| problem.parameters.n as usize);
    if answer.number != 0 {
        refused(&answer, n, printed);
        return Some(());
    }
    // "Levels 1 on .. until a count is 0 or level 9 is printed."
    for k in 1..=limits.levels {
        let left = budget.map(|budget| budget - usage.products);
        let outcome = state.lift(limits, k, way, cache_terms, left);
        let answer = answered(outcome, usage)?;
        if answer.number != 0 {
            refused(&answer, n, printed);
            return Some(());
        }
        let level = &state.levels()[k as usize];
        for (v, vector) in (1..).zip(level) {
            for term in vector {
                // `S,level,vector,coefficient,component,e1,..,en`
                line(&format!("S,{k},{v}"), term, n, printed);
            }
        }
        // `Z,level,count of vectors`
        printed.push_str(&format!("Z,{k},{}\n", level.len()));
        if level.is_empty() {
            break;
        }
    }
    Some(())
}

/// The answer of a call that did not give up; adds up what the calls took.
pub(crate) fn answered(outcome: Outcome, usage: &mut Usage) -> Option<Answer> {
    match outcome {
        Outcome::Answered(answer) => {
            *usage = usage.and(&answer.usage);
            Some(answer)
        }
        Outcome::GaveUp(more) => {
            *usage = usage.and(&more);
            None
        }
    }
}

/// `X,number,place`; "After X,9 the value follows as `W,coefficient,component,e1,..,en`".
pub(crate) fn refused(answer: &Answer, n: usize, printed: &mut String) {
    printed.push_str(&format!("X,{},{}\n", answer.number, answer.place));
    for term in &answer.vector {
        line("W", term, n, printed);
    }
}

pub(crate) fn line(start: &str, term: &Term, n: usize, printed: &mut String) {
    printed.push_str(&format!(
        "{start},{},{}",
        term.coefficient, term.monomial.component
    ));
    for exponent in &term.monomial.exponents[..n] {
        printed.push_str(&format!(",{exponent}"));
    }
    printed.push('\n');
}
