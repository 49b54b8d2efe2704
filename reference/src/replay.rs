// SPDX-License-Identifier: MIT OR Apache-2.0
//! Replaying picks that were recorded elsewhere (request A9).

use crate::behind::{bytes_that_matter, split, LinesBehind};
use crate::engine::State;
use crate::lifting::{Lifter, Stop, Usage, Way, WorkingValue};
use crate::limits::Limits;
use crate::monomial::{Monomial, Term};
use crate::reader::{padded, read_problem, Refusal};
use crate::sheet::{answered, line, refused};

/// "`P,e1,..,en,component`, a line each, up to 4,096". It is no limit that a test can make smaller.
pub const MOST_PICKS: u64 = 4_096;

/// The bytes that are printed of a problem file with an L line and P lines behind it, or `None` when
/// the budget of products is used up; and what the runs took.
pub fn replay(limits: &Limits, input: &[u8], budget: Option<u64>) -> (Option<Vec<u8>>, Usage) {
    let mut usage = Usage::default();
    let printed = print(limits, input, budget, &mut usage);
    (printed.map(String::into_bytes), usage)
}

/// The part of an input that can matter: 294,927 bytes by the limits of document 01. What is printed
/// is the same with all of it.
pub fn cut<'a>(limits: &Limits, input: &'a [u8]) -> &'a [u8] {
    let lines = [(1, 2), (MOST_PICKS, limits.variables + 1)];
    let most = bytes_that_matter(limits, &lines);
    &input[..input.len().min(most)]
}

fn x_line(number: u64, place: u64) -> String {
    format!("X,{number},{place}\n")
}

fn print(limits: &Limits, input: &[u8], budget: Option<u64>, usage: &mut Usage) -> Option<String> {
    let mut printed = String::new();
    let (file, _) = split(input);
    let mut state = State::new();
    let answer = answered(state.read(limits, file, budget), usage)?;
    let n = read_problem(limits, file).map_or(0, |problem| problem.parameters.n as usize);
    if answer.number != 0 {
        refused(&answer, n, &mut printed);
        return Some(printed);
    }
    // "21 when L is absent or a line after E, L first and then P, lacks its shape"
    let mut lines = LinesBehind::new(limits, input);
    let l_line = lines.next_number;
    let first = lines.next();
    let Some(&[level, vector]) = first.as_ref().and_then(|line| line.numbers(b'L', 2)) else {
        return Some(x_line(21, l_line));
    };
    // "a level outside 1..9 before any lifting"
    if !(1..=limits.levels).contains(&level) {
        return Some(x_line(12, l_line));
    }
    // "Levels below, empty ones too, are lifted as for the sheet"
    for k in 1..level {
        let left = budget.map(|budget| budget - usage.products);
        let answer = answered(state.lift(limits, k, Way::Hybrid(2), 0, left), usage)?;
        if answer.number != 0 {
            refused(&answer, n, &mut printed);
            return Some(printed);
        }
    }
    let basis = state.basis.expect("it is accepted");
    let left = budget.map(|budget| budget - usage.products);
    let mut lifter = Lifter::new(limits, &basis.parameters, &basis.levels, left);
    let replayed = replay_vector(&mut lifter, &mut lines, n, l_line, vector);
    *usage = usage.and(&lifter.usage);
    match replayed {
        Ok(terms) => {
            for term in &terms {
                line(&format!("S,{level},{vector}"), term, n, &mut printed);
            }
            Some(printed)
        }
        Err(Why::Line(Refusal { number, place })) => Some(x_line(number, place)),
        Err(Why::Run(Stop::Refused(number))) => Some(x_line(number, level)),
        Err(Why::Run(Stop::GaveUp)) => None,
        Err(Why::Run(Stop::NoReducer(_))) => unreachable!("terms without a reducer are dropped"),
    }
}

/// Why a log is not taken.
enum Why {
    /// what a line says, or that there is none
    Line(Refusal),
    /// what the run met
    Run(Stop),
}

/// The vector of the frame term with this number, by the picks of the lines that are left.
fn replay_vector(
    lifter: &mut Lifter,
    lines: &mut LinesBehind,
    n: usize,
    l_line: u64,
    vector: u64,
) -> Result<Vec<Term>, Why> {
    let frame = lifter.frame().map_err(Why::Run)?;
    // "12's place being the L line"
    let frame_term = vector
        .checked_sub(1)
        .and_then(|before| frame.get(before as usize))
        .ok_or(Why::Line(Refusal {
            number: 12,
            place: l_line,
        }))?;
    let mut picks = 0;
    let mut wrong = None;
    let replayed = lifter.hybrid(frame_term, |working| {
        match next_pick(lines, n, &mut picks, working) {
            Ok(pick) => pick,
            Err(refusal) => {
                wrong = Some(refusal);
                None
            }
        }
    });
    match (replayed, wrong) {
        (Err(stop), _) => Err(Why::Run(stop)),
        (Ok(_), Some(refusal)) => Err(Why::Line(refusal)),
        (Ok(terms), None) => Ok(terms),
    }
}

/// The term that the next line picks; `None` at the end of the lines, where the value has to be zero.
fn next_pick(
    lines: &mut LinesBehind,
    n: usize,
    picks: &mut u64,
    working: &WorkingValue,
) -> Result<Option<Term>, Refusal> {
    let place = lines.next_number;
    let refusal = |number| Refusal { number, place };
    let Some(line) = lines.next() else {
        // "22 when .. lines end before zero": the absent line
        return match working.is_empty() {
            true => Ok(None),
            false => Err(refusal(22)),
        };
    };
    // "Lines are tested in turn .., 21 first on each"
    *picks += 1;
    let numbers = line
        .numbers(b'P', n as u64 + 1)
        .filter(|_| *picks <= MOST_PICKS)
        .ok_or(refusal(21))?;
    let monomial = Monomial {
        component: numbers[n],
        exponents: padded(&numbers[..n]),
    };
    // "22 when a pick is not in the working value .. or [lines] go on after" zero
    working.find(&monomial).map(Some).ok_or(refusal(22))
}
