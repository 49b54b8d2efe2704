// SPDX-License-Identifier: MIT OR Apache-2.0
//! A plain Rust reader: the same tests in the same order, the same words, no allocation.

use bench_common::plain::{compare, degree, is_prime, Term};
use common::buffers::{carried, count, rows, COMPONENTS, DEGREES, HEAD, ROW, STATE};
use std::cmp::Ordering;

const COUNT: usize = count(0);
const ROWS: usize = rows(0);
const CARRIED: usize = carried(0);

/// The numbers of a line, zeros behind them.
type Numbers = [u16; COMPONENTS];

struct Parameters {
    p: u16,
    n: u16,
    code: u16,
    s: u16,
}

/// Reads a file into the state: number and place.
pub fn read(file: &[u8], state: &mut [u16]) -> (u16, usize) {
    if state.len() < STATE {
        return (16, 0);
    }
    state.fill(0);
    match read_lines(file, state) {
        Ok(()) => (0, 0),
        Err(refusal) => {
            state.fill(0);
            refusal
        }
    }
}

fn read_lines(file: &[u8], state: &mut [u16]) -> Result<(), (u16, usize)> {
    if file.len() > 65_536 {
        return Err((1, 0));
    }
    let (first, mut rest) = line(file, b'R', 4).ok_or((1, 1))?;
    let q = parameters(&first).map_err(|number| (number, 1))?;
    state[..HEAD].copy_from_slice(&[q.p, q.n, q.code, q.s, 1]);
    let mut first = 2;
    if let Some((degrees, behind)) = line(rest, b'D', q.s as usize) {
        if degrees.iter().any(|d| *d > 255) {
            return Err((18, 2));
        }
        state[DEGREES..][..COMPONENTS].copy_from_slice(&degrees);
        rest = behind;
        first += 1;
    }
    // no state holds weights
    if let Some((weights, behind)) = line(rest, b'G', 2 * q.n as usize) {
        if weights.iter().any(|w| *w > 15) {
            return Err((24, first));
        }
        rest = behind;
        first += 1;
    }
    let mut before = Term::default();
    let mut elements = 0;
    for count in 0.. {
        let place = count + first;
        match rest.first() {
            Some(b'T') => {
                let (numbers, behind) = line(rest, b'T', 3 + q.n as usize).ok_or((1, place))?;
                let term = term(&q, count, elements, before, &numbers).map_err(|n| (n, place))?;
                if elements != numbers[0] {
                    elements = numbers[0];
                    let component = state[DEGREES + term.component as usize - 1];
                    state[CARRIED + elements as usize - 1] =
                        degree(term.exponents) as u16 + component;
                }
                state[ROWS + ROW * count..][..ROW].copy_from_slice(&term.row());
                state[COUNT + elements as usize] = count as u16 + 1;
                state[COUNT] = elements;
                before = term;
                rest = behind;
            }
            Some(b'E') => {
                let (numbers, behind) = line(rest, b'E', 1).ok_or((1, place))?;
                if numbers[0] == 0 || numbers[0] as usize != count {
                    return Err((7, place));
                }
                if !behind.is_empty() {
                    return Err((1, place + 1));
                }
                return Ok(());
            }
            _ => return Err((1, place)),
        }
    }
    unreachable!()
}

/// The numbers of the first line and what stands behind it, if it has the shape.
fn line(file: &[u8], letter: u8, count: usize) -> Option<(Numbers, &[u8])> {
    let (&first, mut rest) = file.split_first()?;
    if first != letter {
        return None;
    }
    let mut numbers = [0; COMPONENTS];
    for number in &mut numbers[..count] {
        rest = rest.strip_prefix(b",")?;
        (*number, rest) = field(rest)?;
    }
    Some((numbers, rest.strip_prefix(b"\n")?))
}

/// A number from 0 to 65,535 without sign or leading zero, and what stands behind it.
fn field(bytes: &[u8]) -> Option<(u16, &[u8])> {
    let mut value: u32 = 0;
    let mut length = 0;
    for byte in bytes {
        if !byte.is_ascii_digit() {
            break;
        }
        value = value * 10 + u32::from(byte - b'0');
        length += 1;
        if value > 65_535 {
            return None;
        }
    }
    if length == 0 || (length > 1 && bytes[0] == b'0') {
        return None;
    }
    Some((value as u16, &bytes[length..]))
}

fn parameters(v: &Numbers) -> Result<Parameters, u16> {
    let &[p, n, code, s, ..] = v;
    if !is_prime(p) {
        return Err(2);
    }
    if !(1..=8).contains(&n) || !(1..=3).contains(&code) || !(1..=16).contains(&s) {
        return Err(3);
    }
    Ok(Parameters { p, n, code, s })
}

/// The term of a T line, or the number of its refusal.
fn term(
    q: &Parameters,
    count: usize,
    elements: u16,
    before: Term,
    numbers: &Numbers,
) -> Result<Term, u16> {
    let &[element, coefficient, component, x1, x2, x3, x4, x5, x6, x7, x8, ..] = numbers;
    let exponents = [x1, x2, x3, x4, x5, x6, x7, x8];
    let next = element == elements + 1;
    if count >= 2_048 {
        return Err(8);
    }
    if !(next || (element == elements && elements > 0)) || element > 64 {
        return Err(5);
    }
    if !(1..q.p).contains(&coefficient)
        || !(1..=q.s).contains(&component)
        || exponents.iter().any(|e| *e > 255)
    {
        return Err(4);
    }
    let term = Term {
        exponents: u64::from_be_bytes(exponents.map(|e| e as u8)),
        component,
        coefficient,
    };
    if !next
        && compare(q.code, before.exponents, term.exponents).then(before.component.cmp(&component))
            != Ordering::Greater
    {
        return Err(6);
    }
    Ok(term)
}
