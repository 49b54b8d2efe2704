// SPDX-License-Identifier: MIT OR Apache-2.0
//! The problem file.

use crate::field::is_prime;
use crate::limits::{Limits, MOST_DEGREE, MOST_WEIGHT};
use crate::monomial::{Level, Monomial, Parameters, Term, Weights, PLAIN_WEIGHTS, UNIT};
use crate::order::{Modules, Order};
use std::cmp::Ordering;

/// A refusal: its number and its place.
#[derive(Clone, Copy, Debug, PartialEq, Eq)]
pub struct Refusal {
    /// the number of document 01's tables
    pub number: u64,
    /// the line, or what else the refusal names
    pub place: u64,
}

/// What a file that is not refused says.
#[derive(Clone, Debug, PartialEq, Eq)]
pub struct Problem {
    /// the numbers of the R line
    pub parameters: Parameters,
    /// the degrees of components 1 to s, those of the D line; "files without D keep zeros"
    pub degrees: Vec<u64>,
    /// the weights of variables 1 to n, those of the G line; "without G the weights are 1 and 0"
    pub weights: Vec<Weights>,
    /// the elements of the T lines
    pub elements: Level,
}

impl Problem {
    /// That of a file without D and G lines.
    pub fn new(parameters: Parameters, elements: Level) -> Problem {
        Problem {
            parameters,
            degrees: vec![0; parameters.s as usize],
            weights: vec![PLAIN_WEIGHTS; parameters.n as usize],
            elements,
        }
    }

    /// That of a file with a D line and without a G line.
    pub fn with_degrees(parameters: Parameters, degrees: Vec<u64>, elements: Level) -> Problem {
        Problem {
            degrees,
            ..Problem::new(parameters, elements)
        }
    }
}

/// Reads a file; a refusal has a number from 1 to 8, 18 or 24, and the line as its place.
pub fn read_problem(limits: &Limits, file: &[u8]) -> Result<Problem, Refusal> {
    // "file too long (line 0, tested first)"
    if file.len() as u64 > limits.file {
        return Err(Refusal {
            number: 1,
            place: 0,
        });
    }
    let mut lines = Lines {
        limits,
        rest: file,
        number: 0,
    };
    let parameters = read_parameters(limits, &lines.next()?)?;
    let mut problem = Problem::new(parameters, Level::new());
    let mut t_lines = 0;
    // "G .. may stand after R or, where there is one, D": the one line that may be it
    let mut weights_line = 2;
    loop {
        let line = lines.next()?;
        match line.letter {
            // "Line 2 is a D line only if it has D's shape: the letter and exactly s numbers"
            b'D' if line.number == 2 && line.numbers.len() as u64 == parameters.s => {
                problem.degrees = read_degrees(line)?;
                weights_line = 3;
            }
            // "a G line only if it has G's shape: the letter and exactly 2n numbers"
            b'G' if line.number == weights_line
                && line.numbers.len() as u64 == 2 * parameters.n =>
            {
                problem.weights = read_weights(&line)?;
            }
            b'T' => {
                t_lines += 1;
                read_term(limits, &parameters, &mut problem.elements, t_lines, &line)?;
            }
            b'E' => {
                read_end(t_lines, &line)?;
                break;
            }
            // "One that has not, a second D or G line, D after G, and either after a T line are
            // what any line is that is neither T nor E: 1."
            _ => return Err(line.refused(1)),
        }
    }
    // "line .. after E"
    if !lines.rest.is_empty() {
        return Err(lines.missing());
    }
    Ok(problem)
}

/// `R,p,n,order,s`: "the order is 1, then 2, 3 for R".
fn read_parameters(limits: &Limits, line: &Line) -> Result<Parameters, Refusal> {
    let (b'R', &[p, n, order, s]) = (line.letter, line.numbers.as_slice()) else {
        return Err(line.refused(1));
    };
    // "p not prime or out of range"
    if p > limits.prime_bound || !is_prime(p) {
        return Err(line.refused(2));
    }
    // "n, order or s out of range"
    let in_range = (1..=limits.variables).contains(&n)
        && Order::from_code(order).is_some()
        && (1..=limits.components).contains(&s);
    if !in_range {
        return Err(line.refused(3));
    }
    Ok(Parameters { p, n, order, s })
}

/// `D,d1,..,ds`: "18 when a component's degree is above 255, tested after the line's shape".
fn read_degrees(line: Line) -> Result<Vec<u64>, Refusal> {
    if line.numbers.iter().any(|degree| *degree > MOST_DEGREE) {
        return Err(line.refused(18));
    }
    Ok(line.numbers)
}

/// `G,a1,b1,..,an,bn`: "24 when a weight is above 15, after its line's shape".
fn read_weights(line: &Line) -> Result<Vec<Weights>, Refusal> {
    if line.numbers.iter().any(|weight| *weight > MOST_WEIGHT) {
        return Err(line.refused(24));
    }
    Ok(line.numbers.chunks(2).map(|ab| [ab[0], ab[1]]).collect())
}

/// `T,element,coefficient,component,e1,..,en`: "1, 8, 5, 4, 6 for T".
fn read_term(
    limits: &Limits,
    parameters: &Parameters,
    elements: &mut Level,
    t_lines: u64,
    line: &Line,
) -> Result<(), Refusal> {
    if line.numbers.len() as u64 != 3 + parameters.n {
        return Err(line.refused(1));
    }
    // "a 2,049th T line"
    if t_lines > limits.t_lines {
        return Err(line.refused(8));
    }
    // "element number out of sequence or above 64"
    let element = line.numbers[0];
    let so_far = elements.len() as u64;
    let in_sequence = element == so_far + 1 || (element == so_far && so_far > 0);
    if !in_sequence || element > limits.elements {
        return Err(line.refused(5));
    }
    let term = Term {
        coefficient: line.numbers[1],
        monomial: Monomial {
            component: line.numbers[2],
            exponents: padded(&line.numbers[3..]),
        },
    };
    // "coefficient 0 or ≥ p, component outside 1..s, exponent above 255"
    let in_range = (1..parameters.p).contains(&term.coefficient)
        && (1..=parameters.s).contains(&term.monomial.component)
        && term
            .monomial
            .exponents
            .iter()
            .all(|e| *e <= limits.exponent);
    if !in_range {
        return Err(line.refused(4));
    }
    if element == so_far + 1 {
        elements.push(vec![term]);
        return Ok(());
    }
    // "term not below the one before it in its element"
    let own = elements.last_mut().expect("there is an element so far");
    let before = own.last().expect("no element is empty");
    let file = Modules::new(parameters.file_order(), &[]);
    if file.compare(0, &term.monomial, &before.monomial) != Ordering::Less {
        return Err(line.refused(6));
    }
    own.push(term);
    Ok(())
}

/// `E,count of T lines`: "1, 7 for E".
fn read_end(t_lines: u64, line: &Line) -> Result<(), Refusal> {
    let &[count] = line.numbers.as_slice() else {
        return Err(line.refused(1));
    };
    // "E's count is 0 or not the number of T lines"
    if count == 0 || count != t_lines {
        return Err(line.refused(7));
    }
    Ok(())
}

pub(crate) fn padded(numbers: &[u64]) -> [u64; 8] {
    let mut exponents = UNIT;
    exponents[..numbers.len()].copy_from_slice(numbers);
    exponents
}

/// A line whose fields have the right form.
struct Line {
    number: u64,
    letter: u8,
    numbers: Vec<u64>,
}

impl Line {
    fn refused(&self, number: u64) -> Refusal {
        Refusal {
            number,
            place: self.number,
        }
    }
}

/// The lines of a file that are still to be read.
struct Lines<'a> {
    limits: &'a Limits,
    rest: &'a [u8],
    /// the number of the line read last
    number: u64,
}

impl Lines<'_> {
    /// Refusal 1 at the next line: "an absent line has the next number".
    fn missing(&self) -> Refusal {
        Refusal {
            number: 1,
            place: self.number + 1,
        }
    }

    /// The next line. "Each line ends in byte 10": one without it has the wrong shape.
    fn next(&mut self) -> Result<Line, Refusal> {
        let end = self
            .rest
            .iter()
            .position(|byte| *byte == 10)
            .ok_or_else(|| self.missing())?;
        let (letter, numbers) =
            fields(self.limits, &self.rest[..end]).ok_or_else(|| self.missing())?;
        self.rest = &self.rest[end + 1..];
        self.number += 1;
        Ok(Line {
            number: self.number,
            letter,
            numbers,
        })
    }
}

/// "Fields are parted by commas, without quoting or blanks." The first is a letter.
pub(crate) fn fields(limits: &Limits, line: &[u8]) -> Option<(u8, Vec<u64>)> {
    let mut fields = line.split(|byte| *byte == b',');
    let &[letter] = fields.next()? else {
        return None;
    };
    let numbers = fields
        .map(|field| number(limits, field))
        .collect::<Option<Vec<u64>>>()?;
    Some((letter, numbers))
}

/// "A field after the letter is a number from 0 to 65,535 without sign or leading zero."
fn number(limits: &Limits, field: &[u8]) -> Option<u64> {
    if field.is_empty() || (field.len() > 1 && field[0] == b'0') {
        return None;
    }
    let mut value: u64 = 0;
    for byte in field {
        if !byte.is_ascii_digit() {
            return None;
        }
        value = value * 10 + u64::from(byte - b'0');
        if value > limits.field {
            return None;
        }
    }
    Some(value)
}
