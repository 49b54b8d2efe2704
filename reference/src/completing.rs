// SPDX-License-Identifier: MIT OR Apache-2.0
//! Completing a basis (request A6): what refusal 9 shows is added until the file is accepted.

use crate::engine::State;
use crate::field::Field;
use crate::lifting::Usage;
use crate::limits::Limits;
use crate::monomial::{leading_coefficient, Parameters, Term, Vector};
use crate::reader::{read_problem, Refusal};
use crate::sheet::{answered, refused};

/// The bytes that are printed of a file: the completed file, or the X line of a refusal. `None` when
/// the budget of products (for all that is tried together) is used up; and what the runs took.
pub fn complete(limits: &Limits, file: &[u8], budget: Option<u64>) -> (Option<Vec<u8>>, Usage) {
    let mut usage = Usage::default();
    let printed = print(limits, file, budget, &mut usage);
    (printed, usage)
}

fn print(limits: &Limits, file: &[u8], budget: Option<u64>, usage: &mut Usage) -> Option<Vec<u8>> {
    let mut file = file.to_vec();
    loop {
        // "tries again until the file is accepted": each file is read like any other
        let left = budget.map(|budget| budget - usage.products);
        let answer = answered(State::new().read(limits, &file, left), usage)?;
        match answer.number {
            // "one accepted at once is printed unchanged"
            0 => return Some(file),
            9 => match with_value(limits, &file, &answer.vector) {
                Ok(longer) => file = longer,
                Err(Refusal { number, place }) => {
                    return Some(format!("X,{number},{place}\n").into_bytes())
                }
            },
            // "Limits 13 to 15 end the work as in acceptance."
            _ => {
                let mut printed = String::new();
                refused(&answer, 0, &mut printed);
                return Some(printed.into_bytes());
            }
        }
    }
}

/// The file with the value "made monic, as the last element". "At each addition are tested, in this
/// order: 19 when a 65th element would be added (place 65), 1 at line 0 for a result too long for a
/// problem file, 8 for a 2,049th T line."
fn with_value(limits: &Limits, file: &[u8], value: &[Term]) -> Result<Vec<u8>, Refusal> {
    let problem = read_problem(limits, file).expect("9 comes after reading");
    let number = problem.elements.len() as u64 + 1;
    if number > limits.elements {
        return Err(Refusal {
            number: 19,
            place: number,
        });
    }
    let element = monic(&problem.parameters, value);
    let longer = with_element(&problem.parameters, file, number, &element);
    if longer.len() as u64 > limits.file {
        return Err(Refusal {
            number: 1,
            place: 0,
        });
    }
    let begins_with = |letter: u8| move |line: &&[u8]| line[0] == letter;
    let lines = || longer.split_inclusive(|byte| *byte == 10);
    if lines().filter(begins_with(b'T')).count() as u64 > limits.t_lines {
        // the line that it would have: those before the first T line, and so many T lines
        let before = lines().take_while(|line| line[0] != b'T').count() as u64;
        return Err(Refusal {
            number: 8,
            place: before + limits.t_lines + 1,
        });
    }
    Ok(longer)
}

/// The value times the inverse of its leading coefficient.
fn monic(parameters: &Parameters, value: &[Term]) -> Vector {
    let field = Field::new(parameters.p);
    let by = field.inverse(leading_coefficient(value));
    let scaled = |term: &Term| Term {
        coefficient: field.multiply(by, term.coefficient),
        monomial: term.monomial,
    };
    value.iter().map(scaled).collect()
}

/// The file with an element more: "no line given before E is changed".
fn with_element(parameters: &Parameters, file: &[u8], number: u64, element: &[Term]) -> Vec<u8> {
    let mut longer = Vec::new();
    let mut t_lines = element.len();
    for line in file.split_inclusive(|byte| *byte == 10) {
        if line[0] != b'E' {
            longer.extend(line);
            t_lines += usize::from(line[0] == b'T');
        }
    }
    for term in element {
        let (coefficient, monomial) = (term.coefficient, &term.monomial);
        let mut line = format!("T,{number},{coefficient},{}", monomial.component);
        for exponent in &monomial.exponents[..parameters.n as usize] {
            line.push_str(&format!(",{exponent}"));
        }
        longer.extend(line.into_bytes());
        longer.push(10);
    }
    longer.extend(format!("E,{t_lines}\n").into_bytes());
    longer
}
