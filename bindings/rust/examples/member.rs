// SPDX-License-Identifier: MIT OR Apache-2.0
//! Asks of vectors whether they are in the module of a file's elements: the file is read once, then each vector divided. Prints what bindings/c/member.c
//! prints.
//!
//!     member FILE VECTOR..
//!
//! A VECTOR is a file of lines `V,coefficient,component,e1,..,en`, the greatest term first. Prints for each a C line for each term of the quotients, a W line
//! for each of the remainder, and `M,1` or `M,0`; for one that is refused its X line, whose place for 23 is the term.
//!
//! Exits with 0 if all are members, with 6 if one is none, with 1 if the file or a vector is refused, with 2 if it is used wrongly.

use std::fs;
use std::process::ExitCode;
use tagetessash::{Engine, Refusal, Term};

const REFUSED: u8 = 1;
const USED_WRONGLY: u8 = 2;
const NO_MEMBER: u8 = 6;

fn refused(name: &str, refusal: Refusal) -> u8 {
    println!("X,{},{}", refusal.number(), refusal.place());
    eprintln!("{name}: {refusal}");
    REFUSED
}

/// A V line with so many exponents.
fn term(line: &str, variables: usize) -> Option<Term> {
    let numbers: Option<Vec<u16>> = line
        .strip_prefix("V,")?
        .split(',')
        .map(|f| f.parse().ok())
        .collect();
    let numbers = numbers.filter(|numbers| numbers.len() == 2 + variables)?;
    let exponents: Result<Vec<u8>, _> = numbers[2..].iter().map(|e| u8::try_from(*e)).collect();
    Some(Term::new(numbers[0], numbers[1], &exponents.ok()?))
}

fn print_terms(letter: char, terms: &[Term], variables: usize) {
    for term in terms {
        let exponents: String = term.exponents[..variables]
            .iter()
            .map(|e| format!(",{e}"))
            .collect();
        println!(
            "{letter},{},{}{exponents}",
            term.coefficient, term.component
        );
    }
}

fn asked(engine: &Engine, name: &str) -> Result<u8, String> {
    let text = fs::read_to_string(name).map_err(|error| format!("{name}: {error}"))?;
    let lines = text.lines().enumerate();
    let vector: Result<Vec<Term>, String> = lines
        .map(|(i, line)| {
            term(line, engine.variables()).ok_or(format!("{name}: line {} is no V line", i + 1))
        })
        .collect();
    Ok(match engine.divide(&vector?) {
        Err(refusal) => refused(name, refusal),
        Ok(division) => {
            print_terms('C', &division.quotients, engine.variables());
            print_terms('W', &division.remainder, engine.variables());
            println!("M,{}", u8::from(division.is_member()));
            if division.is_member() {
                0
            } else {
                NO_MEMBER
            }
        }
    })
}

fn run(names: &[String]) -> Result<u8, String> {
    let [file, vectors @ ..] = names else {
        return Err("member FILE VECTOR..".to_string());
    };
    if vectors.is_empty() {
        return Err("member FILE VECTOR..".to_string());
    }
    let mut engine = Engine::new();
    if let Err(refusal) = engine.read(&fs::read(file).map_err(|error| format!("{file}: {error}"))?)
    {
        return Ok(refused(file, refusal));
    }
    let mut ended = 0;
    for name in vectors {
        match asked(&engine, name)? {
            0 => {}
            NO_MEMBER if ended == REFUSED => {}
            status => ended = status,
        }
    }
    Ok(ended)
}

fn main() -> ExitCode {
    let names: Vec<String> = std::env::args().skip(1).collect();
    ExitCode::from(run(&names).unwrap_or_else(|error| {
        eprintln!("{error}");
        USED_WRONGLY
    }))
}
