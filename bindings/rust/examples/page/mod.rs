// SPDX-License-Identifier: MIT OR Apache-2.0
//! What the examples that print a page of a problem file have alike.

use std::io::{stdout, Write};
use std::process::ExitCode;
use tagetessash::Refusal;

/// The program `NAME FILE`, which prints the file's page.
///
/// It exits with 0 if there is a page, with 1 if the file is refused (its X line is printed, and what it means on standard error), with 2 if used wrongly.
pub fn main(program: &str, page_of: fn(&[u8]) -> Vec<u8>) -> ExitCode {
    let mut arguments = std::env::args().skip(1);
    let (Some(name), None) = (arguments.next(), arguments.next()) else {
        eprintln!("{program} FILE");
        return ExitCode::from(2);
    };
    let file = match std::fs::read(&name) {
        Ok(file) => file,
        Err(error) => {
            eprintln!("{name}: {error}");
            return ExitCode::from(2);
        }
    };
    let page = page_of(&file);
    if let Err(error) = stdout().write_all(&page) {
        eprintln!("{program}: {error}");
        return ExitCode::from(2);
    }
    match Refusal::printed(&page) {
        Some(refusal) => {
            eprintln!("{program}: {refusal}");
            ExitCode::from(1)
        }
        None => ExitCode::SUCCESS,
    }
}
