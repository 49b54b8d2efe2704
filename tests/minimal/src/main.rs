// SPDX-License-Identifier: MIT OR Apache-2.0
//! Minimal Betti numbers against the unrelated implementation, byte for byte: the proved call on generated and damaged files, the files of examples/, the
//! instances and files about the longest; and the program that people run, on all but the generated and damaged ones and on one in ten of these. Beside them
//! the Betti page, of one in ten by program too; the same module with more elements; files with a G line without it.
//!
//!     test-minimal [FILES [SEED]]      at least so many files (10,000 without it)
//!     test-minimal spoil [program] first|last|middle|shorter|longer|line
//!     test-minimal spoil number|behind|state|work|label|above|rank|more|[program] refused|without|program page
//!                                      spoils one answer of a call or of a program: the run must find it and exit with 1
//!
//! The programs are target/bin/minimal and betti_numbers, or what the environment variables MINIMAL and BETTI say.

mod compare;

use common::arguments::{asked, words};
use common::examples::{examples, files_of};
use common::files::{damage_some, random_problem, random_size, with_some_weights};
use common::printing::{spoils, Files, BUDGET, EXAMPLE_BUDGET, LONG_BUDGET};
use common::program::By;
use common::report::counts;
use common::series::{
    at_the_limits, every_change, every_change_of, every_place, variables_and_one, SMALL,
};
use compare::{Compare, SPOILS};
use reference::generate::pages::{graded_file, multiples_of_one, page_file, stopped_file};
use reference::generate::problems::{problem_file, random_basis};
use reference::generate::redundant::{minimal_file, redundant_file};
use reference::generate::weight_lines::with_random_weights;
use reference::random::Random;
use std::path::Path;

const FILES: u64 = 10_000;
const SEED: u64 = 20_260_701;

/// x·e_1 + e_2 and y·e_2, the components of degrees 0 and 1, and the first of them again: constants in two columns.
const CONSTANTS: &str = "R,3,2,2,2\nD,0,1\nG,1,0,0,15\nT,1,1,1,1,0\nT,1,1,2,0,0\nT,2,2,2,0,1\nT,3,2,1,1,0\nT,3,2,2,0,0\nE,5\n";

fn main() {
    let (mut wanted, seed, spoil) = asked(&words(), "files", (FILES, SEED), &spoils(&SPOILS));
    let mut compare = Compare::new(seed, spoil);
    let mut random = Random::new(seed);
    if spoil.is_some() {
        wanted = 400;
    } else {
        instances(&mut compare);
        printed(&mut compare);
        every_change(&mut compare, 61, 37);
        every_change_of(SMALL, &mut compare, 17, 19);
        every_change_of(CONSTANTS, &mut compare, 7, 7);
        for (_, file) in examples() {
            compare.file_by(&file, EXAMPLE_BUDGET, By::Pipe(1_000));
            let weights = with_random_weights(&mut random, &file);
            compare.file_by(&weights, EXAMPLE_BUDGET, By::File);
        }
        large_matrices(&mut compare, &mut random);
        at_the_limits(&mut compare, &mut random, stopped_file);
        // 17
        every_place(&mut compare, &mut random, multiples_of_one);
    }
    let systematic = compare.printing.files;
    while compare.printing.files < wanted {
        random_file(&mut compare, &mut random);
    }
    report(&compare, systematic, seed);
    if wanted >= FILES / 2 {
        enough(&compare);
    }
}

fn report(compare: &Compare, systematic: u64, seed: u64) {
    let printing = &compare.printing;
    printing.report("minimal", systematic, seed);
    println!(
        "  pages: {} with a D line, {} with a G line, {} with a number below the Betti page's, {} of dashes alone, the longest of {} lines; \
         the last column in use: {}",
        printing.with_degrees,
        printing.with_weights,
        compare.less,
        compare.dashes,
        compare.longest,
        counts(&compare.columns).join(", ")
    );
    println!(
        "  ranks: by the column that is entered: {}; in two columns {}, in three {}, in two degrees {}; modulo 2 or 3 {}, of several components {}, \
         {} of these with one that enters column 0; the largest {}",
        counts(&compare.entered).join(", "),
        compare.two_columns,
        compare.three_columns,
        compare.two_degrees,
        compare.small_primes,
        compare.modules,
        compare.generators,
        compare.largest
    );
    println!(
        "  {} files have the same numbers with more elements, {} print the same without the G line, {} refused ones are refused alike on the Betti page; \
         {} of {} of its pages also by program; 17 at {} places; 13 to 15 at (number, level): {:?}",
        compare.more,
        printing.without,
        compare.refused,
        compare.betti.runs,
        compare.betti.files,
        printing.places(17).len(),
        printing.stops()
    );
}

/// A run in which something hardly comes tests too little.
fn enough(compare: &Compare) {
    let printing = &compare.printing;
    printing.enough(&[17], &[20, 25]);
    compare.betti.enough();
    assert!((1..=64).all(|place| printing.places(17).contains(&place)));
    assert!(printing.with_degrees >= 500 && printing.with_weights >= 500);
    assert!(compare.less >= printing.met[0] / 2 && compare.dashes >= 100);
    assert!(compare.two_columns >= 500 && compare.three_columns >= 150);
    assert!(compare.two_degrees >= 500 && compare.small_primes >= 500);
    assert!(compare.modules >= 500 && compare.generators >= 300);
    assert!(compare.entered[..5].iter().all(|count| *count >= 20));
    assert!(compare.entered[5..9].iter().all(|count| *count >= 1));
    assert!(compare.largest >= 63 && compare.longest > 2_294);
    assert!(compare.columns[..9].iter().all(|count| *count >= 3));
    assert!(compare.more >= 300 && printing.without >= 150 && compare.refused >= 500);
}

const ALL: [By; 3] = [By::File, By::Pipe(1), By::Pipe(65_536)];

/// The instances of document 01 and its requests; some have their pages beside them, written by hand.
fn instances(compare: &mut Compare) {
    let folder = Path::new(env!("CARGO_MANIFEST_DIR")).join("../sheet/instances");
    let mut kept = 0;
    for (name, file) in files_of(&folder) {
        compare.file_by(&file, BUDGET, By::File);
        if let Ok(page) = std::fs::read(folder.join(format!("{name}.minimal"))) {
            for by in ALL {
                compare.expect(&file, &page, by);
            }
            kept += 1;
        }
    }
    assert_eq!(
        kept, 4,
        "03-equal, 05-minimal and request A7's own have pages"
    );
}

/// The Specification's example over many fields, written out; what everybody knows.
fn printed(compare: &mut Compare) {
    let page = concat!(
        "   -1:     -     -     -     -     -     -     -     -     -     -     -\n",
        "    0:     1     2     1     -     -     -     -     -     -     -     -\n",
        " total     1     2     1     -     -     -     -     -     -     -     -\n"
    );
    for p in [2, 3, 5, 7, 101, 32_003, 32_749, 65_519, 65_521] {
        for order in 1..=3 {
            let head = format!("R,{p},2,{order},1\n");
            let rest = "T,1,1,1,1,0\nT,2,1,1,1,0\nT,3,1,1,0,1\nE,3\n";
            for middle in ["", "D,0\n", "G,1,0,0,1\n", "D,0\nG,15,15,0,0\n"] {
                let file = format!("{head}{middle}{rest}");
                compare.expect(file.as_bytes(), page.as_bytes(), By::File);
            }
        }
    }
    // nine columns, and nothing is left
    let page = concat!(
        "   -1:     -     -     -     -     -     -     -     -     -     -     -\n",
        "    0:     -     -     -     -     -     -     -     -     -     -     -\n",
        " total     -     -     -     -     -     -     -     -     -     -     -\n"
    );
    let nine = variables_and_one();
    // the eight alone are resolved minimally
    let koszul = concat!(
        "    0:     1     8    28    56    70    56    28     8     1     -     -\n",
        " total     1     8    28    56    70    56    28     8     1     -     -\n"
    );
    let eight: Vec<&str> = nine.lines().take(9).chain(["E,8"]).collect();
    let eight = eight.join("\n") + "\n";
    for by in ALL {
        compare.expect(nine.as_bytes(), page.as_bytes(), by);
        compare.expect(eight.as_bytes(), koszul.as_bytes(), by);
    }
    // the largest row, behind rows of dashes
    let (large, unit) = (",255".repeat(8), ",0".repeat(8));
    for order in 1..=3 {
        let file = format!(
            "R,7,8,{order},2\nD,255,0\nT,1,1,1{large}\nT,2,1,2{unit}\nT,3,1,2{unit}\nE,3\n"
        );
        compare.file_by(file.as_bytes(), BUDGET, By::File);
    }
}

/// Matrices about the largest: of 64 elements in 16 components; of 63 vectors over 64 elements; of linear forms that depend on each other; and products of
/// variables in front of the variables.
fn large_matrices(compare: &mut Compare, random: &mut Random) {
    for p in [2, 3, 7, 65_521] {
        for order in 1..=3 {
            // a T line for each component or variable that has a coefficient, the greatest first
            let dense = |random: &mut Random, alone: Option<usize>, of: usize| -> Vec<u64> {
                let coefficients = (0..of).map(|at| match alone {
                    Some(one) => u64::from(at == one),
                    None => random.below(p),
                });
                let mut coefficients: Vec<u64> = coefficients.collect();
                if coefficients.iter().all(|coefficient| *coefficient == 0) {
                    coefficients[0] = 1;
                }
                coefficients
            };
            for forms in [false, true] {
                let of = if forms { 8 } else { 16 };
                let mut rows: Vec<Vec<u64>> = (0..64)
                    .map(|row| dense(random, (row < of).then_some(row), of))
                    .collect();
                random.shuffle(&mut rows);
                let (n, s) = if forms { (8, 1) } else { (1, 16) };
                let mut file = format!("R,{p},{n},{order},{s}\n");
                let mut lines = 0;
                for (number, row) in (1..).zip(&rows) {
                    let places: Vec<usize> = match forms {
                        true => (0..of).collect(),
                        // at equal exponents the larger component is greater
                        false => (0..of).rev().collect(),
                    };
                    for at in places.into_iter().filter(|at| row[*at] > 0) {
                        let exponents: Vec<&str> =
                            (0..of).map(|x| if x == at { "1" } else { "0" }).collect();
                        let term = match forms {
                            true => format!("1,{}", exponents.join(",")),
                            false => format!("{},0", at + 1),
                        };
                        file.push_str(&format!("T,{number},{},{term}\n", row[at]));
                        lines += 1;
                    }
                }
                file.push_str(&format!("E,{lines}\n"));
                compare.file_by(file.as_bytes(), LONG_BUDGET, By::File);
            }
            let mut file = format!("R,{p},1,{order},1\n");
            for number in 1..=64 {
                let by = random.between(1, p - 1);
                file.push_str(&format!("T,{number},{by},1,1\n"));
            }
            file.push_str("E,64\n");
            compare.file_by(file.as_bytes(), LONG_BUDGET, By::File);
        }
    }
    for n in 2..=8 {
        for order in 1..=3 {
            let mut monomials = Vec::new();
            for x in 0..n {
                monomials.extend((x..n).map(|y| (x, y)));
            }
            random.shuffle(&mut monomials);
            monomials.truncate(random.between(n, 24) as usize);
            let mut file = format!("R,{},{n},{order},1\n", random.pick(&[2, 3, 101]));
            let mut number = 0;
            let mut line = |exponent: &dyn Fn(u64) -> u64| {
                number += 1;
                let exponents: Vec<String> = (0..n).map(|x| exponent(x).to_string()).collect();
                file.push_str(&format!("T,{number},1,1,{}\n", exponents.join(",")));
            };
            for (x, y) in &monomials {
                line(&|z| u64::from(z == *x) + u64::from(z == *y));
            }
            for x in 0..n {
                line(&|z| u64::from(z == x));
            }
            file.push_str(&format!("E,{number}\n"));
            compare.file_by(file.as_bytes(), LONG_BUDGET, By::File);
        }
    }
}

fn random_file(compare: &mut Compare, random: &mut Random) {
    let size = random_size(random, 8);
    let mut file = match random.below(20) {
        0 => problem_file(&random_problem(random)),
        1 => problem_file(&random_basis(random, &size)),
        2 => graded_file(random),
        3 => page_file(random),
        4..=10 => redundant_file(random),
        _ => minimal_file(random),
    };
    if random.chance(10) {
        with_some_weights(random, &mut file);
    }
    if random.chance(5) {
        damage_some(random, &mut file);
    }
    compare.file(&file, BUDGET);
}
