// SPDX-License-Identifier: MIT OR Apache-2.0
//! The Betti page against the unrelated implementation, byte for byte: the proved call on generated and damaged files, on the files of examples/, the request's
//! own and files about the longest; and the program that people run, on all but the generated and damaged ones and on one in ten of these.
//!
//!     test-betti [FILES [SEED]]      at least so many files (20,000 without it)
//!     test-betti spoil [program] first|last|middle|shorter|longer|line
//!     test-betti spoil number|behind|state|work
//!                                    spoils one answer of the call or of the program: the run must find it and exit with 1
//!
//! The program is target/bin/betti_numbers, or what the environment variable BETTI says.

mod compare;

use common::arguments::{asked, words};
use common::examples::examples;
use common::files::{damage_some, random_problem, random_size, with_some_weights};
use common::printing::{spoils, Files, BUDGET, EXAMPLE_BUDGET};
use common::program::By;
use common::report::counts;
use common::series::{at_the_limits, every_change, every_place, variables_and_one};
use compare::Compare;
use reference::generate::pages::{graded_file, multiples_of_one, page_file, stopped_file};
use reference::generate::problems::{problem_file, random_basis};
use reference::random::Random;

const FILES: u64 = 20_000;
const SEED: u64 = 20_260_801;

fn main() {
    let (mut wanted, seed, spoil) = asked(&words(), "files", (FILES, SEED), &spoils(&[]));
    let mut compare = Compare::new(seed, spoil);
    let mut random = Random::new(seed);
    if spoil.is_some() {
        wanted = 100;
    } else {
        printed(&mut compare);
        every_change(&mut compare, 29, 23);
        for (_, file) in examples() {
            // one that has elements of two degrees takes no product more than acceptance
            compare.file_by(&file, EXAMPLE_BUDGET, By::Pipe(1_000));
            compare.file_by(&file, EXAMPLE_BUDGET, By::File);
        }
        at_the_limits(&mut compare, &mut random, stopped_file);
        // 17
        every_place(&mut compare, &mut random, multiples_of_one);
    }
    let systematic = compare.printing.files;
    while compare.printing.files < wanted {
        random_file(&mut compare, &mut random);
    }

    let printing = &compare.printing;
    printing.report("betti", systematic, seed);
    println!(
        "  pages: {} with a D line, {} with a G line, {} with a negative row, {} with an empty row in the middle, the longest of {} lines; \
         the last column in use: {}",
        printing.with_degrees,
        printing.with_weights,
        compare.negative,
        compare.gaps,
        compare.longest,
        counts(&compare.columns).join(", ")
    );
    println!(
        "  17 at {} places; 13 to 15 at (number, level): {:?}",
        printing.places(17).len(),
        printing.stops()
    );
    if wanted < FILES / 4 {
        return;
    }
    printing.enough(&[17], &[20, 25]);
    assert!((1..=64).all(|place| printing.places(17).contains(&place)));
    assert!(compare.columns[1..10].iter().all(|count| *count >= 3));
    assert_eq!(compare.columns[10], 0, "level 9 is not empty");
    assert!(printing.with_degrees >= 1_000 && printing.with_weights >= 1_000);
    assert!(compare.negative >= 500 && compare.gaps >= 500);
    assert!(compare.longest > 2_294);
}

/// The request's example, written out; x1 to x8 and 1, which have nine columns behind column 0; the largest row.
fn printed(compare: &mut Compare) {
    let page = concat!(
        "    0:     1     -     -     -     -     -     -     -     -     -     -\n",
        "    1:     -     3     2     -     -     -     -     -     -     -     -\n",
        " total     1     3     2     -     -     -     -     -     -     -     -\n"
    );
    for p in [2, 3, 5, 7, 101, 32_003, 32_749, 65_519, 65_521] {
        for order in 1..=3 {
            let file = format!("R,{p},2,{order},1\nT,1,1,1,2,0\nT,2,1,1,1,1\nT,3,1,1,0,2\nE,3\n");
            for by in [By::File, By::Pipe(1), By::Pipe(65_536)] {
                compare.expect(file.as_bytes(), page.as_bytes(), by);
            }
        }
    }
    let page = concat!(
        "   -1:     -     1     8    28    56    70    56    28     8     1     -\n",
        "    0:     1     8    28    56    70    56    28     8     1     -     -\n",
        " total     1     9    36    84   126   126    84    36     9     1     -\n"
    );
    let file = variables_and_one();
    for by in [By::File, By::Pipe(7), By::Pipe(65_536)] {
        compare.expect(file.as_bytes(), page.as_bytes(), by);
    }
    let (large, unit) = (",255".repeat(8), ",0".repeat(8));
    for order in 1..=3 {
        let file = format!(
            "R,7,8,{order},2\nD,255,0\nT,1,1,1{large}\nT,2,1,2{unit}\nT,3,1,2{unit}\nE,3\n"
        );
        compare.file_by(file.as_bytes(), BUDGET, By::File);
    }
}

fn random_file(compare: &mut Compare, random: &mut Random) {
    let mut file = match random.below(20) {
        0 => problem_file(&random_problem(random)),
        1 => {
            let size = random_size(random, 8);
            problem_file(&random_basis(random, &size))
        }
        2 => graded_file(random),
        _ => page_file(random),
    };
    with_some_weights(random, &mut file);
    if random.chance(5) {
        damage_some(random, &mut file);
    }
    compare.file(&file, BUDGET);
}
