// SPDX-License-Identifier: MIT OR Apache-2.0
//! The Hilbert function against the unrelated implementation, byte for byte: the proved call on generated and damaged files, on the files of examples/, the
//! instances and files about the longest; and the program that people run, on all but the generated and damaged ones and on one in ten of these. Values also
//! against a count of monomials from the file's text alone, and files with a G line also without it.
//!
//!     test-hilbert [FILES [SEED]]      at least so many files (10,000 without it)
//!     test-hilbert spoil [program] first|last|middle|shorter|longer|line
//!     test-hilbert spoil number|behind|state|work|counted|without
//!                                      spoils one answer of the call or of the program: the run must find it and exit with 1
//!
//! The program is target/bin/hilbert, or what the environment variable HILBERT says.

mod compare;
mod count;

use common::arguments::{asked, words};
use common::examples::{examples, files_of};
use common::files::{damage_some, random_problem, random_size, with_some_weights};
use common::printing::{spoils, Files, BUDGET, EXAMPLE_BUDGET};
use common::program::By;
use common::report::counts;
use common::series::{
    at_the_limits, every_change, every_change_of, every_place, variables_and_one, SMALL,
};
use compare::{Compare, SPOILS};
use reference::generate::bigraded::bidegree_file;
use reference::generate::degree_lines::with_degrees;
use reference::generate::low::{hilbert_file, low_file};
use reference::generate::pages::{multiples_of_one, page_file, stopped_file};
use reference::generate::problems::{problem_file, random_basis, random_set};
use reference::generate::weight_lines::{
    random_weights, spoiled_weight_lines, variables_of, with_random_weights, without_weight_lines,
};
use reference::random::Random;
use std::path::Path;

const FILES: u64 = 10_000;
const SEED: u64 = 20_261_301;

fn main() {
    let (mut wanted, seed, spoil) = asked(&words(), "files", (FILES, SEED), &spoils(&SPOILS));
    let mut compare = Compare::new(seed, spoil);
    let mut random = Random::new(seed);
    if spoil.is_some() {
        wanted = 400;
    } else {
        instances(&mut compare);
        printed(&mut compare);
        every_change(&mut compare, 131, 41);
        every_change_of(SMALL, &mut compare, 11, 13);
        every_spoiled_line(&mut compare, &mut random);
        for (_, file) in examples() {
            compare.file_by(&file, EXAMPLE_BUDGET, By::Pipe(1_000));
            let weights = with_random_weights(&mut random, &file);
            compare.file_by(&weights, EXAMPLE_BUDGET, By::File);
        }
        at_the_limits(&mut compare, &mut random, stopped_file);
        // an element of two degrees, where the Betti page has 17
        every_place(&mut compare, &mut random, multiples_of_one);
    }
    let systematic = compare.printing.files;
    while compare.printing.files < wanted {
        random_file(&mut compare, &mut random);
    }
    report(&compare, systematic, seed);
    if wanted >= FILES / 2 {
        enough(&compare);
    }
}

fn report(compare: &Compare, systematic: u64, seed: u64) {
    let printing = &compare.printing;
    printing.report("hilbert", systematic, seed);
    println!(
        "  lines: {} files with a D line, {} with a G line, {} with an element of two degrees, {} with several components, {} with zeros alone, \
         {} with a last value above 0; by variables: {}; {} different lines, the longest of {} bytes",
        printing.with_degrees,
        printing.with_weights,
        compare.mixed,
        compare.modules,
        compare.nothing,
        compare.to_the_end,
        counts(&compare.variables).join(", "),
        compare.lines.len(),
        compare.longest
    );
    println!(
        "  counted from the text: the values of {} files, {} with an element of two degrees, {} with several components and a D line, {} up to degree 32; \
         {} files print the same without the G line; 13 to 15 at (number, level): {:?}",
        compare.counted,
        compare.counted_mixed,
        compare.counted_modules,
        compare.counted_whole,
        printing.without,
        printing.stops()
    );
}

/// A run in which something hardly comes tests too little.
fn enough(compare: &Compare) {
    let printing = &compare.printing;
    printing.enough(&[], &[17, 20, 25]);
    assert!(compare.variables[1..].iter().all(|count| *count >= 20));
    assert!(printing.with_degrees >= 1_000 && printing.with_weights >= 1_000);
    assert!(compare.mixed >= 1_000 && compare.modules >= 1_000);
    assert!(compare.nothing >= 100 && compare.to_the_end >= 1_000);
    assert!(compare.lines.len() >= 5_000 && compare.longest == "H,32,246094992".len());
    assert!(compare.counted >= 2_000 && compare.counted_mixed >= 1_000);
    assert!(compare.counted_modules >= 500 && compare.counted_whole >= 1_000);
    assert!(printing.without >= 300);
}

/// 33 lines with these values, the last of them repeated to the end.
fn lines(values: &[u64]) -> String {
    let last = values.last().expect("a value");
    (0..33)
        .map(|d| format!("H,{d},{}\n", values.get(d).unwrap_or(last)))
        .collect()
}

/// The instances of document 01 and its requests; some have their lines beside them, written by hand.
fn instances(compare: &mut Compare) {
    let folder = Path::new(env!("CARGO_MANIFEST_DIR")).join("../sheet/instances");
    let mut kept = 0;
    for (name, file) in files_of(&folder) {
        compare.file_by(&file, BUDGET, By::File);
        if let Ok(lines) = std::fs::read(folder.join(format!("{name}.hilbert"))) {
            for by in [By::File, By::Pipe(1), By::Pipe(65_536)] {
                compare.expect(&file, &lines, by);
            }
            kept += 1;
        }
    }
    assert_eq!(kept, 3, "01-printed and request A13's own have lines");
}

/// The request's own instance, 1, 1, then 0, over many fields; what one can count without a program.
fn printed(compare: &mut Compare) {
    const ALL: [By; 3] = [By::File, By::Pipe(1), By::Pipe(65_536)];
    for p in [2, 3, 5, 7, 101, 32_003, 32_749, 65_519, 65_521] {
        for order in 1..=3 {
            let head = format!("R,{p},2,{order},1\n");
            let rest = "T,1,1,1,1,0\nT,1,1,1,0,1\nT,2,1,1,0,2\nT,2,1,1,0,0\nE,4\n";
            for middle in ["", "D,0\n", "G,1,0,0,1\n", "D,0\nG,15,15,0,0\n"] {
                let file = format!("{head}{middle}{rest}");
                compare.expect(file.as_bytes(), lines(&[1, 1, 0]).as_bytes(), By::File);
            }
            // the component's degree moves them
            for own in [1, 2, 16, 31, 32, 33] {
                let mut values = vec![0; own];
                values.extend([1, 1, 0]);
                let file = format!("{head}D,{own}\n{rest}");
                compare.expect(file.as_bytes(), lines(&values).as_bytes(), By::File);
            }
        }
    }
    // all variables, and 1 beside them: nine columns behind column 0
    let nine = variables_and_one();
    let eight: Vec<&str> = nine.lines().take(9).chain(["E,8"]).collect();
    let eight = eight.join("\n") + "\n";
    for by in ALL {
        compare.expect(eight.as_bytes(), lines(&[1, 0]).as_bytes(), by);
        compare.expect(nine.as_bytes(), lines(&[0]).as_bytes(), by);
    }
    // powers of one variable
    for (power, first) in [(0, 0), (1, 1), (31, 31), (32, 32), (33, 33), (255, 33)] {
        let mut values = vec![1; first];
        values.push(0);
        let file = format!("R,7,1,2,1\nT,1,1,1,{power}\nE,1\n");
        compare.expect(file.as_bytes(), lines(&values).as_bytes(), By::File);
    }
    // the largest values: sixteen components, all monomials of each
    for order in 1..=3 {
        let large = ",255".repeat(8);
        let file = format!("R,7,8,{order},16\nT,1,1,16{large}\nE,1\n");
        let mut row = vec![1_u64];
        let mut values = Vec::new();
        for _ in 0..40 {
            let next = row.windows(2).map(|two| two[0] + two[1]);
            let next: Vec<u64> = [1].into_iter().chain(next).chain([1]).collect();
            // C(d + 7, 7) for d = 0 to 32
            values.extend(row.get(7).map(|entry| 16 * entry));
            row = next;
        }
        assert_eq!(values.len(), 33);
        compare.expect(file.as_bytes(), lines(&values).as_bytes(), By::File);
    }
}

/// Every way to spoil a G line, and every degree of a component, with one beside it.
fn every_spoiled_line(compare: &mut Compare, random: &mut Random) {
    let bare = without_weight_lines(SMALL.as_bytes());
    let weights = random_weights(random, variables_of(&bare));
    let lines = bare.iter().filter(|byte| **byte == 10).count();
    for spoiled in spoiled_weight_lines(lines, true, &weights, &[0, 1]) {
        compare.file(&spoiled.file(&bare), BUDGET);
    }
    for degree in 0..=256 {
        for degrees in [[degree, 2], [2, degree]] {
            compare.file(&with_degrees(&bare, &degrees), BUDGET);
        }
    }
}

fn random_file(compare: &mut Compare, random: &mut Random) {
    let size = random_size(random, 8);
    let mut file = match random.below(20) {
        0 => problem_file(&random_problem(random)),
        1 => problem_file(&random_basis(random, &size)),
        2 => problem_file(&random_set(random, &size)),
        3 => page_file(random),
        4 => bidegree_file(random),
        5..=9 => low_file(random),
        _ => hilbert_file(random),
    };
    if random.chance(10) {
        with_some_weights(random, &mut file);
    }
    if random.chance(5) {
        damage_some(random, &mut file);
    }
    compare.file(&file, BUDGET);
}
