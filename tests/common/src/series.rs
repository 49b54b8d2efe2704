// SPDX-License-Identifier: MIT OR Apache-2.0
//! The files that every test of a call and a program that print takes before random ones.

use crate::files::{changed_at, many_monomials, with_each_field, WRITTEN};
use crate::printing::{Files, BUDGET, LONG_BUDGET};
use crate::program::By;
use reference::generate::files::{exact_length_file, exact_t_lines_file, limit_file};
use reference::generate::pages::{graded_tails, large_product, with_mixed_elements};
use reference::generate::problems::{problem_file, weight_line};
use reference::generate::weight_lines::{random_weights, with_random_weights, with_weights};
use reference::random::Random;
use reference::reader::Problem;

/// x1·e_2 + x2·e_1, x3·e_1 and x2²·e_1, the components of degrees 0 and 1, with a G line: one vector of level 1.
pub const SMALL: &str = "R,7,3,1,2\nD,0,1\nG,1,2,2,2,3,15\nT,1,1,2,1,0,0\nT,1,1,1,0,1,0\nT,2,1,1,0,0,1\nT,3,1,1,0,2,0\nE,4\n";

/// Small files changed at every so-manyth byte and in each field to every so-manyth of what there is: the reader has a test of its own.
pub fn every_change(test: &mut impl Files, bytes: usize, fields: usize) {
    test.file(b"", BUDGET);
    test.file(b"\n", BUDGET);
    for file in WRITTEN.map(str::as_bytes) {
        test.file(file, BUDGET);
        for at in (0..file.len()).step_by(bytes) {
            changed_at(file, at, |changed| test.file(changed, BUDGET));
        }
        with_each_field(file, fields, |changed| test.file(changed, BUDGET));
    }
}

/// One with all lines likewise, and cut off at each byte.
pub fn every_change_of(file: &str, test: &mut impl Files, bytes: usize, fields: usize) {
    let file = file.as_bytes();
    test.file(file, BUDGET);
    for at in 0..file.len() {
        test.file(&file[..at], BUDGET);
        if at % bytes == 0 {
            changed_at(file, at, |changed| test.file(changed, BUDGET));
        }
    }
    with_each_field(file, fields, |changed| test.file(changed, BUDGET));
}

/// The eight variables and, behind them, 1: the one kind of basis here of which level 9 is reached.
pub fn variables_and_one() -> String {
    let mut file = "R,7,8,3,1\n".to_string();
    for x in 1..=9 {
        let exponents: Vec<&str> = (1..=8).map(|y| if x == y { "1" } else { "0" }).collect();
        file.push_str(&format!("T,{x},1,1,{}\n", exponents.join(",")));
    }
    file.push_str("E,9\n");
    file
}

/// Files of about 65,536 bytes and of about 2,048 T lines; levels and vectors about the longest; products about the largest. Files that lifting stops, or
/// almost, besides. All by the program too.
pub fn at_the_limits(
    test: &mut impl Files,
    random: &mut Random,
    stopped: fn(&mut Random) -> Vec<u8>,
) {
    for length in [65_535, 65_536, 65_537] {
        let file = exact_length_file(random, length);
        test.file_by(&file, LONG_BUDGET, By::File);
        test.file_by(&file[..length - 1], LONG_BUDGET, By::File);
        test.file_by(&file, LONG_BUDGET, By::Pipe(4_096));
        // with a G line, which counts for the length
        let weights = random_weights(random, 8);
        let shorter = length - weight_line(&weights).len() - 1;
        let file = with_weights(&exact_length_file(random, shorter), &weights);
        assert_eq!(file.len(), length);
        test.file_by(&file, LONG_BUDGET, By::File);
        test.file_by(&file[..length - 1], LONG_BUDGET, By::File);
    }
    test.file_by(&vec![b'\n'; 70_000], LONG_BUDGET, By::Pipe(65_536));
    for lines in [2_047, 2_048, 2_049] {
        for _ in 0..5 {
            let file = exact_t_lines_file(random, lines);
            test.file_by(&file, LONG_BUDGET, By::File);
            test.file_by(&with_random_weights(random, &file), LONG_BUDGET, By::File);
        }
    }
    for _ in 0..50 {
        for problem in [large_product(random), graded_tails(random)] {
            test.file_by(&problem_file(&problem), LONG_BUDGET, By::File);
            let mixed = with_mixed_elements(random, problem);
            test.file_by(&problem_file(&mixed), LONG_BUDGET, By::File);
        }
        test.file_by(&stopped(random), LONG_BUDGET, By::File);
        let file = problem_file(&many_monomials(random));
        test.file_by(&with_random_weights(random, &file), LONG_BUDGET, By::File);
        let file = limit_file(random);
        test.file_by(&file, LONG_BUDGET, By::File);
        test.file_by(&with_random_weights(random, &file), LONG_BUDGET, By::File);
    }
}

/// What one element alone has, in every place, of as many elements and of more. All by the program too.
pub fn every_place(
    test: &mut impl Files,
    random: &mut Random,
    with_one: fn(&mut Random, u64, u64) -> Problem,
) {
    for first in 1..=64 {
        for count in [first.max(2), random.between(first.max(2), 64), 64] {
            let problem = with_one(random, count, first);
            test.file_by(&problem_file(&problem), BUDGET, By::File);
        }
    }
}
