// SPDX-License-Identifier: MIT OR Apache-2.0
//! A basis completed against the unrelated implementation, byte for byte: the proved call on generators, Gröbner bases with elements left out, files at every
//! limit that an addition can pass, damaged files and the files of examples/; and the program that people run, on those by hand, of examples/, at the limits, and
//! on one in ten of the others. Of each completed file that no line before E is changed, what was added is monic and divided by nothing before it, and, by a
//! plain Buchberger that shares nothing with the engine, that it is a Gröbner basis of the same module.
//!
//!     test-complete [FILES [SEED]]     at least so many files (20,000 without it)
//!     test-complete spoil [program] first|last|middle|shorter|longer|line
//!     test-complete spoil number|behind|state|work|other|fewer|double|twice|given|again
//!                                      spoils one answer of the call or of the program: the run must find it and exit with 1
//!
//! The program is target/bin/complete, or what the environment variable COMPLETE says.

mod compare;
mod module;

use common::arguments::{asked, words};
use common::examples::examples;
use common::files::damage_some;
use common::printing::{spoils, Files, BUDGET, EXAMPLE_BUDGET, LONG_BUDGET};
use common::program::By;
use common::series::{at_the_limits, every_change_of, SMALL};
use compare::{Compare, SPOILS};
use reference::generate::generators::{generator_file, incomplete_file};
use reference::generate::pages::stopped_file;
use reference::generate::weight_lines::with_random_weights;
use reference::random::Random;

const FILES: u64 = 20_000;
const SEED: u64 = 20_260_601;

/// x² and xy + y² modulo 7, with D and G lines: y³ is added.
const GIVEN: &str = "R,7,2,1,1\nD,5\nG,1,2,3,4\nT,1,1,1,2,0\nT,2,1,1,1,1\nT,2,1,1,0,2\nE,3\n";

fn main() {
    let (mut wanted, seed, spoil) = asked(&words(), "files", (FILES, SEED), &spoils(&SPOILS));
    let mut compare = Compare::new(seed, spoil);
    let mut random = Random::new(seed);
    if spoil.is_some() {
        wanted = 400;
    } else {
        by_hand(&mut compare);
        every_change_of(GIVEN, &mut compare, 7, 5);
        every_change_of(SMALL, &mut compare, 29, 17);
        one_more_and_one_less(&mut compare);
        for (_, file) in examples() {
            compare.file_by(&file, EXAMPLE_BUDGET, By::Pipe(1_000));
            let weights = with_random_weights(&mut random, &file);
            compare.file_by(&weights, EXAMPLE_BUDGET, By::File);
        }
        at_the_limits(&mut compare, &mut random, stopped_file);
    }
    let systematic = compare.printing.files;
    while compare.printing.files < wanted {
        let mut file = match random.below(10) {
            0..=2 => incomplete_file(&mut random),
            _ => generator_file(&mut random),
        };
        if random.chance(5) {
            damage_some(&mut random, &mut file);
        }
        compare.file(&file, BUDGET);
    }
    report(&compare, systematic, seed);
    if wanted >= FILES / 2 {
        enough(&compare);
    }
}

fn report(compare: &Compare, systematic: u64, seed: u64) {
    let printing = &compare.printing;
    printing.report("complete", systematic, seed);
    println!(
        "  {} unchanged, {} longer ({} by several elements, {} in several components), {} elements added, at most {} to a file; at most {} elements, {} T \
         lines, {} bytes; {} shown to be Gröbner bases of the same module; {} completed again; 8 at lines {:?}; 19 at {:?}; 13 to 15 at (number, place): {:?}",
        compare.unchanged,
        compare.longer,
        compare.by_several,
        compare.modules,
        compare.added,
        compare.most,
        compare.elements,
        compare.lines,
        compare.bytes,
        compare.shown,
        compare.again,
        printing.places(8),
        printing.places(19),
        printing.stops()
    );
}

/// A run in which something hardly comes tests too little.
fn enough(compare: &Compare) {
    let printing = &compare.printing;
    printing.printer.enough();
    for number in [0, 1, 2, 3, 4, 5, 6, 7, 8, 13, 14, 15, 18, 19, 24] {
        assert!(
            printing.met[number] >= 10,
            "number {number} came too seldom"
        );
    }
    // 9 is never printed
    for number in [9, 10, 11, 12, 16, 17, 20, 21, 22, 23, 25] {
        assert_eq!(printing.met[number], 0, "{number} came");
    }
    assert!(printing.places(1).contains(&0));
    assert!([2_050, 2_051, 2_052]
        .iter()
        .all(|line| printing.places(8).contains(line)));
    assert!(printing.places(19).into_iter().eq([65]));
    assert!(printing.stops().into_iter().eq([(13, 0), (14, 0), (15, 0)]));
    assert!(compare.unchanged >= 500 && compare.longer >= 5_000 && compare.again >= 600);
    assert!(compare.by_several >= 1_000 && compare.modules >= 1_000);
    assert!(compare.elements == 64 && compare.lines == 2_048 && compare.bytes > 65_400);
    assert!(compare.shown * 10 >= compare.longer * 9);
    assert!(printing.with_degrees >= 500 && printing.with_weights >= 500);
}

/// What one can complete without a program, given in parts of every length.
fn by_hand(compare: &mut Compare) {
    let squares = "T,1,1,1,2,0\nT,2,1,1,1,1\nT,2,1,1,0,2\n";
    let lines = "T,1,1,1,1,0\nT,1,2,1,0,1\nT,2,1,1,1,0\nT,2,5,1,0,0\n";
    let three = "T,1,1,1,1,0\nT,2,1,1,1,0\nT,2,1,1,0,1\nT,3,1,1,1,0\nT,3,1,1,0,1\nT,3,1,1,0,0\n";
    for (head, elements, count, added, more) in [
        ("", squares, 3, "T,3,1,1,0,3\n", 1),
        ("D,5\n", squares, 3, "T,3,1,1,0,3\n", 1),
        ("G,1,2,3,4\n", squares, 3, "T,3,1,1,0,3\n", 1),
        ("D,5\nG,1,2,3,4\n", squares, 3, "T,3,1,1,0,3\n", 1),
        // 5 less 2y, made monic
        ("", lines, 4, "T,3,1,1,0,1\nT,3,1,1,0,0\n", 2),
        // one after the other
        ("", three, 6, "T,4,1,1,0,1\nT,5,1,1,0,0\n", 2),
        // a Gröbner basis
        ("D,5\n", "T,1,1,1,2,0\nT,2,3,1,0,3\n", 2, "", 0),
    ] {
        let file = format!("R,7,2,1,1\n{head}{elements}E,{count}\n");
        let printed = format!("R,7,2,1,1\n{head}{elements}{added}E,{}\n", count + more);
        for by in [By::File, By::Pipe(1), By::Pipe(7), By::Pipe(65_536)] {
            compare.expect(file.as_bytes(), printed.as_bytes(), by);
        }
    }
    compare.expect(b"", b"X,1,1\n", By::File);
    compare.expect(&[b'R'; 65_537], b"X,1,0\n", By::Pipe(4_096));
}

/// y² as often as is wanted in a second component, then x and x + y in the first: one element is added.
fn stuffed(others: usize) -> String {
    let mut file = "R,7,2,1,2\n".to_string();
    for number in 1..=others {
        file.push_str(&format!("T,{number},1,2,0,2\n"));
    }
    let (first, second) = (others + 1, others + 2);
    file.push_str(&format!(
        "T,{first},1,1,1,0\nT,{second},1,1,1,0\nT,{second},1,1,0,1\n"
    ));
    file.push_str(&format!("E,{}\n", others + 3));
    file
}

/// An element of so many terms in a second component, then x and x + y in the first: one T line is added. Wide terms fill a file of 65,536 bytes first.
fn long(terms: usize, head: &str, wide: bool) -> String {
    let (coefficient, rest) = match wide {
        true => (65_520, ",255".repeat(6)),
        false => (1, ",0".repeat(6)),
    };
    let mut file = format!("R,65521,8,1,2\n{head}");
    for at in (0..terms).rev() {
        let (a, b) = (at / 255, at % 255);
        file.push_str(&format!("T,1,{coefficient},2,{a},{b}{rest}\n"));
    }
    let none = ",0".repeat(6);
    file.push_str(&format!(
        "T,2,1,1,1,0{none}\nT,3,1,1,1,0{none}\nT,3,1,1,0,1{none}\n"
    ));
    file.push_str(&format!("E,{}\n", terms + 3));
    file
}

/// Such a file of so many bytes: coefficients of fewer digits take a byte less each.
fn of_length(bytes: usize) -> Vec<u8> {
    let file = (bytes / 44..)
        .map(|terms| long(terms, "", true))
        .find(|file| file.len() >= bytes)
        .expect("it grows");
    let more = file.len() - bytes;
    let file = file.replacen(",65520,2,", ",6552,2,", more);
    assert_eq!(file.len(), bytes);
    file.into_bytes()
}

/// The 65th element, the 2,049th T line and the 65,537th byte, about where they come.
fn one_more_and_one_less(compare: &mut Compare) {
    for others in 58..=62 {
        compare.file_by(stuffed(others).as_bytes(), LONG_BUDGET, By::File);
    }
    compare.expect(stuffed(62).as_bytes(), b"X,19,65\n", By::File);
    for (head, line) in [
        ("", 2_050),
        ("D,1,2\n", 2_051),
        ("D,1,2\nG,1,1,1,1,1,1,1,1,1,1,1,1,1,1,1,1\n", 2_052),
    ] {
        let longest = long(2_044, head, false);
        compare.file_by(longest.as_bytes(), LONG_BUDGET, By::File);
        let refused = format!("X,8,{line}\n");
        compare.expect(
            long(2_045, head, false).as_bytes(),
            refused.as_bytes(),
            By::File,
        );
    }
    for length in 65_500..=65_540 {
        compare.file_by(&of_length(length), LONG_BUDGET, By::File);
    }
    // the line that is added has 24 bytes
    for length in [65_513, 65_536, 65_537] {
        compare.expect(&of_length(length), b"X,1,0\n", By::File);
    }
}
