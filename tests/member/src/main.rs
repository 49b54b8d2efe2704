// SPDX-License-Identifier: MIT OR Apache-2.0
//! A vector divided by the elements of a file against the unrelated implementation, byte for byte: the proved call on files with V lines, right and damaged,
//! combinations of the elements and others, at every limit, on the files of examples/ and with many bytes behind the last line; and the program that people
//! run, on those by hand, of examples/ and the long ones, and on one in ten of the others. Of each division the quotients applied to the elements plus the
//! remainder give the vector back, by arithmetic on the input's text alone.
//!
//!     test-member [INPUTS [SEED]]      at least so many inputs (20,000 without it)
//!     test-member spoil [program] first|last|middle|shorter|longer|line
//!     test-member spoil number|behind|state|work|back
//!                                      spoils one answer of the call or of the program: the run must find it and exit with 1
//!
//! The program is target/bin/member, or what the environment variable MEMBER says.

mod apply;
mod compare;

use common::arguments::{asked, words};
use common::examples::examples;
use common::files::damage_some;
use common::printing::{spoils, Files, BUDGET, EXAMPLE_BUDGET, LONG_BUDGET};
use common::program::By;
use common::series::{every_change_of, SMALL};
use compare::{Compare, SPOILS};
use reference::generate::files::exact_length_file;
use reference::generate::vectors::{
    damage_behind, divided_input, limit_input, random_vector, vector_input, with_vector,
};
use reference::random::Random;
use reference::reader::read_problem;
use reference::Limits;

const INPUTS: u64 = 20_000;
const SEED: u64 = 20_261_201;

/// The printed file, x + y and y² + 1 modulo 7.
const PRINTED: &str = "R,7,2,1,1\nT,1,1,1,1,0\nT,1,1,1,0,1\nT,2,1,1,0,2\nT,2,1,1,0,0\nE,4\n";

fn main() {
    let (mut wanted, seed, spoil) = asked(&words(), "inputs", (INPUTS, SEED), &spoils(&SPOILS));
    let mut compare = Compare::new(seed, spoil);
    let mut random = Random::new(seed);
    if spoil.is_some() {
        wanted = 400;
    } else {
        by_hand(&mut compare);
        every_form(&mut compare);
        for vector in ["V,1,2,1,1,0\nV,6,1,0,2,1\nV,3,1,0,0,0\n", ""] {
            every_change_of(&format!("{SMALL}{vector}"), &mut compare, 7, 5);
        }
        over_examples(&mut compare, &mut random);
        long_inputs(&mut compare, &mut random);
    }
    let systematic = compare.printing.files;
    while compare.printing.files < wanted {
        let mut input = match random.below(10) {
            0 => divided_input(&mut random),
            1 => limit_input(&mut random),
            _ => vector_input(&mut random),
        };
        if random.chance(3) {
            damage_some(&mut random, &mut input);
        }
        compare.file(&input, BUDGET);
    }
    report(&compare, systematic, seed);
    if wanted >= INPUTS / 2 {
        enough(&compare);
    }
}

fn report(compare: &Compare, systematic: u64, seed: u64) {
    let printing = &compare.printing;
    printing.report("member", systematic, seed);
    println!(
        "  divided: {} members, {} with a remainder, {} without V lines, {} of several components; at most {} terms of quotients, {} of a remainder, \
         {} V lines; {} give the vector back; 23 at {} places; 13 to 15 at (number, place): {:?}",
        compare.members,
        compare.others,
        compare.nothing,
        compare.modules,
        compare.quotients,
        compare.remainder,
        compare.lines,
        compare.back,
        printing.places(23).len(),
        printing.stops()
    );
}

/// A run in which something hardly comes tests too little.
fn enough(compare: &Compare) {
    let printing = &compare.printing;
    printing.printer.enough();
    for number in [0, 1, 2, 3, 4, 5, 6, 7, 9, 13, 14, 23] {
        assert!(
            printing.met[number] >= 10,
            "number {number} came too seldom"
        );
    }
    for number in [10, 11, 12, 16, 17, 19, 20, 21, 22, 25] {
        assert_eq!(printing.met[number], 0, "{number} came");
    }
    assert!(printing.met[23] >= 2_000 && printing.places(23).len() >= 40);
    assert!(compare.members >= 3_000 && compare.others >= 2_000);
    assert!(compare.nothing >= 100 && compare.modules >= 1_000);
    assert!(compare.quotients == 512 && compare.remainder == 512 && compare.lines == 512);
    assert_eq!(compare.back, compare.members + compare.others);
    assert!(printing.with_degrees >= 100 && printing.with_weights >= 500);
}

/// What one can divide without a program, given in parts of every length.
fn by_hand(compare: &mut Compare) {
    for (lines, printed) in [
        ("", "M,1\n"),
        (
            "V,1,1,2,0\nV,1,1,0,0\n",
            "C,1,1,1,0\nC,6,1,0,1\nC,1,2,0,0\nM,1\n",
        ),
        ("V,3,1,0,2\nV,3,1,0,0\n", "C,3,2,0,0\nM,1\n"),
        ("V,2,1,0,1\n", "W,2,1,0,1\nM,0\n"),
        (
            "V,1,1,1,1\nV,2,1,1,0\nV,1,1,0,3\nV,2,1,0,2\nV,1,1,0,1\nV,2,1,0,0\n",
            "C,1,1,0,1\nC,2,1,0,0\nC,1,2,0,1\nC,1,2,0,0\nW,5,1,0,1\nW,1,1,0,0\nM,0\n",
        ),
        ("V,1,1,1,255\n", "X,13,0\n"),
        ("V,1,1,1,255\n\n", "X,23,8\n"),
    ] {
        let input = format!("{PRINTED}{lines}");
        for by in [By::File, By::Pipe(1), By::Pipe(7), By::Pipe(65_536)] {
            compare.expect(input.as_bytes(), printed.as_bytes(), by);
        }
    }
    let none = b"R,7,2,1,1\nT,1,1,1,2,0\nT,2,1,1,1,1\nT,2,1,1,0,2\nE,3\nV,9\n";
    compare.expect(none, b"X,9,1\nW,6,1,0,3\n", By::File);
}

/// Every field of a V line with every value about its range, wrong forms of a line, and each behind a right one.
fn every_form(compare: &mut Compare) {
    let mut fields = vec!["V,1,1,1,0".to_string()];
    for c in 0..=8 {
        fields.push(format!("V,{c},1,1,0"));
    }
    for component in 0..=3 {
        fields.push(format!("V,1,{component},1,0"));
    }
    for e in [0, 1, 2, 253, 254, 255, 256, 257, 65_535, 65_536] {
        fields.push(format!("V,1,1,{e},0"));
        fields.push(format!("V,1,1,0,{e}"));
        fields.push(format!("V,1,1,{e},{e}"));
    }
    for line in [
        "",
        "V",
        "V,",
        "v,1,1,1,0",
        "W,1,1,1,0",
        "T,1,1,1,1,0",
        "E,0",
        "VV,1,1,1,0",
        " V,1,1,1,0",
        "V,1,1,1,0 ",
        "V,1,1,1,0\r",
        "V,1,1,1",
        "V,1,1,1,0,0",
        "V,01,1,1,0",
        "V,+1,1,1,0",
        "V,-1,1,1,0",
        "V,1,1,1,00",
        "V,1,1,,0",
        "V,1,1,1,",
        "V;1;1;1;0",
        "V,1,1,1,0V,1,1,0,0",
        "V,1,1,1,x",
    ] {
        fields.push(line.to_string());
    }
    for line in &fields {
        for before in ["", "V,1,1,2,0\n", "V,1,1,1,1\nV,1,1,1,0\n", "V,1,1,0,0\n"] {
            for end in ["", "\n", "\nV,1,1,0,0\n", "\n\n"] {
                compare.file(format!("{PRINTED}{before}{line}{end}").as_bytes(), BUDGET);
            }
        }
    }
    // a line that begins with E ends the file, wherever it stands and whatever it says
    for lines in ["E\nV,1,1,1,0\n", "Ex\nE,4\n", "\nE,4\n", "E,5\nV,1,1,1,0\n"] {
        let body = PRINTED.trim_end_matches("E,4\n");
        compare.file(format!("{body}{lines}").as_bytes(), BUDGET);
        compare.file(lines.as_bytes(), BUDGET);
    }
}

/// Vectors over every example.
fn over_examples(compare: &mut Compare, random: &mut Random) {
    for (_, file) in examples() {
        let Ok(problem) = read_problem(&Limits::document_01(), &file) else {
            continue;
        };
        for by in [By::File, By::Pipe(1_000)] {
            let vector = random_vector(random, &problem);
            let input = with_vector(file.clone(), &problem.parameters, &vector);
            compare.file_by(&input, EXAMPLE_BUDGET, by);
            let mut damaged = input;
            damage_behind(random, &mut damaged);
            compare.file_by(&damaged, EXAMPLE_BUDGET, By::File);
        }
        compare.file_by(&file, EXAMPLE_BUDGET, By::File);
    }
}

/// Files of about 65,536 bytes with V lines behind them, inputs at every limit, and bytes without an end behind the last line.
fn long_inputs(compare: &mut Compare, random: &mut Random) {
    for length in [65_535, 65_536, 65_537] {
        let mut input = exact_length_file(random, length);
        compare.file_by(&input, LONG_BUDGET, By::File);
        input.extend(b"V,1,16,0,0,0,0,0,0,0,0\n");
        compare.file_by(&input, LONG_BUDGET, By::File);
        compare.file_by(&input, LONG_BUDGET, By::Pipe(4_096));
        input.resize(300_000, b'V');
        compare.file_by(&input, LONG_BUDGET, By::Pipe(65_536));
    }
    for _ in 0..200 {
        compare.file_by(&limit_input(random), LONG_BUDGET, By::File);
    }
    for byte in *b"\nV,0E" {
        let mut input = PRINTED.as_bytes().to_vec();
        input.resize(400_000, byte);
        compare.file_by(&input, BUDGET, By::File);
        compare.file_by(&input, BUDGET, By::Pipe(4_096));
        compare.file_by(&input[PRINTED.len()..], BUDGET, By::File);
    }
}
