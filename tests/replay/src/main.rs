// SPDX-License-Identifier: MIT OR Apache-2.0
//! Recorded picks replayed against the unrelated implementation, byte for byte: the proved call on logs of every pick code and of random picks at every level,
//! each damaged in every way, logs at every limit, over the files of examples/ and with many bytes behind the last line; and the program that people run, on
//! those by hand, of every level, of examples/ and the long ones, and on one in ten of the others. Each vector is the tree's, too.
//!
//!     test-replay [INPUTS [SEED]]      at least so many inputs (20,000 without it)
//!     test-replay spoil [program] first|last|middle|shorter|longer|line
//!     test-replay spoil number|behind|state|work|tree
//!                                      spoils one answer of the call or of the program: the run must find it and exit with 1
//!
//! The program is target/bin/replay, or what the environment variable REPLAY says.

mod compare;

use common::arguments::{asked, words};
use common::examples::examples;
use common::files::damage_some;
use common::printing::{spoils, Files, BUDGET, EXAMPLE_BUDGET, LONG_BUDGET};
use common::program::By;
use common::series::{every_change_of, variables_and_one, SMALL};
use compare::{Compare, SPOILS};
use reference::generate::files::exact_length_file;
use reference::generate::logs::{damage_log, log_input, log_of_length, recorded_at};
use reference::random::Random;

const INPUTS: u64 = 20_000;
const SEED: u64 = 20_261_209;

/// The printed file, x + y and y² + 1 modulo 7, and the vector of its frame term x·e_2.
const PRINTED: &str = "R,7,2,1,1\nT,1,1,1,1,0\nT,1,1,1,0,1\nT,2,1,1,0,2\nT,2,1,1,0,0\nE,4\n";
const VECTOR: &str = "S,1,1,1,2,1,0\nS,1,1,6,1,0,2\nS,1,1,6,1,0,0\nS,1,1,1,2,0,1\n";

/// A file of which pick code 2 takes thousands of picks.
const SLOW: &str = include_str!("../../slow/fibonacci.txt");

fn main() {
    let (mut wanted, seed, spoil) = asked(&words(), "inputs", (INPUTS, SEED), &spoils(&SPOILS));
    let mut compare = Compare::new(seed, spoil);
    let mut random = Random::new(seed);
    if spoil.is_some() {
        wanted = 400;
    } else {
        by_hand(&mut compare);
        every_form(&mut compare);
        for log in ["L,1,1\nP,1,2,0,1\nP,0,2,1,2\n", "L,2,1\n"] {
            every_change_of(&format!("{SMALL}{log}"), &mut compare, 7, 5);
        }
        every_level(&mut compare, &mut random);
        over_examples(&mut compare, &mut random);
        long_inputs(&mut compare, &mut random);
    }
    let systematic = compare.printing.files;
    while compare.printing.files < wanted {
        let mut input = log_input(&mut random);
        if random.chance(3) {
            damage_some(&mut random, &mut input);
        }
        compare.file_by(&input, LONG_BUDGET, By::File);
    }
    report(&compare, systematic, seed);
    if wanted >= INPUTS / 2 {
        enough(&compare);
    }
}

fn report(compare: &Compare, systematic: u64, seed: u64) {
    let printing = &compare.printing;
    printing.report("replay", systematic, seed);
    println!(
        "  taken by level: {:?}, {} of several components, {} with at most one pick; at most {} picks and {} terms; {} are the tree's; \
         12, 21 and 22 at {}, {} and {} places; 13 to 15 at (number, place): {:?}",
        &compare.levels[1..],
        compare.modules,
        compare.short,
        compare.picks,
        compare.terms,
        compare.trees,
        printing.places(12).len(),
        printing.places(21).len(),
        printing.places(22).len(),
        printing.stops()
    );
}

/// A run in which something hardly comes tests too little.
fn enough(compare: &Compare) {
    let printing = &compare.printing;
    printing.printer.enough();
    for number in [0, 1, 2, 3, 4, 5, 6, 7, 9, 12, 13, 14, 21, 22] {
        assert!(
            printing.met[number] >= 10,
            "number {number} came too seldom"
        );
    }
    for number in [10, 11, 16, 17, 19, 20, 23, 25] {
        assert_eq!(printing.met[number], 0, "{number} came");
    }
    assert!(printing.met[0] >= 5_000 && printing.met[21] >= 2_000 && printing.met[22] >= 1_000);
    assert!(printing.places(21).len() >= 40 && printing.places(22).len() >= 40);
    assert!(compare.levels[1..=8].iter().all(|taken| *taken > 0));
    assert!(compare.modules >= 500 && compare.short >= 100 && compare.picks == 4_096);
    assert!(compare.trees >= 5_000);
    assert!(printing.with_degrees >= 100 && printing.with_weights >= 500);
}

/// What one can replay without a program, given in parts of every length.
fn by_hand(compare: &mut Compare) {
    for (lines, printed) in [
        ("L,1,1\nP,1,2,1\nP,1,0,1\nP,0,3,1\n", VECTOR),
        ("L,1,1\nP,1,0,1\nP,1,2,1\nP,0,3,1\n", VECTOR),
        ("L,1,1\nP,1,2,1\nP,0,3,1\nP,1,0,1\n", VECTOR),
        ("", "X,21,7\n"),
        ("L,1,1", "X,21,7\n"),
        ("L,10,1\n", "X,12,7\n"),
        ("L,1,2\n", "X,12,7\n"),
        ("L,9,1\n", "X,12,7\n"),
        ("L,1,1\n", "X,22,8\n"),
        ("L,1,1\nP,1,2,1\nP,1,0,1\n", "X,22,10\n"),
        ("L,1,1\nP,1,2,1\nP,1,0,1\nP,0,3,1\nP,0,3,1\n", "X,22,11\n"),
        ("L,1,1\nP,1,2,1\nP,1,0,1\nP,0,3,1\n\n", "X,21,11\n"),
        ("L,1,1\nP,1,2,2\n", "X,22,8\n"),
    ] {
        let input = format!("{PRINTED}{lines}");
        for by in [By::File, By::Pipe(1), By::Pipe(7), By::Pipe(65_536)] {
            compare.expect(input.as_bytes(), printed.as_bytes(), by);
        }
    }
    let none = b"R,7,2,1,1\nT,1,1,1,2,0\nT,2,1,1,1,1\nT,2,1,1,0,2\nE,3\nL,9\n";
    compare.expect(none, b"X,9,1\nW,6,1,0,3\n", By::File);
}

/// Every field of an L line and of a P line with every value about its range, wrong forms of a line, each behind right ones.
fn every_form(compare: &mut Compare) {
    let mut lines = Vec::new();
    for number in [
        0, 1, 2, 3, 8, 9, 10, 11, 128, 129, 255, 256, 65_535, 65_536, 99_999,
    ] {
        lines.push(format!("L,{number},1"));
        lines.push(format!("L,1,{number}"));
        lines.push(format!("P,{number},2,1"));
        lines.push(format!("P,1,{number},1"));
        lines.push(format!("P,1,2,{number}"));
        lines.push(format!("P,1,0,{number}"));
    }
    for line in [
        "",
        "L",
        "L,",
        "L,1",
        "L,1,",
        "L,1,1,1",
        "l,1,1",
        "LL,1,1",
        " L,1,1",
        "L,1,1 ",
        "L,1,1\r",
        "L,01,1",
        "L,+1,1",
        "L,-1,1",
        "L;1;1",
        "L,1,x",
        "P",
        "P,",
        "P,1,2",
        "P,1,2,",
        "P,1,2,1,1",
        "p,1,2,1",
        "PP,1,2,1",
        " P,1,2,1",
        "P,1,2,1 ",
        "P,1,2,1\r",
        "P,01,2,1",
        "P,+1,2,1",
        "P,1,,1",
        "P,1,2,x",
        "S,1,1,1,2,1,0",
        "V,1,1,1,0",
        "T,1,1,1,1,0",
        "E,0",
    ] {
        lines.push(line.to_string());
    }
    for line in &lines {
        for before in [
            "",
            "L,1,1\n",
            "L,1,1\nP,1,2,1\n",
            "L,1,1\nP,1,2,1\nP,1,0,1\n",
            "L,1,1\nP,1,2,1\nP,1,0,1\nP,0,3,1\n",
        ] {
            for end in ["", "\n", "\nP,1,2,1\nP,1,0,1\nP,0,3,1\n", "\n\n"] {
                compare.file(format!("{PRINTED}{before}{line}{end}").as_bytes(), BUDGET);
            }
        }
    }
    // a line that begins with E ends the file, wherever it stands and whatever it says
    for lines in ["E\nL,1,1\n", "Ex\nE,4\n", "\nE,4\n", "E,5\nL,1,1\n"] {
        let body = PRINTED.trim_end_matches("E,4\n");
        compare.file(format!("{body}{lines}").as_bytes(), BUDGET);
        compare.file(lines.as_bytes(), BUDGET);
    }
}

/// Logs of every level that has a vector, whole and damaged; level 9, which never has one (A10), behind eight that are lifted.
fn every_level(compare: &mut Compare, random: &mut Random) {
    let file = variables_and_one().into_bytes();
    for level in 1..=8 {
        for _ in 0..3 {
            let log = recorded_at(random, &file, level).expect("the level has vectors");
            compare.file_by(&log, EXAMPLE_BUDGET, By::File);
            let mut damaged = log;
            damage_log(random, &mut damaged);
            compare.file_by(&damaged, EXAMPLE_BUDGET, By::File);
        }
    }
    for lines in ["L,9,0\n", "L,9,1\n", "L,9,1\nP,0\n", "L,8,2\n"] {
        let input = [file.as_slice(), lines.as_bytes()].concat();
        compare.expect(&input, b"X,12,12\n", By::File);
        compare.file_by(&input, EXAMPLE_BUDGET, By::File);
    }
}

/// Logs over every example, of levels 1 to 4.
fn over_examples(compare: &mut Compare, random: &mut Random) {
    for (_, file) in examples() {
        for level in 1..=4 {
            let Some(log) = recorded_at(random, &file, level) else {
                compare.file_by(&file, EXAMPLE_BUDGET, By::File);
                break;
            };
            compare.file_by(&log, EXAMPLE_BUDGET, By::Pipe(1_000));
            for _ in 0..3 {
                let mut damaged = log.clone();
                damage_log(random, &mut damaged);
                compare.file_by(&damaged, EXAMPLE_BUDGET, By::File);
            }
        }
    }
}

/// Files of about 65,536 bytes with a log behind them, logs of about 4,096 picks, and bytes without an end behind the last line.
fn long_inputs(compare: &mut Compare, random: &mut Random) {
    for length in [65_535, 65_536, 65_537] {
        let mut input = exact_length_file(random, length);
        compare.file_by(&input, LONG_BUDGET, By::File);
        input.extend(b"L,1,1\n");
        compare.file_by(&input, LONG_BUDGET, By::File);
        compare.file_by(&input, LONG_BUDGET, By::Pipe(4_096));
        input.resize(400_000, b'P');
        compare.file_by(&input, LONG_BUDGET, By::Pipe(65_536));
    }
    for picks in [4_095, 4_096, 4_097, 4_098] {
        let log = log_of_length(SLOW.as_bytes(), picks).expect("a log of so many picks");
        compare.file_by(&log, EXAMPLE_BUDGET, By::File);
        compare.file_by(&log, EXAMPLE_BUDGET, By::Pipe(4_096));
        for behind in ["P,0,0,0\n", "\n", "P", "x\n"] {
            let longer = [log.as_slice(), behind.as_bytes()].concat();
            compare.file_by(&longer, EXAMPLE_BUDGET, By::File);
        }
    }
    for byte in *b"\nLP,0E" {
        for lines in ["", "L,1,1\n", "L,1,1\nP,1,2,1\nP,1,0,1\nP,0,3,1\n"] {
            let mut input = format!("{PRINTED}{lines}").into_bytes();
            input.resize(400_000, byte);
            compare.file_by(&input, BUDGET, By::File);
            compare.file_by(&input, BUDGET, By::Pipe(4_096));
        }
        compare.file_by(&[byte; 400_000], BUDGET, By::File);
    }
}
