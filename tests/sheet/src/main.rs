// SPDX-License-Identifier: MIT OR Apache-2.0
//! The sheet against the unrelated implementation, byte for byte: the proved call on generated and damaged files, and the program that people run on the
//! files of examples/, the instances of document 01 and files about the longest.
//!
//!     test-sheet [FILES [SEED]]      at least so many files by the call (60,000 without it)
//!     test-sheet spoil number|length|byte|behind|state|work|program
//!                                    spoils one answer: the run must find it and exit with 1

mod compare;

use common::arguments::{asked, words};
use common::buffers::{SHEET as OUT, STATE, WORK};
use common::examples::{examples, files_of};
use common::files::{
    changed_at, damage_some, long_tails, many_monomials, random_problem, random_size,
    with_each_field, with_some_weights, WRITTEN,
};
use common::program::{By, Program};
use common::report::counts;
use common::series::variables_and_one;
use compare::{spoils, Compare, Spoiled};
use reference::generate::files::{edited_file, exact_length_file, exact_t_lines_file, limit_file};
use reference::generate::problems::{problem_file, random_basis, random_set};
use reference::random::Random;
use std::path::Path;

const FILES: u64 = 60_000;
const SEED: u64 = 20_250_701;
/// Products that a generated file may take; one that takes more is left out.
const BUDGET: u64 = 20_000;
/// The same for files at the limits.
const LONG_BUDGET: u64 = 200_000;
/// The same for the files of examples/.
const EXAMPLE_BUDGET: u64 = 10_000_000;
/// The one that takes more, some 270 million by pick code 2: the program alone is run on it, and once.
const LONGEST: &str = "katsura4_lp";

fn main() {
    let (mut wanted, seed, spoil) = asked(&words(), "files", (FILES, SEED), &spoils());
    if spoil.is_some() {
        wanted = 200;
    }
    let mut compare = Compare::new(seed);
    compare.spoil = spoil.map(|what| (70, what));
    let mut random = Random::new(seed);
    if spoil.is_none() {
        every_change(&mut compare);
        short_buffers(&mut compare);
        at_the_limits(&mut compare, &mut random);
        for (name, file) in examples() {
            if name != LONGEST {
                compare.file(&file, EXAMPLE_BUDGET);
            }
        }
    }
    let systematic = compare.files;
    while compare.files < wanted {
        random_file(&mut compare, &mut random);
    }
    let programs = by_program(&compare, &mut random);

    println!(
        "sheet: {} files agree byte for byte ({systematic} systematic, {} left out that take more products, seed {seed}); \
         the longest sheet has {} bytes, the longest list {} levels",
        compare.files, compare.left_out, compare.longest, compare.levels
    );
    println!("  {}", counts(&compare.met).join(", "));
    println!(
        "  the program: {programs} runs agree byte for byte, on all files of examples/ among others"
    );
    if wanted < FILES / 4 {
        return;
    }
    assert_eq!(compare.levels, 9, "no sheet has nine levels");
    // a run in which a refusal hardly comes tests too little
    for number in [0, 1, 2, 3, 4, 5, 6, 7, 8, 9, 13, 14, 15, 16, 18, 24] {
        assert!(compare.met[number] >= 10, "number {number} came too seldom");
    }
}

/// Small files changed at every byte, and each field at, about and past every limit; some of them, as the reader has a test of its own.
fn every_change(compare: &mut Compare) {
    compare.file(b"", BUDGET);
    compare.file(b"\n", BUDGET);
    for file in WRITTEN.map(str::as_bytes) {
        compare.file(file, BUDGET);
        for at in (0..file.len()).step_by(7) {
            changed_at(file, at, |changed| compare.file(changed, BUDGET));
        }
        with_each_field(file, 5, |changed| compare.file(changed, BUDGET));
    }
}

/// 16 before all else, and nothing changes.
fn short_buffers(compare: &mut Compare) {
    for file in WRITTEN.map(str::as_bytes) {
        compare.short_buffers(file, STATE - 1, WORK, OUT);
        compare.short_buffers(file, STATE, WORK - 1, OUT);
        compare.short_buffers(file, STATE, WORK, OUT - 1);
        compare.short_buffers(file, 0, 0, 0);
    }
    compare.short_buffers(&vec![b'0'; 65_537], STATE, WORK, 0);
}

/// Files of about 65,536 bytes and of about 2,048 T lines; levels and vectors about the longest.
fn at_the_limits(compare: &mut Compare, random: &mut Random) {
    for length in [65_535, 65_536, 65_537] {
        let file = exact_length_file(random, length);
        compare.file(&file, LONG_BUDGET);
        compare.file(&file[..length - 1], LONG_BUDGET);
    }
    for lines in [2_047, 2_048, 2_049] {
        for _ in 0..5 {
            let file = exact_t_lines_file(random, lines);
            compare.file(&file, LONG_BUDGET);
        }
    }
    for tail in 165..185 {
        compare.file(&problem_file(&long_tails(random, tail)), LONG_BUDGET);
    }
    // level 9 is printed
    compare.file(variables_and_one().as_bytes(), LONG_BUDGET);
    for _ in 0..200 {
        compare.file(&problem_file(&many_monomials(random)), LONG_BUDGET);
        compare.file(&limit_file(random), LONG_BUDGET);
    }
}

fn random_file(compare: &mut Compare, random: &mut Random) {
    let size = random_size(random, 8);
    let mut file = match random.below(20) {
        0 | 1 => edited_file(random),
        2 | 3 => problem_file(&random_problem(random)),
        4 | 5 => problem_file(&random_set(random, &size)),
        _ => problem_file(&random_basis(random, &size)),
    };
    with_some_weights(random, &mut file);
    if random.chance(25) {
        damage_some(random, &mut file);
    }
    compare.file(&file, BUDGET);
}

/// The instances of document 01 and of requests A4, A5, A7, A13 and A14, by name: the problem file, and the sheet that the documents say.
fn instances() -> Vec<(Vec<u8>, Vec<u8>)> {
    let folder = Path::new(env!("CARGO_MANIFEST_DIR")).join("instances");
    let files: Vec<(Vec<u8>, Vec<u8>)> = files_of(&folder)
        .into_iter()
        .map(|(name, file)| {
            let sheet = std::fs::read(folder.join(format!("{name}.sheet"))).expect("its sheet");
            (file, sheet)
        })
        .collect();
    assert_eq!(files.len(), 39, "an instance is missing");
    files
}

/// The program itself, file by file; how many runs.
fn by_program(compare: &Compare, random: &mut Random) -> u64 {
    const ALL: &[By] = &[By::File, By::Pipe(1_000), By::Pipe(65_536)];
    let mut files: Vec<(Vec<u8>, Vec<u8>, &[By])> = instances()
        .into_iter()
        .map(|(file, sheet)| (file, sheet, ALL))
        .collect();
    let mut further = vec![vec![b'0'; 65_537], vec![b'\n'; 70_000], vec![]];
    for length in [65_535, 65_536, 65_537, 70_000] {
        further.push(exact_length_file(random, length));
    }
    // a file that would be read but for its length
    let mut longer = exact_length_file(random, 65_536);
    longer.push(10);
    further.push(longer);
    let spoiled = matches!(compare.spoil, Some((_, Spoiled::Program)));
    let mut longest = None;
    for (name, file) in examples() {
        if name == LONGEST {
            longest = Some(file);
        } else {
            further.push(file);
        }
    }
    for file in further {
        let sheet = compare.expected(&file, EXAMPLE_BUDGET);
        files.push((file, sheet.expect("it takes fewer products"), ALL));
    }
    if compare.spoil.is_none() {
        let file = longest.expect("it is among the examples");
        let sheet = compare.expected(&file, u64::MAX);
        files.push((file, sheet.expect("no budget"), &[By::File]));
    }
    let program = Program::new("syzygies", "SYZYGIES");
    let mut runs = 0;
    for (file, expected, ways) in &files {
        for by in *ways {
            let mut sheet = program.run(file, *by);
            if spoiled && runs == 70 {
                *sheet.last_mut().expect("it prints something") ^= 1;
            }
            if sheet != *expected {
                compare.differ(file, "the program prints something else", &sheet, expected);
            }
            runs += 1;
        }
    }
    runs
}
