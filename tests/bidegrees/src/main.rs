// SPDX-License-Identifier: MIT OR Apache-2.0
//! Bidegrees against the unrelated implementation, byte for byte: the proved call on generated and damaged files, on the files of examples/, the
//! Specification's own and files about the longest; and the program that people run, on all but the generated and damaged ones and on one in ten of these.
//! Beside them the sheet and the Betti page, on files with a G line and without it, of one in ten by program too.
//!
//!     test-bidegrees [FILES [SEED]]      at least so many files (20,000 without it)
//!     test-bidegrees spoil [program] first|last|middle|shorter|longer|line
//!     test-bidegrees spoil number|behind|state|work|sum|[program] page|[program] sheet
//!                                        spoils one answer of a call or of a program: the run must find it and exit with 1
//!
//! The programs are target/bin/bidegrees, betti_numbers and syzygies, or what the environment variables BIDEGREES, BETTI and SYZYGIES say.

mod compare;

use common::arguments::{asked, words};
use common::examples::examples;
use common::files::{damage_some, random_problem, random_size, with_some_weights, WRITTEN};
use common::printing::{spoils, Files, BUDGET, EXAMPLE_BUDGET};
use common::program::By;
use common::report::counts;
use common::series::{
    at_the_limits, every_change, every_change_of, every_place, variables_and_one, SMALL,
};
use compare::{Compare, SPOILS};
use reference::generate::bigraded::{
    bidegree_file, bigraded_file, bimultiples_of_one, bistopped_file,
};
use reference::generate::degree_lines::{components_of, with_degrees};
use reference::generate::pages::graded_file;
use reference::generate::problems::{problem_file, random_basis, random_degrees, random_set};
use reference::generate::weight_lines::{
    random_weights, spoiled_weight_lines, variables_of, with_random_weights, with_weights,
    without_weight_lines,
};
use reference::random::Random;

const FILES: u64 = 20_000;
const SEED: u64 = 20_261_401;

fn main() {
    let (mut wanted, seed, spoil) = asked(&words(), "files", (FILES, SEED), &spoils(&SPOILS));
    let mut compare = Compare::new(seed, spoil);
    let mut random = Random::new(seed);
    if spoil.is_some() {
        wanted = 400;
    } else {
        printed(&mut compare);
        every_change(&mut compare, 37, 29);
        every_change_of(SMALL, &mut compare, 5, 7);
        every_spoiled_line(&mut compare, &mut random);
        for (_, file) in examples() {
            // one that has elements of two bidegrees takes no product more than acceptance
            compare.file_by(&file, EXAMPLE_BUDGET, By::Pipe(1_000));
            let bare = without_weight_lines(&file);
            compare.file_by(&bare, EXAMPLE_BUDGET, By::File);
            let ones = vec![[1, 0]; variables_of(&bare) as usize];
            for weights in [
                with_weights(&bare, &ones),
                with_random_weights(&mut random, &bare),
            ] {
                compare.file_by(&weights, EXAMPLE_BUDGET, By::File);
            }
        }
        at_the_limits(&mut compare, &mut random, bistopped_file);
        // 25
        every_place(&mut compare, &mut random, bimultiples_of_one);
    }
    let systematic = compare.printing.files;
    while compare.printing.files < wanted {
        random_file(&mut compare, &mut random);
    }
    report(&compare, systematic, seed);
    if wanted >= FILES / 4 {
        enough(&compare);
    }
}

fn report(compare: &Compare, systematic: u64, seed: u64) {
    let printing = &compare.printing;
    printing.report("bidegrees", systematic, seed);
    println!(
        "  lines: {} files with a D line, {} with a G line, {} with both, {} with a second sum above 0; at most {} lines, the longest of {} bytes; \
         the last column in use: {}",
        printing.with_degrees,
        printing.with_weights,
        printing.with_both,
        compare.second,
        compare.most,
        compare.longest,
        counts(&compare.columns).join(", ")
    );
    println!(
        "  24 at lines {:?}; 25 at {} places; 13 to 15 at (number, level): {:?}",
        printing.places(24),
        printing.places(25).len(),
        printing.stops()
    );
    println!(
        "  beside the Betti page: {} files with every a at 1 have its counts, summed over b; sheet and page of {} files are the same without the G line; \
         [[neither, 25], [17, both]]: {:?}; {} of {} pages and {} of {} sheets also by program",
        compare.summed,
        printing.without,
        compare.refused,
        compare.betti.runs,
        compare.betti.files,
        compare.syzygies.runs,
        compare.syzygies.files
    );
}

/// A run in which something hardly comes tests too little.
fn enough(compare: &Compare) {
    let printing = &compare.printing;
    printing.enough(&[25], &[17, 20]);
    compare.betti.enough();
    compare.syzygies.enough();
    assert!(printing.met[0] >= 2 * printing.met[25]);
    assert!((1..=64).all(|place| printing.places(25).contains(&place)));
    assert_eq!(
        printing.places(24).iter().collect::<Vec<_>>(),
        [&2, &3],
        "24 comes at lines 2 and 3"
    );
    assert!(compare.columns[1..10].iter().all(|count| *count >= 3));
    assert_eq!(compare.columns[10], 0, "level 9 is not empty");
    assert!(printing.with_degrees >= 500 && printing.with_weights >= 1_000);
    assert!(printing.with_both >= 400 && compare.second >= 500);
    assert!(compare.most >= 200 && compare.longest >= "B,1,30855,30600,1".len());
    assert!(compare.summed >= 500 && printing.without >= 500);
    assert!(compare.refused.concat().iter().all(|count| *count >= 20));
}

/// The Specification's example, written out; x1 to x8 and 1, with weights that tell all sets of variables apart; the largest sums.
fn printed(compare: &mut Compare) {
    const ALL: [By; 3] = [By::File, By::Pipe(1), By::Pipe(65_536)];
    let lines = "B,0,0,0,1\nB,1,1,1,2\nB,2,2,2,1\n";
    let without = "B,0,0,0,1\nB,1,2,0,2\nB,2,4,0,1\n";
    for p in [2, 3, 5, 7, 101, 32_003, 32_749, 65_519, 65_521] {
        for order in 1..=3 {
            let head = format!("R,{p},4,{order},1\n");
            let rest = "T,1,1,1,1,0,1,0\nT,2,1,1,0,1,0,1\nE,2\n";
            for by in ALL {
                let file = format!("{head}G,1,0,1,0,0,1,0,1\n{rest}");
                compare.expect(file.as_bytes(), lines.as_bytes(), by);
                let file = format!("{head}{rest}");
                compare.expect(file.as_bytes(), without.as_bytes(), by);
            }
        }
    }
    let weights = [
        [1, 0],
        [2, 0],
        [4, 0],
        [8, 0],
        [0, 1],
        [0, 2],
        [0, 4],
        [0, 15],
    ];
    let file = with_weights(variables_and_one().as_bytes(), &weights);
    // a set of variables, and the same with 1 beside it, a column later
    let mut lines = vec![(0, 0, 0)];
    for set in 0_u32..256 {
        let own = (set % 16, set / 16 % 8 + 15 * (set / 128));
        let column = set.count_ones();
        if set > 0 {
            lines.push((column, own.0, own.1));
        }
        lines.push((column + 1, own.0, own.1));
    }
    lines.sort_unstable();
    let lines: String = lines
        .iter()
        .map(|(column, a, b)| format!("B,{column},{a},{b},1\n"))
        .collect();
    for by in ALL {
        compare.expect(&file, lines.as_bytes(), by);
    }
    let (large, fifteens) = (",255".repeat(8), ",15".repeat(16));
    for order in 1..=3 {
        let file = format!("R,7,8,{order},1\nD,255\nG{fifteens}\nT,1,1,1{large}\nE,1\n");
        let lines = "B,0,255,0,1\nB,1,30855,30600,1\n";
        compare.expect(file.as_bytes(), lines.as_bytes(), By::File);
    }
}

/// Every way to spoil a G line, with a D line and without it; and every weight in each place.
fn every_spoiled_line(compare: &mut Compare, random: &mut Random) {
    for (file, has_degrees) in [(SMALL, true), (WRITTEN[0], false), (WRITTEN[3], false)] {
        let bare = without_weight_lines(file.as_bytes());
        let weights = random_weights(random, variables_of(&bare));
        let degrees = random_degrees(random, components_of(&bare));
        let lines = bare.iter().filter(|byte| **byte == 10).count();
        for spoiled in spoiled_weight_lines(lines, has_degrees, &weights, &degrees) {
            compare.file(&spoiled.file(&bare), BUDGET);
        }
        for at in 0..2 * weights.len() {
            for weight in 0..=20 {
                let mut other = weights.clone();
                other[at / 2][at % 2] = weight;
                compare.file(&with_weights(&bare, &other), BUDGET);
            }
        }
    }
    // degrees of components beside a G line
    for degree in (0..=255).step_by(5) {
        let file = with_degrees(WRITTEN[16].as_bytes(), &[degree, 255 - degree]);
        compare.file(&file, BUDGET);
    }
}

fn random_file(compare: &mut Compare, random: &mut Random) {
    let size = random_size(random, 8);
    let mut file = match random.below(20) {
        0 => problem_file(&random_problem(random)),
        1 => problem_file(&random_basis(random, &size)),
        2 => problem_file(&random_set(random, &size)),
        3 => graded_file(random),
        4 => bigraded_file(random),
        _ => bidegree_file(random),
    };
    if random.chance(10) {
        with_some_weights(random, &mut file);
    }
    if random.chance(5) {
        damage_some(random, &mut file);
    }
    compare.file(&file, BUDGET);
}
