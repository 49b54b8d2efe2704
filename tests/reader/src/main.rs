// SPDX-License-Identifier: MIT OR Apache-2.0
//! The proved reader against the unrelated implementation: number, place and every word, file by file.
//!
//!     test-reader [FILES [SEED]]        at least so many files (260,000 without it)
//!     test-reader spoil number|place|word   spoils one answer: the run must find it and exit with 1

mod compare;

use common::arguments::{asked, words};
use common::buffers::{rows, STATE};
use common::files::{
    changed_at, damage_some, fields_of, random_problem, with_each_field, with_field,
    with_some_weights, FIELDS, WRITTEN,
};
use common::report::counts;
use compare::{Compare, SPOILS};
use reference::generate::degree_lines::{
    components_of, spoil_degree_line, spoiled_degree_lines, with_degrees, with_random_degrees,
    without_degree_lines,
};
use reference::generate::files::{edit, edited_file, exact_length_file, exact_t_lines_file};
use reference::generate::problems::{problem_file, random_degrees};
use reference::generate::weight_lines::{
    damage_weights, random_weights, spoil_weight_line, spoiled_weight_lines, variables_of,
    with_random_weights, with_weights, without_weight_lines,
};
use reference::random::Random;

const FILES: u64 = 260_000;
const SEED: u64 = 20_250_101;

fn main() {
    let (wanted, seed, spoil) = asked(&words(), "files", (FILES, SEED), &SPOILS);
    let mut compare = Compare::new(seed);
    compare.spoil = spoil.map(|what| (700, what));
    let mut random = Random::new(seed);

    every_change(&mut compare);
    every_field(&mut compare);
    degree_lines(&mut compare, &mut random);
    weight_lines(&mut compare, &mut random);
    short_buffers(&mut compare);
    at_the_limits(&mut compare, &mut random);
    // a long run cuts the longest file off at every byte, a short one here and there
    cut_off(
        &mut compare,
        &mut random,
        if wanted < 1_000_000 { 61 } else { 1 },
    );
    let systematic = compare.files;
    while compare.files < wanted {
        random_file(&mut compare, &mut random);
    }

    println!(
        "reader: {} files agree in number, place and words ({systematic} systematic, seed {seed})",
        compare.files
    );
    for count in counts(&compare.met) {
        println!("  {count}");
    }
    // a run in which a refusal never comes tests too little
    for number in [0, 1, 2, 3, 4, 5, 6, 7, 8, 16, 18, 24] {
        assert!(compare.met[number] >= 20, "number {number} came too seldom");
    }
}

/// Each small file, cut off, flipped, deleted, doubled, replaced and inserted at every byte.
fn every_change(compare: &mut Compare) {
    compare.file(b"");
    compare.file(b"\n");
    for file in WRITTEN.map(str::as_bytes) {
        compare.file(file);
        for at in 0..file.len() {
            changed_at(file, at, |changed| compare.file(changed));
        }
        for byte in 0..=255 {
            let mut longer = file.to_vec();
            longer.push(byte);
            compare.file(&longer);
        }
    }
}

/// Each field of each small file at, about and past every limit.
fn every_field(compare: &mut Compare) {
    for file in WRITTEN.map(str::as_bytes) {
        with_each_field(file, 1, |changed| compare.file(changed));
    }
}

/// D lines: every degree, every way to spoil one, and one spoiled at each byte; in small files and in some at the limits.
fn degree_lines(compare: &mut Compare, random: &mut Random) {
    for file in WRITTEN.iter().filter(|file| !file.contains("\nG,")) {
        let bare = without_degree_lines(file.as_bytes());
        compare.file(&bare);
        let s = components_of(&bare) as usize;
        for degree in (0..=300).chain([511, 512, 32_767, 32_768, 65_280, 65_534, 65_535, 65_536]) {
            for at in [0, s / 2, s - 1] {
                let mut degrees = random_degrees(random, s as u64);
                degrees[at] = degree;
                compare.file(&with_degrees(&bare, &degrees));
            }
        }
        let lines = fields_of(&bare).len();
        for degrees in [vec![0; s], vec![255; s], random_degrees(random, s as u64)] {
            for spoiled in spoiled_degree_lines(lines, &degrees) {
                compare.file(&spoiled.file(&bare));
            }
            // as many fields as any line may have, and more
            for fields in 0..=40 {
                let mut longer = degrees.clone();
                longer.resize(fields, 7);
                compare.file(&with_degrees(&bare, &longer));
            }
            let with = with_degrees(&bare, &degrees);
            let from = with.iter().position(|byte| *byte == 10).expect("a line");
            let line = with[from + 1..].iter().position(|byte| *byte == 10);
            for at in from..=from + 1 + line.expect("a line") {
                changed_at(&with, at, |changed| compare.file(changed));
            }
        }
    }
    for file in [
        exact_length_file(random, 65_500),
        exact_t_lines_file(random, 2_048),
        exact_t_lines_file(random, 2_049),
    ] {
        for _ in 0..40 {
            compare.file(&with_random_degrees(random, &file));
            let mut spoiled = file.clone();
            spoil_degree_line(random, &mut spoiled);
            compare.file(&spoiled);
        }
    }
}

/// G lines: every weight, every way to spoil one, and one spoiled at each byte, behind R and behind D; in small files and in some at the limits.
fn weight_lines(compare: &mut Compare, random: &mut Random) {
    for (i, file) in WRITTEN.map(str::as_bytes).into_iter().enumerate() {
        let without_d = without_weight_lines(&without_degree_lines(file));
        let degrees = random_degrees(random, components_of(&without_d));
        let with_d = with_degrees(&without_d, &degrees);
        for (bare, has_degrees) in [(without_d, false), (with_d, true)] {
            let n = variables_of(&bare) as usize;
            for weight in (0..=40).chain([255, 256, 4_095, 4_096, 65_520, 65_534, 65_535, 65_536]) {
                for at in [0, n, 2 * n - 1] {
                    let mut weights = random_weights(random, n as u64);
                    weights[at / 2][at % 2] = weight;
                    compare.file(&with_weights(&bare, &weights));
                }
            }
            let lines = fields_of(&bare).len();
            let weights = match i % 3 {
                0 => vec![[0, 0]; n],
                1 => vec![[15, 15]; n],
                _ => random_weights(random, n as u64),
            };
            for spoiled in spoiled_weight_lines(lines, has_degrees, &weights, &degrees) {
                compare.file(&spoiled.file(&bare));
            }
            // as many fields as any line may have, and more, odd numbers of them too
            for fields in 0..=40 {
                let longer = vec![[7, 7]; fields / 2];
                let mut file = with_weights(&bare, &longer);
                if fields % 2 == 1 {
                    let line = 1 + usize::from(has_degrees);
                    let own = fields_of(&file)[line];
                    file = with_field(&file, line, own - 1, if fields > 1 { "7,7" } else { "G,7" });
                }
                compare.file(&file);
            }
            let with = with_weights(&bare, &weights);
            let ends = with.iter().enumerate().filter(|(_, byte)| **byte == 10);
            let ends: Vec<usize> = ends.map(|(at, _)| at).collect();
            let own = usize::from(has_degrees);
            for at in (ends[own]..=ends[own + 1]).filter(|at| (at + i) % 2 == own) {
                changed_at(&with, at, |changed| compare.file(changed));
            }
        }
    }
    for file in [
        exact_length_file(random, 65_480),
        exact_t_lines_file(random, 2_048),
        exact_t_lines_file(random, 2_049),
    ] {
        for _ in 0..40 {
            compare.file(&with_random_weights(random, &file));
            let mut spoiled = file.clone();
            spoil_weight_line(random, &mut spoiled);
            compare.file(&spoiled);
        }
    }
    // the G line counts for the length
    for length in 65_500..=65_540 {
        let file = exact_length_file(random, length - 33);
        compare.file(&with_weights(&file, &[[9, 3]; 8]));
        compare.file(&with_weights(&file, &[[15, 0]; 8]));
    }
}

/// 16 before all else, and no word changes.
fn short_buffers(compare: &mut Compare) {
    for file in WRITTEN.map(str::as_bytes) {
        for words in [0, 1, 5, rows(0), STATE - 2, STATE - 1] {
            compare.short_buffer(file, words);
        }
    }
    compare.short_buffer(&vec![b'0'; 65_537], STATE - 1);
}

/// Files of about 65,536 bytes, of about 2,048 T lines, of about 64 elements; and these damaged.
fn at_the_limits(compare: &mut Compare, random: &mut Random) {
    for length in 65_533..=65_539 {
        let file = exact_length_file(random, length);
        assert_eq!(file.len(), length);
        compare.file(&file);
        for back in 1..=40 {
            compare.file(&file[..length - back]);
        }
        for _ in 0..40 {
            let mut damaged = file.clone();
            damage_weights(random, &mut damaged);
            compare.file(&damaged);
        }
    }
    for lines in 2_046..=2_051 {
        let file = exact_t_lines_file(random, lines);
        compare.file(&file);
        // the last T line, and E's, by each field and cut off at each byte
        let last = fields_of(&file).len() - 1;
        for line in [last - 2, last - 1, last] {
            for field in 0..=fields_of(&file)[line] {
                for text in [
                    "0", "1", "2", "3", "65", "256", "2047", "2048", "2049", "65536", "01", "",
                ] {
                    compare.file(&with_field(&file, line, field, text));
                }
            }
        }
        for back in 1..=60 {
            compare.file(&file[..file.len() - back]);
        }
        for _ in 0..60 {
            let mut damaged = file.clone();
            damage_weights(random, &mut damaged);
            compare.file(&damaged);
        }
    }
    // one byte over and over
    for byte in [b'0', b'9', b',', b'\n', b'R', b'T', 0, 255] {
        for length in [1, 2, 65_535, 65_536, 65_537, 70_000] {
            compare.file(&vec![byte; length]);
        }
    }
    // numbers of many digits
    for digit in [b'0', b'1', b'9'] {
        for digits in [1, 5, 6, 19, 20, 21, 60_000] {
            let mut file = b"R,7,1,1,1\nT,1,1,1,".to_vec();
            file.resize(file.len() + digits, digit);
            file.extend(b"\nE,1\n");
            compare.file(&file);
        }
    }
}

/// A file of 65,536 bytes, cut off.
fn cut_off(compare: &mut Compare, random: &mut Random, apart: usize) {
    let file = exact_length_file(random, 65_536);
    for length in (0..=65_536).step_by(apart) {
        compare.file(&file[..length]);
    }
}

fn random_file(compare: &mut Compare, random: &mut Random) {
    let mut file = match random.below(4) {
        0 => edited_file(random),
        _ => problem_file(&random_problem(random)),
    };
    with_some_weights(random, &mut file);
    if random.chance(30) {
        compare.file(&file);
    }
    // at every byte
    if file.len() < 600 && random.below(400) == 0 {
        for length in 0..file.len() {
            compare.file(&file[..length]);
        }
    }
    let kinds = fields_of(&file);
    match random.below(12) {
        0 => spoil_degree_line(random, &mut file),
        1 => file = with_random_degrees(random, &file),
        2 => spoil_weight_line(random, &mut file),
        3 => {
            let with = with_random_weights(random, &file);
            file = edit(random, &with);
        }
        4..=6 => {
            let line = random.below(kinds.len() as u64) as usize;
            let field = random.between(0, kinds[line] as u64) as usize;
            if file.ends_with(b"\n") {
                let text: &str = random.pick::<&str>(&FIELDS);
                file = with_field(&file, line, field, text);
            }
        }
        _ => damage_some(random, &mut file),
    }
    compare.file(&file);
}
