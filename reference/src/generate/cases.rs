// SPDX-License-Identifier: MIT OR Apache-2.0
//! The kinds of `reference generate`.

use crate::betti::page;
use crate::bidegrees::bidegrees;
use crate::completing::complete;
use crate::generate::bigraded::{bidegree_file, bigraded_file, bimixed_file, bistopped_file};
use crate::generate::files::{damaged_file, limit_file, plain_file};
use crate::generate::generators::{generator_file, incomplete_file};
use crate::generate::logs::{log_input, recorded_input};
use crate::generate::low::{hilbert_file, low_file};
use crate::generate::pages::{graded_file, mixed_file, page_file, stopped_file};
use crate::generate::problems::{problem_file, random_basis, Size};
use crate::generate::redundant::{minimal_file, redundant_file};
use crate::generate::scripts::{random_script, with_small_limits, Reach};
use crate::generate::slow::slow_file;
use crate::generate::vectors::{divided_input, vector_input};
use crate::generate::weight_lines::weighted_file;
use crate::hilbert::hilbert;
use crate::limits::Limits;
use crate::membership::membership;
use crate::minimal::minimal;
use crate::random::Random;
use crate::replay::replay;
use crate::script::{Run, Script};
use crate::sheet::{sheet, tree_sheet};

/// The kinds of problem files.
pub const FILE_KINDS: [&str; 5] = ["small", "bases", "damaged", "limits", "weighted"];

/// The kinds of problem files for the Betti page.
pub const PAGE_KINDS: [&str; 4] = ["graded", "mixed", "stopped", "pages"];

/// The kinds of problem files for bidegrees.
pub const BIDEGREE_KINDS: [&str; 4] = ["bigraded", "bimixed", "bistopped", "bidegrees"];

/// The kinds of problem files for the Hilbert function.
pub const HILBERT_KINDS: [&str; 2] = ["low", "hilbert"];

/// The kinds of problem files for minimal Betti numbers.
pub const MINIMAL_KINDS: [&str; 2] = ["redundant", "minimal"];

/// The kinds of problem files for completing.
pub const GENERATOR_KINDS: [&str; 2] = ["incomplete", "generators"];

/// The kinds of problem files with V lines behind them.
pub const VECTOR_KINDS: [&str; 2] = ["divided", "vectors"];

/// The kinds of problem files with recorded picks behind them.
pub const LOG_KINDS: [&str; 2] = ["recorded", "logs"];

/// The kind of problem files that take very many steps by pick code 2.
pub const SLOW_KIND: &str = "slow";

/// Products that the sheet of a generated file may take.
pub const SHEET_PRODUCTS: u64 = 300_000;

/// A problem file and its sheet.
#[derive(Clone, Debug)]
pub struct FileCase {
    /// the file's bytes
    pub file: Vec<u8>,
    /// the sheet's bytes
    pub sheet: Vec<u8>,
}

/// The problem file of a kind for a case of a seed; `None` if there is no such kind.
pub fn file_case(kind: &str, seed: u64, case: u64) -> Option<FileCase> {
    let mut random = Random::for_case(seed, case);
    loop {
        let (file, products) = match kind {
            "small" => (plain_file(&mut random, &Size::small()), 20_000),
            "bases" => (
                problem_file(&random_basis(&mut random, &Size::medium())),
                SHEET_PRODUCTS,
            ),
            "damaged" => (damaged_file(&mut random), SHEET_PRODUCTS),
            "limits" => (limit_file(&mut random), SHEET_PRODUCTS),
            "weighted" => (weighted_file(&mut random, &Size::small()), 20_000),
            _ => return None,
        };
        let (Some(sheet), _) = sheet(&Limits::document_01(), &file, Some(products)) else {
            continue;
        };
        let short = ["small", "weighted"].contains(&kind);
        let too_long = short && (lines(&file) > 25 || lines(&sheet) > 120);
        if !too_long {
            return Some(FileCase { file, sheet });
        }
    }
}

/// The problem file of a page's kind for a case of a seed, and its Betti page; `None` if there is
/// no such kind.
pub fn page_case(kind: &str, seed: u64, case: u64) -> Option<(Vec<u8>, Vec<u8>)> {
    let mut random = Random::for_case(seed, case);
    loop {
        let file = match kind {
            "graded" => graded_file(&mut random),
            "mixed" => mixed_file(&mut random),
            "stopped" => stopped_file(&mut random),
            "pages" => page_file(&mut random),
            _ => return None,
        };
        let (Some(page), _) = page(&Limits::document_01(), &file, Some(SHEET_PRODUCTS)) else {
            continue;
        };
        if kind != "mixed" || page.starts_with(b"X,17,") {
            return Some((file, page));
        }
    }
}

/// The problem file of a kind for bidegrees for a case of a seed, and its lines; `None` if there is
/// no such kind.
pub fn bidegree_case(kind: &str, seed: u64, case: u64) -> Option<(Vec<u8>, Vec<u8>)> {
    let mut random = Random::for_case(seed, case);
    loop {
        let file = match kind {
            "bigraded" => bigraded_file(&mut random),
            "bimixed" => bimixed_file(&mut random),
            "bistopped" => bistopped_file(&mut random),
            "bidegrees" => bidegree_file(&mut random),
            _ => return None,
        };
        let (Some(lines), _) = bidegrees(&Limits::document_01(), &file, Some(SHEET_PRODUCTS))
        else {
            continue;
        };
        if kind != "bimixed" || lines.starts_with(b"X,25,") {
            return Some((file, lines));
        }
    }
}

/// The problem file of a kind for the Hilbert function for a case of a seed, and its lines; `None` if
/// there is no such kind.
pub fn hilbert_case(kind: &str, seed: u64, case: u64) -> Option<(Vec<u8>, Vec<u8>)> {
    let mut random = Random::for_case(seed, case);
    loop {
        let file = match kind {
            "low" => low_file(&mut random),
            "hilbert" => hilbert_file(&mut random),
            _ => return None,
        };
        let (Some(lines), _) = hilbert(&Limits::document_01(), &file, Some(SHEET_PRODUCTS)) else {
            continue;
        };
        return Some((file, lines));
    }
}

/// The problem file of a kind for minimal Betti numbers for a case of a seed, and their page; `None`
/// if there is no such kind.
pub fn minimal_case(kind: &str, seed: u64, case: u64) -> Option<(Vec<u8>, Vec<u8>)> {
    let mut random = Random::for_case(seed, case);
    loop {
        let file = match kind {
            "redundant" => redundant_file(&mut random),
            "minimal" => minimal_file(&mut random),
            _ => return None,
        };
        let (Some(page), _) = minimal(&Limits::document_01(), &file, Some(SHEET_PRODUCTS)) else {
            continue;
        };
        return Some((file, page));
    }
}

/// The problem file of a kind for completing for a case of a seed, and what is printed; `None` if
/// there is no such kind.
pub fn generator_case(kind: &str, seed: u64, case: u64) -> Option<(Vec<u8>, Vec<u8>)> {
    let mut random = Random::for_case(seed, case);
    loop {
        let file = match kind {
            "incomplete" => incomplete_file(&mut random),
            "generators" => generator_file(&mut random),
            _ => return None,
        };
        let (printed, _) = complete(&Limits::document_01(), &file, Some(SHEET_PRODUCTS));
        let Some(printed) = printed else {
            continue;
        };
        if kind != "incomplete" || (!printed.starts_with(b"X") && printed != file) {
            return Some((file, printed));
        }
    }
}

/// The input of a kind with V lines for a case of a seed, and its lines; `None` if there is no such
/// kind.
pub fn vector_case(kind: &str, seed: u64, case: u64) -> Option<(Vec<u8>, Vec<u8>)> {
    let mut random = Random::for_case(seed, case);
    loop {
        let input = match kind {
            "divided" => divided_input(&mut random),
            "vectors" => vector_input(&mut random),
            _ => return None,
        };
        let (printed, _) = membership(&Limits::document_01(), &input, Some(SHEET_PRODUCTS));
        let Some(lines) = printed else {
            continue;
        };
        if kind != "divided" || !lines.starts_with(b"X") {
            return Some((input, lines));
        }
    }
}

/// The input of a kind with recorded picks for a case of a seed, and what is printed; `None` if there
/// is no such kind.
pub fn log_case(kind: &str, seed: u64, case: u64) -> Option<(Vec<u8>, Vec<u8>)> {
    let mut random = Random::for_case(seed, case);
    loop {
        let input = match kind {
            "recorded" => recorded_input(&mut random),
            "logs" => log_input(&mut random),
            _ => return None,
        };
        let (printed, _) = replay(&Limits::document_01(), &input, Some(SHEET_PRODUCTS));
        let Some(lines) = printed else {
            continue;
        };
        if kind != "recorded" || !lines.starts_with(b"X") {
            return Some((input, lines));
        }
    }
}

/// A slow file for a case of a seed, and its sheet, made by the tree.
pub fn slow_case(seed: u64, case: u64) -> (Vec<u8>, Vec<u8>) {
    let mut random = Random::for_case(seed, case);
    let file = slow_file(&mut random);
    let (sheet, _) = tree_sheet(&Limits::document_01(), &file, None);
    (file, sheet.expect("there is no budget"))
}

fn lines(text: &[u8]) -> usize {
    text.iter().filter(|byte| **byte == 10).count()
}

/// A list of calls for a case of a seed, with its run. About half have small limits, and of these
/// most are refused by 13, 14 or 15 while lifting.
pub fn calls_case(seed: u64, case: u64, reach: &Reach) -> (Script, Run) {
    let mut random = Random::for_case(seed, case);
    if random.chance(50) {
        return random_script(&mut random, reach);
    }
    let wanted = random.chance(75).then(|| {
        let number = random.between(13, 15);
        (number, *random.pick(&[1, 1, 2, 2, 3]))
    });
    let mut tries = 0;
    loop {
        let (script, run) = random_script(&mut random, reach);
        let number = wanted.map(|(number, _)| number);
        let script = with_small_limits(&mut random, &script, &run, number);
        let Some(run) = script.run(Some(reach.products)) else {
            continue;
        };
        tries += 1;
        let as_wanted = wanted.is_none_or(|wanted| {
            run.answers
                .iter()
                .any(|answer| (answer.number, answer.place) == wanted)
        });
        if as_wanted || tries == 200 {
            return (script, run);
        }
    }
}
