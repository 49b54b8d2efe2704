// SPDX-License-Identifier: MIT OR Apache-2.0
//! Bidegrees (request A14): the G line, what stays as it is without it, the lines, and 25.

use crate::common::*;
use reference::betti::page;
use reference::bidegrees::{
    bidegree, bidegrees, counts, lines, of_two_bidegrees, Bidegree, Counts,
};
use reference::buffers::*;
use reference::engine::{Basis, State};
use reference::frame::{frame, NUMBERING};
use reference::generate::bigraded::{
    bigraded_problem, bimultiples_of_one, first_mixed, is_bigraded,
};
use reference::generate::cases::{bidegree_case, file_case};
use reference::generate::degree_lines::{components_of, with_degrees, without_degree_lines};
use reference::generate::files::{limit_file, plain_file};
use reference::generate::pages::{
    graded_problem, graded_tails, large_product, with_mixed_elements,
};
use reference::generate::problems::{problem_file, random_basis, random_degrees, random_set, Size};
use reference::generate::weight_lines::{
    random_weights, spoiled_weight_lines, variables_of, with_random_weights, with_weights,
    without_weight_lines,
};
use reference::lifting::{accept, Way};
use reference::monomial::{lcm, leading_monomial, Monomial, Parameters, Weights, UNIT};
use reference::order::Modules;
use reference::random::Random;
use reference::reader::{read_problem, Problem};
use reference::sheet::sheet;
use reference::Limits;
use std::collections::{BTreeMap, BTreeSet};

fn lines_text(file: &[u8]) -> String {
    let (printed, _) = bidegrees(&Limits::document_01(), file, None);
    String::from_utf8(printed.expect("there is no budget")).expect("text")
}

fn lines_of(lines: &[&str]) -> String {
    lines_text(&file(lines))
}

fn page_text(file: &[u8]) -> String {
    let (printed, _) = page(&Limits::document_01(), file, None);
    String::from_utf8(printed.expect("there is no budget")).expect("text")
}

fn sheet_text(file: &[u8]) -> String {
    let (printed, _) = sheet(&Limits::document_01(), file, None);
    String::from_utf8(printed.expect("there is no budget")).expect("text")
}

/// What the lines say; their form and sequence are tested on the way.
fn read_lines(text: &str) -> Counts {
    assert!(text.ends_with('\n'));
    let mut counts = Counts::new();
    let mut before = None;
    for line in text.lines() {
        assert!(line.len() < 23, "{line}");
        let fields: Vec<&str> = line.split(',').collect();
        assert_eq!((fields[0], fields.len()), ("B", 5));
        let numbers: Vec<u64> = fields[1..].iter().flat_map(|word| word.parse()).collect();
        let again: Vec<String> = numbers.iter().map(u64::to_string).collect();
        assert_eq!(again, fields[1..]);
        let key = (numbers[0], [numbers[1], numbers[2]]);
        assert!(before < Some(key), "{line} stands too late");
        assert!(numbers[0] <= 10 && (1..=128).contains(&numbers[3]));
        before = Some(key);
        counts.insert(key, numbers[3]);
    }
    counts
}

/// A module in x, y, u, v: bihomogeneous with the weights 1, 0 for x and y and 0, 1 for u and v, and
/// the degrees 0 and 1 of its components.
const MODULE: [&str; 6] = [
    "R,7,4,3,2",
    // x²u·e_1 + xu·e_2, of bidegree (2, 1)
    "T,1,1,1,2,0,1,0",
    "T,1,1,2,1,0,1,0",
    // yv·e_2, of bidegree (2, 1)
    "T,2,1,2,0,1,0,1",
    // u²·e_2, of bidegree (1, 2)
    "T,3,1,2,0,0,2,0",
    "E,4",
];

const D: &str = "D,0,1";
const G: &str = "G,1,0,1,0,0,1,0,1";

/// The module's lines with these put in behind R.
fn module(more: &[&str]) -> Vec<u8> {
    let mut lines = MODULE.to_vec();
    lines.splice(1..1, more.iter().copied());
    file(&lines)
}

/// Number and place of reading a file; where it is not read the buffers are zero, and every program
/// prints the same X line.
fn refusal(file: &[u8]) -> (u64, u64) {
    let (state, answer) = read(file);
    assert_eq!(state.basis.is_some(), answer.number == 0);
    let limits = Limits::document_01();
    let mut words = vec![9; state_words(&limits) + 2];
    let mut work = vec![9; work_words(&limits, None) + 2];
    let found = read_call(&limits, file, &mut words, &mut work);
    assert_eq!(found, (answer.number, answer.place));
    if matches!(answer.number, 1..=8 | 18 | 24) {
        assert!(words.iter().chain(&work).all(|word| *word == 0));
        let line = format!("X,{},{}\n", answer.number, answer.place);
        assert_eq!(sheet_text(file), line);
        assert_eq!(page_text(file), line);
        assert_eq!(lines_text(file), line);
    }
    found
}

/// The weights that a file's G line says.
fn weights_of(file: &[u8]) -> Vec<Weights> {
    let problem = read_problem(&Limits::document_01(), file).expect("a problem");
    problem.weights
}

// ---- the G line

#[test]
fn right_lines() {
    assert_eq!(weights_of(&file(&MODULE)), [[1, 0]; 4]);
    for (line, weights) in [
        (G, [[1, 0], [1, 0], [0, 1], [0, 1]]),
        ("G,1,0,1,0,1,0,1,0", [[1, 0]; 4]),
        ("G,0,0,0,0,0,0,0,0", [[0, 0]; 4]),
        ("G,15,15,15,15,15,15,15,15", [[15, 15]; 4]),
        ("G,1,2,3,4,5,6,7,8", [[1, 2], [3, 4], [5, 6], [7, 8]]),
    ] {
        for more in [&[line][..], &[D, line]] {
            let file = module(more);
            assert_eq!(refusal(&file), (0, 0), "{more:?}");
            assert_eq!(weights_of(&file), weights);
            assert_eq!(variables_of(&file), 4);
            let bare = module(&more[..more.len() - 1]);
            assert_eq!(without_weight_lines(&file), bare);
            assert_eq!(with_weights(&bare, &weights), file);
            assert_eq!(with_weights(&file, &[[9, 9]; 4]).len(), {
                let nines = "G,9,9,9,9,9,9,9,9";
                bare.len() + nines.len() + 1
            });
        }
    }
    for weight in 0..=15 {
        for at in 0..8 {
            let mut numbers = [3; 8];
            numbers[at] = weight;
            let line = format!("G,{}", numbers.map(|w: u64| w.to_string()).join(","));
            assert_eq!(refusal(&module(&[&line])), (0, 0));
            assert_eq!(refusal(&module(&[D, &line])), (0, 0));
        }
    }
    // one variable, and eight
    let one = file(&["R,2,1,3,1", "G,9,4", "T,1,1,1,1", "E,1"]);
    assert_eq!(weights_of(&one), [[9, 4]]);
    let line = format!("G{}", ",15,0".repeat(8));
    let t = format!("T,1,1,1{}", ",255".repeat(8));
    let eight = file(&["R,2,8,3,1", "D,255", &line, &t, "E,1"]);
    assert_eq!(weights_of(&eight), [[15, 0]; 8]);
}

#[test]
fn every_spoiled_line() {
    for (line, number) in [
        ("G,16,0,1,0,0,1,0,1", 24),
        ("G,1,0,1,0,0,1,0,16", 24),
        ("G,1,0,1,16,0,1,0,1", 24),
        ("G,16,16,16,16,16,16,16,16", 24),
        ("G,65535,0,1,0,0,1,0,1", 24),
        ("G,1,0,1,0,0,1,0,65535", 24),
        ("G,65536,0,1,0,0,1,0,1", 1),
        ("G,16,0,1,0,0,1,0,65536", 1),
        ("G,18446744073709551616,0,1,0,0,1,0,1", 1),
        ("G", 1),
        ("G,", 1),
        ("G,1", 1),
        ("G,1,0,1,0", 1),
        ("G,1,0,1,0,0,1,0", 1),
        ("G,16,0,1,0,0,1,0", 1),
        ("G,1,0,1,0,0,1,0,1,0", 1),
        ("G,1,0,1,0,0,1,0,1,1,0", 1),
        ("G,16,0,1,0,0,1,0,1,1,0", 1),
        ("G,1,0,1,0,0,1,0,1,", 1),
        ("G,1,0,1,0,,1,0,1", 1),
        ("G,01,0,1,0,0,1,0,1", 1),
        ("G,1,00,1,0,0,1,0,1", 1),
        ("G,+1,0,1,0,0,1,0,1", 1),
        ("G,-1,0,1,0,0,1,0,16", 1),
        ("G, 1,0,1,0,0,1,0,1", 1),
        ("G,1,0,1,0,0,1,0,1 ", 1),
        ("G,1,0,1,0,0,1,0,1\r", 1),
        (" G,1,0,1,0,0,1,0,1", 1),
        ("g,1,0,1,0,0,1,0,1", 1),
        ("GG,1,0,1,0,0,1,0,1", 1),
        ("G1,0,1,0,0,1,0,1", 1),
        ("G;1;0;1;0;0;1;0;1", 1),
        ("H,1,0,1,0,0,1,0,1", 1),
        (",1,0,1,0,0,1,0,1", 1),
        ("", 1),
    ] {
        assert_eq!(refusal(&module(&[line])), (number, 2), "{line:?}");
        assert_eq!(refusal(&module(&[D, line])), (number, 3), "{line:?}");
    }
    // anywhere else
    let large = "G,16,0,1,0,0,1,0,1";
    for more in [&[][..], &[G], &[D], &[D, G]] {
        for line in [G, large, "G,1,0", "g,1,0", "G"] {
            let first = more.len() + 3;
            for number in first..=MODULE.len() + more.len() + 1 {
                let mut lines = MODULE.to_vec();
                lines.splice(1..1, more.iter().copied());
                lines.insert(number - 1, line);
                let place = number as u64;
                assert_eq!(refusal(&file(&lines)), (1, place), "{more:?} {line}");
            }
            let mut lines = MODULE.to_vec();
            lines.insert(0, line);
            assert_eq!(refusal(&file(&lines)), (1, 1));
        }
    }
    // twice, and beside D
    for (more, refused) in [
        (&[G, G][..], (1, 3)),
        (&[G, large], (1, 3)),
        (&[large, G], (24, 2)),
        (&[D, G, G], (1, 4)),
        (&[D, G, large], (1, 4)),
        (&[D, large, large], (24, 3)),
        (&[G, D], (1, 3)),
        (&[G, "D,256,0"], (1, 3)),
        (&[large, D], (24, 2)),
        (&[large, "D,256,0"], (24, 2)),
        (&["D,256,0", G], (18, 2)),
        (&["D,256,0", large], (18, 2)),
        (&["D,0", G], (1, 2)),
        (&["D,0,1,2", large], (1, 2)),
        (&[D, D, G], (1, 3)),
        (&[D, G, D], (1, 4)),
        (&[G, D, G], (1, 3)),
        (&["D,1,0,1,0,0,1,0,1"], (1, 2)),
        (&["G,0,1"], (1, 2)),
        (&[D, "G,0,1"], (1, 3)),
    ] {
        assert_eq!(refusal(&module(more)), refused, "{more:?}");
    }
    // not ended, and the last line
    for (text, refused) in [
        ("R,7,1,1,1\nG,3,0", (1, 2)),
        ("R,7,1,1,1\nG,16,0", (1, 2)),
        ("R,7,1,1,1\nG,3,", (1, 2)),
        ("R,7,1,1,1\nG", (1, 2)),
        ("R,7,1,1,1\nG,3,0\n", (1, 3)),
        ("R,7,1,1,1\nG,16,0\n", (24, 2)),
        ("R,7,1,1,1\nG,0,16\n", (24, 2)),
        ("R,7,1,1,1\nD,3\nG,3,0", (1, 3)),
        ("R,7,1,1,1\nD,3\nG,16,0", (1, 3)),
        ("R,7,1,1,1\nD,3\nG,3,0\n", (1, 4)),
        ("R,7,1,1,1\nD,3\nG,3,16\n", (24, 3)),
        ("R,7,1,1,1\nD,3\nG,3,16\nG", (24, 3)),
        ("G,3,0\n", (1, 1)),
        ("G,3,0", (1, 1)),
        ("G", (1, 1)),
    ] {
        assert_eq!(refusal(text.as_bytes()), refused, "{text:?}");
    }
}

#[test]
fn twenty_four_among_the_others() {
    // the R line comes first, with all its tests
    let over = |first: &str, more: &[&str]| {
        let mut lines = MODULE.to_vec();
        lines[0] = first;
        lines.splice(1..1, more.iter().copied());
        refusal(&file(&lines))
    };
    let large = "G,1,0,1,0,0,1,0,16";
    for (more, place) in [(&[large][..], 2), (&[D, large], 3)] {
        assert_eq!(over("R,7,4,3,2", more), (24, place));
        assert_eq!(over("R,7,4,3,2,", more), (1, 1));
        assert_eq!(over("R,9,4,3,2", more), (2, 1));
        assert_eq!(over("R,7,4,4,2", more), (3, 1));
        assert_eq!(over("R,7,9,3,2", more), (3, 1));
        // with another n the line has not its shape
        assert_eq!(over("R,7,3,3,2", more), (1, place));
        assert_eq!(over("R,7,5,3,2", more), (1, place));
    }
    // the lines behind it come later
    assert_eq!(refusal(b"R,7,1,1,1\nG,16,0\nT,9,0,9,999\nE,7\nx"), (24, 2));
    assert_eq!(refusal(b"R,7,1,1,1\nG,15,0\nT,9,0,9,999\nE,7\nx"), (5, 3));
    assert_eq!(refusal(b"R,7,1,1,1\nG,15,0\nT,1,0,9,999\nE,7\nx"), (4, 3));
    assert_eq!(refusal(b"R,7,1,1,1\nG,15,0\nT,1,1,1,9\nE,7\nx"), (7, 4));
    assert_eq!(refusal(b"R,7,1,1,1\nG,15,0\nT,1,1,1,9\nE,1\nx"), (1, 5));
    assert_eq!(refusal(b"R,7,1,1,1\nD,1\nG,15,0\nE,0\n"), (7, 4));
    // G is no T line: it counts neither for E nor for 8
    assert_eq!(refusal(b"R,7,1,1,1\nG,1,1\nT,1,1,1,9\nE,2\n"), (7, 4));
    assert_eq!(refusal(b"R,7,1,1,1\nG,1,1\nT,1,1,1,9\nE,1\n"), (0, 0));
    let terms: Vec<String> = (0..2_049)
        .map(|t| format!("T,1,1,1,{},{}", 20 - t / 200, 200 - t % 200))
        .collect();
    let mut lines = vec!["R,7,2,1,1", "D,7", "G,1,2,3,4"];
    lines.extend(terms[..2_048].iter().map(String::as_str));
    lines.push("E,2048");
    assert_eq!(refusal(&file(&lines)), (0, 0));
    lines.insert(2_051, &terms[2_048]);
    assert_eq!(refusal(&file(&lines)), (8, 2_052));
    // the length comes first, and G counts for it
    let mut long = b"R,7,1,1,1\nG,16,0\n".to_vec();
    long.resize(65_536, b'x');
    assert_eq!(refusal(&long), (24, 2));
    long.push(b'x');
    assert_eq!(refusal(&long), (1, 0));
    // 24 comes before what acceptance refuses
    let no_basis = |g| {
        file(&[
            "R,7,2,1,1",
            g,
            "T,1,1,1,2,0",
            "T,2,1,1,1,1",
            "T,2,1,1,0,2",
            "E,3",
        ])
    };
    assert_eq!(refusal(&no_basis("G,1,0,0,1")), (9, 1));
    assert_eq!(refusal(&no_basis("G,1,0,0,99")), (24, 2));
    let nine = "X,9,1\nW,6,1,0,3\n";
    assert_eq!(sheet_text(&no_basis("G,1,0,0,1")), nine);
    assert_eq!(lines_text(&no_basis("G,1,0,0,1")), nine);
}

#[test]
fn the_spoiled_lines_of_the_generator() {
    let mut random = Random::new(141);
    let mut names = BTreeSet::new();
    for case in 0..120 {
        let mut bare = without_degree_lines(&plain_file(&mut random, &Size::tiny()));
        let degrees = random_degrees(&mut random, components_of(&bare));
        let has_degrees = case % 2 == 0;
        if has_degrees {
            bare = with_degrees(&bare, &degrees);
        }
        let weights = random_weights(&mut random, variables_of(&bare));
        let lines = bare.iter().filter(|byte| **byte == 10).count();
        for spoiled in spoiled_weight_lines(lines, has_degrees, &weights, &degrees) {
            let found = read_problem(&Limits::document_01(), &spoiled.file(&bare));
            let refusal = found.expect_err(spoiled.name);
            let refused = (refusal.number, refusal.place);
            assert_eq!(refused, spoiled.refused, "{}", spoiled.name);
            names.insert((spoiled.name, refused.0));
        }
    }
    assert!(names.len() > 65, "{}", names.len());
}

/// Sheet, page, and every level by every way: with the line as without it.
#[test]
fn with_and_without_the_line() {
    let mut random = Random::new(142);
    let limits = Limits::document_01();
    let budget = Some(50_000);
    let (mut whole, mut refused, mut pages) = (0, BTreeSet::new(), 0);
    for case in 0..900 {
        let problem = match case % 10 {
            0 => random_basis(&mut random, &Size::medium()),
            1 | 2 => random_set(&mut random, &Size::small()),
            3..=6 => graded_problem(&mut random),
            _ => bigraded_problem(&mut random),
        };
        let bare = without_weight_lines(&problem_file(&problem));
        let weights = random_weights(&mut random, problem.parameters.n);
        let with = with_weights(&bare, &weights);
        assert_eq!(weights_of(&with), weights);
        assert_eq!(sheet(&limits, &with, budget), sheet(&limits, &bare, budget));
        let printed = page(&limits, &bare, budget);
        assert_eq!(page(&limits, &with, budget), printed);
        pages += u64::from(printed.0.is_some_and(|page| !page.starts_with(b"X")));
        let (mut state, mut other) = (State::new(), State::new());
        let answer = state.read(&limits, &bare, budget);
        assert_eq!(other.read(&limits, &with, budget), answer);
        assert_eq!(state, other);
        match answer.answer() {
            Some(answer) if answer.number == 0 => whole += 1,
            Some(answer) => _ = refused.insert(answer.number),
            None => continue,
        }
        let words = |state: &State| {
            let mut words = vec![9; state_words(&limits)];
            write_state(&limits, state, &mut words);
            words
        };
        assert!(words(&state) == words(&other));
    }
    assert!(whole > 500 && pages > 300, "{whole} {pages}");
    assert!(refused.contains(&9));
}

// ---- bytes

/// The example of the Specification: x1·y1 and x2·y2.
#[test]
fn the_printed_example() {
    for p in [2, 7, 101, 32_749, 65_521] {
        for order in 1..=3 {
            let head = format!("R,{p},4,{order},1");
            let lines = [&head, G, "T,1,1,1,1,0,1,0", "T,2,1,1,0,1,0,1", "E,2"];
            assert_eq!(lines_of(&lines), "B,0,0,0,1\nB,1,1,1,2\nB,2,2,2,1\n");
            let bare: Vec<&str> = lines.into_iter().filter(|line| *line != G).collect();
            assert_eq!(lines_of(&bare), "B,0,0,0,1\nB,1,2,0,2\nB,2,4,0,1\n");
        }
    }
}

/// The module by hand. By code 3 the leading monomials are x²u·e_1, yv·e_2 and u²·e_2, so level 1
/// has one vector, yv·e_3 (over u²·e_2), and its image is yvu²·e_2.
#[test]
fn by_hand() {
    let with_both = "B,0,0,0,1\nB,0,1,0,1\nB,1,1,2,1\nB,1,2,1,2\nB,2,2,3,1\n";
    assert_eq!(lines_text(&module(&[D, G])), with_both);
    // without D the first element has terms of the bidegrees (2, 1) and (1, 1)
    assert_eq!(lines_text(&module(&[G])), "X,25,1\n");
    // without G: the degree, and 0
    let with_d = "B,0,0,0,1\nB,0,1,0,1\nB,1,3,0,3\nB,2,5,0,1\n";
    assert_eq!(lines_text(&module(&[D])), with_d);
    assert_eq!(lines_text(&module(&[])), "X,25,1\n");
    // the same by a line of ones and zeros
    assert_eq!(lines_text(&module(&[D, "G,1,0,1,0,1,0,1,0"])), with_d);
    // D is added to the first sum alone
    let second = "G,0,1,0,1,1,0,1,0";
    assert_eq!(lines_text(&module(&[D, second])), "X,25,1\n");
    let zeros = "G,0,0,0,0,0,0,0,0";
    assert_eq!(lines_text(&module(&[D, zeros])), "X,25,1\n");
    assert_eq!(
        lines_text(&module(&["D,9,9", zeros])),
        "B,0,9,0,2\nB,1,9,0,3\nB,2,9,0,1\n"
    );
    assert_eq!(
        lines_text(&module(&[zeros])),
        "B,0,0,0,2\nB,1,0,0,3\nB,2,0,0,1\n"
    );
    // both sums at once, weights of two digits
    let mixed = "G,1,0,2,15,3,12,4,1";
    assert_eq!(
        lines_text(&module(&[D, mixed])),
        "B,0,0,0,1\nB,0,1,0,1\nB,1,5,12,1\nB,1,7,16,1\nB,1,7,24,1\nB,2,13,40,1\n"
    );
}

/// By column, then by a, then by b, as numbers: 9 before 10, 2 before 15.
#[test]
fn the_sequence_of_the_lines() {
    let mut text =
        "R,7,2,1,16\nD,10,9,100,2,0,0,255,1,9,10,10,20,200,11,99,12\nG,1,0,0,1\n".to_string();
    for (number, component) in (1..=16).zip([3, 1, 2, 4, 5, 7, 6, 8, 10, 9, 11, 16, 15, 14, 13, 12])
    {
        text += &format!("T,{number},1,{component},{},{}\n", number % 3, 20 - number);
    }
    text += "E,16\n";
    let printed = lines_text(text.as_bytes());
    let table = read_lines(&printed);
    assert_eq!(table.values().sum::<u64>(), 32);
    let column_0: Vec<&str> = printed
        .lines()
        .take_while(|l| l.starts_with("B,0"))
        .collect();
    assert_eq!(
        column_0,
        [
            "B,0,0,0,2",
            "B,0,1,0,1",
            "B,0,2,0,1",
            "B,0,9,0,2",
            "B,0,10,0,3",
            "B,0,11,0,1",
            "B,0,12,0,1",
            "B,0,20,0,1",
            "B,0,99,0,1",
            "B,0,100,0,1",
            "B,0,200,0,1",
            "B,0,255,0,1"
        ]
    );
    let of_counts = Counts::from([
        ((10, [1, 1]), 1),
        ((2, [10, 0]), 2),
        ((2, [9, 15]), 3),
        ((2, [9, 2]), 128),
    ]);
    let expected = "B,2,9,2,128\nB,2,9,15,3\nB,2,10,0,2\nB,10,1,1,1\n";
    assert_eq!(lines(&of_counts), expected);
}

/// x1 to x8 and 1, each variable with weights of its own: every column, and up to 70 lines of one.
#[test]
fn every_column() {
    let mut text = "R,7,8,3,1\nG,1,0,2,0,4,0,8,0,0,1,0,2,0,4,0,8\n".to_string();
    for x in 1..=9 {
        let exponents: Vec<&str> = (1..=8).map(|y| if x == y { "1" } else { "0" }).collect();
        text += &format!("T,{x},1,1,{}\n", exponents.join(","));
    }
    text += "E,9\n";
    let table = read_lines(&lines_text(text.as_bytes()));
    // a set of variables is its two sums; with 1 it has the same ones a column later
    let mut expected = Counts::from([((0, [0, 0]), 1)]);
    for set in 0_u64..256 {
        let own = [set % 16, set / 16];
        if set > 0 {
            expected.insert((u64::from(set.count_ones()), own), 1);
        }
        let with_one = u64::from(set.count_ones()) + 1;
        *expected.entry((with_one, own)).or_default() += 1;
    }
    assert_eq!(table, expected);
    assert_eq!(table.keys().filter(|(column, _)| *column == 4).count(), 126);
    assert_eq!(table.keys().map(|(column, _)| *column).max(), Some(9));
}

#[test]
fn the_largest_sums() {
    let all = ",255".repeat(8);
    let (g, t) = (format!("G{}", ",15".repeat(16)), format!("T,1,1,1{all}"));
    let text = lines_of(&["R,7,8,1,1", "D,255", &g, &t, "E,1"]);
    assert_eq!(text, "B,0,255,0,1\nB,1,30855,30600,1\n");
    // ten levels, each x1^255·..·x8^255, which no file comes to
    let parameters = Parameters {
        p: 7,
        n: 8,
        order: 3,
        s: 1,
    };
    let levels = vec![vec![vec![term(1, 1, &[255; 8])]]; 10];
    let basis = Basis::new(parameters, vec![255], levels);
    let printed = lines(&counts(&[[15, 15]; 8], &basis));
    assert_eq!(printed.lines().last(), Some("B,10,306255,306000,1"));
    assert_eq!(read_lines(&printed).len(), 11);
    // "a line at most 23 bytes", byte 10 with it
    assert_eq!("B,10,306255,306000,128\n".len(), 23);
    assert_eq!(11 * 128 * 23, 32_384);
}

#[test]
fn components_that_no_element_has() {
    let one = lines_of(&["R,7,1,1,16", "G,3,2", "T,1,1,9,1", "E,1"]);
    assert_eq!(one, "B,0,0,0,16\nB,1,3,2,1\n");
    let two = lines_of(&["R,7,1,1,3", "D,2,0,2", "G,3,2", "T,1,1,2,1", "E,1"]);
    assert_eq!(two, "B,0,0,0,1\nB,0,2,0,2\nB,1,3,2,1\n");
    // a constant has its component's bidegree
    let unit = lines_of(&["R,7,1,1,1", "D,4", "G,3,2", "T,1,1,1,0", "T,2,1,1,0", "E,2"]);
    assert_eq!(unit, "B,0,4,0,1\nB,1,4,0,2\nB,2,4,0,1\n");
}

// ---- 25

#[test]
fn the_place_of_25() {
    // one element per component: no frame; the first of two bidegrees counts
    let good = |number| format!("T,{number},1,{number},2,0,1");
    let bad = |number| format!("{}\nT,{number},1,{number},1,1,0", good(number));
    for places in 1..1_u64 << 6 {
        let mut text = "R,7,3,1,6\nG,1,0,1,0,0,1\n".to_string();
        let mut count = 6;
        for number in 1..=6 {
            let is_bad = places >> (number - 1) & 1 == 1;
            count += u64::from(is_bad);
            text += &if is_bad { bad(number) } else { good(number) };
            text += "\n";
        }
        text += &format!("E,{count}\n");
        let first = places.trailing_zeros() + 1;
        assert_eq!(lines_text(text.as_bytes()), format!("X,25,{first}\n"));
    }
    // by either sum, and by any of the terms
    for (g, expected) in [
        ("G,1,0,1,0", "X,25,2\n"),
        ("G,0,1,0,1", "X,25,2\n"),
        ("G,1,0,0,0", "X,25,2\n"),
        ("G,0,0,0,1", "B,0,0,0,2\nB,1,0,1,2\n"),
        ("G,0,0,3,1", "B,0,0,0,2\nB,1,3,1,2\n"),
        ("G,0,1,3,1", "X,25,2\n"),
    ] {
        // y·e_2, then x²y + xy + y
        let lines = [
            "R,7,2,1,2",
            g,
            "T,1,1,2,0,1",
            "T,2,1,1,2,1",
            "T,2,1,1,1,1",
            "T,2,1,1,0,1",
            "E,4",
        ];
        assert_eq!(lines_of(&lines), expected, "{g}");
    }
}

#[test]
fn twenty_five_in_all_64_places() {
    let mut random = Random::new(25);
    for count in [2, 3, 17, 63, 64] {
        for first in 1..=count {
            let problem = bimultiples_of_one(&mut random, count, first);
            let text = lines_text(&problem_file(&problem));
            assert_eq!(text, format!("X,25,{first}\n"), "of {count}");
        }
    }
}

/// Every refusal of reading and accepting comes before 25.
#[test]
fn what_comes_before_25() {
    let two = ["T,1,1,1,2,0", "T,1,1,1,1,0"];
    for (lines, expected) in [
        (vec!["R,4,2,1,1", two[0], two[1], "E,2"], "X,2,1\n"),
        (vec!["R,7,2,4,1", two[0], two[1], "E,2"], "X,3,1\n"),
        (
            vec!["R,7,2,1,1", "D,256", two[0], two[1], "E,2"],
            "X,18,2\n",
        ),
        (
            vec!["R,7,2,1,1", "G,1,0,1,16", two[0], two[1], "E,2"],
            "X,24,2\n",
        ),
        (
            vec!["R,7,2,1,1", "D,1", "G,1,0,1,16", two[0], two[1], "E,2"],
            "X,24,3\n",
        ),
        (
            vec!["R,7,2,1,1", two[0], two[1], "T,2,7,1,0,0", "E,3"],
            "X,4,4\n",
        ),
        (
            vec!["R,7,2,1,1", two[0], two[1], "T,3,1,1,0,0", "E,3"],
            "X,5,4\n",
        ),
        (
            vec!["R,7,2,1,1", two[0], two[1], "T,1,1,1,1,0", "E,3"],
            "X,6,4\n",
        ),
        (vec!["R,7,2,1,1", two[0], two[1], "E,3"], "X,7,4\n"),
        (vec!["R,7,2,1,1", two[0], two[1], "E,2", ""], "X,1,5\n"),
        (vec!["R,7,2,1,1", two[0], two[1], "E,2"], "X,25,1\n"),
        (
            vec!["R,7,2,1,1", "G,0,0,9,9", two[0], two[1], "E,2"],
            "B,0,0,0,1\nB,1,0,0,1\n",
        ),
    ] {
        assert_eq!(lines_of(&lines), expected);
    }
    assert_eq!(lines_text(b""), "X,1,1\n");
    assert_eq!(lines_text(&[b'0'; 65_537]), "X,1,0\n");
    let long = [
        "R,7,2,1,1",
        "T,1,1,1,1,0",
        "T,1,1,1,0,255",
        "T,2,1,1,0,2",
        "E,3",
    ];
    assert_eq!(lines_of(&long), "X,13,0\n");
    // 9 with its value: elements of two bidegrees that are no basis
    let nine = lines_of(&[
        "R,7,2,1,1",
        "T,1,1,1,1,0",
        "T,1,1,1,0,0",
        "T,2,1,1,1,1",
        "E,3",
    ]);
    assert_eq!(nine, "X,9,1\nW,6,1,0,1\n");
}

/// 17 is not tested here, nor 25 on the page: each comes without the other.
#[test]
fn seventeen_and_twenty_five() {
    // x² + y: two degrees, one bidegree with the weights 1 and 2
    let bihomogeneous = file(&[
        "R,7,2,1,1",
        "G,1,3,2,6",
        "T,1,1,1,2,0",
        "T,1,1,1,0,1",
        "E,2",
    ]);
    assert_eq!(lines_text(&bihomogeneous), "B,0,0,0,1\nB,1,2,6,1\n");
    assert_eq!(page_text(&bihomogeneous), "X,17,1\n");
    // x + y: one degree, two bidegrees
    let homogeneous = file(&[
        "R,7,2,1,1",
        "G,1,0,0,1",
        "T,1,1,1,1,0",
        "T,1,1,1,0,1",
        "E,2",
    ]);
    assert_eq!(lines_text(&homogeneous), "X,25,1\n");
    assert!(page_text(&homogeneous).starts_with("    0:     1     1"));
    // other elements by each
    let both = file(&[
        "R,7,2,1,2",
        "G,1,3,2,6",
        "T,1,1,1,1,0",
        "T,1,1,1,0,1",
        "T,2,1,2,2,0",
        "T,2,1,2,0,1",
        "E,4",
    ]);
    assert_eq!(lines_text(&both), "X,25,1\n");
    assert_eq!(page_text(&both), "X,17,2\n");
    let mut met = BTreeMap::new();
    for case in 1..=1_500 {
        let (file, printed) = bidegree_case("bidegrees", 17, case).expect("a kind");
        let limits = Limits::document_01();
        let Some(page) = page(&limits, &file, Some(300_000)).0 else {
            continue;
        };
        let of_page = page.starts_with(b"X,17,");
        let of_lines = printed.starts_with(b"X,25,");
        let (refused, other) = (printed.starts_with(b"X,"), page.starts_with(b"X,"));
        if refused && !of_lines || other && !of_page {
            // a refusal that both have, unless one of these two comes before it
            assert!(of_page || of_lines || page == printed);
        } else {
            *met.entry((of_page, of_lines)).or_insert(0) += 1;
        }
    }
    assert!(
        met.len() == 4 && met.values().all(|times| *times > 20),
        "{met:?}"
    );
}

/// 25 comes before anything is lifted: no product is formed but those of acceptance.
#[test]
fn twenty_five_before_a_lifting_that_would_be_refused() {
    let limits = Limits::document_01();
    let mut random = Random::new(141_516);
    let mut met: BTreeMap<(u64, u64), u64> = BTreeMap::new();
    for case in 0..160 {
        let problem = if case % 2 == 0 {
            large_product(&mut random)
        } else {
            graded_tails(&mut random)
        };
        assert!(is_bigraded(&problem));
        let mixed = with_mixed_elements(&mut random, problem.clone());
        let first = first_mixed(&mixed).expect("one was put in");
        let (printed, usage) = bidegrees(&limits, &problem_file(&mixed), None);
        assert_eq!(printed, Some(format!("X,25,{first}\n").into_bytes()));
        let (accepted, of_acceptance) = accept(&limits, &mixed.parameters, &mixed.elements, None);
        assert_eq!((accepted, of_acceptance), (Ok(()), usage));
        let text = lines_text(&problem_file(&problem));
        if let Some(numbers) = text.strip_prefix("X,") {
            // nothing before X, though levels are finished
            assert_eq!(text.lines().count(), 1);
            assert_eq!(
                sheet_text(&problem_file(&problem)).lines().last(),
                Some(text.trim_end())
            );
            let numbers: Vec<u64> = numbers.trim().split(',').flat_map(str::parse).collect();
            *met.entry((numbers[0], numbers[1])).or_default() += 1;
        }
    }
    for wanted in [(13, 1), (14, 2), (14, 3), (15, 1), (15, 2)] {
        assert!(
            met.contains_key(&wanted),
            "{wanted:?} did not come: {met:?}"
        );
    }
}

// ---- counts

/// The lines from the sheet's text: the first S line of each vector is its leading term, and
/// bidegrees are added up level by level.
fn lines_from_the_sheet(problem: &Problem, sheet: &str) -> String {
    let sums = |exponents: &[u64], below: Bidegree| {
        let mut own = below;
        for (x, exponent) in exponents.iter().enumerate() {
            own[0] += problem.weights[x][0] * exponent;
            own[1] += problem.weights[x][1] * exponent;
        }
        own
    };
    let mut columns: Vec<Vec<Bidegree>> = vec![problem.degrees.iter().map(|d| [*d, 0]).collect()];
    let n = problem.parameters.n as usize;
    let elements = problem.elements.iter().map(|element| {
        let leading = leading_monomial(element);
        sums(
            &leading.exponents[..n],
            columns[0][leading.component as usize - 1],
        )
    });
    let elements = elements.collect();
    columns.push(elements);
    let mut seen = (0, 0);
    for line in sheet.lines() {
        let fields: Vec<&str> = line.split(',').collect();
        let numbers: Vec<u64> = fields[1..].iter().flat_map(|word| word.parse()).collect();
        if fields[0] == "Z" {
            columns.resize(numbers[0] as usize + 2, Vec::new());
            assert_eq!(columns[numbers[0] as usize + 1].len() as u64, numbers[1]);
            continue;
        }
        assert_eq!(fields[0], "S");
        if (numbers[0], numbers[1]) != seen {
            seen = (numbers[0], numbers[1]);
            let below = columns[seen.0 as usize][numbers[3] as usize - 1];
            columns.resize((seen.0 as usize + 2).max(columns.len()), Vec::new());
            columns[seen.0 as usize + 1].push(sums(&numbers[4..], below));
        }
    }
    let mut text = String::new();
    for (number, column) in columns.iter_mut().enumerate() {
        column.sort_unstable();
        for same in column.chunk_by(|one, other| one == other) {
            let [a, b] = same[0];
            text += &format!("B,{number},{a},{b},{}\n", same.len());
        }
    }
    text
}

/// A page's counts that are not zero, by column and degree.
fn degrees_of_page(page: &str) -> BTreeMap<(u64, u64), u64> {
    let mut table = BTreeMap::new();
    for line in page.lines() {
        let words: Vec<&str> = line.split_whitespace().collect();
        let Some(row) = words[0].strip_suffix(':') else {
            continue;
        };
        let row: i64 = row.parse().expect("a row");
        for (column, count) in (0..).zip(&words[1..]) {
            if *count != "-" {
                let degree = (row + column as i64) as u64;
                table.insert((column, degree), count.parse().expect("a count"));
            }
        }
    }
    table
}

/// The counts summed over b.
fn over_b(table: &Counts) -> BTreeMap<(u64, u64), u64> {
    let mut sums = BTreeMap::new();
    for ((column, [a, _]), count) in table {
        *sums.entry((*column, *a)).or_default() += count;
    }
    sums
}

#[test]
fn counts_are_those_of_the_sheet() {
    let limits = Limits::document_01();
    let (mut with_d, mut with_both, mut ones, mut second) = (0, 0, 0, 0);
    let mut last_columns = BTreeSet::new();
    for case in 1..=3_000 {
        let (file, printed) = bidegree_case("bigraded", 1, case).expect("a kind");
        let text = String::from_utf8(printed).expect("text");
        if text.starts_with("X,") {
            continue;
        }
        let problem = read_problem(&limits, &file).expect("it is read");
        assert_eq!(text, lines_from_the_sheet(&problem, &sheet_text(&file)));
        let table = read_lines(&text);
        let column = |wanted| {
            let counts = table.iter().filter(|((column, _), _)| *column == wanted);
            counts.map(|(_, count)| count).sum::<u64>()
        };
        assert_eq!(column(0), problem.parameters.s);
        assert_eq!(column(1), problem.elements.len() as u64);
        // with every a at 1 the sums over b are the page's counts
        if problem.weights.iter().all(|[a, _]| *a == 1) {
            assert_eq!(over_b(&table), degrees_of_page(&page_text(&file)));
            ones += 1;
        }
        let has_d = problem.degrees.iter().any(|degree| *degree != 0);
        with_d += u64::from(has_d);
        with_both += u64::from(has_d && problem.weights.iter().any(|own| *own != [1, 0]));
        second += u64::from(table.keys().any(|(_, [_, b])| *b > 0));
        last_columns.insert(table.keys().map(|(column, _)| *column).max());
    }
    assert!(with_d > 800 && with_both > 600 && ones > 500 && second > 1_500);
    assert!((1..=9).all(|column| last_columns.contains(&Some(column))));
}

/// "Summed over b, the counts of a column are those that A1 would give with weights a": by the frame
/// terms that the page counts, each walked down, and by all b put to zero.
#[test]
fn summed_over_b() {
    let limits = Limits::document_01();
    let mut tried = 0;
    for case in 1..=600 {
        let (file, printed) = bidegree_case("bigraded", 2, case).expect("a kind");
        let text = String::from_utf8(printed).expect("text");
        if text.starts_with("X,") {
            continue;
        }
        let table = read_lines(&text);
        let problem = read_problem(&limits, &file).expect("it is read");
        let without_b: Vec<Weights> = problem.weights.iter().map(|[a, _]| [*a, 0]).collect();
        let first = read_lines(&lines_text(&with_weights(&file, &without_b)));
        let as_pairs: BTreeMap<(u64, u64), u64> = first
            .iter()
            .map(|((column, [a, b]), count)| {
                assert_eq!(*b, 0);
                ((*column, *a), *count)
            })
            .collect();
        assert_eq!(over_b(&table), as_pairs);
        let mut state = State::new();
        let _ = state.read(&limits, &file, None);
        let mut sums: BTreeMap<(u64, u64), u64> = BTreeMap::new();
        let mut count = |column, image: &Monomial| {
            let weighted = problem.weights.iter().zip(image.exponents);
            let sum: u64 = weighted.map(|([a, _], exponent)| a * exponent).sum();
            let own = problem.degrees[image.component as usize - 1];
            *sums.entry((column, sum + own)).or_default() += 1;
        };
        for component in 1..=problem.parameters.s {
            count(0, &monomial(component, &UNIT));
        }
        for element in &problem.elements {
            count(1, leading_monomial(element));
        }
        for k in 1..=9 {
            let levels = state.levels().to_vec();
            let modules = Modules::new(problem.parameters.file_order(), &levels);
            for term in frame(&levels[k - 1], NUMBERING) {
                count(k as u64 + 1, &modules.image_below_all(k, &term));
            }
            let answer = lift(&mut state, &limits, k as u64, Way::Tree, 1_000);
            assert_eq!(answer.number, 0);
        }
        assert_eq!(over_b(&table), sums);
        tried += 1;
    }
    assert!(tried > 550);
}

/// The alternating sum of the lines is that of inclusion and exclusion over the leading monomials,
/// in every bidegree.
#[test]
fn alternating_sums() {
    let limits = Limits::document_01();
    let mut tried = 0;
    for case in 1..=1_500 {
        let (file, printed) = bidegree_case("bigraded", 3, case).expect("a kind");
        let problem = read_problem(&limits, &file).expect("it is read");
        let text = String::from_utf8(printed).expect("text");
        if text.starts_with("X,") || problem.elements.len() > 9 {
            continue;
        }
        let mut sums: BTreeMap<Bidegree, i64> = BTreeMap::new();
        for ((column, own), count) in read_lines(&text) {
            let sign = if column % 2 == 0 { 1 } else { -1 };
            *sums.entry(own).or_default() += sign * count as i64;
        }
        for component in 1..=problem.parameters.s {
            let leads = problem.elements.iter().map(|f| leading_monomial(f));
            let leads: Vec<_> = leads.filter(|lead| lead.component == component).collect();
            for set in 0_u32..1 << leads.len() {
                let mut common = monomial(component, &UNIT);
                for (i, lead) in leads.iter().enumerate() {
                    if set >> i & 1 == 1 {
                        common.exponents = lcm(&common.exponents, &lead.exponents);
                    }
                }
                let own = bidegree(&problem.weights, &problem.degrees, &common);
                let sign = if set.count_ones() % 2 == 0 { 1 } else { -1 };
                *sums.entry(own).or_default() -= sign;
            }
        }
        assert!(sums.values().all(|sum| *sum == 0), "case {case}: {sums:?}");
        tried += 1;
    }
    assert!(tried > 1_000, "{tried}");
}

/// The files of `examples/`, which have no G line: with it left out, and with one that says 1 and 0.
#[test]
fn lines_of_the_examples() {
    let examples = concat!(env!("CARGO_MANIFEST_DIR"), "/../examples");
    let mut seen = 0;
    for entry in std::fs::read_dir(examples).expect("the examples") {
        let path = entry.expect("a file").path();
        if path.extension().is_none_or(|ending| ending != "txt")
            || path.ends_with("katsura4_lp.txt")
        {
            continue;
        }
        let file = std::fs::read(&path).expect("an example");
        let bare = without_weight_lines(&file);
        let (printed, page) = (lines_text(&bare), page_text(&bare));
        let ones = vec![[1, 0]; variables_of(&bare) as usize];
        assert_eq!(lines_text(&with_weights(&bare, &ones)), printed);
        if page.starts_with("X,") {
            assert_eq!(printed, page.replacen("X,17,", "X,25,", 1));
            continue;
        }
        let table = read_lines(&printed);
        assert_eq!(over_b(&table), degrees_of_page(&page));
        assert!(table.keys().all(|(_, [_, b])| *b == 0));
        seen += 1;
    }
    assert!(seen >= 25);
}

#[test]
fn small_limits() {
    let koszul = file(&[
        "R,7,3,1,1",
        "G,1,0,0,1,1,1",
        "T,1,1,1,1,0,0",
        "T,2,1,1,0,1,0",
        "T,3,1,1,0,0,1",
        "E,3",
    ]);
    let text = |limits: &Limits| {
        let printed = bidegrees(limits, &koszul, None).0.expect("no budget");
        String::from_utf8(printed).expect("text")
    };
    let columns = [
        "B,0,0,0,1\n",
        "B,1,0,1,1\nB,1,1,0,1\nB,1,1,1,1\n",
        "B,2,1,1,1\nB,2,1,2,1\nB,2,2,1,1\n",
        "B,3,2,2,1\n",
    ];
    assert_eq!(text(&Limits::document_01()), columns.concat());
    let mut limits = Limits::document_01();
    // where levels end at a limit there are no lines behind it
    for levels in 0..=3 {
        limits.levels = levels;
        let end = (levels as usize + 2).min(4);
        assert_eq!(text(&limits), columns[..end].concat());
    }
    let mut limits = Limits::document_01();
    limits.vectors = 2;
    assert_eq!(text(&limits), "X,15,0\n");
    let mut limits = Limits::document_01();
    limits.level_terms = 5;
    assert_eq!(text(&limits), "X,15,1\n");
    // the limit on weights is none of these
    let mut limits = Limits::document_01();
    limits.exponent = 1;
    assert_eq!(
        bidegrees(&limits, &with_weights(&koszul, &[[15, 15]; 3]), None)
            .1
            .exponent,
        1
    );
    assert_eq!(limits.get("weight"), None);
}

#[test]
fn a_budget_gives_up_and_is_no_refusal() {
    let example = concat!(env!("CARGO_MANIFEST_DIR"), "/../examples/katsura4_h_ds.txt");
    let file = std::fs::read(example).expect("the example");
    let limits = Limits::document_01();
    let (whole, usage) = bidegrees(&limits, &file, None);
    assert_eq!(usage, sheet(&limits, &file, None).1);
    assert_eq!(bidegrees(&limits, &file, Some(usage.products)).0, whole);
    assert_eq!(bidegrees(&limits, &file, Some(usage.products - 1)).0, None);
    assert_eq!(bidegrees(&limits, &file, Some(0)).0, None);
}

/// "file, state and work as for reading, an out of bytes, and instead of a place the length".
#[test]
fn the_call() {
    let limits = Limits::document_01();
    assert_eq!(bidegrees_bytes(&limits), 32_384);
    let lengths = [125_471, 3_072, 32_384];
    let mut random = Random::new(146);
    for more in [0, 1, 77] {
        for case in 1..=60 {
            let (file, expected) = bidegree_case("bidegrees", 6, case).expect("a kind");
            let [state, work, out] = lengths.map(|length| length + more);
            let mut state = vec![random.bits() as u16; state];
            let mut work = vec![random.bits() as u16; work];
            let mut out = vec![random.bits() as u8; out];
            let found = BIDEGREES_CALL.make(&limits, &file, &mut state, &mut work, &mut out);
            assert_eq!(found, (0, expected.len() as u64));
            assert!(out.starts_with(&expected));
            assert!(out[expected.len()..].iter().all(|byte| *byte == 0));
            assert!(state.iter().chain(&work).all(|word| *word == 0));
        }
    }
    // too short by one, each of them: 16, and nothing is changed
    for file in [&module(&[D, G])[..], b"", &[b'0'; 65_537]] {
        for short in 0..3 {
            let mut least = lengths;
            least[short] -= 1;
            let [state, work, out] = least;
            let (mut state, mut work, mut out) = (vec![5; state], vec![5; work], vec![5; out]);
            let found = BIDEGREES_CALL.make(&limits, file, &mut state, &mut work, &mut out);
            assert_eq!(found, (16, 0));
            assert!(state.iter().chain(&work).all(|word| *word == 5));
            assert!(out.iter().all(|byte| *byte == 5));
        }
    }
    // giving up changes nothing either
    let (mut state, mut work, mut out) = (vec![5; 125_471], vec![5; 3_072], vec![5; 32_384]);
    let file = module(&[D, G]);
    let found =
        BIDEGREES_CALL.make_within(&limits, &file, &mut state, &mut work, &mut out, Some(0));
    assert_eq!(found, None);
    assert!(state.iter().chain(&work).all(|word| *word == 5));
    assert!(out.iter().all(|byte| *byte == 5));
}

// ---- what is generated

#[test]
fn every_refusal_is_generated() {
    let mut met: BTreeMap<String, u64> = BTreeMap::new();
    let mut places = BTreeSet::new();
    for case in 1..=6_000 {
        let (file, printed) = bidegree_case("bidegrees", 3, case).expect("a kind");
        let text = String::from_utf8_lossy(&printed).into_owned();
        let number = match text.strip_prefix("X,") {
            Some(rest) => rest.split(',').next().expect("a number").to_string(),
            None => "lines".to_string(),
        };
        if number == "24" {
            places.insert(text);
        }
        *met.entry(number).or_default() += 1;
        if case % 100 == 0 {
            assert_eq!(bidegree_case("bidegrees", 3, case), Some((file, printed)));
        }
    }
    for number in [1, 2, 3, 4, 5, 6, 7, 8, 9, 13, 14, 15, 18, 24, 25] {
        assert!(met.contains_key(&number.to_string()), "{number}: {met:?}");
    }
    assert_eq!(met.len(), 16, "{met:?}");
    // not nearly all end in 25 or 1
    assert!(
        met["lines"] > 2_500 && met["25"] > 700 && met["24"] > 60,
        "{met:?}"
    );
    assert!(met["25"] < 1_800 && met["1"] < 1_500, "{met:?}");
    assert_eq!(
        places,
        BTreeSet::from(["X,24,2\n".to_string(), "X,24,3\n".to_string()])
    );
}

#[test]
fn bimixed_files_are_refused_with_25() {
    let limits = Limits::document_01();
    let (mut places, mut graded) = (BTreeSet::new(), 0);
    for case in 1..=2_000 {
        let (file, printed) = bidegree_case("bimixed", 4, case).expect("a kind");
        let text = String::from_utf8(printed).expect("text");
        let place: u64 = text
            .strip_prefix("X,25,")
            .and_then(|rest| rest.trim_end().parse().ok())
            .expect("25 and a place");
        let problem = read_problem(&limits, &file).expect("it is read");
        let (accepted, _) = accept(&limits, &problem.parameters, &problem.elements, None);
        assert_eq!(accepted, Ok(()));
        // all before it are of one bidegree, it is not
        for number in 1..=place {
            let mut part = problem.clone();
            part.elements.drain(..number as usize - 1);
            part.elements.truncate(1);
            assert_eq!(is_bigraded(&part), number < place);
        }
        places.insert(place);
        graded += u64::from(reference::generate::pages::is_graded(&problem));
    }
    assert!((1..=16).all(|place| places.contains(&place)));
    assert!(graded > 200, "{graded}");
    assert_eq!(bidegree_case("odd", 1, 1), None);
    let (state, _) = read(b"R,7,1,1,1\nT,1,1,1,1\nT,1,1,1,0\nE,2\n");
    let basis = state.basis.expect("it is accepted");
    assert_eq!(of_two_bidegrees(&[[0, 0]], &basis), None);
    assert_eq!(of_two_bidegrees(&[[0, 1]], &basis), Some(1));
}

/// Files of the kinds that tests put a G line into: most of them are read as without it.
#[test]
fn weighted_files() {
    let mut random = Random::new(145);
    let limits = Limits::document_01();
    let (mut with, mut met) = (0, BTreeMap::new());
    for _ in 0..3_000 {
        let file = limit_file(&mut random);
        let file = with_random_weights(&mut random, &file);
        if let Ok(problem) = read_problem(&limits, &file) {
            let plain = problem.weights.iter().all(|own| *own == [1, 0]);
            assert!(plain || file.windows(3).any(|bytes| bytes == b"\nG,"));
            with += u64::from(!plain);
        }
    }
    assert!(with > 500, "{with}");
    for case in 1..=2_000 {
        let case = file_case("weighted", 1, case).expect("a kind");
        let number = match std::str::from_utf8(&case.sheet)
            .expect("text")
            .split_once("X,")
        {
            Some((_, rest)) => rest.split(',').next().expect("a number").to_string(),
            None => "listing".to_string(),
        };
        *met.entry(number).or_insert(0) += 1;
    }
    assert!(
        met["listing"] > 900 && met["24"] > 50 && met["1"] < 700,
        "{met:?}"
    );
}
