// SPDX-License-Identifier: MIT OR Apache-2.0
//! The instances of document 01 and its printed example.

use crate::common::*;
use reference::frame::frame;
use reference::order::{Modules, Order};
use reference::reader::read_problem;
use reference::reckoning::reckon_levels;
use reference::Limits;
use std::cmp::Ordering;

const PRINTED: [&str; 6] = [
    "R,7,2,1,1",
    "T,1,1,1,1,0",
    "T,1,1,1,0,1",
    "T,2,1,1,0,2",
    "T,2,1,1,0,0",
    "E,4",
];

#[test]
fn the_printed_example() {
    let expected = [
        "S,1,1,1,2,1,0",
        "S,1,1,6,1,0,2",
        "S,1,1,6,1,0,0",
        "S,1,1,1,2,0,1",
        "Z,1,1",
        "Z,2,0",
    ];
    assert_eq!(sheet_lines(&file(&PRINTED)), expected);
}

#[test]
fn instance_1_by_all_ways() {
    let vector = vec![
        term(1, 2, &[1, 0]),
        term(6, 1, &[0, 2]),
        term(6, 1, &[0, 0]),
        term(1, 2, &[0, 1]),
    ];
    assert_level_1(&accepted(&PRINTED), &[vector]);
}

#[test]
fn instance_2_the_induced_order() {
    let state = accepted(&PRINTED);
    let modules = Modules::new(Order::Lexicographic, state.levels());
    let above = |a, b| {
        assert_eq!(modules.compare(1, &a, &b), Ordering::Greater);
        assert_eq!(modules.compare(1, &b, &a), Ordering::Less);
        assert!(modules.key(1, &a) > modules.key(1, &b));
    };
    above(monomial(1, &[0, 0]), monomial(2, &[0, 1]));
    above(monomial(2, &[1, 0]), monomial(1, &[0, 2]));
}

#[test]
fn instance_3_equal_elements() {
    let state = accepted(&["R,7,2,1,1", "T,1,1,1,1,0", "T,2,1,1,1,0", "E,2"]);
    let vector = vec![term(1, 2, &[0, 0]), term(6, 1, &[0, 0])];
    assert_level_1(&state, &[vector]);
}

#[test]
fn instance_4_coefficients() {
    let state = accepted(&["R,7,2,1,1", "T,1,2,1,1,0", "T,2,3,1,0,1", "E,2"]);
    let vector = vec![term(1, 2, &[1, 0]), term(2, 1, &[0, 1])];
    assert_level_1(&state, &[vector]);
}

#[test]
fn instance_5_minimal_generators() {
    let state = accepted(&[
        "R,7,2,1,1",
        "T,1,1,1,2,0",
        "T,2,1,1,1,1",
        "T,3,1,1,0,2",
        "E,3",
    ]);
    let expected = [monomial(2, &[1, 0]), monomial(3, &[1, 0])];
    assert_eq!(frame(&state.levels()[0], Order::Lexicographic), expected);
}

#[test]
fn instance_6_no_groebner_basis() {
    let lines = [
        "R,7,2,1,1",
        "T,1,1,1,2,0",
        "T,2,1,1,1,1",
        "T,2,1,1,0,2",
        "E,3",
    ];
    let (state, answer) = read(&file(&lines));
    assert_eq!((answer.number, answer.place), (9, 1));
    assert_eq!(answer.vector, [term(6, 1, &[0, 3])]);
    assert!(state.basis.is_none());
    assert_eq!(sheet_lines(&file(&lines)), ["X,9,1", "W,6,1,0,3"]);
}

#[test]
fn instance_7_no_frame() {
    let lines = ["R,7,2,1,2", "T,1,1,1,1,0", "T,2,1,2,1,0", "E,2"];
    assert_level_1(&accepted(&lines), &[]);
    assert_eq!(sheet_lines(&file(&lines)), ["Z,1,0"]);
}

#[test]
fn instance_8_the_three_orders() {
    let xz = monomial(1, &[1, 0, 1]).exponents;
    let yy = monomial(1, &[0, 2, 0]).exponents;
    let compare = |code| Order::from_code(code).expect("a code").compare(&xz, &yy);
    assert_eq!(compare(1), Ordering::Greater);
    assert_eq!(compare(2), Ordering::Greater);
    assert_eq!(compare(3), Ordering::Less);
}

#[test]
fn instance_9_large_exponents() {
    let lines = [
        "R,7,2,1,1",
        "T,1,1,1,1,0",
        "T,1,1,1,0,253",
        "T,2,1,1,0,2",
        "E,3",
    ];
    let vector = vec![
        term(1, 2, &[1, 0]),
        term(6, 1, &[0, 2]),
        term(1, 2, &[0, 253]),
    ];
    assert_level_1(&accepted(&lines), &[vector]);
    let mut past = lines;
    past[2] = "T,1,1,1,0,255";
    assert_eq!(sheet_lines(&file(&past)), ["X,13,0"]);
}

#[test]
fn no_limit_binds_the_reckoning() {
    // the vector that 13 keeps from being lifted, its exponents and those of its images
    let lines = [
        "R,7,2,1,1",
        "T,1,1,1,1,0",
        "T,1,1,1,0,255",
        "T,2,1,1,0,2",
        "E,3",
    ];
    let problem = read_problem(&Limits::document_01(), &file(&lines)).expect("a problem");
    let levels = reckon_levels(&problem, 2, None).expect("no budget");
    let vector = vec![
        term(1, 2, &[1, 0]),
        term(6, 1, &[0, 2]),
        term(1, 2, &[0, 255]),
    ];
    assert_eq!(levels[1], [vector]);
    assert!(levels[2].is_empty());
    // f = y + z^200, z^250, x + y²: the frame term z^250·e_3 goes down to z^650
    let lines = [
        "R,7,3,1,1",
        "T,1,1,1,0,1,0",
        "T,1,1,1,0,0,200",
        "T,2,1,1,0,0,250",
        "T,3,1,1,1,0,0",
        "T,3,1,1,0,2,0",
        "E,5",
    ];
    assert_eq!(sheet_lines(&file(&lines)), ["X,13,0"]);
    let problem = read_problem(&Limits::document_01(), &file(&lines)).expect("a problem");
    let levels = reckon_levels(&problem, 1, None).expect("no budget");
    // the frame is y·e_2, z^250·e_3, y·e_3
    let vector = vec![
        term(1, 3, &[0, 0, 250]),
        term(6, 2, &[1, 0, 0]),
        term(6, 1, &[0, 1, 250]),
        term(1, 1, &[0, 0, 450]),
        term(6, 2, &[0, 0, 400]),
    ];
    assert_eq!(levels[1].len(), 3);
    assert_eq!(levels[1][1], vector);
}

#[test]
fn instance_10_limits() {
    let with_p = |p: &str| sheet_lines(&file(&[p, "T,1,1,1,1", "E,1"]));
    assert_eq!(with_p("R,32749,1,1,1"), ["Z,1,0"]);
    assert_eq!(with_p("R,32761,1,1,1"), ["X,2,1"]);
    let with_exponent = |line: &str| sheet_lines(&file(&["R,7,1,1,1", line, "E,1"]));
    assert_eq!(with_exponent("T,1,1,1,255"), ["Z,1,0"]);
    assert_eq!(with_exponent("T,1,1,1,256"), ["X,4,2"]);
    assert_eq!(sheet_lines(b""), ["X,1,1"]);
}
