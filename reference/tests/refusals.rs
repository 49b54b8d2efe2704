// SPDX-License-Identifier: MIT OR Apache-2.0
//! Every refusal at least once with its place, and the order of refusals in a line.

use crate::common::*;
use reference::engine::State;
use reference::lifting::Way;
use reference::Limits;

/// Number and place of reading a file.
fn refusal(lines: &[&str]) -> (u64, u64) {
    refusal_of(&file(lines))
}

fn refusal_of(file: &[u8]) -> (u64, u64) {
    let (state, answer) = read(file);
    assert_eq!(state.basis.is_some(), answer.number == 0);
    (answer.number, answer.place)
}

/// A good file with the given line put for line `number`.
fn with_line(number: usize, line: &str) -> (u64, u64) {
    let mut lines = [
        "R,7,2,1,2",
        "T,1,1,1,1,0",
        "T,1,1,1,0,1",
        "T,2,1,1,0,2",
        "T,2,1,1,0,0",
        "E,4",
    ];
    assert_eq!(refusal(&lines), (0, 0));
    lines[number - 1] = line;
    refusal(&lines)
}

#[test]
fn refusal_1_shapes() {
    for line in [
        "",
        "R",
        "R,7,2,1",
        "R,7,2,1,2,",
        "R,7,2,1,2,1",
        "R,07,2,1,2",
        "R,7,2,1,",
        "R,,2,1,2",
        "R,+7,2,1,2",
        "R,-7,2,1,2",
        "R, 7,2,1,2",
        "R,7 ,2,1,2",
        "R,7,2,1,2\r",
        "r,7,2,1,2",
        "RR,7,2,1,2",
        "R7,2,1,2",
        "E,4",
        "T,1,1,1,1,0",
        "X,7,2,1,2",
        ",7,2,1,2",
        "R;7;2;1;2",
        "R,65536,2,1,2",
        "R,7,65536,1,2",
        "R,7,2,1,100000",
        "R,0x7,2,1,2",
        "R,\"7\",2,1,2",
    ] {
        assert_eq!(with_line(1, line), (1, 1), "{line:?}");
    }
    for line in [
        "",
        "T",
        "T,1,1,1,1",
        "T,1,1,1,1,0,0",
        "T,1,1,1,1,0,",
        "t,1,1,1,1,0",
        "TT,1,1,1,1,0",
        "T1,1,1,1,0",
        "T,01,1,1,1,0",
        "T,1,1,1,00,0",
        "T,1,1,1,,0",
        "T,1,1,1,65536,0",
        "T,1,1,1,18446744073709551617,0",
        "T,1,1,1,1,0 ",
        "R,7,2,1,2",
        "R,4,9,9,99",
        "Exyz",
        "T,1,1,1,1.0",
        "T,1,1,1,-1,0",
        "T,65536,1,1,1,0",
        "E",
        "E,4,4",
        "E,",
        "E,04",
        "E,65536",
        "e,4",
        "EE,4",
        "E4",
    ] {
        assert_eq!(with_line(3, line), (1, 3), "{line:?}");
    }
    for line in [
        "", "E", "E,", "E,4,", "E,04", "E,65536", "E,4 ", "e,4", "E,4\r",
    ] {
        assert_eq!(with_line(6, line), (1, 6), "{line:?}");
    }
}

#[test]
fn refusal_1_sequence() {
    assert_eq!(refusal_of(b""), (1, 1));
    assert_eq!(refusal_of(b"\n"), (1, 1));
    assert_eq!(refusal(&["R,7,2,1,1"]), (1, 2));
    assert_eq!(refusal(&["R,7,2,1,1", "T,1,1,1,0,0"]), (1, 3));
    assert_eq!(refusal(&["T,1,1,1,0,0", "E,1"]), (1, 1));
    assert_eq!(refusal(&["E,0"]), (1, 1));
    // bytes after E, ended or not
    let good = b"R,7,1,1,1\nT,1,1,1,1\nE,1\n".to_vec();
    assert_eq!(refusal_of(&good), (0, 0));
    for tail in ["\n", "x", "E,1\n", "T,1,1,1,0\n", " ", "\n\n"] {
        let longer = [&good, tail.as_bytes()].concat();
        assert_eq!(refusal_of(&longer), (1, 4), "{tail:?}");
    }
    // E's own 7 comes first
    assert_eq!(refusal_of(b"R,7,1,1,1\nT,1,1,1,1\nE,2\nx"), (7, 3));
    // a line without byte 10 has the wrong shape, before its other refusals
    assert_eq!(refusal_of(b"R,7,1,1,1\nT,1,1,1,1\nE,1"), (1, 3));
    assert_eq!(refusal_of(b"R,7,1,1,1\nT,1,1,1,1\nE,5"), (1, 3));
    assert_eq!(refusal_of(b"R,4,2,1,1"), (1, 1));
    assert_eq!(refusal_of(b"R,7,1,1,1\nT,9,9,9,999"), (1, 2));
}

#[test]
fn refusal_1_file_too_long() {
    let long = vec![b'x'; 65_537];
    assert_eq!(refusal_of(&long), (1, 0));
    assert_eq!(refusal_of(&long[..65_536]), (1, 1));
    let mut good = file(&["R,7,1,1,1", "T,1,1,1,1", "E,1"]);
    good.resize(65_536, b'\n');
    assert_eq!(refusal_of(&good), (1, 4));
    good.push(b'\n');
    assert_eq!(refusal_of(&good), (1, 0));
}

#[test]
fn refusals_2_and_3() {
    for p in [
        "0", "1", "4", "9", "32761", "32767", "32768", "63001", "65533", "65535",
    ] {
        assert_eq!(with_line(1, &format!("R,{p},2,1,2")), (2, 1), "{p}");
    }
    for p in ["2", "3", "101", "32003", "32749", "32771", "65519", "65521"] {
        assert_eq!(with_line(1, &format!("R,{p},2,1,2")), (0, 0), "{p}");
    }
    for line in [
        "R,7,0,1,2",
        "R,7,9,1,2",
        "R,7,65535,1,2",
        "R,7,2,0,2",
        "R,7,2,4,2",
        "R,7,2,1,0",
        "R,7,2,1,17",
        "R,7,2,65535,65535",
    ] {
        assert_eq!(with_line(1, line), (3, 1), "{line}");
    }
    assert_eq!(with_line(1, "R,7,2,3,16"), (0, 0));
    // 1, then 2, 3
    assert_eq!(with_line(1, "R,4,0,0,00"), (1, 1));
    assert_eq!(with_line(1, "R,4,0,0,0"), (2, 1));
}

#[test]
fn refusals_4_5_6() {
    for line in [
        "T,1,0,1,0,1",
        "T,1,7,1,0,1",
        "T,1,65535,1,0,1",
        "T,1,1,0,0,1",
        "T,1,1,3,0,1",
        "T,1,1,1,0,256",
        "T,1,1,1,65535,0",
    ] {
        assert_eq!(with_line(3, line), (4, 3), "{line}");
    }
    assert_eq!(with_line(3, "T,1,6,1,0,1"), (0, 0));
    for line in [
        "T,0,1,1,0,1",
        "T,3,1,1,0,1",
        "T,64,1,1,0,1",
        "T,65535,1,1,0,1",
    ] {
        assert_eq!(with_line(3, line), (5, 3), "{line}");
    }
    assert_eq!(with_line(2, "T,0,1,1,1,0"), (5, 2));
    assert_eq!(with_line(2, "T,2,1,1,1,0"), (5, 2));
    assert_eq!(with_line(5, "T,1,1,1,0,0"), (5, 5));
    // equal, greater, and the tie between components
    for line in [
        "T,1,1,1,1,0",
        "T,1,2,1,1,0",
        "T,1,1,1,1,1",
        "T,1,1,1,2,0",
        "T,1,1,2,1,0",
    ] {
        assert_eq!(with_line(3, line), (6, 3), "{line}");
    }
    let tie = ["R,7,1,1,2", "T,1,1,2,1", "T,1,1,1,1", "E,2"];
    assert_eq!(refusal(&tie), (0, 0));
    // 1, 8, 5, 4, 6
    assert_eq!(with_line(3, "T,3,0,9,9,999,"), (1, 3));
    assert_eq!(with_line(3, "T,3,0,9,9,999"), (5, 3));
    assert_eq!(with_line(3, "T,1,0,1,2,0"), (4, 3));
    // the first bad line counts
    let two = ["R,7,1,1,1", "T,1,1,1,1", "T,1,1,1,1", "T,9,1,1,1", "E,9"];
    assert_eq!(refusal(&two), (6, 3));
}

#[test]
fn refusal_5_the_sixty_fifth_element() {
    let with_elements = |count: usize| {
        let mut lines = vec!["R,7,1,1,1".to_string()];
        lines.extend((1..=count).map(|i| format!("T,{i},1,1,{}", 100 - i)));
        lines.push(format!("E,{count}"));
        let lines: Vec<&str> = lines.iter().map(String::as_str).collect();
        refusal(&lines)
    };
    assert_eq!(with_elements(64), (0, 0));
    assert_eq!(with_elements(65), (5, 66));
}

#[test]
fn refusal_7() {
    for line in ["E,0", "E,3", "E,5", "E,65535"] {
        assert_eq!(with_line(6, line), (7, 6), "{line}");
    }
    assert_eq!(refusal(&["R,7,2,1,1", "E,0"]), (7, 2));
    assert_eq!(refusal(&["R,7,2,1,1", "E,1"]), (7, 2));
    assert_eq!(refusal(&["R,7,2,1,1", "E,00"]), (1, 2));
}

#[test]
fn refusal_8_the_2049th_t_line() {
    let lines = |count: usize, last: &str| {
        let mut lines = vec!["R,7,2,1,1".to_string()];
        let terms = (0..count).map(|t| format!("T,1,1,1,{},{}", 20 - t / 200, 200 - t % 200));
        lines.extend(terms);
        lines.push(last.to_string());
        lines
    };
    let refused = |lines: &[String]| {
        let lines: Vec<&str> = lines.iter().map(String::as_str).collect();
        refusal(&lines)
    };
    assert_eq!(refused(&lines(2_048, "E,2048")), (0, 0));
    assert_eq!(refused(&lines(2_049, "E,2049")), (8, 2_050));
    // after 1, before 5, 4 and 6
    assert_eq!(refused(&lines(2_048, "T,99,0,9,999,999")), (8, 2_050));
    assert_eq!(refused(&lines(2_048, "T,1,1,1,255,255")), (8, 2_050));
    assert_eq!(refused(&lines(2_048, "T,99,0,9,999,0999")), (1, 2_050));
    // a bad line before it comes first
    let mut bad = lines(2_049, "E,2049");
    bad[2_048] = "T,1,0,1,0,0".to_string();
    assert_eq!(refused(&bad), (4, 2_049));
}

#[test]
fn refusal_9_has_the_whole_value() {
    // x·y + 1, x·z + y (p = 7): x·y·z gives y² − z, of which z has no reducer but is not leading
    let lines = [
        "R,7,3,1,1",
        "T,1,1,1,1,1,0",
        "T,1,1,1,0,0,0",
        "T,2,1,1,1,0,1",
        "T,2,1,1,0,1,0",
        "T,3,1,1,0,0,1",
        "E,5",
    ];
    let printed = sheet_lines(&file(&lines));
    assert_eq!(printed, ["X,9,1", "W,1,1,0,2,0", "W,6,1,0,0,1"]);
    // the place is the frame term's number: here the first frame term comes to zero
    let second = [
        "R,7,2,1,1",
        "T,1,1,1,2,0",
        "T,2,1,1,2,0",
        "T,3,1,1,1,1",
        "T,3,1,1,0,2",
        "E,4",
    ];
    assert_eq!(sheet_lines(&file(&second)), ["X,9,2", "W,6,1,0,3"]);
}

/// x, y and z of Koszul, lifted to level 1.
fn koszul() -> State {
    let mut state = accepted(&[
        "R,7,3,1,1",
        "T,1,1,1,1,0,0",
        "T,2,1,1,0,1,0",
        "T,3,1,1,0,0,1",
        "E,3",
    ]);
    let answer = lift(&mut state, &Limits::document_01(), 1, Way::Hybrid(1), 0);
    assert_eq!(answer.number, 0);
    state
}

#[test]
fn refusals_11_and_12_of_lifting() {
    let limits = Limits::document_01();
    let refused = |state: &State, level, way| {
        let mut after = state.clone();
        let answer = lift(&mut after, &limits, level, way, 0);
        if matches!(answer.number, 11 | 12) {
            assert_eq!(*state, after);
            assert_eq!(answer.place, 0);
        }
        answer.number
    };
    let empty = State::new();
    // without a basis 11 for every level and pick code
    for level in [0, 1, 2, 9, 10, 65_535] {
        assert_eq!(refused(&empty, level, Way::Division), 11);
        assert_eq!(refused(&empty, level, Way::Hybrid(0)), 11);
    }
    let state = koszul();
    for level in [0, 10, 11, 65_535] {
        assert_eq!(refused(&state, level, Way::Tree), 12);
        assert_eq!(refused(&state, level, Way::Hybrid(9)), 12);
    }
    for level in 3..=9 {
        assert_eq!(refused(&state, level, Way::Division), 11);
        // 11 before 12
        assert_eq!(refused(&state, level, Way::Hybrid(0)), 11);
    }
    for level in 1..=2 {
        assert_eq!(refused(&state, level, Way::Hybrid(0)), 12);
        assert_eq!(refused(&state, level, Way::Hybrid(4)), 12);
        assert_eq!(refused(&state, level, Way::Hybrid(3)), 0);
    }
}

#[test]
fn refusals_11_and_12_of_fetching() {
    let limits = Limits::document_01();
    let state = koszul();
    let number = |level, vector| state.fetch(&limits, level, vector).number;
    assert_eq!(State::new().fetch(&limits, 1, 1).number, 11);
    assert_eq!(State::new().fetch(&limits, 0, 1).number, 11);
    assert_eq!(State::new().fetch(&limits, 10, 0).number, 11);
    assert_eq!(number(0, 1), 12);
    assert_eq!(number(10, 1), 12);
    assert_eq!(number(2, 1), 11);
    assert_eq!(number(9, 0), 11);
    assert_eq!(number(1, 0), 12);
    assert_eq!(number(1, 4), 12);
    for vector in 1..=3 {
        let answer = state.fetch(&limits, 1, vector);
        assert_eq!((answer.number, answer.place), (0, 0));
        assert_eq!(answer.vector, state.levels()[1][vector as usize - 1]);
    }
    // a complete level without vectors
    let mut state = koszul();
    for level in 2..=9 {
        assert_eq!(lift(&mut state, &limits, level, Way::Tree, 0).number, 0);
    }
    assert_eq!(state.levels().len(), 10);
    assert_eq!(state.fetch(&limits, 2, 1).number, 0);
    for vector in [0, 1, 2] {
        assert_eq!(state.fetch(&limits, 3, vector).number, 12);
    }
}

#[test]
fn lifting_again_drops_the_levels_above() {
    let limits = Limits::document_01();
    let mut state = koszul();
    lift(&mut state, &limits, 2, Way::Division, 0);
    lift(&mut state, &limits, 3, Way::Division, 0);
    assert_eq!(state.levels().len(), 4);
    let before = state.levels()[1].clone();
    assert_eq!(lift(&mut state, &limits, 1, Way::Tree, 5).number, 0);
    assert_eq!(state.levels().len(), 2);
    assert_eq!(state.levels()[1], before);
    assert_eq!(state.fetch(&limits, 2, 1).number, 11);
}

#[test]
fn a_refused_reading_empties_the_state() {
    let limits = Limits::document_01();
    for (lines, number) in [
        (vec!["R,7,1,1,1"], 1),
        (vec!["R,4,1,1,1", "T,1,1,1,1", "E,1"], 2),
        (
            vec![
                "R,7,2,1,1",
                "T,1,1,1,2,0",
                "T,2,1,1,1,1",
                "T,2,1,1,0,2",
                "E,3",
            ],
            9,
        ),
        (
            vec![
                "R,7,2,1,1",
                "T,1,1,1,1,0",
                "T,1,1,1,0,255",
                "T,2,1,1,0,2",
                "E,3",
            ],
            13,
        ),
    ] {
        let mut state = koszul();
        let answer = state
            .read(&limits, &file(&lines), None)
            .answer()
            .expect("no budget");
        assert_eq!(answer.number, number);
        assert!(state.basis.is_none());
    }
}

#[test]
fn refusal_13_even_if_dropped() {
    // frame term z^100·e_2: its second product y·z^300 has no reducer and is still refused
    let lines = [
        "R,7,3,1,1",
        "T,1,1,1,1,0,100",
        "T,2,1,1,1,1,0",
        "T,2,1,1,0,1,200",
        "E,3",
    ];
    assert_eq!(refusal(&lines), (13, 0));
    // the same by all ways, in a state that was altered after it was accepted
    let mut state = accepted(&["R,7,3,1,1", "T,1,1,1,1,0,100", "T,2,1,1,1,1,0", "E,2"]);
    if let Some(basis) = &mut state.basis {
        basis.levels[0][1].push(term(1, 1, &[0, 1, 200]));
    }
    for (way, cache) in all_ways() {
        let mut state = state.clone();
        let answer = lift(&mut state, &Limits::document_01(), 1, way, cache);
        assert_eq!((answer.number, answer.place), (13, 1), "{way:?}");
        assert!(state.basis.is_none());
    }
}

/// x + (t terms in z, w), y.
fn long_element(t: usize) -> Vec<u8> {
    let mut lines = vec!["R,7,4,1,1".to_string(), "T,1,1,1,1,0,0,0".to_string()];
    let terms = (0..t).map(|at| format!("T,1,1,1,0,0,{},{}", 100 - at / 100, 100 - at % 100));
    lines.extend(terms);
    lines.push("T,2,1,1,0,1,0,0".to_string());
    lines.push(format!("E,{}", t + 2));
    lines
        .iter()
        .flat_map(|line| format!("{line}\n").into_bytes())
        .collect()
}

#[test]
fn refusal_14_a_vector_of_512_terms() {
    // the vector is x·e_2 − y·e_1 − (t terms)·e_2
    assert_eq!(refusal_of(&long_element(510)), (0, 0));
    assert_eq!(refusal_of(&long_element(511)), (14, 0));
    let (state, _) = read(&long_element(510));
    for (way, cache) in all_ways() {
        assert_eq!(level_1(&state, way, cache)[0].len(), 512, "{way:?}");
    }
    let mut limits = Limits::document_01();
    limits.vector = 511;
    for (way, cache) in all_ways() {
        let mut state = state.clone();
        let answer = lift(&mut state, &limits, 1, way, cache);
        assert_eq!((answer.number, answer.place), (14, 1), "{way:?}");
    }
}

#[test]
fn refusal_14_a_working_value_of_512_terms() {
    // y, x·z + (t terms): the first products are all kept while accepting
    let lines = |t: usize| {
        let mut lines = vec!["R,7,4,1,1".to_string(), "T,1,1,1,1,1,0,0".to_string()];
        lines.push("T,2,1,1,1,0,1,0".to_string());
        let terms = (0..t).map(|at| format!("T,2,1,1,1,0,0,{}", t - at));
        lines.extend(terms);
        lines.push("T,3,1,1,0,1,0,0".to_string());
        lines.push(format!("E,{}", t + 3));
        lines
    };
    let with = |limit: u64, t: usize| {
        let mut limits = Limits::document_01();
        limits.working = limit;
        let lines = lines(t);
        let lines: Vec<&str> = lines.iter().map(String::as_str).collect();
        let mut state = State::new();
        let answer = state
            .read(&limits, &file(&lines), None)
            .answer()
            .expect("no budget");
        (answer.number, answer.place, answer.usage.working)
    };
    assert_eq!(with(512, 30), (0, 0, 31));
    assert_eq!(with(31, 30), (0, 0, 31));
    assert_eq!(with(30, 30).0, 14);
}

#[test]
fn refusal_14_in_the_tree() {
    // y^d is lifted through a chain of d subtrees, each with one term of its own
    let mut lines = vec!["R,7,2,1,1"];
    lines.extend([
        "T,1,1,1,0,1",
        "T,1,1,1,0,0",
        "T,2,1,1,1,0",
        "T,2,1,1,0,9",
        "E,4",
    ]);
    let state = accepted(&lines);
    let mut limits = Limits::document_01();
    let mut peak = |tree, cache| {
        limits.tree = tree;
        let mut state = state.clone();
        let answer = lift(&mut state, &limits, 1, Way::Tree, cache);
        (answer.number, answer.place, answer.usage.tree)
    };
    let (number, _, most) = peak(4_096, 0);
    assert_eq!(number, 0);
    assert_eq!(peak(most, 0), (0, 0, most));
    assert_eq!(peak(most - 1, 0), (14, 1, most - 1));
    // a cache that takes every subtree needs less
    let (_, _, cached) = peak(4_096, 1000);
    assert!(cached < most);
    assert_eq!(peak(cached - 1, 1000).0, 14);
}

/// A basis over v, y, z in which y^b·e_1 lifts to D = b·(c + 1) terms through as many subtrees,
/// and the subtree of v·e_4 takes it twice, the second time cancelling the first.
fn deep_tree(b: u64, c: u64) -> Vec<u8> {
    let lines = [
        "R,32003,3,1,4",
        "T,1,1,1,0,0,1",
        "T,1,1,1,0,0,0",
        "T,2,1,1,0,1,0",
        &format!("T,2,1,1,0,0,{c}"),
        "T,3,1,2,1,0,0",
        &format!("T,3,1,1,0,{b},0"),
        "T,4,1,3,1,0,0",
        "T,4,32002,2,1,0,0",
        "T,5,1,4,1,0,0",
        "T,5,32002,3,1,0,0",
        &format!("T,5,32002,1,0,{b},0"),
        "T,6,1,4,1,0,0",
        "E,12",
    ];
    file(&lines)
}

#[test]
fn refusal_14_a_4097th_term_in_the_work_area() {
    // Without a cache the most is met when y^b·e_1 finishes for the second time: D + 3 terms in
    // the subtree of v·e_4, D in that of y^b·e_1, and D - 1 in the finished one below it.
    let tree = |b, c| {
        let (mut state, answer) = read(&deep_tree(b, c));
        assert_eq!(answer.number, 0);
        let answer = lift(&mut state, &Limits::document_01(), 1, Way::Tree, 0);
        (answer.number, answer.place, answer.usage.tree)
    };
    assert_eq!(tree(10, 10), (0, 0, 3 * 110 + 2));
    assert_eq!(tree(124, 10), (0, 0, 3 * 1_364 + 2));
    assert_eq!(tree(195, 6), (14, 1, 4_096));
    // more than 4,096 subtrees deep
    assert_eq!(tree(254, 16), (14, 1, 4_096));
    // by the other ways all of it cancels early
    let (state, _) = read(&deep_tree(254, 16));
    for way in [Way::Division, Way::Hybrid(1)] {
        let vector = &level_1(&state, way, 0)[1];
        assert_eq!(vector.len(), 4);
    }
}

#[test]
fn refusal_15_frame_terms() {
    let mut limits = Limits::document_01();
    limits.vectors = 2;
    let lines = [
        "R,7,3,1,1",
        "T,1,1,1,1,0,0",
        "T,2,1,1,0,1,0",
        "T,3,1,1,0,0,1",
        "E,3",
    ];
    let mut state = State::new();
    let answer = state
        .read(&limits, &file(&lines), None)
        .answer()
        .expect("no budget");
    assert_eq!((answer.number, answer.place), (15, 0));
    assert_eq!(answer.usage.products, 0);
    // before any division: a set that is no Gröbner basis is refused 15, not 9
    let many: Vec<String> = std::iter::once("R,7,2,1,1".to_string())
        .chain((1..=64).map(|i| format!("T,{i},1,1,1,{}", 64 - i)))
        .chain(["E,64".to_string()])
        .collect();
    let many: Vec<&str> = many.iter().map(String::as_str).collect();
    // x·y^63, .., x: one frame term each, 63 in all
    assert_eq!(refusal(&many), (0, 0));
    limits.vectors = 62;
    let answer = State::new()
        .read(&limits, &file(&many), None)
        .answer()
        .expect("no budget");
    assert_eq!((answer.number, answer.place), (15, 0));
    let no_basis = [
        "R,7,2,1,1",
        "T,1,1,1,2,0",
        "T,2,1,1,1,1",
        "T,2,1,1,0,2",
        "T,3,1,1,0,3",
        "E,4",
    ];
    assert_eq!(refusal(&no_basis), (0, 0));
    assert_eq!(refusal(&[&no_basis[..4], &["E,3"]].concat()), (9, 1));
    limits.vectors = 0;
    let file = file(&[&no_basis[..4], &["E,3"]].concat());
    let answer = State::new()
        .read(&limits, &file, None)
        .answer()
        .expect("no budget");
    assert_eq!((answer.number, answer.place), (15, 0));
}

/// All monomials of this degree in n variables, as elements, greatest first.
fn power_of_the_maximal_ideal(n: usize, degree: u64) -> Vec<u8> {
    let mut monomials = vec![vec![]];
    for x in 0..n {
        monomials = monomials
            .into_iter()
            .flat_map(|start: Vec<u64>| {
                let left = degree - start.iter().sum::<u64>();
                let range = if x + 1 == n { left..=left } else { 0..=left };
                range.rev().map(move |e| [start.clone(), vec![e]].concat())
            })
            .collect();
    }
    let mut lines = vec![format!("R,7,{n},1,1")];
    for (number, exponents) in (1..).zip(&monomials) {
        let exponents: Vec<String> = exponents.iter().map(u64::to_string).collect();
        lines.push(format!("T,{number},1,1,{}", exponents.join(",")));
    }
    lines.push(format!("E,{}", monomials.len()));
    let lines: Vec<&str> = lines.iter().map(String::as_str).collect();
    file(&lines)
}

#[test]
fn refusal_15_with_the_limits_of_document_01() {
    // the third power in 5 variables has levels of 105, 126, 70, 15 vectors; in 6 variables the
    // first has 210; the second power in 7 variables has 112 and then 210
    let printed = sheet_lines(&power_of_the_maximal_ideal(5, 3));
    let counts: Vec<&String> = printed
        .iter()
        .filter(|line| line.starts_with('Z'))
        .collect();
    assert_eq!(counts, ["Z,1,105", "Z,2,126", "Z,3,70", "Z,4,15", "Z,5,0"]);
    assert_eq!(sheet_lines(&power_of_the_maximal_ideal(6, 3)), ["X,15,0"]);
    let printed = sheet_lines(&power_of_the_maximal_ideal(7, 2));
    assert_eq!(printed[printed.len() - 2..], ["Z,1,112", "X,15,2"]);
    // 1 + 2 + .. frame terms in one variable with equal elements: 64·63/2 would be too many, but
    // equal generators count once
    let equal: Vec<String> = (1..=64).map(|i| format!("T,{i},1,1,1")).collect();
    let mut lines = vec!["R,7,1,1,1"];
    lines.extend(equal.iter().map(String::as_str));
    lines.push("E,64");
    assert_eq!(read(&file(&lines)).1.usage.frame, 63);
}

#[test]
fn refusal_15_terms_of_a_level() {
    let mut limits = Limits::document_01();
    let basis = accepted(&[
        "R,7,3,1,1",
        "T,1,1,1,1,0,0",
        "T,2,1,1,0,1,0",
        "T,3,1,1,0,0,1",
        "E,3",
    ]);
    for (way, cache) in all_ways() {
        // three vectors of two terms
        limits.level_terms = 6;
        assert_eq!(lift(&mut basis.clone(), &limits, 1, way, cache).number, 0);
        limits.level_terms = 5;
        let mut state = basis.clone();
        let answer = lift(&mut state, &limits, 1, way, cache);
        assert_eq!((answer.number, answer.place), (15, 1));
        assert!(state.basis.is_none());
        // reading asks this limit for nothing
        limits.level_terms = 0;
        let lines = ["R,7,2,1,1", "T,1,1,1,1,0", "T,2,1,1,0,1", "E,2"];
        let answer = State::new()
            .read(&limits, &file(&lines), None)
            .answer()
            .expect("no budget");
        assert_eq!(answer.number, 0);
    }
}

#[test]
fn thirteen_before_fourteen_product_by_product() {
    // m·f_2 = y·(x·z + z^b + .. ): with room for one term the second product is 14 if its exponent
    // is in range, 13 if not
    let with = |second: &str, working: u64| {
        let mut limits = Limits::document_01();
        limits.exponent = 5;
        limits.working = working;
        let lines = ["R,7,2,1,1", "T,1,1,1,1,3", "T,2,1,1,1,0", second, "E,3"];
        let answer = State::new()
            .read(&limits, &file(&lines), None)
            .answer()
            .expect("no budget");
        answer.number
    };
    assert_eq!(with("T,2,1,1,0,2", 1), 14);
    assert_eq!(with("T,2,1,1,0,3", 1), 13);
    // a 13 that comes after the 14 is not seen
    let mut limits = Limits::document_01();
    limits.exponent = 5;
    limits.working = 1;
    let lines = [
        "R,7,2,1,1",
        "T,1,1,1,1,3",
        "T,2,1,1,2,0",
        "T,2,1,1,1,1",
        "T,2,1,1,0,4",
        "E,4",
    ];
    let answer = State::new()
        .read(&limits, &file(&lines), None)
        .answer()
        .expect("no budget");
    assert_eq!(answer.number, 14);
    limits.working = 2;
    let answer = State::new()
        .read(&limits, &file(&lines), None)
        .answer()
        .expect("no budget");
    assert_eq!(answer.number, 13);
}

#[test]
fn the_vector_comes_before_the_products() {
    // the first step records −1/1·e_1 (14 with one place) before its product y^6 (13)
    let lines = [
        "R,7,2,1,1",
        "T,1,1,1,1,0",
        "T,1,1,1,0,4",
        "T,2,1,1,0,2",
        "E,3",
    ];
    let with = |vector, exponent| {
        let mut limits = Limits::document_01();
        limits.vector = vector;
        limits.exponent = exponent;
        let answer = State::new()
            .read(&limits, &file(&lines), None)
            .answer()
            .expect("no budget");
        answer.number
    };
    assert_eq!(with(1, 5), 14);
    assert_eq!(with(2, 5), 13);
    assert_eq!(with(2, 6), 14);
    assert_eq!(with(3, 6), 0);
}

#[test]
fn the_sheet_stops_at_a_refusal() {
    // level 1 is printed, level 2 is refused
    let mut limits = Limits::document_01();
    let lines = [
        "R,7,4,1,1",
        "T,1,1,1,1,0,0,0",
        "T,2,1,1,0,1,0,0",
        "T,3,1,1,0,0,1,0",
        "T,4,1,1,0,0,0,1",
        "E,4",
    ];
    limits.vector = 2;
    let (printed, _) = reference::sheet::sheet(&limits, &file(&lines), None);
    let printed = String::from_utf8(printed.expect("no budget")).expect("text");
    assert!(printed.contains("Z,1,6\n"));
    assert!(printed.ends_with("X,14,2\n"));
    assert!(!printed.contains("S,2,"));
}

#[test]
fn nine_levels_at_most() {
    // with level 9 printed the sheet ends, empty or not
    let lines = ["R,7,1,1,1", "T,1,1,1,1", "T,2,1,1,1", "E,2"];
    assert_eq!(
        sheet_lines(&file(&lines)).last().map(String::as_str),
        Some("Z,2,0")
    );
    let mut limits = Limits::document_01();
    limits.levels = 1;
    let (printed, _) = reference::sheet::sheet(&limits, &file(&lines), None);
    let printed = String::from_utf8(printed.expect("no budget")).expect("text");
    assert!(printed.ends_with("Z,1,1\n"));
}
