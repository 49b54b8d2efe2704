// SPDX-License-Identifier: MIT OR Apache-2.0
//! Degrees of components (request A5): the D line, the degrees that a state's words hold, and what they are for soundness.

use crate::common::*;
use reference::buffers::*;
use reference::completion::{Caps, Completion};
use reference::engine::{own_degrees, sound, Basis, State};
use reference::generate::degree_lines::{
    components_of, spoiled_degree_lines, with_degrees, without_degree_lines,
};
use reference::generate::files::{limit_file, plain_file};
use reference::generate::problems::{problem_file, random_basis, random_degrees, random_set, Size};
use reference::generate::states::{
    alter_degree, carried_words, carry, component_words, with_other_degrees,
};
use reference::lifting::Way;
use reference::monomial::{Parameters, Term};
use reference::random::Random;
use reference::reader::{read_problem, Problem};
use reference::sheet::sheet;
use reference::Limits;
use std::collections::BTreeSet;

/// A module of two components. With degrees 3 and 0 of these it is reckoned by hand below.
const MODULE: [&str; 8] = [
    "R,7,3,1,2",
    // x²·e_1, y³·e_1, z·e_1
    "T,1,1,1,2,0,0",
    "T,2,1,1,0,3,0",
    "T,3,1,1,0,0,1",
    // x·e_2 + z·e_1, whose second term has another degree
    "T,4,1,2,1,0,0",
    "T,4,1,1,0,0,1",
    // y·e_2
    "T,5,1,2,0,1,0",
    "E,6",
];

/// The module's lines with this one put in as line `number`.
fn with_line(number: usize, line: &str) -> Vec<u8> {
    let mut lines = MODULE.to_vec();
    lines.insert(number - 1, line);
    file(&lines)
}

/// Number and place of reading a file, which leaves no basis where it is refused.
fn refusal(file: &[u8]) -> (u64, u64) {
    let (state, answer) = read(file);
    assert_eq!(state.basis.is_some(), answer.number == 0);
    let limits = Limits::document_01();
    let mut words = vec![9; state_words(&limits) + 2];
    let mut work = vec![9; work_words(&limits, None) + 2];
    let found = read_call(&limits, file, &mut words, &mut work);
    assert_eq!(found, (answer.number, answer.place));
    if answer.number == 18 || (1..=8).contains(&answer.number) {
        assert!(words.iter().chain(&work).all(|word| *word == 0));
    }
    found
}

/// The degrees that a file's D line says.
fn degrees_of(file: &[u8]) -> Vec<u64> {
    let problem = read_problem(&Limits::document_01(), file).expect("a problem");
    problem.degrees
}

#[test]
fn right_lines() {
    assert_eq!(degrees_of(&file(&MODULE)), [0, 0]);
    for (line, degrees) in [
        ("D,0,0", [0, 0]),
        ("D,3,0", [3, 0]),
        ("D,0,255", [0, 255]),
        ("D,255,255", [255, 255]),
        ("D,10,200", [10, 200]),
    ] {
        let file = with_line(2, line);
        assert_eq!(refusal(&file), (0, 0), "{line}");
        assert_eq!(degrees_of(&file), degrees);
        assert_eq!(components_of(&file), 2);
        assert_eq!(without_degree_lines(&file), self::file(&MODULE));
        assert_eq!(with_degrees(&self::file(&MODULE), &degrees), file);
    }
    for degree in 0..=255 {
        assert_eq!(refusal(&with_line(2, &format!("D,{degree},0"))), (0, 0));
        assert_eq!(refusal(&with_line(2, &format!("D,1,{degree}"))), (0, 0));
    }
    // sixteen of them, and one
    let all: Vec<u64> = (240..256).collect();
    let line = format!(
        "D,{}",
        all.iter().map(u64::to_string).collect::<Vec<_>>().join(",")
    );
    let sixteen = file(&["R,2,1,3,16", &line, "T,1,1,16,1", "E,1"]);
    assert_eq!(degrees_of(&sixteen), all);
    assert_eq!(
        degrees_of(&file(&["R,2,1,3,1", "D,9", "T,1,1,1,1", "E,1"])),
        [9]
    );
}

#[test]
fn every_spoiled_line() {
    // line 2
    for (line, number) in [
        ("D,256,0", 18),
        ("D,0,256", 18),
        ("D,256,256", 18),
        ("D,65535,0", 18),
        ("D,0,65535", 18),
        ("D,65536,0", 1),
        ("D,0,65536", 1),
        ("D,256,65536", 1),
        ("D,18446744073709551616,0", 1),
        ("D", 1),
        ("D,", 1),
        ("D,3", 1),
        ("D,256", 1),
        ("D,3,0,0", 1),
        ("D,256,0,0", 1),
        ("D,3,0,", 1),
        ("D,3,,0", 1),
        ("D,,0", 1),
        ("D,3,", 1),
        ("D,256,", 1),
        ("D,03,0", 1),
        ("D,3,00", 1),
        ("D,0256,0", 1),
        ("D,+3,0", 1),
        ("D,3,-0", 1),
        ("D,-1,256", 1),
        ("D, 3,0", 1),
        ("D,3,0 ", 1),
        ("D,3 ,0", 1),
        ("D,3,0\r", 1),
        (" D,3,0", 1),
        ("d,3,0", 1),
        ("d,256,0", 1),
        ("DD,3,0", 1),
        ("D3,0", 1),
        ("D;3;0", 1),
        ("D,3.0,0", 1),
        ("D,\"3\",0", 1),
        ("G,3,0", 1),
        (",3,0", 1),
        ("", 1),
    ] {
        assert_eq!(refusal(&with_line(2, line)), (number, 2), "{line:?}");
    }
    // anywhere else
    assert_eq!(refusal(&with_line(1, "D,3,0")), (1, 1));
    assert_eq!(refusal(&with_line(1, "D,256,0")), (1, 1));
    for line in ["D,3,0", "D,256,0", "D,3", "d,3,0", "D"] {
        for number in 3..=9 {
            let place = number as u64;
            assert_eq!(
                refusal(&with_line(number, line)),
                (1, place),
                "{number} {line}"
            );
        }
    }
    // a second one
    let mut lines = MODULE.to_vec();
    lines.splice(1..1, ["D,3,0", "D,3,0"]);
    assert_eq!(refusal(&file(&lines)), (1, 3));
    lines[2] = "D,256,0";
    assert_eq!(refusal(&file(&lines)), (1, 3));
    lines[1] = "D,0,256";
    assert_eq!(refusal(&file(&lines)), (18, 2));
    // not ended, and the last line
    for (text, refused) in [
        ("R,7,3,1,2\nD,3,0", (1, 2)),
        ("R,7,3,1,2\nD,256,0", (1, 2)),
        ("R,7,3,1,2\nD,3,", (1, 2)),
        ("R,7,3,1,2\nD", (1, 2)),
        ("R,7,3,1,2\nD,3,0\n", (1, 3)),
        ("R,7,3,1,2\nD,256,0\n", (18, 2)),
        ("D,3,0\n", (1, 1)),
        ("D,3,0", (1, 1)),
        ("D", (1, 1)),
    ] {
        assert_eq!(refusal(text.as_bytes()), refused, "{text:?}");
    }
}

#[test]
fn eighteen_among_the_others() {
    // the R line comes first, with all its tests
    let over = |first: &str| {
        let mut lines = MODULE.to_vec();
        lines[0] = first;
        lines.insert(1, "D,256,0");
        refusal(&file(&lines))
    };
    assert_eq!(over("R,7,3,1,2"), (18, 2));
    assert_eq!(over("R,7,3,1,2,"), (1, 1));
    assert_eq!(over("R,9,3,1,2"), (2, 1));
    assert_eq!(over("R,7,3,4,2"), (3, 1));
    assert_eq!(over("R,7,9,1,2"), (3, 1));
    // with another s the line has not its shape
    assert_eq!(over("R,7,3,1,1"), (1, 2));
    assert_eq!(over("R,7,3,1,3"), (1, 2));
    // the lines behind it come later
    assert_eq!(refusal(b"R,7,1,1,1\nD,256\nT,9,0,9,999\nE,7\nx"), (18, 2));
    assert_eq!(refusal(b"R,7,1,1,1\nD,255\nT,9,0,9,999\nE,7\nx"), (5, 3));
    assert_eq!(refusal(b"R,7,1,1,1\nD,255\nT,1,0,9,999\nE,7\nx"), (4, 3));
    assert_eq!(refusal(b"R,7,1,1,1\nD,255\nT,1,1,1,9\nE,7\nx"), (7, 4));
    assert_eq!(refusal(b"R,7,1,1,1\nD,255\nT,1,1,1,9\nE,1\nx"), (1, 5));
    assert_eq!(refusal(b"R,7,1,1,1\nD,255\nE,0\n"), (7, 3));
    // D is no T line: it counts neither for E nor for 8
    assert_eq!(refusal(b"R,7,1,1,1\nD,255\nT,1,1,1,9\nE,2\n"), (7, 4));
    assert_eq!(refusal(b"R,7,1,1,1\nD,255\nT,1,1,1,9\nE,1\n"), (0, 0));
    let terms: Vec<String> = (0..2_049)
        .map(|t| format!("T,1,1,1,{},{}", 20 - t / 200, 200 - t % 200))
        .collect();
    let mut lines = vec!["R,7,2,1,1", "D,7"];
    lines.extend(terms[..2_048].iter().map(String::as_str));
    lines.push("E,2048");
    assert_eq!(refusal(&file(&lines)), (0, 0));
    lines.insert(2_050, &terms[2_048]);
    assert_eq!(refusal(&file(&lines)), (8, 2_051));
    // the length comes first, and D counts for it
    let mut long = b"R,7,1,1,1\nD,256\n".to_vec();
    long.resize(65_536, b'x');
    assert_eq!(refusal(&long), (18, 2));
    long.push(b'x');
    assert_eq!(refusal(&long), (1, 0));
    // 18 comes before what acceptance refuses
    let no_basis = [
        "R,7,2,1,1",
        "D,9",
        "T,1,1,1,2,0",
        "T,2,1,1,1,1",
        "T,2,1,1,0,2",
        "E,3",
    ];
    assert_eq!(refusal(&file(&no_basis)), (9, 1));
    let mut above = no_basis;
    above[1] = "D,300";
    assert_eq!(refusal(&file(&above)), (18, 2));
    assert_eq!(sheet_lines(&file(&no_basis)), ["X,9,1", "W,6,1,0,3"]);
    assert_eq!(sheet_lines(&file(&above)), ["X,18,2"]);
}

#[test]
fn the_spoiled_lines_of_the_generator() {
    let mut random = Random::new(51);
    let mut names = BTreeSet::new();
    for _ in 0..200 {
        let bare = without_degree_lines(&plain_file(&mut random, &Size::tiny()));
        let degrees = random_degrees(&mut random, components_of(&bare));
        let lines = bare.iter().filter(|byte| **byte == 10).count();
        for spoiled in spoiled_degree_lines(lines, &degrees) {
            let found = read_problem(&Limits::document_01(), &spoiled.file(&bare));
            let refusal = found.expect_err(spoiled.name);
            let refused = (refusal.number, refusal.place);
            assert_eq!(refused, spoiled.refused, "{}", spoiled.name);
            names.insert((spoiled.name, refused.0));
        }
    }
    assert!(names.len() > 50, "{}", names.len());
}

/// All levels up to the first empty one and what their vectors carry, or the refusal.
fn lifted(mut state: State, way: Way, cache: u64) -> Result<Basis, (u64, u64)> {
    let limits = Limits::document_01();
    for level in 1..=9 {
        let outcome = state.lift(&limits, level, way, cache, Some(20_000));
        let Some(answer) = outcome.answer() else {
            return Err((0, 0));
        };
        if answer.number != 0 {
            return Err((answer.number, answer.place));
        }
        if state.levels()[level as usize].is_empty() {
            break;
        }
    }
    Ok(state.basis.expect("a basis"))
}

#[test]
fn with_and_without_the_line() {
    let mut random = Random::new(52);
    let limits = Limits::document_01();
    let (mut whole, mut refused, mut other) = (0, BTreeSet::new(), 0);
    for case in 0..600 {
        let problem = match case % 10 {
            0 => random_basis(&mut random, &Size::medium()),
            1 | 2 => random_set(&mut random, &Size::small()),
            _ => random_basis(&mut random, &Size::small()),
        };
        let bare = without_degree_lines(&problem_file(&problem));
        let degrees: Vec<u64> = problem
            .degrees
            .iter()
            .map(|_| random.between(0, 255))
            .collect();
        let zeros = vec![0; degrees.len()];
        let budget = Some(50_000);
        let (plain, _) = sheet(&limits, &bare, budget);
        let mut found = Vec::new();
        for degrees in [&degrees, &zeros] {
            let with = with_degrees(&bare, degrees);
            assert_eq!(degrees_of(&with), *degrees);
            assert_eq!(sheet(&limits, &with, budget).0, plain);
            found.push(with);
        }
        let mut state = State::new();
        let Some(answer) = state.read(&limits, &bare, budget).answer() else {
            continue;
        };
        let mut states = vec![state.clone()];
        for with in &found {
            let mut state = State::new();
            let same = state.read(&limits, with, budget).answer();
            // number, place, value and what it took
            assert_eq!(same.as_ref(), Some(&answer));
            states.push(state);
        }
        if answer.number != 0 {
            refused.insert(answer.number);
            continue;
        }
        assert_eq!(states[0], states[2]);
        for (way, cache) in all_ways() {
            let by_all: Vec<_> = states
                .iter()
                .map(|s| lifted(s.clone(), way, cache))
                .collect();
            assert_eq!(by_all[0], by_all[2]);
            match (&by_all[0], &by_all[1]) {
                (Ok(plain), Ok(with)) => {
                    assert_eq!(plain.levels, with.levels);
                    assert_eq!(with.degrees, degrees);
                    check_degrees(plain);
                    check_degrees(with);
                    whole += 1;
                    other += u64::from(plain.carried != with.carried);
                }
                (plain, with) => assert_eq!(plain, with),
            }
        }
    }
    assert!(whole > 2_000 && other > 1_500, "{whole} {other}");
    assert!(refused.contains(&9));
}

/// What each carries is its own degree: by its image, and by the level below.
fn check_degrees(basis: &Basis) {
    assert_eq!(basis.carried.len(), basis.levels.len());
    let mut below = &basis.degrees;
    for (k, level) in basis.levels.iter().enumerate() {
        assert_eq!(basis.carried[k], own_degrees(basis, k));
        let degree = |at: &Term| {
            at.monomial.exponents.iter().sum::<u64>() + below[at.monomial.component as usize - 1]
        };
        let own: Vec<u64> = level.iter().map(|vector| degree(&vector[0])).collect();
        assert_eq!(basis.carried[k], own);
        below = &basis.carried[k];
    }
    assert!(sound(&Limits::document_01(), basis));
}

#[test]
fn homogeneous_all_through() {
    // with degrees 0, 1, 2, 3 of the components these are of degree 3, in each of their terms
    let lines = [
        "R,101,3,3,4",
        "D,0,1,2,3",
        "T,1,1,1,3,0,0",
        "T,1,5,4,0,0,0",
        "T,2,1,2,2,0,0",
        "T,2,9,3,0,1,0",
        "T,3,2,1,0,3,0",
        "T,3,3,2,0,1,1",
        "E,6",
    ];
    let mut problem = read_problem(&Limits::document_01(), &file(&lines)).expect("a problem");
    let caps = Caps {
        elements: 20,
        terms: 50,
        exponent: 20,
        products: 10_000,
    };
    let mut completion = Completion::new(&problem.parameters, caps);
    problem.elements = completion.complete(problem.elements).expect("a basis");
    let (state, answer) = read(&problem_file(&problem));
    assert_eq!(answer.number, 0);
    let basis = lifted(state, Way::Tree, 100).expect("all levels");
    assert!(basis.levels.len() > 2);
    check_degrees(&basis);
    let mut below = &basis.degrees;
    for (level, carried) in basis.levels.iter().zip(&basis.carried) {
        for (vector, degree) in level.iter().zip(carried) {
            for term in vector {
                let own: u64 = term.monomial.exponents.iter().sum();
                assert_eq!(own + below[term.monomial.component as usize - 1], *degree);
            }
        }
        below = carried;
    }
    assert_eq!(basis.carried[0][..3], [3, 3, 3]);
}

/// A file, its components' degrees, and what levels 0 to 3 then carry.
type Case = (Vec<u8>, &'static [u64], [&'static [u64]; 4]);

#[test]
fn by_hand() {
    // x², y³, z. Level 1: x²·e_2, then y³·e_3 and x²·e_3, ascending; level 2: y³·e_3 (over x²·e_3).
    let ideal = file(&[
        "R,7,3,1,1",
        "T,1,1,1,2,0,0",
        "T,2,1,1,0,3,0",
        "T,3,1,1,0,0,1",
        "E,3",
    ]);
    // The module has them in component 1. In component 2 it has x and y, and level 1 has one more
    // vector, x·e_5.
    let module = file(&MODULE);
    let cases: [Case; 5] = [
        (ideal.clone(), &[0], [&[2, 3, 1], &[5, 4, 3], &[6], &[]]),
        (ideal.clone(), &[3], [&[5, 6, 4], &[8, 7, 6], &[9], &[]]),
        (
            ideal,
            &[255],
            [&[257, 258, 256], &[260, 259, 258], &[261], &[]],
        ),
        (
            module.clone(),
            &[0, 0],
            [&[2, 3, 1, 1, 1], &[5, 4, 3, 2], &[6], &[]],
        ),
        (
            module,
            &[3, 0],
            [&[5, 6, 4, 1, 1], &[8, 7, 6, 2], &[9], &[]],
        ),
    ];
    for (bare, degrees, expected) in cases {
        for (way, cache) in all_ways() {
            let (state, answer) = read(&with_degrees(&bare, degrees));
            assert_eq!(answer.number, 0);
            let basis = lifted(state, way, cache).expect("all levels");
            assert_eq!(basis.degrees, degrees);
            assert_eq!(basis.carried, expected);
        }
        // the same in the words, level after level
        let limits = Limits::document_01();
        let mut words = vec![9; 125_471];
        let mut work = vec![9; 24_576];
        let file = with_degrees(&bare, degrees);
        assert_eq!(read_call(&limits, &file, &mut words, &mut work), (0, 0));
        for k in 0..expected.len() {
            if k > 0 {
                let level = k as u64;
                let found = lift_call(&limits, &mut words, level, Way::Tree, &mut work, &mut []);
                assert_eq!(found, (0, 0));
            }
            let mut of_degrees = vec![0; 1_296];
            of_degrees[..degrees.len()].copy_from_slice(&to_words(degrees));
            for (level, carried) in expected[..=k].iter().enumerate() {
                let at = 16 + 128 * level;
                of_degrees[at..at + carried.len()].copy_from_slice(&to_words(carried));
            }
            assert_eq!(words[124_175..], of_degrees);
        }
        // level 1 again: what the levels above it carried is gone
        let found = lift_call(&limits, &mut words, 1, Way::Division, &mut work, &mut []);
        assert_eq!(found, (0, 0));
        assert!(words[124_191 + 256..].iter().all(|word| *word == 0));
        assert_eq!(
            words[124_319..124_319 + expected[1].len()],
            to_words(expected[1])
        );
        // a refused reading leaves no degrees
        assert_eq!(read_call(&limits, b"", &mut words, &mut work), (1, 1));
        assert!(words.iter().all(|word| *word == 0));
    }
}

fn to_words(numbers: &[u64]) -> Vec<u16> {
    numbers.iter().map(|number| *number as u16).collect()
}

/// Limits under which a state is short, with room for the module and its levels.
fn short() -> Limits {
    Limits {
        components: 4,
        elements: 6,
        vectors: 5,
        t_lines: 12,
        level_terms: 20,
        levels: 4,
        ..Limits::document_01()
    }
}

/// A state's words: the module with these degrees, levels up to the highest lifted.
fn module_words(limits: &Limits, degrees: &[u64], highest: u64) -> Vec<u16> {
    let mut words = vec![9; state_words(limits) + 3];
    let mut work = vec![9; work_words(limits, None)];
    let file = with_degrees(&file(&MODULE), degrees);
    assert_eq!(read_call(limits, &file, &mut words, &mut work), (0, 0));
    for level in 1..=highest {
        let found = lift_call(
            limits,
            &mut words,
            level,
            Way::Hybrid(2),
            &mut work,
            &mut [],
        );
        assert_eq!(found, (0, 0));
    }
    words
}

/// What lifting each level and fetching answer; 11 changes nothing.
fn answers(limits: &Limits, words: &[u16]) -> Vec<u64> {
    let mut numbers = Vec::new();
    for level in 1..=limits.levels {
        for way in [Way::Division, Way::Hybrid(3), Way::Tree] {
            let mut state = words.to_vec();
            let mut work = vec![3; work_words(limits, Some(way))];
            let mut cache = vec![3; 31];
            let found = lift_call(limits, &mut state, level, way, &mut work, &mut cache);
            assert!(matches!(found.0, 0 | 11) && found.1 == 0);
            if found.0 == 11 {
                assert!(state == words);
                assert!(work.iter().chain(&cache).all(|word| *word == 3));
            } else {
                assert!(state == only_named(limits, &state));
            }
            numbers.push(found.0);
        }
        let mut out = vec![3; out_words(limits)];
        let found = fetch_call(limits, words, level, 1, &mut out);
        assert!(found.0 == 0 || out.iter().all(|word| *word == 3));
        numbers.push(found.0);
    }
    numbers
}

/// A state's words with all those zero that its counts do not name.
fn only_named(limits: &Limits, words: &[u16]) -> Vec<u16> {
    let mut named = vec![0; words.len()];
    write_state(limits, &read_state(limits, words), &mut named);
    named
}

#[test]
fn every_degree_changed_by_one_is_eleven() {
    let limits = short();
    let layout = Layout::new(&limits);
    for highest in 0..=4 {
        let good = module_words(&limits, &[3, 0], highest);
        let as_it_is = answers(&limits, &good);
        assert!(as_it_is.contains(&0));
        let held = read_state(&limits, &good).basis.expect("a basis");
        let carried: usize = [5, 4, 1, 0, 0][..=highest as usize].iter().sum();
        assert_eq!(carried_words(&limits, &held).len(), carried);
        let mut named = carried_words(&limits, &held);
        named.extend(component_words(&limits, &held));
        assert_eq!(named.len(), carried + 2);
        for at in layout.first_degree()..good.len() {
            for change in [1, u16::MAX, 256, 1 << 15] {
                let mut words = good.clone();
                words[at] = words[at].wrapping_add(change);
                if named.contains(&at) {
                    assert!(answers(&limits, &words).iter().all(|number| *number == 11));
                } else {
                    // behind the components, behind a level's vectors, in levels that are not
                    // complete, behind the state
                    assert_eq!(answers(&limits, &words), as_it_is, "{at}");
                }
            }
        }
        // all of the others at once
        let mut words = good.clone();
        for (at, word) in words.iter_mut().enumerate() {
            if at >= layout.first_degree() && !named.contains(&at) {
                *word = 0xaaaa;
            }
        }
        assert_eq!(answers(&limits, &words), as_it_is);
        // fewer complete levels: what stands above is not looked at
        for complete in 1..=highest as u16 {
            let mut words = good.clone();
            words[4] = complete;
            for k in usize::from(complete)..=4 {
                for v in 0..5 {
                    words[layout.first_carried(k) + v] ^= 0x5a5a;
                }
            }
            let fewer = module_words(&limits, &[3, 0], u64::from(complete) - 1);
            assert_eq!(answers(&limits, &words), answers(&limits, &fewer));
        }
    }
}

#[test]
fn every_degree_of_full_length() {
    let limits = Limits::document_01();
    let good = module_words(&limits, &[255, 7], 9);
    let held = read_state(&limits, &good).basis.expect("a basis");
    assert_eq!(held.carried[2], [261]);
    let number = |words: &[u16]| {
        let mut out = vec![3; out_words(&limits)];
        fetch_call(&limits, words, 1, 4, &mut out).0
    };
    assert_eq!(number(&good), 0);
    let mut named = carried_words(&limits, &held);
    named.extend(component_words(&limits, &held));
    assert_eq!(named.len(), 12);
    for at in 124_175..good.len() {
        let mut words = good.clone();
        words[at] ^= 1;
        let expected = if named.contains(&at) { 11 } else { 0 };
        assert_eq!(number(&words), expected, "{at}");
    }
}

#[test]
fn a_component_that_no_element_leads_with() {
    let limits = short();
    let at = Layout::new(&limits).first_degree();
    // component 3 has no term, component 1 none that leads
    let lines = [
        "R,7,2,1,3",
        "D,5,4,255",
        "T,1,1,2,1,0",
        "T,1,1,1,0,1",
        "E,2",
    ];
    let mut words = vec![0; state_words(&limits)];
    let mut work = vec![0; work_words(&limits, None)];
    assert_eq!(
        read_call(&limits, &file(&lines), &mut words, &mut work),
        (0, 0)
    );
    for (component, degree, number) in [
        (0, 0, 0),
        (0, 255, 0),
        (0, 256, 11),
        (0, 65_535, 11),
        (1, 3, 11),
        (1, 5, 11),
        (2, 0, 0),
        (2, 256, 11),
        (3, 256, 0),
        (3, 65_535, 0),
    ] {
        let mut state = words.clone();
        state[at + component] = degree;
        let mut expected = state.clone();
        let found = lift_call(&limits, &mut state, 1, Way::Division, &mut work, &mut []);
        assert_eq!(found, (number, 0), "{component} {degree}");
        if number == 0 {
            // it is kept; what stands behind the components is not
            expected[4] = 2;
            expected[at + 3] = 0;
        }
        assert!(state == expected);
    }
}

#[test]
fn all_degrees_changed_together() {
    let limits = short();
    let layout = Layout::new(&limits);
    for highest in 0..=4 {
        let good = module_words(&limits, &[3, 0], highest);
        for (degrees, rest) in [([4, 0], 11), ([3, 1], 11), ([0, 0], 11), ([255, 255], 11)] {
            let mut words = good.clone();
            words[layout.first_degree()..layout.first_degree() + 2]
                .copy_from_slice(&to_words(&degrees));
            let alone = answers(&limits, &words);
            assert!(alone.iter().all(|number| *number == rest));
            // with what follows from it: the state that reading another D line gives
            let changed = carry(&limits, &mut words);
            assert!(!changed.is_empty());
            let expected = module_words(&limits, &degrees, highest);
            assert!(words == expected);
            assert_eq!(answers(&limits, &words), answers(&limits, &good));
            // the words that changed, but for one of them: 11 again
            for (at, old) in changed {
                let mut words = words.clone();
                words[at] = old;
                let alone = answers(&limits, &words);
                assert!(alone.iter().all(|number| *number == 11));
            }
        }
    }
    // a level's carried degrees alone follow the level below: an image is walked down to level 0
    let good = module_words(&limits, &[3, 0], 2);
    for from in 0..=2 {
        let mut words = good.clone();
        for k in from..=2 {
            for v in 0..usize::from(words[layout.count(k)]) {
                words[layout.first_carried(k) + v] += 1;
            }
        }
        assert!(answers(&limits, &words).iter().all(|number| *number == 11));
    }
}

#[test]
fn altered_degrees_of_any_states() {
    let mut random = Random::new(53);
    let limits = Limits {
        t_lines: 30,
        level_terms: 60,
        vectors: 20,
        elements: 10,
        levels: 5,
        ..Limits::document_01()
    };
    let (mut sound_ones, mut states) = (0, 0);
    while states < 400 {
        let file = problem_file(&random_basis(&mut random, &Size::small()));
        let mut state = State::new();
        let _ = state.read(&limits, &file, Some(3_000));
        for level in 1..=random.below(4) {
            let mut next = state.clone();
            let lifted = next.lift(&limits, level, Way::Hybrid(1), 0, Some(3_000));
            if lifted.answer().is_some_and(|answer| answer.number == 0) {
                state = next;
            }
        }
        let Some(basis) = &state.basis else {
            continue;
        };
        states += 1;
        assert!(sound(&limits, basis));
        let mut words = vec![0; state_words(&limits)];
        write_state(&limits, &state, &mut words);
        for _ in 0..20 {
            let mut altered = words.clone();
            let (at, old) = alter_degree(&mut random, &limits, basis, &mut altered);
            assert!(altered[at] != old && words[at] == old);
            let held = read_state(&limits, &altered);
            let found = held.basis.is_some_and(|basis| sound(&limits, &basis));
            let component = at - Layout::new(&limits).first_degree() + 1;
            let leads = basis.levels[0]
                .iter()
                .any(|element| element[0].monomial.component == component as u64);
            let free = component <= basis.degrees.len() && !leads && altered[at] <= 255;
            assert_eq!(found, free);
            sound_ones += u64::from(found);
        }
        // another sound state, used as it stands
        let other = with_other_degrees(&mut random, basis);
        assert!(sound(&limits, &other));
        assert_eq!(other.levels, basis.levels);
        let mut lifts = [State { basis: Some(other) }, state.clone()];
        let top = lifts[0].levels().len().min(5);
        let mut found = Vec::new();
        for state in &mut lifts {
            let outcome = state.lift(&limits, top as u64, Way::Tree, 7, Some(5_000));
            found.push(outcome.answer().map(|answer| (answer.number, answer.place)));
            if let Some(basis) = &state.basis {
                check_degrees(basis);
            }
        }
        assert_eq!(found[0], found[1]);
        assert_eq!(lifts[0].levels(), lifts[1].levels());
    }
    assert!(sound_ones > 20, "{sound_ones}");
}

#[test]
fn the_greatest_degree() {
    // a vector of ten levels, each x1^255·..·x8^255, over a component of degree 255
    let limits = Limits::document_01();
    let parameters = Parameters {
        p: 7,
        n: 8,
        order: 3,
        s: 1,
    };
    let levels = vec![vec![vec![term(1, 1, &[255; 8])]]; 10];
    let basis = Basis::new(parameters, vec![255], levels);
    let carried: Vec<u64> = basis.carried.concat();
    let by_hand: Vec<u64> = (1..=10).map(|k| 255 + 2_040 * k).collect();
    assert_eq!(carried, by_hand);
    assert_eq!(carried[9], 20_655);
    assert!(sound(&limits, &basis));
    let state = State { basis: Some(basis) };
    let mut words = vec![9; 125_471];
    write_state(&limits, &state, &mut words);
    for (k, degree) in by_hand.iter().enumerate() {
        assert_eq!(u64::from(words[124_191 + 128 * k]), *degree);
    }
    assert_eq!(read_state(&limits, &words), state);
    let mut out = vec![9; 3_072];
    assert_eq!(fetch_call(&limits, &words, 9, 1, &mut out), (0, 0));
    words[124_191 + 128 * 9] += 1;
    assert_eq!(fetch_call(&limits, &words, 9, 1, &mut out), (11, 0));
}

#[test]
fn files_at_the_limits_with_lines() {
    // generated files have D lines, right and wrong
    let mut random = Random::new(54);
    let (mut with, mut above) = (0, 0);
    for _ in 0..2_000 {
        let file = limit_file(&mut random);
        let second = file.split(|byte| *byte == 10).nth(1).unwrap_or(&[]);
        match read_problem(&Limits::document_01(), &file) {
            Ok(Problem { degrees, .. }) => {
                let has = second.starts_with(b"D");
                assert!(has || degrees.iter().all(|degree| *degree == 0));
                with += u64::from(has);
            }
            Err(refusal) => above += u64::from(refusal.number == 18),
        }
    }
    assert!(with > 200 && above > 5, "{with} {above}");
}

#[test]
fn lengths_under_other_limits() {
    for (components, elements, vectors, levels) in [
        (16, 64, 128, 9),
        (1, 1, 1, 1),
        (3, 9, 4, 2),
        (2, 0, 7, 0),
        (0, 0, 0, 0),
    ] {
        let limits = Limits {
            components,
            elements,
            vectors,
            levels,
            ..Limits::document_01()
        };
        let (levels, ends) = (levels + 1, elements.max(vectors));
        let words = 5 + (ends + 1) * levels + 6 * 2_048 * levels + components + ends * levels;
        assert_eq!(state_words(&limits) as u64, words);
        // no files fit into nothing, and too short a state is 16
        let mut state = vec![0; state_words(&limits)];
        let mut work = vec![0; work_words(&limits, None)];
        let file = file(&["R,7,1,1,1", "D,300", "T,1,1,1,1", "E,1"]);
        let number = if components == 0 { 3 } else { 18 };
        let found = read_call(&limits, &file, &mut state, &mut work);
        assert_eq!(found, (number, if number == 3 { 1 } else { 2 }));
        let last = state.len() - 1;
        let short = read_call(&limits, &file, &mut state[..last], &mut work);
        assert_eq!(short, (16, 0));
    }
}
