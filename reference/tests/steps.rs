// SPDX-License-Identifier: MIT OR Apache-2.0
//! How many steps pick code 2 takes, and slow files.

use crate::common::*;
use reference::generate::cases::slow_case;
use reference::generate::problems::{problem_file, random_basis, Size};
use reference::generate::slow::is_slow;
use reference::lifting::{Lifter, Way};
use reference::random::Random;
use reference::sheet::{sheet, tree_sheet};
use reference::steps::{count_steps, lifted_by_tree, no_pick_is_refused, Steps};
use reference::Limits;
use std::path::Path;

const PRODUCTS: u64 = 1_000_000;

/// y² + y + 1 and x + y^e
fn fibonacci(e: u64) -> Vec<u8> {
    let last = format!("T,2,1,1,0,{e}");
    file(&[
        "R,7,2,1,1",
        "T,1,1,1,0,2",
        "T,1,1,1,0,1",
        "T,1,1,1,0,0",
        "T,2,1,1,1,0",
        &last,
        "E,5",
    ])
}

/// The steps of y^k by the first element: those of y^(k − 1) and y^(k − 2), and its own.
fn of_power(k: usize) -> u64 {
    let mut steps = vec![0, 0];
    for at in 2..=k {
        steps.push(1 + steps[at - 1] + steps[at - 2]);
    }
    steps[k]
}

#[test]
fn steps_of_powers_are_fibonacci_numbers() {
    let limits = Limits::document_01();
    for e in 0..=20 {
        let basis = lifted_by_tree(&limits, &fibonacci(e), PRODUCTS).expect("it is accepted");
        // the frame term is y²·e_2: y^(e + 2) and x·y², whose x·y and x have y^(e + 1) and y^e
        let e = e as usize;
        let steps = 3 + of_power(e) + of_power(e + 1) + of_power(e + 2);
        assert_eq!(
            count_steps(&limits, &basis, u64::MAX),
            Ok(Steps::Exactly(steps))
        );
        // all of a cap is used, and no more
        for cap in [0, 1, steps - 1] {
            let stopped = Ok(Steps::MoreThan(cap));
            assert_eq!(count_steps(&limits, &basis, cap), stopped);
        }
        for cap in [steps, steps + 1] {
            let whole = Ok(Steps::Exactly(steps));
            assert_eq!(count_steps(&limits, &basis, cap), whole);
        }
        assert!(no_pick_is_refused(&limits, &basis));
    }
}

#[test]
fn by_the_tree_the_sheet_is_the_same() {
    let limits = Limits::document_01();
    let mut random = Random::new(20_261_117);
    let mut free = 0;
    for _ in 0..300 {
        let file = problem_file(&random_basis(&mut random, &Size::small()));
        let (Some(printed), _) = sheet(&limits, &file, Some(50_000)) else {
            continue;
        };
        let Some(basis) = lifted_by_tree(&limits, &file, PRODUCTS) else {
            continue;
        };
        assert_eq!(
            tree_sheet(&limits, &file, None).0.expect("no budget"),
            printed
        );
        if !no_pick_is_refused(&limits, &basis) {
            continue;
        }
        free += 1;
        // any pick
        for k in 1..basis.levels.len() {
            let mut lifter = Lifter::new(&limits, &basis.parameters, &basis.levels[..k], None);
            let frame = lifter.frame().expect("it was lifted");
            for (term, vector) in frame.iter().zip(&basis.levels[k]) {
                let picked = lifter.hybrid(term, |working| {
                    let count = working.len() as u64;
                    (count > 0).then(|| working.at(random.below(count) as usize))?
                });
                assert_eq!(picked.as_ref(), Ok(vector));
            }
        }
    }
    assert!(free > 150, "{free}");
}

/// With room for fewer terms than are in reach some pick may be refused, and the test says so.
#[test]
fn what_is_in_reach_is_counted() {
    let whole = Limits::document_01();
    let basis = lifted_by_tree(&whole, &fibonacci(10), PRODUCTS).expect("it is accepted");
    // y^12 to y^2, x·y², x·y and x
    let reach = 14;
    for (working, vector, exponent, free) in [
        (reach, reach + 1, 12, true),
        (reach - 1, reach + 1, 12, false),
        (reach, reach, 12, false),
        (reach, reach + 1, 11, false),
    ] {
        let limits = Limits {
            working,
            vector,
            exponent,
            ..whole
        };
        assert_eq!(no_pick_is_refused(&limits, &basis), free);
    }
}

#[test]
fn the_slow_files() {
    let folder = Path::new(env!("CARGO_MANIFEST_DIR")).join("../tests/slow");
    let limits = Limits::document_01();
    for name in ["fibonacci", "ten", "powers", "forms", "module"] {
        let read = |ending| std::fs::read(folder.join(format!("{name}.{ending}"))).expect("a file");
        let file = read("txt");
        assert!(is_slow(&file), "{name}");
        let (printed, _) = tree_sheet(&limits, &file, Some(PRODUCTS));
        assert_eq!(printed.as_deref(), Some(read("sheet").as_slice()), "{name}");
        assert!(!read("sheet").contains(&b'X'), "{name}");
        // the vectors by two other ways
        let basis = lifted_by_tree(&limits, &file, PRODUCTS).expect("it is accepted");
        for way in [Way::Division, Way::Hybrid(1)] {
            let (mut state, _) = crate::common::read(&file);
            for k in 1..basis.levels.len() as u64 {
                assert_eq!(lift(&mut state, &limits, k, way, 0).number, 0);
            }
            assert_eq!(state.levels(), basis.levels, "{name}");
        }
    }
}

#[test]
fn slow_files_are_made() {
    for case in 1..=6 {
        let (file, printed) = slow_case(2, case);
        assert!(is_slow(&file));
        assert!(printed.starts_with(b"S,1,1,1,"));
        assert!(printed.ends_with(b",0\n"));
    }
    // quick ones are none
    assert!(!is_slow(&fibonacci(10)));
    assert!(!is_slow(b"R,7,2,1,1\nE,0\n"));
}
