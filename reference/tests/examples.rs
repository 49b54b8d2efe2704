// SPDX-License-Identifier: MIT OR Apache-2.0
//! The files of `examples/` against what Singular and Macaulay2 say of them.

use crate::common::*;
use reference::engine::{Basis, State};
use reference::hilbert::value;
use reference::invariants::generator_degrees;
use reference::lifting::Way;
use reference::minimal::numbers;
use reference::reader::read_problem;
use reference::reckoning::reckon_levels;
use reference::Limits;
use std::collections::BTreeMap;
use std::path::PathBuf;

fn examples() -> PathBuf {
    PathBuf::from(env!("CARGO_MANIFEST_DIR")).join("../examples")
}

fn truth() -> Vec<(String, Json)> {
    let text = std::fs::read_to_string(examples().join("truth.json")).expect("truth.json");
    let Json::Map(map) = Json::parse(&text) else {
        panic!("truth.json is a map");
    };
    map.into_iter().collect()
}

fn bytes(name: &str) -> Vec<u8> {
    std::fs::read(examples().join(format!("{name}.txt"))).expect("the file of the example")
}

fn is_groebner(facts: &Json) -> bool {
    let Some(Json::Map(said)) = facts.get("groebner") else {
        panic!("groebner is a map");
    };
    let said: Vec<&Json> = said.values().collect();
    assert!(said.iter().all(|one| *one == said[0]), "they agree");
    *said[0] == Json::Truth(true)
}

/// Files that are Gröbner bases but meet a limit, and the refusal: `lim_terms513` has a product
/// list of 700 terms, of which acceptance drops none; the second level of `cnc_g7` has more than
/// 2,048 terms.
fn limit_met(name: &str) -> Option<(u64, u64)> {
    match name {
        "lim_terms513" => Some((14, 0)),
        "cnc_g7" => Some((15, 2)),
        _ => None,
    }
}

/// Lifts all levels up to the first empty one; gives the refusal if there is one.
fn lift_all(state: &mut State, way: Way, cache: u64) -> Option<(u64, u64)> {
    let limits = Limits::document_01();
    for level in 1..=9 {
        let answer = lift(state, &limits, level, way, cache);
        if answer.number != 0 {
            return Some((answer.number, answer.place));
        }
        if state.levels()[level as usize].is_empty() {
            return None;
        }
    }
    panic!("level 9 is not empty");
}

/// The basis with all its levels up to the first empty one, by the plain reckoning.
fn reckoned(file: &[u8]) -> Basis {
    let problem = read_problem(&Limits::document_01(), file).expect("a problem");
    for h in 1..=9 {
        let levels = reckon_levels(&problem, h, None).expect("there is no budget");
        if levels[h].is_empty() {
            return Basis::new(problem.parameters, problem.degrees, levels);
        }
    }
    panic!("level 9 is not empty");
}

#[test]
fn accepted_or_not() {
    for (name, facts) in truth() {
        let (_, answer) = read(&bytes(&name));
        let expected = match limit_met(&name) {
            Some((number, 0)) => number,
            _ if is_groebner(&facts) => 0,
            _ => 9,
        };
        assert_eq!(answer.number, expected, "{name}");
        if expected == 9 {
            assert!(answer.place >= 1 && !answer.vector.is_empty(), "{name}");
        }
    }
}

#[test]
fn levels_by_the_ways_and_by_the_reckoning() {
    for (name, facts) in truth() {
        if !is_groebner(&facts) {
            continue;
        }
        let file = bytes(&name);
        let (state, answer) = read(&file);
        if answer.number != 0 {
            continue;
        }
        let plain = reckoned(&file);
        for (way, cache) in [
            (Way::Tree, 100_000),
            (Way::Hybrid(1), 0),
            (Way::Division, 0),
        ] {
            let mut state = state.clone();
            let refused = lift_all(&mut state, way, cache);
            assert_eq!(refused, limit_met(&name), "{name}");
            if refused.is_none() {
                assert_eq!(state.basis, Some(plain.clone()), "{name} {way:?}");
            }
        }
    }
}

#[test]
fn hilbert_functions() {
    for (name, facts) in truth() {
        let Some(Json::List(expected)) = facts.get("hilbert") else {
            assert!(!is_groebner(&facts), "{name}");
            continue;
        };
        assert_eq!(expected.len(), 33);
        let basis = reckoned(&bytes(&name));
        for (d, dimension) in (0..).zip(expected) {
            let dimension = i128::from(dimension.number());
            assert_eq!(value(&basis, d), dimension, "{name} in degree {d}");
        }
    }
}

#[test]
fn minimal_betti_numbers() {
    let mut seen = 0;
    for (name, facts) in truth() {
        let Some(Json::Map(betti)) = facts.get("betti_minimal") else {
            continue;
        };
        seen += 1;
        let expected: BTreeMap<(u64, u64), u64> = betti
            .iter()
            .map(|(place, number)| {
                let (column, degree) = place.split_once(',').expect("column,degree");
                let place = (
                    column.parse().expect("a column"),
                    degree.parse().expect("a degree"),
                );
                (place, number.number() as u64)
            })
            .collect();
        let basis = reckoned(&bytes(&name));
        let found = by_degree(&numbers(&basis));
        assert_eq!(found, expected, "{name}");
        let projective_dimension = found.keys().map(|(column, _)| *column).max();
        let said = facts.get("projdim").expect("projdim").number() as u64;
        assert_eq!(projective_dimension, Some(said), "{name}");
        // the levels are at least as long as the minimal resolution
        assert!(generator_degrees(&basis).len() as u64 > said);
    }
    assert!(seen >= 25);
}

#[test]
fn sheets_of_the_quick_examples() {
    for (name, facts) in truth() {
        if name == "katsura4_lp" {
            // pick code 2 takes hundreds of millions of products
            continue;
        }
        let lines = sheet_lines(&bytes(&name));
        let last = lines.last().expect("a line");
        match limit_met(&name) {
            Some((number, place)) => assert_eq!(*last, format!("X,{number},{place}")),
            None if is_groebner(&facts) => assert!(last.starts_with("Z,"), "{name}"),
            None => assert!(last.starts_with("W,"), "{name}"),
        }
    }
}

#[test]
fn a_budget_gives_up_and_is_no_refusal() {
    let file = bytes("katsura4_lp");
    let limits = Limits::document_01();
    let (printed, usage) = reference::sheet::sheet(&limits, &file, Some(100_000));
    assert_eq!(printed, None);
    assert_eq!(usage.products, 100_000);
    let (state, _) = read(&file);
    let mut after = state.clone();
    let outcome = after.lift(&limits, 1, Way::Hybrid(2), 0, Some(1_000));
    assert_eq!(outcome.answer(), None);
    assert_eq!(state, after);
}
