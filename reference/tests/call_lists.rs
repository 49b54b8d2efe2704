// SPDX-License-Identifier: MIT OR Apache-2.0
//! Random lists of calls: the claim about a whole list, and the text forms.

use reference::engine::State;
use reference::generate::cases::calls_case;
use reference::generate::scripts::Reach;
use reference::reckoning::Reckoning;
use reference::script::{make_call, parse_vector, vector_text, Call, Run, Script};
use reference::Limits;

/// Makes the calls again and holds the reckoning against the state after each of them.
fn check_every_step(script: &Script, run: &Run) {
    let mut state = State::new();
    let mut reckoning = Reckoning::new();
    for (call, expected) in script.calls.iter().zip(&run.answers) {
        let before = state.clone();
        let answer = make_call(&script.limits, &mut state, call, None)
            .answer()
            .expect("no budget");
        assert_eq!(answer, *expected);
        reckoning.feed(&script.limits, call, answer.number);
        let levels = reckoning.levels(Some(1_000_000)).expect("a small case");
        assert_eq!(levels, state.levels());
        match answer.number {
            11 | 12 => assert_eq!(state, before),
            0 => {}
            1..=9 | 13..=15 | 18 | 24 => assert!(state.basis.is_none()),
            other => panic!("number {other}"),
        }
        if matches!(answer.number, 0 | 11 | 12) {
            assert_eq!(answer.place, 0);
        }
        match call {
            Call::Fetch { level, vector } if answer.number == 0 => {
                let held = &levels[*level as usize][*vector as usize - 1];
                assert_eq!(answer.vector, *held);
            }
            Call::Read { .. } if answer.number == 9 => assert!(!answer.vector.is_empty()),
            _ => assert!(answer.vector.is_empty()),
        }
    }
}

#[test]
fn demand_3_tiny_lists() {
    let mut seen = [0; 19];
    let mut places = [0; 4];
    for case in 0..2_500 {
        let (script, run) = calls_case(21, case, &Reach::tiny());
        assert_eq!(run.levels, run.reckoned);
        check_every_step(&script, &run);
        for answer in &run.answers {
            seen[answer.number as usize] += 1;
            if matches!(answer.number, 13..=15) {
                places[answer.place as usize] += 1;
            }
        }
        assert!(run.usage.products <= 300);
        assert!(script.calls.len() <= 8);
        for call in &script.calls {
            if let Call::Read { file } = call {
                let lines = file.split(|byte| *byte == 10);
                assert!(lines.filter(|line| line.starts_with(b"T")).count() <= 12);
            }
        }
    }
    for number in [0, 1, 2, 3, 4, 5, 6, 7, 8, 9, 11, 12, 13, 14, 15, 18] {
        assert!(seen[number] > 0, "refusal {number} is never met");
    }
    assert!(places.iter().all(|count| *count > 10), "{places:?}");
}

#[test]
fn demand_3_longer_lists() {
    for case in 0..500 {
        let (script, run) = calls_case(22, case, &Reach::small());
        assert_eq!(run.levels, run.reckoned);
        check_every_step(&script, &run);
    }
}

#[test]
fn demand_3_with_weights() {
    let mut seen = [0; 25];
    let (mut with, mut read) = (0, 0);
    for case in 0..1_200 {
        let reach = match case % 4 {
            0 => Reach::small(),
            _ => Reach::tiny(),
        };
        let (script, run) = calls_case(26, case, &reach.weighted());
        assert_eq!(run.levels, run.reckoned);
        check_every_step(&script, &run);
        for (call, answer) in script.calls.iter().zip(&run.answers) {
            seen[answer.number as usize] += 1;
            let Call::Read { file } = call else {
                continue;
            };
            if file.windows(3).any(|bytes| bytes == b"\nG,") {
                with += 1;
                read += u64::from(answer.number == 0);
            }
        }
    }
    for number in [0, 1, 2, 3, 4, 5, 6, 7, 8, 9, 11, 12, 13, 14, 15, 18, 24] {
        assert!(seen[number] > 0, "refusal {number} is never met");
    }
    assert!(with > 500 && read > 300, "{with} {read}");
}

#[test]
fn texts_round_trip() {
    for case in 0..500 {
        let (script, run) = calls_case(23, case, &Reach::tiny());
        assert_eq!(Script::parse(&script.text()).as_ref(), Ok(&script));
        for answer in &run.answers {
            let text = vector_text(&answer.vector);
            assert_eq!(parse_vector(&text).as_ref(), Some(&answer.vector));
        }
        assert_eq!(run.text().lines().count(), script.calls.len() + 3);
    }
}

#[test]
fn the_same_seed_gives_the_same_case() {
    for case in 0..50 {
        let (one, _) = calls_case(24, case, &Reach::tiny());
        let (two, _) = calls_case(24, case, &Reach::tiny());
        assert_eq!(one, two);
    }
}

#[test]
fn a_script_in_full() {
    let file = "522c372c322c312c310a542c312c312c312c312c300a542c312c312c312c302c310a\
                542c322c312c312c302c320a542c322c312c312c302c300a452c340a";
    let text = format!("read {file}\nlift 1 tree 3\nfetch 1 1\nlift 2 hybrid 4\nlift 2 division\n");
    let run = Script::parse(&text)
        .expect("a script")
        .run(None)
        .expect("no budget");
    let vector = "1:2:1.0.0.0.0.0.0.0;6:1:0.2.0.0.0.0.0.0;6:1:0.0.0.0.0.0.0.0;1:2:0.1.0.0.0.0.0.0";
    let basis = "1:1:1.0.0.0.0.0.0.0;1:1:0.1.0.0.0.0.0.0/1:1:0.2.0.0.0.0.0.0;1:1:0.0.0.0.0.0.0.0";
    let expected = format!(
        "0 0 -\n0 0 -\n0 0 {vector}\n12 0 -\n0 0 -\nlevels 3 {basis} {vector} -\n\
         reckoned 3 {basis} {vector} -\ndegrees 3 0 1.2 3 -\n"
    );
    assert_eq!(run.text(), expected);
    let empty = Script::parse("read -\n")
        .expect("a script")
        .run(None)
        .expect("no budget");
    assert_eq!(empty.text(), "1 1 -\nlevels 0\nreckoned 0\ndegrees 0\n");
}

#[test]
fn mistakes_in_a_script_are_told() {
    for text in [
        "reed -",
        "read 5",
        "read 5g",
        "lift 1",
        "lift 1 hybrid",
        "lift x division",
        "lift 1 tree",
        "fetch 1",
        "fetch 1 -1",
        "read -\nlimits tree=3",
        "limits tree",
        "limits trees=4",
        "limits levels=10",
        "limits variables=9",
        "limits exponent=256",
    ] {
        assert!(Script::parse(text).is_err(), "{text}");
    }
    let script = Script::parse("limits tree=3 levels=2\nread -").expect("a script");
    assert_eq!((script.limits.tree, script.limits.levels), (3, 2));
    assert_eq!(script.limits.vector, Limits::document_01().vector);
}

#[test]
fn limits_at_what_a_run_takes() {
    // with its own usage as limits a run is the same, one less and it is refused
    for case in 0..400 {
        let (script, run) = calls_case(25, case, &Reach::tiny());
        if script.limits != Limits::document_01() {
            continue;
        }
        let mut limits = script.limits;
        limits.working = run.usage.working;
        limits.vector = run.usage.vector;
        limits.tree = run.usage.tree;
        limits.vectors = run.usage.frame;
        limits.level_terms = run.usage.level_terms;
        let numbers = |limits| {
            let script = Script {
                limits,
                calls: script.calls.clone(),
            };
            let run = script.run(None).expect("no budget");
            let numbers = run.answers.iter().map(|answer| answer.number);
            numbers.collect::<Vec<u64>>()
        };
        let usual: Vec<u64> = run.answers.iter().map(|answer| answer.number).collect();
        assert_eq!(numbers(limits), usual);
        for name in ["working", "vector", "tree", "vectors", "level_terms"] {
            let most = limits.get(name).expect("a limit");
            if most > 0 {
                let mut less = limits;
                less.set(name, most - 1).expect("a small limit");
                let refused = if matches!(name, "vectors" | "level_terms") {
                    15
                } else {
                    14
                };
                assert!(numbers(less).contains(&refused), "{name}");
            }
        }
    }
}
