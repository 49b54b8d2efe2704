// SPDX-License-Identifier: MIT OR Apache-2.0
//! Lifting by hybrid in less work space (request A11): every length of work, by the words of all
//! buffers afterwards.

use crate::common::*;
use reference::buffers::*;
use reference::engine::{Basis, State};
use reference::generate::files::large_frame_file;
use reference::generate::pages::large_product;
use reference::generate::problems::problem_file;
use reference::generate::rooms::{braided, fan, random_room, roomy_problem, tailed, twins};
use reference::lifting::Way;
use reference::monomial::Vector;
use reference::random::Random;
use reference::reader::{read_problem, Problem};
use reference::reckoning::{reckon_level, Reckoning};
use reference::script::Call;
use reference::Limits;

/// More than a work buffer for 600 terms.
const ROOMS: usize = 600;
const PICKS: [u64; 3] = [1, 2, 3];

/// The words of a state that holds a problem's elements, accepted or not.
fn words_of(problem: &Problem) -> Vec<u16> {
    let (parameters, degrees) = (problem.parameters, problem.degrees.clone());
    let basis = Basis::new(parameters, degrees, vec![problem.elements.clone()]);
    words_of_state(&State { basis: Some(basis) })
}

fn words_of_state(held: &State) -> Vec<u16> {
    let mut words = vec![0; 125_471];
    write_state(&Limits::document_01(), held, &mut words);
    words
}

/// Lifts in a copy of the state, with a work buffer of so many words, by hybrid. After 11, 12 and
/// 16 nothing is changed; after anything else work and cache are zero throughout, and after a limit
/// the state is. Gives number and place, and the state.
fn lifted(words: &[u16], level: u64, pick: u64, length: usize) -> ((u64, u64), Vec<u16>) {
    let mut state = words.to_vec();
    let mut work = vec![7; length];
    let mut cache = vec![7; 13];
    let limits = Limits::document_01();
    let way = Way::Hybrid(pick);
    let found = lift_call(&limits, &mut state, level, way, &mut work, &mut cache);
    let buffers = || work.iter().chain(&cache);
    match found.0 {
        11 | 12 | 16 => {
            assert_eq!(found.1, 0);
            assert!(state == words && buffers().all(|word| *word == 7));
        }
        13..=15 => {
            assert_eq!(found.1, level);
            assert!(state.iter().chain(buffers()).all(|word| *word == 0));
        }
        number => {
            assert_eq!((number, found.1), (0, 0));
            assert!(buffers().all(|word| *word == 0));
        }
    }
    (found, state)
}

/// The numbers for work buffers of 0 to 600 rows, each with some words more, and from where on
/// they are what they are with 512: 16 below 32, then 14 up to there. The states are the same from
/// there on.
fn every_room(words: &[u16], level: u64, pick: u64) -> (u64, u64) {
    let with_512 = lifted(words, level, pick, 3_072);
    let number = with_512.0 .0;
    let mut from = None;
    for w in 0..=ROOMS {
        let found = lifted(words, level, pick, 6 * w + w % 7 % 6);
        match from {
            _ if w < 32 => assert_eq!(found.0, (16, 0), "{w} rows"),
            None if found != with_512 => assert_eq!(found.0, (14, level), "{w} rows"),
            None => from = Some(w as u64),
            Some(least) => assert!(found == with_512, "{w} rows after {least}"),
        }
    }
    (number, from.expect("600 rows are more than 512"))
}

fn lines_of(first: &str, terms: &[String]) -> Vec<u8> {
    let mut lines = vec![first];
    lines.extend(terms.iter().map(String::as_str));
    let last = format!("E,{}", terms.len());
    lines.push(&last);
    file(&lines)
}

/// x + y^t + .. + y and y, modulo 7
fn powers(t: u64) -> Vec<u8> {
    let mut terms = vec!["T,1,1,1,1,0".to_string()];
    terms.extend((1..=t).rev().map(|d| format!("T,1,1,1,0,{d}")));
    terms.push("T,2,1,1,0,1".to_string());
    lines_of("R,7,2,1,1", &terms)
}

/// The state after a file is read.
fn words_after(file: &[u8]) -> Vec<u16> {
    let (held, answer) = read(file);
    assert_eq!(answer.number, 0);
    words_of_state(&held)
}

#[test]
fn thirty_two_and_thirty_three_by_hand() {
    let words = words_after(&powers(33));
    // x·e_2 − y·e_1 + y^33·e_2 + .. + y·e_2
    let mut vector: Vector = vec![term(1, 2, &[1, 0]), term(6, 1, &[0, 1])];
    vector.extend((1..=33).rev().map(|d| term(1, 2, &[0, d])));
    for pick in PICKS {
        // 32 whole rows and up to five words more
        for length in 6 * 32..6 * 33 {
            assert_eq!(lifted(&words, 1, pick, length).0, (14, 1));
        }
        for length in [6 * 33, 6 * 33 + 1, 6 * 33 + 5, 6 * 34, 6 * 35, 3_072, 4_000] {
            let (found, state) = lifted(&words, 1, pick, length);
            assert_eq!(found, (0, 0), "{length} words");
            // the vector has more terms than the room
            let held = read_state(&Limits::document_01(), &state);
            assert_eq!(held.levels()[1], [vector.clone()]);
        }
        assert_eq!(every_room(&words, 1, pick), (0, 33));
    }
    // as much as the least buffer holds
    let words = words_after(&powers(32));
    for pick in PICKS {
        assert_eq!(every_room(&words, 1, pick), (0, 32));
    }
}

#[test]
fn fewer_than_thirty_two_rows_are_sixteen() {
    let words = words_after(&powers(3));
    let nothing = vec![0; 125_471];
    // level, pick code, and the number where work is long enough: 16 is before 11 and 12
    let calls = [
        (&words, 1, 1, 0),
        (&words, 1, 2, 0),
        (&words, 1, 3, 0),
        (&words, 1, 0, 12),
        (&words, 1, 4, 12),
        (&words, 0, 2, 12),
        (&words, 10, 2, 12),
        (&words, 2, 2, 11),
        (&nothing, 1, 2, 11),
        (&nothing, 77, 9, 11),
    ];
    for (words, level, pick, number) in calls {
        for length in 0..200 {
            let expected = if length < 192 { 16 } else { number };
            let found = lifted(words, level, pick, length).0;
            assert_eq!(found, (expected, 0), "{length} words");
        }
    }
    // a state that is too short is 16 however long work is
    let mut state = words[..125_470].to_vec();
    let limits = Limits::document_01();
    for length in [192, 3_072] {
        let mut work = vec![7; length];
        let way = Way::Hybrid(2);
        let found = lift_call(&limits, &mut state, 1, way, &mut work, &mut []);
        assert_eq!(found, (16, 0));
        assert!(state == words[..125_470] && work.iter().all(|word| *word == 7));
    }
}

/// "Reading, division and the tree have no such choice."
#[test]
fn the_other_calls_need_what_they_needed() {
    let limits = Limits::document_01();
    let words = words_after(&powers(3));
    for (way, needed) in [(Way::Division, 3_072), (Way::Tree, 24_576)] {
        for length in [0, 191, 192, 198, 3_071, 3_072, 3_073, 24_575, 24_576] {
            let (mut state, mut work) = (words.clone(), vec![7; length]);
            let found = lift_call(&limits, &mut state, 1, way, &mut work, &mut []);
            let expected = if length < needed { 16 } else { 0 };
            assert_eq!(found, (expected, 0), "{way:?} {length}");
        }
    }
    for length in [0, 191, 192, 198, 3_071, 3_072, 3_073] {
        let (mut state, mut work) = (words.clone(), vec![7; length]);
        let found = read_call(&limits, &powers(3), &mut state, &mut work);
        let expected = if length < 3_072 { 16 } else { 0 };
        assert_eq!(found, (expected, 0), "{length}");
    }
    // a longer buffer gives neither more room
    let mut random = Random::new(2);
    let words = words_of(&twins(&mut random, 512));
    for length in [3_072, 3_078, 30_000] {
        let (mut state, mut work) = (words.clone(), vec![7; length]);
        let found = lift_call(&limits, &mut state, 1, Way::Division, &mut work, &mut []);
        assert_eq!(found, (14, 1));
    }
}

#[test]
fn every_room_of_known_values() {
    let mut random = Random::new(11);
    for terms in [5, 31, 32, 33, 100, 509, 510] {
        let words = words_of(&tailed(&mut random, terms));
        for pick in PICKS {
            assert_eq!(every_room(&words, 1, pick), (0, terms.max(32)));
        }
    }
    for terms in [31, 32, 40, 300, 510] {
        let words = words_of(&twins(&mut random, terms));
        for pick in PICKS {
            assert_eq!(every_room(&words, 1, pick), (0, terms + 1));
        }
    }
    // the vector of 513 terms is 14 with any room
    let words = words_of(&tailed(&mut random, 511));
    for pick in PICKS {
        assert_eq!(every_room(&words, 1, pick), (14, 32));
    }
}

#[test]
fn the_last_of_512_rows_and_no_more() {
    let mut random = Random::new(12);
    // a value of 512 terms: a vector of two by pick codes 1 and 3, one that would have 513 by 2
    let words = words_of(&twins(&mut random, 511));
    assert_eq!(every_room(&words, 1, 1), (0, 512));
    assert_eq!(every_room(&words, 1, 2), (14, 32));
    assert_eq!(every_room(&words, 1, 3), (0, 512));
    for pick in [1, 3] {
        assert_eq!(lifted(&words, 1, pick, 3_071).0, (14, 1));
        let with_512 = lifted(&words, 1, pick, 3_072);
        for length in [3_073, 3_077, 3_078, 4_000, 24_576, 30_001] {
            assert!(lifted(&words, 1, pick, length) == with_512);
        }
    }
    // a value of 513 terms is 14 in a buffer for any number of them
    let words = words_of(&twins(&mut random, 512));
    for pick in PICKS {
        assert_eq!(every_room(&words, 1, pick), (14, 32));
        for length in [3_072, 3_078, 3_083, 3_084, 6_000, 24_576, 30_000] {
            assert_eq!(lifted(&words, 1, pick, length).0, (14, 1));
        }
    }
}

#[test]
fn the_vector_keeps_its_512() {
    let mut random = Random::new(13);
    // 512 terms of a vector in a room for 510, and with all its terms held at once in one for 511
    let words = words_of(&tailed(&mut random, 510));
    for pick in PICKS {
        let (found, state) = lifted(&words, 1, pick, 6 * 510);
        assert_eq!(found, (0, 0));
        let held = read_state(&Limits::document_01(), &state);
        assert_eq!(held.levels()[1][0].len(), 512);
    }
    let words = words_of(&twins(&mut random, 510));
    assert_eq!(lifted(&words, 1, 2, 6 * 511).0, (0, 0));
    // x − y and x^200 − y^200: a value of one term, x^200, then x^199·y, .., and 201 of the vector
    let lines = [
        "R,7,2,1,1",
        "T,1,1,1,1,0",
        "T,1,6,1,0,1",
        "T,2,1,1,200,0",
        "T,2,6,1,0,200",
        "E,4",
    ];
    let words = words_after(&file(&lines));
    for pick in PICKS {
        assert_eq!(every_room(&words, 1, pick), (0, 32));
        let (_, state) = lifted(&words, 1, pick, 192);
        let held = read_state(&Limits::document_01(), &state);
        assert_eq!(held.levels()[1][0].len(), 201);
    }
}

#[test]
fn thirteen_and_fifteen_stay() {
    // x + y^40·z + .. + y·z and y + z^255: by codes 1 and 3 the 40 products of the first step are
    // in the value with another one when a product reaches z^256; by 2 that comes first
    let mut terms = vec!["T,1,1,1,1,0,0".to_string()];
    terms.extend((1..=40).rev().map(|d| format!("T,1,1,1,0,{d},1")));
    terms.push("T,2,1,1,0,1,0".to_string());
    terms.push("T,2,1,1,0,0,255".to_string());
    let file = lines_of("R,7,3,1,1", &terms);
    let problem = read_problem(&Limits::document_01(), &file).expect("a problem");
    let words = words_of(&problem);
    assert_eq!(every_room(&words, 1, 1), (13, 41));
    assert_eq!(every_room(&words, 1, 2), (13, 32));
    assert_eq!(every_room(&words, 1, 3), (13, 41));
    // a 129th frame term: before anything is lifted, so whatever the room
    let mut random = Random::new(14);
    let limits = Limits::document_01();
    let large = (0..20)
        .map(|_| read_problem(&limits, &large_frame_file(&mut random)).expect("a problem"))
        .map(|problem| words_of(&problem))
        .filter(|words| lifted(words, 1, 2, 3_072).0 == (15, 1))
        .take(2);
    let mut frames = 0;
    for words in large {
        assert_eq!(every_room(&words, 1, 1), (15, 32));
        frames += 1;
    }
    assert_eq!(frames, 2);
    // six vectors of 402 terms
    let words = words_of(&fan(&mut random, 400, 6));
    for pick in PICKS {
        assert_eq!(every_room(&words, 1, pick), (15, 400));
    }
    // an accepted file that meets 13 by pick code 2 alone
    for _ in 0..6 {
        let words = words_after(&problem_file(&large_product(&mut random)));
        let (number, from) = every_room(&words, 1, 2);
        assert!(from == 32 && [0, 13].contains(&number));
    }
}

/// What a run takes of the working value, by the run itself, is the least room, and each room is a
/// limit on working values alone.
#[test]
fn rooms_near_what_a_run_takes() {
    let mut random = Random::new(15);
    let usual = Limits::document_01();
    let (mut by_room, mut finished, mut equal) = (0, 0, 0);
    for _ in 0..250 {
        let problem = roomy_problem(&mut random);
        let mut held = State {
            basis: Some(Basis::new(
                problem.parameters,
                problem.degrees.clone(),
                vec![problem.elements.clone()],
            )),
        };
        for level in 1..=3 {
            let pick = random.between(1, 3);
            let mut after = held.clone();
            let budget = Some(30_000);
            let way = Way::Hybrid(pick);
            let Some(answer) = after.lift(&usual, level, way, 0, budget).answer() else {
                break;
            };
            let taken = answer.usage.working;
            let words = words_of_state(&held);
            let state = words_of_state(&after);
            let mut rooms = vec![31, 32, 33, 511, 512, 513, 600, random_room(&mut random)];
            rooms.extend([taken.saturating_sub(1), taken, taken + 1]);
            for w in rooms {
                let more = random.below(6);
                let (found, left) = lifted(&words, level, pick, (6 * w + more) as usize);
                let number = match w {
                    0..=31 => 16,
                    _ if w < taken => 14,
                    _ => answer.number,
                };
                assert_eq!(found.0, number, "room {w}, taken {taken}");
                let mut limits = usual;
                limits.working = w.min(512);
                let narrow = lift(&mut held.clone(), &limits, level, way, 0);
                assert!(w < 32 || found == (narrow.number, narrow.place));
                if number == answer.number {
                    assert!(left == state);
                    finished += u64::from(number == 0 && w < 512);
                    equal += u64::from(number == 0 && w == taken && w > 32);
                } else {
                    by_room += u64::from(number == 14);
                }
            }
            let last = after.levels().last().is_none_or(Vec::is_empty);
            // each level is the plain reckoning's
            if let Some(basis) = &after.basis {
                let below = &basis.levels[..level as usize];
                let (reckoned, _) = reckon_level(&basis.parameters, below, Some(1_000_000));
                assert!(reckoned.map_or(true, |level| Some(&level) == basis.levels.last()));
            }
            held = after;
            if last {
                break;
            }
        }
    }
    assert!(
        by_room > 300 && finished > 1_000 && equal > 100,
        "{by_room} {finished} {equal}"
    );
}

/// The files of the field, accepted or not, level after level by each pick code: 14 just below what
/// a run takes, the same level from there on.
#[test]
fn the_files_of_the_field() {
    let limits = Limits::document_01();
    let folder = std::path::Path::new(env!("CARGO_MANIFEST_DIR")).join("../examples");
    let (mut by_room, mut finished) = (0, 0);
    for entry in std::fs::read_dir(folder).expect("the folder") {
        let path = entry.expect("a file").path();
        if path.extension().is_none_or(|ending| ending != "txt") {
            continue;
        }
        let bytes = std::fs::read(&path).expect("a file");
        let problem = read_problem(&limits, &bytes).expect("a problem");
        let mut words = words_of(&problem);
        for level in 1..=9 {
            let mut next = None;
            for pick in PICKS {
                let mut after = read_state(&limits, &words);
                let outcome = after.lift(&limits, level, Way::Hybrid(pick), 0, Some(50_000));
                let Some(answer) = outcome.answer() else {
                    continue;
                };
                let taken = answer.usage.working as usize;
                for w in [31, 32, taken - taken.min(1), taken, 512, 600] {
                    let (found, state) = lifted(&words, level, pick, 6 * w);
                    let number = match w {
                        0..=31 => 16,
                        _ if w < taken => 14,
                        _ => answer.number,
                    };
                    assert_eq!(found.0, number, "{path:?}, level {level}, {w} rows");
                    assert!(number != answer.number || state == words_of_state(&after));
                    by_room += u64::from(number == 14 && answer.number != 14);
                    finished += u64::from(number == 0 && w < 512);
                }
                if answer.number == 0 && !after.levels()[level as usize].is_empty() {
                    next = Some(words_of_state(&after));
                }
            }
            match next {
                Some(state) => words = state,
                None => break,
            }
        }
    }
    assert!(by_room > 10 && finished > 300, "{by_room} {finished}");
}

/// A call of a list with the length of its work buffer.
struct Made {
    call: Call,
    work: usize,
}

/// Makes a list of calls on an empty state; gives the numbers and the state at the end.
fn run(list: &[Made]) -> (Vec<u64>, Vec<u16>) {
    let limits = Limits::document_01();
    let mut state = vec![0; 125_471];
    let mut out = vec![0; 3_072];
    let mut numbers = Vec::new();
    for Made { call, work } in list {
        let mut work = vec![3; *work];
        let (number, _) = match call {
            Call::Read { file } => read_call(&limits, file, &mut state, &mut work),
            Call::Lift { level, way, cache } => {
                let mut cache = vec![3; 6 * *cache as usize];
                lift_call(&limits, &mut state, *level, *way, &mut work, &mut cache)
            }
            Call::Fetch { level, vector } => fetch_call(&limits, &state, *level, *vector, &mut out),
        };
        numbers.push(number);
    }
    (numbers, state)
}

/// Lists of calls in rooms of any size: the levels at the end are the plain reckoning's; and where
/// a call finished with less room, the list ends the same with 512.
#[test]
fn lists_with_less_room() {
    let mut random = Random::new(16);
    let limits = Limits::document_01();
    let (mut refused, mut by_room, mut less) = (0, 0, 0);
    for _ in 0..400 {
        let mut list = Vec::new();
        for _ in 0..random.between(1, 2) {
            let problem = loop {
                let problem = braided_or_other(&mut random);
                if affordable(&problem) {
                    break problem;
                }
            };
            let file = problem_file(&problem);
            list.push(Made {
                call: Call::Read { file },
                work: 3_072,
            });
            for _ in 0..random.between(1, 5) {
                let level = random.between(1, 3);
                if random.chance(25) {
                    let call = Call::Fetch { level, vector: 1 };
                    list.push(Made { call, work: 0 });
                    continue;
                }
                let way = Way::Hybrid(random.between(1, 3));
                let w = match random.below(5) {
                    0 => random.between(0, 31),
                    1 => 32,
                    2 => 512,
                    _ => random_room(&mut random),
                };
                let call = Call::Lift {
                    level,
                    way,
                    cache: 0,
                };
                let work = (6 * w + random.below(6)) as usize;
                list.push(Made { call, work });
            }
        }
        let (numbers, state) = run(&list);
        let mut reckoning = Reckoning::new();
        let mut fuller = Vec::new();
        for (Made { call, work }, number) in list.iter().zip(&numbers) {
            reckoning.feed(&limits, call, *number);
            let lifts = matches!(call, Call::Lift { .. });
            refused += u64::from(*number == 16);
            by_room += u64::from(lifts && *number == 14);
            let finished = lifts && *number == 0 && *work < 3_072;
            less += u64::from(finished);
            let call = call.clone();
            let work = if finished { 3_072 } else { *work };
            fuller.push(Made { call, work });
        }
        assert!(run(&fuller) == (numbers, state.clone()));
        let held = read_state(&limits, &state);
        let reckoned = reckoning.levels(Some(2_000_000));
        assert!(reckoned.map_or(true, |levels| levels == held.levels()));
    }
    assert!(
        refused > 50 && by_room > 50 && less > 100,
        "{refused} {by_room} {less}"
    );
}

fn braided_or_other(random: &mut Random) -> Problem {
    if random.chance(50) {
        let (a, b) = (random.between(2, 9), random.between(2, 9));
        return braided(random, a, b);
    }
    roomy_problem(random)
}

/// Whether levels 1 to 3 take few products by all pick codes.
fn affordable(problem: &Problem) -> bool {
    let mut held = State::new();
    let limits = Limits::document_01();
    let file = problem_file(problem);
    if held.read(&limits, &file, Some(30_000)).answer().is_none() {
        return false;
    }
    (1..=3).all(|level| {
        PICKS.into_iter().all(|pick| {
            let mut after = held.clone();
            let outcome = after.lift(&limits, level, Way::Hybrid(pick), 0, Some(30_000));
            let done = outcome.answer().is_some();
            if pick == 3 && done {
                held = after;
            }
            done
        })
    })
}
