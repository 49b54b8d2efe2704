// SPDX-License-Identifier: MIT OR Apache-2.0
//! Picks recorded elsewhere (request A9): which logs are taken, the vector, and what is refused.

use crate::common::*;
use reference::behind::split;
use reference::frame::{frame, NUMBERING};
use reference::generate::cases::log_case;
use reference::generate::logs::{log_input, log_of_length, recorded_input};
use reference::generate::problems::problem_file;
use reference::generate::rooms::tailed;
use reference::lifting::Way;
use reference::monomial::{divides, Monomial, Term};
use reference::order::Modules;
use reference::random::Random;
use reference::replay::{cut, replay, MOST_PICKS};
use reference::sheet::sheet;
use reference::Limits;
use std::collections::BTreeMap;

/// x + y, y² + 1 modulo 7, lexicographic
const PROBLEM: [&str; 6] = [
    "R,7,2,1,1",
    "T,1,1,1,1,0",
    "T,1,1,1,0,1",
    "T,2,1,1,0,2",
    "T,2,1,1,0,0",
    "E,4",
];

const VECTOR: &str = "S,1,1,1,2,1,0\nS,1,1,6,1,0,2\nS,1,1,6,1,0,0\nS,1,1,1,2,0,1\n";

fn printed(lines: &[&str]) -> String {
    text(replay, &file(&[&PROBLEM, lines].concat()))
}

// ---- logs that are taken

#[test]
fn by_hand() {
    // x·f_2 is x·y² + x; x·y² becomes y³, which leaves y; x becomes y
    for log in [
        ["P,1,2,1", "P,1,0,1", "P,0,3,1"],
        ["P,1,2,1", "P,0,3,1", "P,1,0,1"],
        ["P,1,0,1", "P,1,2,1", "P,0,3,1"],
    ] {
        let lines = [&["L,1,1"][..], &log].concat();
        assert_eq!(printed(&lines), VECTOR);
        // each line less, and each line more
        for left in 1..4 {
            let mut fewer = lines.clone();
            fewer.remove(left);
            let text = printed(&fewer);
            assert!(text.starts_with("X,22,"), "{text}");
        }
        assert_eq!(printed(&lines[..3]), "X,22,10\n");
        assert_eq!(printed(&lines[..1]), "X,22,8\n");
        for more in ["P,0,3,1", "P,1,2,1", "P,0,0,1", "P,0,0,0"] {
            assert_eq!(printed(&[&lines[..], &[more]].concat()), "X,22,11\n");
        }
        assert_eq!(printed(&[&lines[..], &["P,0,0"]].concat()), "X,21,11\n");
    }
    // picked too early
    assert_eq!(printed(&["L,1,1", "P,0,3,1", "P,1,2,1"]), "X,22,8\n");
    // y has no reducer and was dropped
    assert_eq!(printed(&["L,1,1", "P,1,0,1", "P,0,1,1"]), "X,22,9\n");
}

/// All S lines of the sheet for one vector.
fn of_sheet(file: &[u8], level: u64, vector: u64) -> Option<String> {
    let sheet = within(sheet, file, 400_000)?;
    let start = format!("S,{level},{vector},");
    let own = sheet.lines().filter(|line| line.starts_with(&start));
    Some(own.map(|line| format!("{line}\n")).collect())
}

#[test]
fn any_picks_give_the_vector_of_the_sheet() {
    let mut random = Random::new(20_260_901);
    let mut levels = BTreeMap::new();
    for _ in 0..700 {
        let input = recorded_input(&mut random);
        let (file, rest) = split(&input);
        let numbers: Vec<u64> = String::from_utf8_lossy(rest)
            .lines()
            .next()
            .expect("an L line")
            .split(',')
            .skip(1)
            .map(|field| field.parse().expect("a number"))
            .collect();
        let Some(replayed) = within(replay, &input, 400_000) else {
            continue;
        };
        let Some(expected) = of_sheet(file, numbers[0], numbers[1]) else {
            continue;
        };
        if replayed.starts_with('X') {
            // levels below by pick code 2 may be refused where the tree is not
            assert!(text(sheet, file).contains(&replayed), "{replayed}");
            continue;
        }
        if expected.is_empty() {
            // other picks were refused there
            let refused = text(sheet, file).lines().last().map(str::to_string);
            assert!(refused.is_some_and(|line| line.starts_with("X,1")));
            continue;
        }
        assert_eq!(replayed, expected);
        *levels.entry(numbers[0]).or_insert(0) += 1;
    }
    assert!(
        levels[&1] > 300 && levels[&2] > 60 && levels[&3] > 5,
        "{levels:?}"
    );
}

// ---- by lists alone

/// One replay by lists: no maps, no keys, every rule written out. `None` where a level below is
/// refused or where it is not read at all.
fn literal(input: &[u8]) -> Option<String> {
    let limits = Limits::document_01();
    let (file, rest) = split(input);
    let (mut state, answer) = read(file);
    if answer.number != 0 {
        return None;
    }
    let first = file.iter().filter(|byte| **byte == 10).count() + 1;
    let mut lines = Vec::new();
    for line in rest.split_inclusive(|byte| *byte == 10) {
        let text = std::str::from_utf8(line)
            .ok()
            .and_then(|line| line.strip_suffix('\n'));
        lines.push(text.unwrap_or("no line"));
    }
    let number = |field: &str| {
        let value: u64 = field.parse().ok()?;
        (value <= 65_535 && value.to_string() == field).then_some(value)
    };
    let numbers = |line: &str, letter: &str, count: usize| -> Option<Vec<u64>> {
        let fields: Vec<&str> = line.split(',').collect();
        if fields[0] != letter || fields.len() != count + 1 {
            return None;
        }
        fields[1..].iter().map(|field| number(field)).collect()
    };
    let Some(l) = lines.first().and_then(|line| numbers(line, "L", 2)) else {
        return Some(format!("X,21,{first}\n"));
    };
    let (level, vector) = (l[0], l[1]);
    if level == 0 || level > 9 {
        return Some(format!("X,12,{first}\n"));
    }
    for k in 1..level {
        let outcome = state.lift(&limits, k, Way::Hybrid(2), 0, Some(400_000));
        if outcome.answer()?.number != 0 {
            return None;
        }
    }
    let basis = state.basis?;
    let elements = &basis.levels[level as usize - 1];
    let terms = frame(elements, NUMBERING);
    if terms.len() > 128 {
        return Some(format!("X,15,{level}\n"));
    }
    if vector == 0 || vector > terms.len() as u64 {
        return Some(format!("X,12,{first}\n"));
    }
    let p = basis.parameters.p;
    let n = basis.parameters.n as usize;
    let inverse = |a: u64| {
        // Fermat
        let (mut result, mut base, mut power) = (1, a, p - 2);
        while power > 0 {
            if power % 2 == 1 {
                result = result * base % p;
            }
            base = base * base % p;
            power /= 2;
        }
        result
    };
    let reducer = |monomial: &Monomial| {
        elements.iter().position(|element| {
            let leading = &element[0].monomial;
            leading.component == monomial.component
                && divides(&leading.exponents, &monomial.exponents)
        })
    };
    // adds to a list; true where a 513th term would be stored
    let add = |list: &mut Vec<Term>, term: Term| {
        let Some(at) = list.iter().position(|own| own.monomial == term.monomial) else {
            list.push(term);
            return list.len() > 512;
        };
        let sum = (list[at].coefficient + term.coefficient) % p;
        if sum == 0 {
            list.remove(at);
        } else {
            list[at].coefficient = sum;
        }
        false
    };
    let products = |working: &mut Vec<Term>, by: u64, factor: &Monomial| {
        for own in &elements[factor.component as usize - 1] {
            let mut monomial = own.monomial;
            for x in 0..8 {
                monomial.exponents[x] += factor.exponents[x];
            }
            if monomial.exponents.iter().any(|e| *e > 255) {
                return Some(13);
            }
            let coefficient = by * own.coefficient % p;
            let product = Term {
                coefficient,
                monomial,
            };
            if reducer(&monomial).is_some() && add(working, product) {
                return Some(14);
            }
        }
        None
    };
    let frame_term = terms[vector as usize - 1];
    let mut working = Vec::new();
    let mut result = vec![Term {
        coefficient: 1,
        monomial: frame_term,
    }];
    if let Some(number) = products(&mut working, 1, &frame_term) {
        return Some(format!("X,{number},{level}\n"));
    }
    for (at, line) in lines.iter().enumerate().skip(1) {
        let place = first + at;
        let Some(pick) = numbers(line, "P", n + 1).filter(|_| at <= 4_096) else {
            return Some(format!("X,21,{place}\n"));
        };
        let picked = working.iter().copied().find(|own: &Term| {
            own.monomial.component == pick[n] && own.monomial.exponents[..n] == pick[..n]
        });
        let Some(picked) = picked else {
            return Some(format!("X,22,{place}\n"));
        };
        let j = reducer(&picked.monomial).expect("it was kept");
        let leading = &elements[j][0];
        let by = (p - picked.coefficient * inverse(leading.coefficient) % p) % p;
        let mut factor = picked.monomial;
        factor.component = j as u64 + 1;
        for x in 0..8 {
            factor.exponents[x] -= leading.monomial.exponents[x];
        }
        let recorded = Term {
            coefficient: by,
            monomial: factor,
        };
        if add(&mut result, recorded) {
            return Some(format!("X,14,{level}\n"));
        }
        if let Some(number) = products(&mut working, by, &factor) {
            return Some(format!("X,{number},{level}\n"));
        }
    }
    if !working.is_empty() {
        return Some(format!("X,22,{}\n", first + lines.len()));
    }
    let modules = Modules::new(basis.parameters.file_order(), &basis.levels);
    result.sort_by(|a, b| modules.compare(level as usize, &b.monomial, &a.monomial));
    let mut text = String::new();
    for term in &result {
        let exponents = term.monomial.exponents[..n].iter();
        let exponents: String = exponents.map(|e| format!(",{e}")).collect();
        let (coefficient, component) = (term.coefficient, term.monomial.component);
        text += &format!("S,{level},{vector},{coefficient},{component}{exponents}\n");
    }
    Some(text)
}

#[test]
fn by_lists_alone_it_is_the_same() {
    let mut numbers: BTreeMap<String, u64> = BTreeMap::new();
    for case in 1..=500 {
        let (input, printed) = log_case("logs", 9, case).expect("a kind");
        let Some(expected) = literal(&input) else {
            continue;
        };
        let printed = String::from_utf8(printed).expect("text");
        assert_eq!(printed, expected, "{}", String::from_utf8_lossy(&input));
        let number = match printed.strip_prefix("X,") {
            Some(rest) => rest.split(',').next().expect("a number"),
            None => "0",
        };
        *numbers.entry(number.to_string()).or_default() += 1;
    }
    for (number, least) in [
        ("0", 200),
        ("12", 10),
        ("13", 2),
        ("14", 2),
        ("21", 60),
        ("22", 25),
    ] {
        let count = numbers.get(number).copied().unwrap_or(0);
        assert!(count >= least, "{numbers:?}");
    }
}

// ---- what is refused

#[test]
fn the_l_line() {
    assert_eq!(printed(&[]), "X,21,7\n");
    for bad in [
        "",
        "L",
        "L,",
        "L,1",
        "L,1,",
        "L,1,1,",
        "L,1,1,1",
        "l,1,1",
        "P,1,2,1",
        "LL,1,1",
        " L,1,1",
        "L ,1,1",
        "L,1,1 ",
        "L,1,1\r",
        "L,01,1",
        "L,1,-1",
        "L,+1,1",
        "L,1,65536",
        "L,65536,1",
        "L,a,1",
        "E,4",
        "V,1,1,0,0",
        "L;1;1",
    ] {
        assert_eq!(printed(&[bad]), "X,21,7\n", "{bad:?}");
        assert_eq!(printed(&[bad, "L,1,1", "P"]), "X,21,7\n", "{bad:?}");
    }
    // 12, whatever follows
    for bad in [
        "L,0,1",
        "L,10,1",
        "L,11,0",
        "L,65535,65535",
        "L,0,0",
        "L,1,0",
        "L,1,2",
        "L,1,65535",
        "L,2,1",
        "L,3,1",
        "L,9,1",
        "L,9,0",
    ] {
        for rest in [&[][..], &["P,1,2,1"], &["P"], &[""]] {
            let lines = [&[bad], rest].concat();
            assert_eq!(printed(&lines), "X,12,7\n", "{lines:?}");
        }
    }
    // with a D and a G line it is line 9
    let lines = [
        &PROBLEM[..1],
        &["D,1", "G,1,0,1,0"],
        &PROBLEM[1..],
        &["L,0,1"],
    ]
    .concat();
    assert_eq!(text(replay, &file(&lines)), "X,12,9\n");
    // it is not ended
    let mut input = file(&[&PROBLEM[..], &["L,1,1"]].concat());
    input.pop();
    assert_eq!(text(replay, &input), "X,21,7\n");
}

#[test]
fn the_p_lines() {
    for bad in [
        "",
        "P",
        "P,",
        "P,1,2",
        "P,1,2,1,",
        "P,1,2,1,1",
        "p,1,2,1",
        "L,1,1",
        "PP,1,2,1",
        " P,1,2,1",
        "P ,1,2,1",
        "P,1,2,1 ",
        "P,1,2,1\r",
        "P,01,2,1",
        "P,1,2,-1",
        "P,+1,2,1",
        "P,1,2,65536",
        "P,65536,2,1",
        "P,a,2,1",
        "E,4",
        "V,1,1,1,2",
        "T,1,1,1,1,0",
        "P;1;2;1",
        "P,,2,1",
    ] {
        assert_eq!(printed(&["L,1,1", bad]), "X,21,8\n", "{bad:?}");
        assert_eq!(
            printed(&["L,1,1", "P,1,2,1", bad, "P"]),
            "X,21,9\n",
            "{bad:?}"
        );
    }
    // the shape is right, and no such term is there
    for bad in [
        "P,0,0,1",
        "P,1,2,0",
        "P,1,2,2",
        "P,1,2,17",
        "P,1,2,65535",
        "P,256,2,1",
        "P,65535,65535,1",
        "P,2,1,1",
        "P,1,1,2",
    ] {
        assert_eq!(printed(&["L,1,1", bad]), "X,22,8\n", "{bad:?}");
        assert_eq!(printed(&["L,1,1", bad, "P"]), "X,22,8\n", "{bad:?}");
    }
    let lines = [&PROBLEM[..], &["L,1,1", "P,1,2,1", "P,1,0,1", "P,0,3,1"]].concat();
    let mut input = file(&lines);
    input.pop();
    assert_eq!(text(replay, &input), "X,21,10\n");
    input.extend(b"\n\n");
    assert_eq!(text(replay, &input), "X,21,11\n");
}

#[test]
fn the_file_is_refused_first() {
    for (lines, expected) in [
        (vec!["R,7,2,1,1", "T,1,1,1,1,0", "E,2", "L"], "X,7,3\n"),
        (vec!["R,7,2,1,1", "T,1,1,1,1,0", "Exyz", "L,1,1"], "X,1,3\n"),
        (vec!["R,7,2,1,1", "T,1,1,1,1,0", "L,1,1"], "X,1,3\n"),
        (
            vec![
                "R,7,2,1,1",
                "T,1,1,1,2,0",
                "T,2,1,1,1,1",
                "T,2,1,1,0,2",
                "E,3",
            ],
            "X,9,1\nW,6,1,0,3\n",
        ),
        (
            vec![
                "R,7,2,1,1",
                "T,1,1,1,1,0",
                "T,1,1,1,0,255",
                "T,2,1,1,0,2",
                "E,3",
                "L,0",
            ],
            "X,13,0\n",
        ),
    ] {
        assert_eq!(text(replay, &file(&lines)), expected, "{lines:?}");
    }
}

/// Two elements of one leading monomial whose tails differ in more than fits: x·e_2 + A·e_1 twice.
#[test]
fn fourteen_by_the_picks_alone() {
    // x·e_2 + A·e_1, the same again, y·e_1; A has 511 multiples of y
    let mut lines = vec!["R,7,3,1,2".to_string()];
    for number in [1, 2] {
        lines.push(format!("T,{number},1,2,1,0,0"));
        for at in (0..511).rev() {
            lines.push(format!("T,{number},1,1,0,{},{}", 1 + at / 200, at % 200));
        }
    }
    lines.push("T,3,1,1,0,1,0".to_string());
    lines.push(format!("E,{}", lines.len() - 1));
    let file_lines = lines.len();
    lines.push("L,1,1".to_string());
    let run = |picks: &[String]| {
        let all: Vec<&str> = lines.iter().chain(picks).map(String::as_str).collect();
        text(replay, &file(&all))
    };
    // the leading term: all cancels
    let first = ["P,1,0,0,2".to_string()];
    assert_eq!(run(&first), "S,1,1,1,2,0,0,0\nS,1,1,6,1,0,0,0\n");
    // the others first: the vector has its frame term and 511 more
    let others: Vec<String> = (0..511)
        .map(|at| format!("P,0,{},{},1", 1 + at / 200, at % 200))
        .collect();
    assert_eq!(run(&others), format!("X,22,{}\n", file_lines + 2 + 511));
    let all = [&others[..], &first].concat();
    assert_eq!(run(&all), "X,14,1\n");
    // a wrong line before it
    let wrong = [&others[..], &["P,9,9,9,9".to_string()], &first].concat();
    assert_eq!(run(&wrong), format!("X,22,{}\n", file_lines + 2 + 511));
}

#[test]
fn levels_below_are_lifted_as_for_the_sheet() {
    // by pick code 2 level 1 is refused with 13, so that no vector of level 2 is replayed
    let mut random = Random::new(20_260_902);
    let mut met = 0;
    for _ in 0..60 {
        let problem = reference::generate::pages::large_product(&mut random);
        let plain = problem_file(&problem);
        let sheet = text(sheet, &plain);
        if !sheet.starts_with("X,13,1\n") {
            continue;
        }
        for level in [2, 3, 9] {
            let l_line = format!("L,{level},1\n").into_bytes();
            let input = [plain.clone(), l_line].concat();
            assert_eq!(text(replay, &input), "X,13,1\n");
        }
        // level 1 itself is not lifted by it
        let input = [plain, b"L,1,1\n".to_vec()].concat();
        assert!(text(replay, &input).starts_with("X,22,"));
        met += 1;
    }
    assert!(met >= 5, "{met}");
    // empty levels too: level 9 of a file with one element
    let one = file(&["R,7,1,1,1", "T,1,1,1,1", "E,1", "L,9,1"]);
    assert_eq!(text(replay, &one), "X,12,4\n");
}

#[test]
fn a_frame_of_129() {
    // eight variables in each of two components: 56, 112, then 140 frame terms
    let mut lines = vec!["R,7,8,3,2".to_string()];
    for number in 1..=16 {
        let mut exponents = ["0"; 8];
        exponents[(number - 1) % 8] = "1";
        let component = 1 + (number - 1) / 8;
        lines.push(format!("T,{number},1,{component},{}", exponents.join(",")));
    }
    lines.push("E,16".to_string());
    let plain: Vec<&str> = lines.iter().map(String::as_str).collect();
    let sheet = text(sheet, &file(&plain));
    assert!(sheet.ends_with("Z,2,112\nX,15,3\n"));
    for own in 3..=9 {
        for vector in [0, 1, 200] {
            let l_line = format!("L,{own},{vector}");
            let all = [&plain[..], &[l_line.as_str(), "P"]].concat();
            assert_eq!(text(replay, &file(&all)), "X,15,3\n");
        }
    }
}

// ---- how many

#[test]
fn up_to_4096_picks() {
    let fibonacci = file(&[
        "R,7,2,1,1",
        "T,1,1,1,0,2",
        "T,1,1,1,0,1",
        "T,1,1,1,0,0",
        "T,2,1,1,1,0",
        "T,2,1,1,0,60",
        "E,5",
    ]);
    let vector = "S,1,1,1,2,0,2\nS,1,1,1,2,0,1\nS,1,1,1,2,0,0\nS,1,1,6,1,1,0\nS,1,1,6,1,0,60\n";
    let mut found = Vec::new();
    for wanted in 4_093..=4_100 {
        let Some(input) = log_of_length(&fibonacci, wanted) else {
            continue;
        };
        let printed = text(replay, &input);
        let mut sorted: Vec<&str> = printed.lines().collect();
        sorted.sort_unstable();
        if wanted <= MOST_PICKS {
            let mut expected: Vec<&str> = vector.lines().collect();
            expected.sort_unstable();
            assert_eq!(sorted, expected, "{wanted}");
        } else {
            assert_eq!(printed, format!("X,21,{}\n", 8 + 4_097), "{wanted}");
        }
        // a line more than are allowed, right or wrong
        if wanted == MOST_PICKS {
            for line in ["P,0,2,1\n", "P\n", "\n", "x"] {
                let more = [input.clone(), line.as_bytes().to_vec()].concat();
                assert_eq!(text(replay, &more), "X,21,4105\n");
            }
        }
        found.push(wanted);
    }
    assert!(
        found.contains(&4_096) && found.contains(&4_097),
        "{found:?}"
    );
}

#[test]
fn what_is_behind_the_bytes_that_matter() {
    let limits = Limits::document_01();
    let long = vec![b'P'; 400_000];
    assert_eq!(cut(&limits, &long).len(), 65_536 + 14 + 4_096 * 56 + 1);
    assert_eq!(cut(&limits, &long).len(), 294_927);
    assert_eq!(cut(&limits, &long[..294_926]).len(), 294_926);
    assert_eq!(format!("P{}\n", ",65535".repeat(9)).len(), 56);
    assert_eq!("L,65535,65535\n".len(), 14);
    let mut random = Random::new(20_260_903);
    let mut cases = 0;
    for _ in 0..150 {
        let mut input = log_input(&mut random);
        if random.chance(60) {
            let byte = *random.pick(b"P,1\n ");
            input.extend(vec![byte; random.between(1, 400_000) as usize]);
        }
        let whole = replay(&limits, &input, Some(300_000));
        let part = replay(&limits, cut(&limits, &input), Some(300_000));
        assert_eq!(whole, part);
        cases += u64::from(input.len() > 294_927);
    }
    assert!(cases > 10, "{cases}");
}

#[test]
fn a_budget() {
    let mut random = Random::new(20_260_904);
    let mut input = problem_file(&tailed(&mut random, 40));
    input.extend(b"L,1,1\n");
    let limits = Limits::document_01();
    let (printed, usage) = replay(&limits, &input, None);
    assert!(printed.is_some_and(|text| text.starts_with(b"X,22,")));
    assert!(replay(&limits, &input, Some(usage.products)).0.is_some());
    assert!(replay(&limits, &input, Some(usage.products - 1))
        .0
        .is_none());
}

#[test]
fn generated_inputs() {
    let mut numbers: BTreeMap<String, u64> = BTreeMap::new();
    for case in 1..=400 {
        let (_, printed) = log_case("logs", 3, case).expect("a kind");
        let number = match printed.strip_prefix(b"X,") {
            Some(rest) => rest.split(|byte| *byte == b',').next().expect("a number"),
            None => b"0",
        };
        let number = String::from_utf8_lossy(number).into_owned();
        *numbers.entry(number).or_default() += 1;
    }
    for number in ["0", "1", "9", "12", "13", "14", "21", "22"] {
        assert!(
            numbers.get(number).is_some_and(|count| *count >= 2),
            "{numbers:?}"
        );
    }
    for case in 1..=50 {
        let (_, printed) = log_case("recorded", 3, case).expect("a kind");
        assert!(printed.starts_with(b"S,"));
    }
}
