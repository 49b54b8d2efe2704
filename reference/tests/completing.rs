// SPDX-License-Identifier: MIT OR Apache-2.0
//! Completing a basis (request A6): what is added, what stays, and what is refused.

use crate::common::*;
use reference::completing::complete;
use reference::completion::{Caps, Completion};
use reference::frame::Reducers;
use reference::generate::cases::generator_case;
use reference::generate::problems::{problem_file, random_basis, Size};
use reference::lifting::Sum;
use reference::monomial::{Level, UNIT};
use reference::random::Random;
use reference::reader::{read_problem, Problem};
use reference::sheet::sheet;
use reference::Limits;
use std::collections::BTreeMap;

fn lines_of(lines: &[&str]) -> String {
    String::from_utf8(file(lines)).expect("text")
}

fn printed(lines: &[&str]) -> String {
    text(complete, &file(lines))
}

// ---- what is added

#[test]
fn by_hand() {
    // x², xy + y²: division stops at 6y³ (instance 6), which is y³ when it is monic
    let given = ["R,7,2,1,1", "T,1,1,1,2,0", "T,2,1,1,1,1", "T,2,1,1,0,2"];
    let added = ["T,3,1,1,0,3", "E,4"];
    assert_eq!(
        printed(&[&given[..], &["E,3"]].concat()),
        lines_of(&[&given[..], &added].concat())
    );
    // D and G lines stay
    let given = [
        "R,7,2,1,1",
        "D,5",
        "G,1,2,3,4",
        "T,1,1,1,2,0",
        "T,2,1,1,1,1",
        "T,2,1,1,0,2",
    ];
    assert_eq!(
        printed(&[&given[..], &["E,3"]].concat()),
        lines_of(&[&given[..], &added].concat())
    );
    // x + 2y and x + 5: 5 less 2y, which is 5y + 5
    let given = [
        "R,7,2,1,1",
        "T,1,1,1,1,0",
        "T,1,2,1,0,1",
        "T,2,1,1,1,0",
        "T,2,5,1,0,0",
    ];
    let added = ["T,3,1,1,0,1", "T,3,1,1,0,0", "E,6"];
    assert_eq!(
        printed(&[&given[..], &["E,4"]].concat()),
        lines_of(&[&given[..], &added].concat())
    );
    // several one after the other: x, x + y, x + y + 1 in any field
    for p in [2, 3, 7, 65_521] {
        let r = format!("R,{p},2,1,1");
        let given = [
            r.as_str(),
            "T,1,1,1,1,0",
            "T,2,1,1,1,0",
            "T,2,1,1,0,1",
            "T,3,1,1,1,0",
            "T,3,1,1,0,1",
            "T,3,1,1,0,0",
        ];
        let added = ["T,4,1,1,0,1", "T,5,1,1,0,0", "E,8"];
        assert_eq!(
            printed(&[&given[..], &["E,6"]].concat()),
            lines_of(&[&given[..], &added].concat())
        );
    }
}

#[test]
fn an_accepted_file_is_printed_unchanged() {
    let mut random = Random::new(20_260_601);
    for _ in 0..200 {
        let file = problem_file(&random_basis(&mut random, &Size::small()));
        let Some(whole) = within(complete, &file, 100_000) else {
            continue;
        };
        if !whole.starts_with('X') {
            assert_eq!(whole.as_bytes(), file);
        }
    }
}

/// The same by the text of the sheet alone: while it says X,9 the W lines become T lines.
fn by_sheets(file: &str, budget: u64) -> Option<String> {
    let mut file = file.to_string();
    for _ in 0..100 {
        let sheet = within(sheet, file.as_bytes(), budget)?;
        if !sheet.starts_with("X,9,") {
            // 13 to 15 of a level are none of acceptance
            let while_lifting = ["X,13,", "X,14,", "X,15,"]
                .iter()
                .any(|start| sheet.starts_with(start) && !sheet.ends_with(",0\n"));
            let refused = sheet.starts_with('X') && !while_lifting;
            return Some(if refused { sheet } else { file });
        }
        let (above, end) = file.rsplit_once("E,")?;
        let count: usize = end.trim_end().parse().ok()?;
        let p: u64 = file.split(',').nth(1)?.parse().ok()?;
        let last = above.lines().last()?.split(',').nth(1)?;
        let number = last.parse::<u64>().ok()? + 1;
        let rows: Vec<Vec<u64>> = sheet
            .lines()
            .skip(1)
            .map(|line| {
                let numbers = line.strip_prefix("W,").expect("a W line").split(',');
                numbers
                    .map(|field| field.parse().expect("a number"))
                    .collect()
            })
            .collect();
        let by = (1..p).find(|by| rows[0][0] * by % p == 1)?;
        let mut longer = above.to_string();
        for row in &rows {
            longer += &format!("T,{number},{}", row[0] * by % p);
            longer.extend(row[1..].iter().map(|field| format!(",{field}")));
            longer += "\n";
        }
        let total = count + rows.len();
        longer += &format!("E,{total}\n");
        // the three tests, in their order
        let before = longer
            .lines()
            .take_while(|line| !line.starts_with('T'))
            .count();
        if number > 64 {
            return Some("X,19,65\n".to_string());
        }
        if longer.len() > 65_536 {
            return Some("X,1,0\n".to_string());
        }
        if total > 2_048 {
            return Some(format!("X,8,{}\n", before + 2_049));
        }
        file = longer;
    }
    None
}

#[test]
fn it_is_what_the_sheets_say() {
    let mut compared = BTreeMap::new();
    for case in 1..=700 {
        let (file, printed) = generator_case("generators", 4, case).expect("a kind");
        let Ok(file) = String::from_utf8(file) else {
            continue;
        };
        if file.len() > 20_000 {
            continue;
        }
        let Some(expected) = by_sheets(&file, 60_000) else {
            continue;
        };
        let printed = String::from_utf8(printed).expect("text");
        assert_eq!(printed, expected, "{file}");
        let number = printed
            .strip_prefix("X,")
            .map_or("0", |rest| rest.split(',').next().expect("a number"));
        *compared.entry(number.to_string()).or_insert(0) += 1;
    }
    assert!(compared["0"] > 300, "{compared:?}");
    assert!(compared["1"] > 20 && compared["13"] > 2, "{compared:?}");
}

fn completion(problem: &Problem) -> Completion {
    let caps = Caps {
        elements: 80,
        terms: 600,
        exponent: 255,
        products: 3_000_000,
    };
    Completion::new(&problem.parameters, caps)
}

/// Whether all elements reduce to zero by a Gröbner basis.
fn all_in(problem: &Problem, elements: &Level, basis: &Level) -> Option<bool> {
    let mut completion = completion(problem);
    let reducers = Reducers::new(basis);
    let p = problem.parameters.p;
    for element in elements {
        let mut sum = Sum::new();
        completion.add_multiple(&mut sum, 1, &UNIT, element)?;
        while let Some((_, leading)) = sum.last_key_value() {
            let leading = *leading;
            let Some(reducer) = reducers.reducer(&leading.monomial) else {
                return Some(false);
            };
            let own = &basis[reducer.number as usize - 1];
            let inverse = reference::field::Field::new(p).inverse(own[0].coefficient);
            let by = (p - leading.coefficient * inverse % p) % p;
            completion.add_multiple(&mut sum, by, &reducer.quotient, own)?;
        }
    }
    Some(true)
}

#[test]
fn the_same_module_is_accepted() {
    let limits = Limits::document_01();
    let (mut held, mut added) = (0, 0);
    for case in 1..=400 {
        let (file, printed) = generator_case("incomplete", 5, case).expect("a kind");
        let old = read_problem(&limits, &file).expect("it is read");
        let new = read_problem(&limits, &printed).expect("it is read");
        // no line before E is changed
        let given = file.split_inclusive(|byte| *byte == 10).count() - 1;
        let head: Vec<&[u8]> = file
            .split_inclusive(|byte| *byte == 10)
            .take(given)
            .collect();
        assert!(printed.starts_with(&head.concat()));
        assert_eq!(new.parameters, old.parameters);
        assert_eq!((&new.degrees, &new.weights), (&old.degrees, &old.weights));
        assert!(new.elements.starts_with(&old.elements) && new.elements.len() > old.elements.len());
        let (_, answer) = read(&printed);
        assert_eq!(answer.number, 0);
        // "Each added leading monomial is divisible by no earlier one", and is monic
        for at in old.elements.len()..new.elements.len() {
            let reducers = Reducers::new(&new.elements[..at]);
            let leading = &new.elements[at][0];
            assert!(reducers.reducer(&leading.monomial).is_none());
            assert_eq!(leading.coefficient, 1);
            added += 1;
        }
        // by a completion of another kind
        let Some(basis) = completion(&old).complete(old.elements.clone()) else {
            continue;
        };
        if let Some(inside) = all_in(&old, &new.elements, &basis) {
            assert!(inside);
            held += 1;
        }
        assert_ne!(all_in(&old, &basis, &new.elements), Some(false));
        // it is printed unchanged when it is completed again
        assert_eq!(text(complete, &printed).as_bytes(), printed);
    }
    assert!(held > 300 && added > 450, "{held} {added}");
}

// ---- what is refused

#[test]
fn files_that_are_not_read() {
    for (lines, expected) in [
        (vec!["R,7,2,1,1", "T,1,1,1,1,0", "E,2"], "X,7,3\n"),
        (vec!["R,7,2,1,1", "T,1,1,1,1,0", "E,1", "E,1"], "X,1,4\n"),
        (vec!["R,9,2,1,1", "T,1,1,1,1,0", "E,1"], "X,2,1\n"),
        (vec!["R,7,2,1,1", "D,256", "T,1,1,1,1,0", "E,1"], "X,18,2\n"),
        (
            vec!["R,7,2,1,1", "G,16,0,0,0", "T,1,1,1,1,0", "E,1"],
            "X,24,2\n",
        ),
    ] {
        assert_eq!(printed(&lines), expected);
    }
    assert_eq!(text(complete, b""), "X,1,1\n");
    assert_eq!(text(complete, &vec![b'R'; 65_537]), "X,1,0\n");
}

/// y² as often as is wanted in a second component, then x and x + y in the first: one is added.
fn stuffed(others: usize, twice: bool) -> Vec<String> {
    let mut lines = vec!["R,7,2,1,2".to_string()];
    lines.extend((1..=others).map(|number| format!("T,{number},1,2,0,2")));
    let next = others + 1;
    lines.push(format!("T,{next},1,1,1,0"));
    lines.push(format!("T,{},1,1,1,0", next + 1));
    lines.push(format!("T,{},1,1,0,1", next + 1));
    if twice {
        lines.push(format!("T,{},1,1,1,0", next + 2));
        lines.push(format!("T,{},1,1,0,0", next + 2));
    }
    lines.push(format!("E,{}", lines.len() - 1));
    lines
}

fn completed(lines: &[String]) -> String {
    let lines: Vec<&str> = lines.iter().map(String::as_str).collect();
    printed(&lines)
}

#[test]
fn a_65th_element() {
    assert!(completed(&stuffed(61, false)).contains("\nT,64,1,1,0,1\nE,"));
    assert_eq!(completed(&stuffed(62, false)), "X,19,65\n");
    // the second one that is added
    assert!(completed(&stuffed(59, true)).contains("\nT,63,1,1,0,1\nT,64,1,1,0,0\nE,"));
    assert_eq!(completed(&stuffed(60, true)), "X,19,65\n");
    assert_eq!(completed(&stuffed(61, true)), "X,19,65\n");
}

/// Elements of one component each: the first so long, then x·e_1 and x·e_1 + y·e_1.
fn long(lines: usize, middle: &[&str], wide: bool) -> Vec<String> {
    let mut all = vec!["R,65521,8,1,2".to_string()];
    all.extend(middle.iter().map(|line| line.to_string()));
    let (zeros, most) = match wide {
        true => (",255".repeat(6), 255),
        false => (",0".repeat(6), 255),
    };
    for at in (0..lines).rev() {
        let coefficient = if wide { 65_520 } else { 1 };
        let (a, b) = (at / most, at % most);
        all.push(format!("T,1,{coefficient},2,{a},{b}{zeros}"));
    }
    let none = ",0".repeat(6);
    all.push(format!("T,2,1,1,1,0{none}"));
    all.push(format!("T,3,1,1,1,0{none}"));
    all.push(format!("T,3,1,1,0,1{none}"));
    all.push(format!("E,{}", lines + 3));
    all
}

#[test]
fn a_2049th_t_line() {
    let last = format!("T,4,1,1,0,1{}\nE,2048\n", ",0".repeat(6));
    assert!(completed(&long(2_044, &[], false)).ends_with(&last));
    let d = "D,1,2";
    let g = "G,1,0,1,0,1,0,1,0,1,0,1,0,1,0,1,0";
    for (middle, place) in [
        (vec![], 2_050),
        (vec![d], 2_051),
        (vec![g], 2_051),
        (vec![d, g], 2_052),
    ] {
        assert_eq!(
            completed(&long(2_045, &middle, false)),
            format!("X,8,{place}\n")
        );
    }
}

#[test]
fn a_result_too_long() {
    // lines of about 40 bytes; the first coefficient makes up the length
    let mut lines = 1_500;
    while file_of(&long(lines, &[], true)).len() < 65_300 {
        lines += 1;
    }
    let base = long(lines, &[], true);
    // what is added has 24 bytes, and E keeps its length
    let added = "T,4,1,1,0,1,0,0,0,0,0,0\n".len();
    let missing = 65_536 - added - file_of(&base).len();
    let mut right = base.clone();
    pad(&mut right, missing);
    assert_eq!(file_of(&right).len() + added, 65_536);
    let whole = completed(&right);
    assert_eq!(whole.len(), 65_536);
    let mut longer = base;
    pad(&mut longer, missing + 1);
    assert_eq!(completed(&longer), "X,1,0\n");
}

fn file_of(lines: &[String]) -> Vec<u8> {
    let lines: Vec<&str> = lines.iter().map(String::as_str).collect();
    file(&lines)
}

/// Makes the file longer by so many bytes: further T lines of element 1 after its own, with smaller
/// monomials, as long as they must be.
fn pad(lines: &mut Vec<String>, bytes: usize) {
    let at = lines
        .iter()
        .rposition(|line| line.starts_with("T,1,"))
        .expect("a line");
    // such a line has 23 bytes and a coefficient of one to five digits
    let count = bytes.div_ceil(28);
    for number in 0..count {
        let own = (bytes + number) / count;
        assert!((24..=28).contains(&own), "{bytes}");
        let coefficient = "1".repeat(own - 23);
        // each above those before it
        let line = format!("T,1,{coefficient},2,0,0,0,0,0,0,0,{number}");
        lines.insert(at + 1, line);
    }
    let lines_now = lines.len() - 2;
    let end = lines.len() - 1;
    lines[end] = format!("E,{lines_now}");
}

#[test]
fn thirteen_to_fifteen() {
    // x·e_1 + y^200·e_2 and x·y^55·e_1 + e_2, x·y^56·e_1 + e_2
    let given = |b: u64| {
        let high = format!("T,2,1,1,1,{b}");
        printed(&[
            "R,7,2,1,2",
            "T,1,1,1,1,0",
            "T,1,1,2,0,200",
            &high,
            "T,2,1,2,0,0",
            "E,4",
        ])
    };
    assert!(given(55).contains("\nT,3,1,2,0,255\nT,3,6,2,0,0\nE,6\n"));
    assert_eq!(given(56), "X,13,0\n");
    // x·e_1 + A·e_2, x·e_1 + B·e_2: the value has all terms of A and B
    for (count, refused) in [(512, false), (513, true)] {
        let mut lines = vec!["R,7,3,1,2".to_string()];
        for (number, tail) in [(1, 0..256), (2, 256..count)] {
            lines.push(format!("T,{number},1,1,1,0,0"));
            for at in tail.rev() {
                lines.push(format!("T,{number},1,2,0,{},{}", at / 200, at % 200));
            }
        }
        lines.push(format!("E,{}", lines.len() - 1));
        let whole = completed(&lines);
        match refused {
            true => assert_eq!(whole, "X,14,0\n"),
            false => assert_eq!(whole.lines().count(), lines.len() + 512),
        }
    }
    // all monomials of degree 3 in six variables: at least 210 frame terms
    let mut lines = vec!["R,7,6,3,1".to_string()];
    for (number, exponents) in (1..).zip(power_products(6, 3)) {
        let exponents: String = exponents[..6].iter().map(|e| format!(",{e}")).collect();
        lines.push(format!("T,{number},1,1{exponents}"));
    }
    lines.push(format!("E,{}", lines.len() - 1));
    assert_eq!(completed(&lines), "X,15,0\n");
}

/// With fewer elements, T lines or bytes the three tests come in their order.
#[test]
fn in_this_order() {
    let file = file(&[
        "R,7,2,1,1",
        "T,1,1,1,2,0",
        "T,2,1,1,1,1",
        "T,2,1,1,0,2",
        "E,3",
    ]);
    let whole = Limits::document_01();
    let tight = Limits {
        elements: 2,
        file: file.len() as u64,
        t_lines: 3,
        ..whole
    };
    let printed = |limits: &Limits| {
        let (printed, _) = complete(limits, &file, None);
        String::from_utf8(printed.expect("no budget")).expect("text")
    };
    assert_eq!(printed(&tight), "X,19,3\n");
    assert_eq!(
        printed(&Limits {
            elements: 3,
            ..tight
        }),
        "X,1,0\n"
    );
    let roomy = Limits {
        elements: 3,
        file: file.len() as u64 + 12,
        ..tight
    };
    assert_eq!(printed(&roomy), "X,8,5\n");
    let enough = Limits {
        t_lines: 4,
        ..roomy
    };
    assert!(printed(&enough).ends_with("T,3,1,1,0,3\nE,4\n"));
    assert_eq!(
        printed(&Limits {
            file: roomy.file - 1,
            ..enough
        }),
        "X,1,0\n"
    );
}

#[test]
fn a_budget() {
    let file = file(&[
        "R,7,2,1,1",
        "T,1,1,1,2,0",
        "T,2,1,1,1,1",
        "T,2,1,1,0,2",
        "E,3",
    ]);
    let limits = Limits::document_01();
    let (_, usage) = complete(&limits, &file, None);
    assert!(complete(&limits, &file, Some(usage.products)).0.is_some());
    assert!(complete(&limits, &file, Some(usage.products - 1))
        .0
        .is_none());
}

#[test]
fn generated_files() {
    let mut numbers: BTreeMap<String, u64> = BTreeMap::new();
    for case in 1..=1_500 {
        let (_, printed) = generator_case("generators", 6, case).expect("a kind");
        let number = match printed.strip_prefix(b"X,") {
            Some(rest) => rest.split(|byte| *byte == b',').next().expect("a number"),
            None => b"0",
        };
        let number = String::from_utf8_lossy(number).into_owned();
        *numbers.entry(number).or_default() += 1;
    }
    for number in ["0", "1", "8", "13", "14", "15", "19"] {
        assert!(
            numbers.get(number).is_some_and(|count| *count >= 5),
            "{numbers:?}"
        );
    }
}
