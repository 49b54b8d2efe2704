// SPDX-License-Identifier: MIT OR Apache-2.0
//! The Betti page (request A1).

use crate::common::*;
use reference::betti::{counts, lines, of_two_degrees, page, Counts};
use reference::engine::State;
use reference::generate::cases::page_case;
use reference::generate::pages::{
    graded_problem, graded_tails, is_graded, large_product, multiples_of_one, with_mixed_elements,
};
use reference::generate::problems::problem_file;
use reference::invariants::generator_degrees;
use reference::lifting::{accept, Way};
use reference::monomial::{degree, divides, leading_monomial, Exponents, UNIT};
use reference::random::Random;
use reference::reader::{read_problem, Problem};
use reference::sheet::sheet;
use reference::Limits;
use std::collections::{BTreeMap, BTreeSet};

fn page_text(file: &[u8]) -> String {
    let (printed, _) = page(&Limits::document_01(), file, None);
    String::from_utf8(printed.expect("there is no budget")).expect("text")
}

fn page_of(lines: &[&str]) -> String {
    page_text(&file(lines))
}

fn sheet_text(file: &[u8]) -> String {
    let (printed, _) = sheet(&Limits::document_01(), file, None);
    String::from_utf8(printed.expect("there is no budget")).expect("text")
}

// ---- bytes

#[test]
fn the_example_of_the_request() {
    let expected = "    0:     1     -     -     -     -     -     -     -     -     -     -\n    \
        1:     -     3     2     -     -     -     -     -     -     -     -\n \
        total     1     3     2     -     -     -     -     -     -     -     -\n";
    assert_eq!(expected.len(), 3 * 73);
    // "For x², xy, y² modulo any p", by any order
    let limits = Limits::document_01();
    let mut primes = 0;
    for p in 2..=65_535 {
        let quick = !(300..=65_400).contains(&p) || p % 997 == 0;
        for order in 1..=3 {
            let head = format!("R,{p},2,{order},1");
            let tail = ["T,1,1,1,2,0", "T,2,1,1,1,1", "T,3,1,1,0,2", "E,3"];
            let lines = [&[head.as_str()], &tail[..]].concat();
            if !quick || read_problem(&limits, &file(&lines)).is_err() {
                continue;
            }
            assert_eq!(page_of(&lines), expected, "{p} {order}");
            primes += 1;
        }
    }
    assert!(primes > 3 * 60);
}

#[test]
fn every_column() {
    // x1 to x8, then 1: binomial numbers of 8 in rows -1 and 0
    let mut text = "R,7,8,3,1\n".to_string();
    for x in 1..=9 {
        let exponents: Vec<&str> = (1..=8).map(|y| if x == y { "1" } else { "0" }).collect();
        text += &format!("T,{x},1,1,{}\n", exponents.join(","));
    }
    text += "E,9\n";
    let expected = [
        row(
            "-1:",
            &["-", "1", "8", "28", "56", "70", "56", "28", "8", "1", "-"],
        ),
        row(
            "0:",
            &["1", "8", "28", "56", "70", "56", "28", "8", "1", "-", "-"],
        ),
        row(
            "total",
            &[
                "1", "9", "36", "84", "126", "126", "84", "36", "9", "1", "-",
            ],
        ),
    ];
    assert_eq!(page_text(text.as_bytes()), expected.concat());
    // the same by degrees: every row moves, no count
    let with_d = text.replacen("\n", "\nD,201\n", 1);
    let moved = expected.concat().replacen("    0:", "  201:", 1);
    let moved = moved.replacen("   -1:", "  200:", 1);
    assert_eq!(page_text(with_d.as_bytes()), moved);
}

#[test]
fn column_10_would_have_level_9() {
    // no file comes to it, so the lines alone are asked
    let table = Counts::from([(3, BTreeMap::from([(10, 128), (9, 1)]))]);
    let fields = ["-", "-", "-", "-", "-", "-", "-", "-", "-", "1", "128"];
    assert_eq!(lines(&table), row("3:", &fields) + &row("total", &fields));
}

#[test]
fn one_element_and_components() {
    // "Column 0 counts components", those too that no element has
    let one = page_of(&["R,7,1,1,16", "T,1,1,9,1", "E,1"]);
    assert_eq!(
        one,
        short_row("0:", &["16", "1"]) + &short_row("total", &["16", "1"])
    );
    let two = page_of(&["R,7,1,1,3", "D,2,0,2", "T,1,1,2,1", "E,1"]);
    let expected = [
        short_row("0:", &["1", "1"]),
        short_row("1:", &["-"]),
        short_row("2:", &["2"]),
        short_row("total", &["3", "1"]),
    ];
    assert_eq!(two, expected.concat());
}

#[test]
fn negative_rows() {
    let one = page_of(&["R,7,1,1,1", "T,1,1,1,0", "E,1"]);
    let expected = [
        short_row("-1:", &["-", "1"]),
        short_row("0:", &["1"]),
        short_row("total", &["1", "1"]),
    ];
    assert_eq!(one, expected.concat());
    let three = page_of(&["R,7,1,1,1", "T,1,1,1,0", "T,2,2,1,0", "T,3,3,1,0", "E,3"]);
    let expected = [
        short_row("-2:", &["-", "-", "2"]),
        short_row("-1:", &["-", "3"]),
        short_row("0:", &["1"]),
        short_row("total", &["1", "3", "2"]),
    ];
    assert_eq!(three, expected.concat());
    // a negative row alone below others, and no row 0 at all
    let far = page_of(&["R,7,1,1,2", "D,0,3", "T,1,1,1,0", "T,2,1,1,0", "E,2"]);
    let expected = [
        short_row("-2:", &["-", "-", "1"]),
        short_row("-1:", &["-", "2"]),
        short_row("0:", &["1"]),
        short_row("1:", &["-"]),
        short_row("2:", &["-"]),
        short_row("3:", &["1"]),
        short_row("total", &["2", "2", "1"]),
    ];
    assert_eq!(far, expected.concat());
}

#[test]
fn empty_rows_in_the_middle() {
    let gap = page_of(&["R,2,1,3,1", "T,1,1,1,4", "E,1"]);
    let expected = [
        short_row("0:", &["1"]),
        short_row("1:", &["-"]),
        short_row("2:", &["-"]),
        short_row("3:", &["-", "1"]),
        short_row("total", &["1", "1"]),
    ];
    assert_eq!(gap, expected.concat());
    let far = page_of(&["R,7,1,1,2", "D,255,0", "T,1,1,2,1", "E,1"]);
    let (table, total, rows) = read_page(&far);
    assert_eq!(rows, (0..=255).collect::<Vec<i64>>());
    assert_eq!(
        table,
        BTreeMap::from([((0, 0), 1), ((0, 1), 1), ((255, 0), 1)])
    );
    assert_eq!(total[..3], [2, 1, 0]);
}

#[test]
fn the_largest_row() {
    let all = ",255".repeat(8);
    let (d, t) = ("D,255".to_string(), format!("T,1,1,1{all}"));
    let text = page_of(&["R,7,8,1,1", &d, &t, "E,1"]);
    let (table, _, rows) = read_page(&text);
    assert_eq!((rows[0], rows[rows.len() - 1]), (255, 255 + 8 * 255 - 1));
    assert_eq!(table, BTreeMap::from([((255, 0), 1), ((2294, 1), 1)]));
    // an element of that degree beside a unit vector: every label's width but five digits
    let t2 = format!("T,2,1,2{}", ",0".repeat(8));
    let text = page_of(&[
        "R,7,8,1,2",
        "D,255,0",
        &t,
        &t2,
        &t2.replace("T,2", "T,3"),
        "E,3",
    ]);
    let (_, total, rows) = read_page(&text);
    assert_eq!((rows[0], rows[rows.len() - 1]), (-2, 2294));
    assert_eq!(total[..3], [2, 3, 1]);
    // five digits, which no file comes to
    let table = Counts::from([(20_655, BTreeMap::from([(0, 1)]))]);
    assert!(lines(&table).starts_with("20655:     1     -"));
}

/// The guide's module, with its degrees of components and without them.
#[test]
fn degrees_of_components_move_rows() {
    let tail = [
        "T,1,1,1,1,1",
        "T,2,1,1,2,0",
        "T,2,1,2,0,1",
        "T,3,1,2,0,2",
        "E,4",
    ];
    let with_d = [&["R,7,2,3,2", "D,0,1"], &tail[..]].concat();
    let expected = [
        short_row("0:", &["1"]),
        short_row("1:", &["1", "2", "1"]),
        short_row("2:", &["-", "1"]),
        short_row("total", &["2", "3", "1"]),
    ];
    assert_eq!(page_of(&with_d), expected.concat());
    // without it x² and y·e_2 are two degrees, with the degrees exchanged too
    assert_eq!(page_of(&[&["R,7,2,3,2"], &tail[..]].concat()), "X,17,2\n");
    let other = [&["R,7,2,3,2", "D,1,0"], &tail[..]].concat();
    assert_eq!(page_of(&other), "X,17,2\n");
    let more = [&["R,7,2,3,2", "D,254,255"], &tail[..]].concat();
    let (table, ..) = read_page(&page_of(&more));
    let (zero, ..) = read_page(&page_of(&with_d));
    let moved = |((row, column), count): (&(i64, usize), &u64)| ((row + 254, *column), *count);
    assert_eq!(table, zero.iter().map(moved).collect());
}

// ---- 17

#[test]
fn the_place_of_17() {
    // one element per component: no frame; the first of two degrees counts
    let good = |number| format!("T,{number},1,{number},2,0");
    let bad = |number| format!("{}\nT,{number},1,{number},0,0", good(number));
    for places in 1..1_u64 << 6 {
        let mut text = "R,7,2,1,6\n".to_string();
        let mut count = 6;
        for number in 1..=6 {
            let is_bad = places >> (number - 1) & 1 == 1;
            count += u64::from(is_bad);
            text += &if is_bad { bad(number) } else { good(number) };
            text += "\n";
        }
        text += &format!("E,{count}\n");
        let first = places.trailing_zeros() + 1;
        assert_eq!(page_text(text.as_bytes()), format!("X,17,{first}\n"));
    }
    // which terms differ does not matter
    for terms in [
        ["3,0", "1,2", "0,2"],
        ["3,0", "2,0", "0,3"],
        ["3,0", "2,2", "1,1"],
    ] {
        let lines: Vec<String> = terms.iter().map(|e| format!("T,2,1,1,{e}")).collect();
        let text = page_of(&[
            "R,7,2,1,2",
            "T,1,1,2,0,1",
            &lines[0],
            &lines[1],
            &lines[2],
            "E,4",
        ]);
        assert_eq!(text, "X,17,2\n");
    }
    // several terms of one degree, in two components
    let text = page_of(&[
        "R,7,2,1,2",
        "D,1,0",
        "T,1,1,2,1,1",
        "T,1,1,1,1,0",
        "T,1,1,2,0,2",
        "T,1,1,1,0,1",
        "E,4",
    ]);
    assert_eq!(
        text,
        short_row("0:", &["1"]) + &short_row("1:", &["1", "1"]) + &short_row("total", &["2", "1"])
    );
}

#[test]
fn seventeen_in_all_64_places() {
    let mut random = Random::new(17);
    for count in [2, 3, 17, 63, 64] {
        for first in 1..=count {
            let problem = multiples_of_one(&mut random, count, first);
            let text = page_text(&problem_file(&problem));
            assert_eq!(text, format!("X,17,{first}\n"), "of {count}");
        }
    }
}

/// Every refusal of reading and accepting comes before 17.
#[test]
fn what_comes_before_17() {
    let two = ["T,1,1,1,2,0", "T,1,1,1,1,0"];
    for (lines, expected) in [
        (vec!["R,4,2,1,1", two[0], two[1], "E,2"], "X,2,1\n"),
        (vec!["R,7,2,4,1", two[0], two[1], "E,2"], "X,3,1\n"),
        (
            vec!["R,7,2,1,1", "D,256", two[0], two[1], "E,2"],
            "X,18,2\n",
        ),
        (
            vec!["R,7,2,1,1", two[0], two[1], "T,2,7,1,0,0", "E,3"],
            "X,4,4\n",
        ),
        (
            vec!["R,7,2,1,1", two[0], two[1], "T,3,1,1,0,0", "E,3"],
            "X,5,4\n",
        ),
        (
            vec!["R,7,2,1,1", two[0], two[1], "T,1,1,1,1,0", "E,3"],
            "X,6,4\n",
        ),
        (vec!["R,7,2,1,1", two[0], two[1], "E,3"], "X,7,4\n"),
        (vec!["R,7,2,1,1", two[0], two[1], "E,2", ""], "X,1,5\n"),
        (vec!["R,7,2,1,1", two[0], two[1], "E,2"], "X,17,1\n"),
    ] {
        assert_eq!(page_of(&lines), expected);
    }
    assert_eq!(page_text(b""), "X,1,1\n");
    assert_eq!(page_text(&[b'0'; 65_537]), "X,1,0\n");
    let long = [
        "R,7,2,1,1",
        "T,1,1,1,1,0",
        "T,1,1,1,0,255",
        "T,2,1,1,0,2",
        "E,3",
    ];
    assert_eq!(page_of(&long), "X,13,0\n");
    // 9 with its value: elements of two degrees that are no basis
    let nine = page_of(&[
        "R,7,2,1,1",
        "T,1,1,1,1,0",
        "T,1,1,1,0,0",
        "T,2,1,1,1,1",
        "E,3",
    ]);
    assert_eq!(nine, "X,9,1\nW,6,1,0,1\n");
}

// ---- refusals

#[test]
fn nine_with_its_value_as_on_the_sheet() {
    let lines = [
        "R,7,2,1,1",
        "T,1,1,1,2,0",
        "T,2,1,1,1,1",
        "T,2,1,1,0,2",
        "E,3",
    ];
    assert_eq!(page_of(&lines), "X,9,1\nW,6,1,0,3\n");
    let mut met = 0;
    for case in 1..=1_500 {
        let (file, page) = page_case("pages", 9, case).expect("a kind");
        if page.starts_with(b"X,9,") {
            assert_eq!(page, sheet_text(&file).into_bytes());
            assert!(page.split(|byte| *byte == 10).count() > 2);
            met += 1;
        }
    }
    assert!(met > 20);
}

/// In u, v, w, x, z: 13 comes at level 1 where the elements have one degree each, 17 before it
/// where one has not.
#[test]
fn seventeen_before_13() {
    let tail = [
        "T,1,1,1,1,0,0,0,1",
        "T,1,1,1,0,1,0,0,1",
        "T,2,1,1,1,0,0,1,0",
        "T,2,1,1,0,1,0,1,0",
        "T,3,1,1,1,0,0,0,0",
        "T,3,1,1,0,1,0,0,0",
        "T,4,1,1,0,1,0,0,0",
        "T,4,1,2,0,0,0,0,255",
        "T,5,1,2,1,0,0,0,0",
        "T,5,1,2,0,1,0,0,0",
        "E,10",
    ];
    let with_d = file(&[&["R,7,5,1,2", "D,254,0"], &tail[..]].concat());
    assert_eq!(page_text(&with_d), "X,13,1\n");
    assert_eq!(sheet_text(&with_d), "X,13,1\n");
    let without = file(&[&["R,7,5,1,2"], &tail[..]].concat());
    assert_eq!(page_text(&without), "X,17,4\n");
    assert_eq!(sheet_text(&without), "X,13,1\n");
}

/// 17 comes before anything is lifted: no product is formed but those of acceptance.
#[test]
fn seventeen_before_a_lifting_that_would_be_refused() {
    let limits = Limits::document_01();
    let mut random = Random::new(131_415);
    let mut met: BTreeMap<(u64, u64), u64> = BTreeMap::new();
    for case in 0..160 {
        let problem = if case % 2 == 0 {
            large_product(&mut random)
        } else {
            graded_tails(&mut random)
        };
        assert!(is_graded(&problem));
        let mixed = with_mixed_elements(&mut random, problem.clone());
        let (text, above) = (page_text(&problem_file(&problem)), problem_file(&mixed));
        let refused = sheet_text(&above);
        let refused = refused.lines().find(|line| line.starts_with("X,"));
        let first = (1..)
            .zip(&mixed.elements)
            .find(|(_, element)| {
                let of_term = |term: &reference::monomial::Term| {
                    let own = mixed.degrees[term.monomial.component as usize - 1];
                    degree(&term.monomial.exponents) + own
                };
                element.iter().map(of_term).collect::<BTreeSet<u64>>().len() > 1
            })
            .map(|(number, _)| number)
            .expect("one was put in");
        let (printed, usage) = page(&limits, &above, None);
        assert_eq!(printed, Some(format!("X,17,{first}\n").into_bytes()));
        let (accepted, of_acceptance) = accept(&limits, &mixed.parameters, &mixed.elements, None);
        assert_eq!((accepted, of_acceptance), (Ok(()), usage));
        if let Some(numbers) = text.strip_prefix("X,") {
            // that element has no frame term, so the same lifting stops with it and without it
            assert_eq!(refused.map(|line| format!("{line}\n")), Some(text.clone()));
            let numbers: Vec<u64> = numbers.trim().split(',').flat_map(str::parse).collect();
            *met.entry((numbers[0], numbers[1])).or_default() += 1;
        } else {
            assert_eq!(refused, None);
        }
    }
    for wanted in [(13, 1), (14, 2), (14, 3), (15, 1), (15, 2)] {
        assert!(
            met.contains_key(&wanted),
            "{wanted:?} did not come: {met:?}"
        );
    }
}

/// Where lifting refuses, the X line is all that is printed, though levels are finished.
#[test]
fn nothing_before_x() {
    let mut met = BTreeSet::new();
    for case in 1..=120 {
        let (file, page) = page_case("stopped", 5, case).expect("a kind");
        let text = String::from_utf8(page).expect("text");
        if !text.starts_with("X,") {
            continue;
        }
        assert_eq!(text.lines().count(), 1);
        if !text.starts_with("X,17,") {
            let sheet = sheet_text(&file);
            assert_eq!(sheet.lines().last(), text.lines().next());
            met.insert(text);
        }
    }
    for number in ["X,13,1\n", "X,14,2\n", "X,15,1\n", "X,15,2\n"] {
        assert!(met.contains(number), "{number}");
    }
    // cnc_g7 has a level 1
    let example = concat!(env!("CARGO_MANIFEST_DIR"), "/../examples/cnc_g7.txt");
    let example = std::fs::read(example).expect("the example");
    assert_eq!(page_text(&example), "X,15,2\n");
}

// ---- counts

/// The page from the sheet's text: the first S line of each vector is its frame term, and degrees
/// are added up level by level.
fn page_from_the_sheet(problem: &Problem, sheet: &str) -> String {
    let mut columns: Vec<Vec<i64>> = vec![problem.degrees.iter().map(|d| *d as i64).collect()];
    let of_element = |element: &Vec<reference::monomial::Term>| {
        let leading = leading_monomial(element);
        degree(&leading.exponents) as i64 + columns[0][leading.component as usize - 1]
    };
    let elements = problem.elements.iter().map(of_element).collect();
    columns.push(elements);
    let mut seen = (0, 0);
    for line in sheet.lines() {
        let fields: Vec<&str> = line.split(',').collect();
        let numbers: Vec<i64> = fields[1..].iter().flat_map(|word| word.parse()).collect();
        if fields[0] == "Z" {
            // `Z,level,count`
            columns.resize(numbers[0] as usize + 2, Vec::new());
            assert_eq!(columns[numbers[0] as usize + 1].len() as i64, numbers[1]);
            continue;
        }
        assert_eq!(fields[0], "S");
        if (numbers[0], numbers[1]) != seen {
            seen = (numbers[0], numbers[1]);
            let below = columns[seen.0 as usize][numbers[3] as usize - 1];
            columns.resize((seen.0 as usize + 2).max(columns.len()), Vec::new());
            columns[seen.0 as usize + 1].push(numbers[4..].iter().sum::<i64>() + below);
        }
    }
    let in_rows = |(column, degrees): (usize, &Vec<i64>)| {
        let rows: Vec<i64> = degrees.iter().map(|d| d - column as i64).collect();
        rows
    };
    let rows: Vec<Vec<i64>> = columns.iter().enumerate().map(in_rows).collect();
    let all: Vec<i64> = rows.concat();
    let (first, last) = (all.iter().min().expect("s"), all.iter().max().expect("s"));
    let field = |count: usize| match count {
        0 => "     -".to_string(),
        _ => format!("{:>6}", count),
    };
    let mut text = String::new();
    for row in *first..=*last {
        text += &format!("{:>5}:", row);
        for column in 0..11 {
            let held = rows.get(column).map_or(0, |of_column| {
                of_column.iter().filter(|other| **other == row).count()
            });
            text += &field(held);
        }
        text += "\n";
    }
    text += " total";
    for column in 0..11 {
        text += &field(rows.get(column).map_or(0, Vec::len));
    }
    text + "\n"
}

#[test]
fn counts_are_those_of_the_sheet() {
    let limits = Limits::document_01();
    let (mut with_d, mut gaps, mut negative, mut last_columns) = (0, 0, 0, BTreeSet::new());
    for case in 1..=3_000 {
        let (file, page) = page_case("graded", 1, case).expect("a kind");
        let text = String::from_utf8(page).expect("text");
        if text.starts_with("X,") {
            continue;
        }
        let problem = read_problem(&limits, &file).expect("it is read");
        assert_eq!(text, page_from_the_sheet(&problem, &sheet_text(&file)));
        let (table, total, rows) = read_page(&text);
        // every row from the smallest to the largest in use
        let first = table.keys().next().expect("a row").0;
        let last = table.keys().next_back().expect("a row").0;
        assert_eq!(rows, (first..=last).collect::<Vec<i64>>());
        // the last line has the sums; columns 0 and 1 are components and elements
        for (column, sum) in total.iter().enumerate() {
            let counts = table.iter().filter(|((_, at), _)| *at == column);
            assert_eq!(counts.map(|(_, count)| count).sum::<u64>(), *sum);
        }
        assert_eq!(total[0], problem.parameters.s);
        assert_eq!(total[1], problem.elements.len() as u64);
        with_d += u64::from(problem.degrees.iter().any(|degree| *degree != 0));
        gaps += u64::from((first..last).any(|row| table.keys().all(|(at, _)| *at != row)));
        negative += u64::from(first < 0);
        last_columns.insert(table.keys().map(|(_, column)| *column).max());
    }
    assert!(with_d > 500 && gaps > 300 && negative > 200);
    assert!((1..=9).all(|column| last_columns.contains(&Some(column))));
}

/// The degrees that elements and vectors carry, and those found from their leading terms, are
/// counted alike.
#[test]
fn counts_are_those_of_the_carried_degrees() {
    let limits = Limits::document_01();
    let mut random = Random::new(41);
    for _ in 0..300 {
        let file = problem_file(&graded_problem(&mut random));
        let mut state = State::new();
        let answer = state.read(&limits, &file, Some(100_000)).answer();
        if answer.map(|answer| answer.number) != Some(0) {
            continue;
        }
        // also before all levels are there, and by another way
        for level in 1..=9 {
            let basis = state.basis.as_ref().expect("it is accepted");
            let mut table = Counts::new();
            let mut columns = vec![basis.degrees.clone()];
            columns.extend(basis.carried.iter().cloned());
            assert_eq!(columns, generator_degrees(basis));
            for (column, degrees) in (0..).zip(columns) {
                for degree in degrees {
                    let row = table.entry(degree as i64 - column as i64).or_default();
                    *row.entry(column).or_default() += 1;
                }
            }
            assert_eq!(counts(basis), table);
            let answer = state.lift(&limits, level, Way::Tree, 1_000, Some(100_000));
            if answer.answer().map(|answer| answer.number) != Some(0) {
                break;
            }
        }
    }
}

/// All power products of a degree in n variables.
fn power_products(n: usize, degree: u64) -> Vec<Exponents> {
    let mut all = vec![(UNIT, degree)];
    for x in 0..n {
        let last = x + 1 == n;
        all = all
            .into_iter()
            .flat_map(|(exponents, left)| {
                let least = if last { left } else { 0 };
                (least..=left).map(move |e| {
                    let mut more = exponents;
                    more[x] = e;
                    (more, left - e)
                })
            })
            .collect();
    }
    all.into_iter().map(|(exponents, _)| exponents).collect()
}

/// The alternating sum of a page's counts, each times the power products left, is the number of
/// monomials that no leading monomial divides.
#[test]
fn counts_give_the_hilbert_function() {
    let limits = Limits::document_01();
    let mut tried = 0;
    for case in 1..=600 {
        let (file, page) = page_case("graded", 2, case).expect("a kind");
        let problem = read_problem(&limits, &file).expect("it is read");
        let n = problem.parameters.n as usize;
        let text = String::from_utf8(page).expect("text");
        if text.starts_with("X,") || n > 3 {
            continue;
        }
        let (table, ..) = read_page(&text);
        for d in 0..10 {
            let mut sum = 0;
            for ((row, column), count) in &table {
                let own = row + *column as i64;
                if own <= d {
                    let left = power_products(n, (d - own) as u64).len() as i64;
                    let sign = if column % 2 == 0 { 1 } else { -1 };
                    sum += sign * *count as i64 * left;
                }
            }
            let mut free = 0;
            for (component, own) in (1..).zip(&problem.degrees) {
                let Some(left) = (d as u64).checked_sub(*own) else {
                    continue;
                };
                let leads = problem.elements.iter().map(|f| leading_monomial(f));
                let leads: Vec<_> = leads.filter(|lead| lead.component == component).collect();
                let is_free = |m: &Exponents| !leads.iter().any(|l| divides(&l.exponents, m));
                free += power_products(n, left)
                    .iter()
                    .filter(|m| is_free(m))
                    .count() as i64;
            }
            assert_eq!(sum, free, "case {case} in degree {d}");
        }
        tried += 1;
    }
    assert!(tried > 200);
}

/// The pages of `examples/`: at least the minimal numbers that Singular and Macaulay2 say, and the
/// same alternating sums in each degree.
#[test]
fn pages_of_the_examples() {
    let examples = concat!(env!("CARGO_MANIFEST_DIR"), "/../examples");
    let text = std::fs::read_to_string(format!("{examples}/truth.json")).expect("truth.json");
    let Json::Map(truth) = Json::parse(&text) else {
        panic!("truth.json is a map");
    };
    let mut seen = 0;
    for (name, facts) in truth {
        if name == "katsura4_lp" {
            continue;
        }
        let file = std::fs::read(format!("{examples}/{name}.txt")).expect("the example");
        let printed = page_text(&file);
        let homogeneous = facts.get("homogeneous") == Some(&Json::Truth(true));
        let sheet = sheet_text(&file);
        let refused = sheet.lines().find(|line| line.starts_with("X,"));
        match refused {
            Some(line) if !line.starts_with("X,9,") => {
                assert_eq!(printed, format!("{line}\n"), "{name}");
                continue;
            }
            Some(_) => {
                assert_eq!(printed, sheet, "{name}");
                continue;
            }
            None => assert_eq!(printed.starts_with("X,17,"), !homogeneous, "{name}"),
        }
        let Some(Json::Map(betti)) = facts.get("betti_minimal") else {
            continue;
        };
        let (table, ..) = read_page(&printed);
        let mut sums: BTreeMap<i64, i64> = BTreeMap::new();
        for ((row, column), count) in &table {
            let sign = if column % 2 == 0 { 1 } else { -1 };
            *sums.entry(row + *column as i64).or_default() += sign * *count as i64;
        }
        for (place, number) in betti {
            let (column, d) = place.split_once(',').expect("column,degree");
            let (column, d): (usize, i64) = (
                column.parse().expect("a column"),
                d.parse().expect("a degree"),
            );
            let count = table.get(&(d - column as i64, column)).copied();
            assert!(count.unwrap_or(0) as i64 >= number.number(), "{name}");
            let sign = if column % 2 == 0 { 1 } else { -1 };
            *sums.entry(d).or_default() -= sign * number.number();
        }
        assert!(sums.values().all(|sum| *sum == 0), "{name}: {sums:?}");
        seen += 1;
    }
    assert!(seen >= 25);
}

#[test]
fn small_limits() {
    let lines = [
        "R,7,3,1,1",
        "T,1,1,1,1,0,0",
        "T,2,1,1,0,1,0",
        "T,3,1,1,0,0,1",
        "E,3",
    ];
    let koszul = file(&lines);
    let text = |limits: &Limits| {
        let printed = page(limits, &koszul, None).0.expect("no budget");
        String::from_utf8(printed).expect("text")
    };
    let mut limits = Limits::document_01();
    let whole = ["1", "3", "3", "1"];
    // where levels end at a limit the columns behind it are empty
    for levels in 0..=3 {
        limits.levels = levels;
        let end = (levels as usize + 2).min(4);
        let expected = short_row("0:", &whole[..end]) + &short_row("total", &whole[..end]);
        assert_eq!(text(&limits), expected);
    }
    let mut limits = Limits::document_01();
    limits.vectors = 3;
    assert_eq!(
        text(&limits),
        short_row("0:", &whole) + &short_row("total", &whole)
    );
    limits.vectors = 2;
    assert_eq!(text(&limits), "X,15,0\n");
    let mut limits = Limits::document_01();
    limits.level_terms = 5;
    assert_eq!(text(&limits), "X,15,1\n");
}

#[test]
fn a_budget_gives_up_and_is_no_refusal() {
    let example = concat!(env!("CARGO_MANIFEST_DIR"), "/../examples/katsura4_h_ds.txt");
    let file = std::fs::read(example).expect("the example");
    let limits = Limits::document_01();
    let (whole, usage) = page(&limits, &file, None);
    assert_eq!(usage, sheet(&limits, &file, None).1);
    assert_eq!(page(&limits, &file, Some(usage.products)).0, whole);
    assert_eq!(page(&limits, &file, Some(usage.products - 1)).0, None);
    assert_eq!(page(&limits, &file, Some(0)).0, None);
}

// ---- what is generated

#[test]
fn every_refusal_is_generated() {
    let mut met: BTreeMap<String, u64> = BTreeMap::new();
    let mut again = 0;
    for case in 1..=6_000 {
        let (file, page) = page_case("pages", 3, case).expect("a kind");
        let text = String::from_utf8_lossy(&page).into_owned();
        let number = match text.strip_prefix("X,") {
            Some(rest) => rest.split(',').next().expect("a number").to_string(),
            None => "page".to_string(),
        };
        *met.entry(number).or_default() += 1;
        if case % 100 == 0 {
            assert_eq!(page_case("pages", 3, case), Some((file, page)));
            again += 1;
        }
    }
    assert_eq!(again, 60);
    for number in 1..=18 {
        if ![10, 11, 12, 16].contains(&number) {
            assert!(met.contains_key(&number.to_string()), "{number}: {met:?}");
        }
    }
    assert!(met["page"] > 3_000 && met["17"] > 700, "{met:?}");
    assert_eq!(met.len(), 15, "{met:?}");
}

#[test]
fn mixed_files_are_refused_with_17() {
    let limits = Limits::document_01();
    let mut places = BTreeSet::new();
    for case in 1..=2_000 {
        let (file, page) = page_case("mixed", 4, case).expect("a kind");
        let text = String::from_utf8(page).expect("text");
        let place: u64 = text
            .strip_prefix("X,17,")
            .and_then(|rest| rest.trim_end().parse().ok())
            .expect("17 and a place");
        let problem = read_problem(&limits, &file).expect("it is read");
        let (accepted, _) = accept(&limits, &problem.parameters, &problem.elements, None);
        assert_eq!(accepted, Ok(()));
        // all before it are of one degree, it is not
        for number in 1..=place {
            let mut part = problem.clone();
            part.elements.drain(..number as usize - 1);
            part.elements.truncate(1);
            assert_eq!(is_graded(&part), number < place);
        }
        places.insert(place);
    }
    assert!((1..=16).all(|place| places.contains(&place)));
    assert_eq!(page_case("odd", 1, 1), None);
    let (state, _) = read(b"R,7,1,1,1\nT,1,1,1,1\nT,1,1,1,0\nE,2\n");
    assert_eq!(state.basis.as_ref().and_then(of_two_degrees), Some(1));
}
