// SPDX-License-Identifier: MIT OR Apache-2.0
//! Minimal Betti numbers (request A7): the page, ranks, what the numbers do not depend on, and what
//! is refused.

use crate::common::*;
use reference::betti::{lines, page};
use reference::buffers::*;
use reference::engine::{Basis, State};
use reference::field::Field;
use reference::generate::cases::{minimal_case, MINIMAL_KINDS};
use reference::generate::pages::{graded_problem, large_product, with_mixed_elements};
use reference::generate::problems::problem_file;
use reference::generate::redundant::{redundant_problem, with_more};
use reference::generate::weight_lines::{with_random_weights, without_weight_lines};
use reference::hilbert::hilbert;
use reference::lifting::{accept, Way};
use reference::minimal::{constants, minimal, numbers, rank, ranks, Entries};
use reference::monomial::{leading_coefficient, leading_monomial, multiply, quotient, Monomial};
use reference::random::Random;
use reference::reader::{read_problem, Problem};
use reference::sheet::sheet;
use reference::Limits;
use std::collections::{BTreeMap, BTreeSet};

fn minimal_of(lines: &[&str]) -> String {
    text(minimal, &file(lines))
}

/// Numbers that are not zero, by column and degree.
type Numbers = BTreeMap<(u64, u64), u64>;

/// What a page says, by column and degree; its form is tested on the way.
fn read_numbers(page: &str) -> Numbers {
    let (table, total, _) = read_page(page);
    let mut sums = vec![0; 11];
    let mut numbers = Numbers::new();
    for ((row, column), count) in table {
        sums[column] += count;
        let degree = u64::try_from(row + column as i64).expect("a degree");
        numbers.insert((column as u64, degree), count);
    }
    assert_eq!(sums, total);
    numbers
}

/// The minimal numbers of a problem, by column and degree; `None` where it takes too many products
/// or is refused while levels are lifted.
fn numbers_of(problem: &Problem) -> Option<Numbers> {
    let printed = within(minimal, &problem_file(problem), 40_000)?;
    if printed.starts_with("X,") {
        let stopped = ["X,13,", "X,14,", "X,15,"];
        assert!(stopped.iter().any(|x| printed.starts_with(x)), "{printed}");
        return None;
    }
    Some(read_numbers(&printed))
}

/// All levels of a file, lifted by the tree.
fn resolved(file: &[u8]) -> Option<Basis> {
    let (mut state, answer): (State, _) = read(file);
    if answer.number != 0 {
        return None;
    }
    let limits = Limits::document_01();
    for k in 1..=9 {
        if lift(&mut state, &limits, k, Way::Tree, 1_000).number != 0 {
            return None;
        }
        if state.levels()[k as usize].is_empty() {
            break;
        }
    }
    state.basis
}

/// The rank by elimination row by row, unlike the library's.
fn rank_by_rows(field: &Field, mut rows: Vec<Vec<u64>>) -> u64 {
    let mut rank = 0;
    while let Some(row) = rows.pop() {
        let Some(pivot) = row.iter().position(|entry| *entry != 0) else {
            continue;
        };
        rank += 1;
        for other in rows.iter_mut().filter(|other| other[pivot] != 0) {
            let by = field.negate(field.divide(other[pivot], row[pivot]));
            for (entry, own) in other.iter_mut().zip(&row) {
                *entry = field.add(*entry, field.multiply(by, *own));
            }
        }
    }
    rank
}

fn entries_of(rows: &[Vec<u64>]) -> Entries {
    let mut entries = Entries::new();
    for (row, numbers) in (1..).zip(rows) {
        for (column, number) in (1..).zip(numbers) {
            if *number != 0 {
                entries.entry(column).or_default().insert(row, *number);
            }
        }
    }
    entries
}

// ---- the page

/// "For x, x and y in two variables, p = 7, code 1".
#[test]
fn the_printed_example() {
    let expected = "   -1:     -     -     -     -     -     -     -     -     -     -     -\n    \
        0:     1     2     1     -     -     -     -     -     -     -     -\n \
        total     1     2     1     -     -     -     -     -     -     -     -\n";
    let before = "   -1:     -     -     1     -     -     -     -     -     -     -     -\n    \
        0:     1     3     1     -     -     -     -     -     -     -     -\n \
        total     1     3     2     -     -     -     -     -     -     -     -\n";
    for p in [7, 2, 3, 5, 101, 32_749, 65_521] {
        for order in 1..=3 {
            let head = format!("R,{p},2,{order},1");
            let file = file(&[&head, "T,1,1,1,1,0", "T,2,1,1,1,0", "T,3,1,1,0,1", "E,3"]);
            assert_eq!(text(minimal, &file), expected, "{p} {order}");
            assert_eq!(text(page, &file), before, "{p} {order}");
        }
    }
    // "The first vector is e_2 + 6 e_1": in any sequence of the three
    for names in [["1,0", "0,1", "1,0"], ["0,1", "1,0", "1,0"]] {
        let lines: Vec<String> = (1..=3)
            .zip(names)
            .map(|(number, name)| format!("T,{number},{number},1,{name}"))
            .collect();
        let found = minimal_of(&["R,7,2,1,1", &lines[0], &lines[1], &lines[2], "E,3"]);
        assert_eq!(
            read_numbers(&found),
            read_numbers(expected),
            "{names:?}: {found}"
        );
    }
}

/// A resolution that is minimal keeps its page: x², xy, y², by each code.
#[test]
fn nothing_to_leave_out() {
    for order in 1..=3 {
        let head = format!("R,7,2,{order},1");
        let lines = [&head, "T,1,1,1,2,0", "T,2,1,1,1,1", "T,3,1,1,0,2", "E,3"];
        let expected = [
            short_row("0:", &["1"]),
            short_row("1:", &["-", "3", "2"]),
            short_row("total", &["1", "3", "2"]),
        ];
        assert_eq!(minimal_of(&lines), expected.concat());
    }
    // x² behind x: it is left out, and row 1 is of dashes alone
    let expected = [
        short_row("0:", &["1", "1"]),
        short_row("1:", &["-"]),
        short_row("total", &["1", "1"]),
    ];
    let twice = ["R,7,1,1,1", "T,1,1,1,1", "T,2,1,1,2", "E,2"];
    assert_eq!(minimal_of(&twice), expected.concat());
    let before = ["R,7,1,1,1", "T,1,1,1,2", "T,2,1,1,1", "E,2"];
    assert_eq!(minimal_of(&before), expected.concat());
}

/// "a file whose last element is a constant: page of dashes": nothing is left of the module.
#[test]
fn a_constant() {
    let one = minimal_of(&["R,7,1,1,1", "T,1,1,1,0", "E,1"]);
    let expected = [
        short_row("-1:", &["-"]),
        short_row("0:", &["-"]),
        short_row("total", &["-"]),
    ];
    assert_eq!(one, expected.concat());
    // three of them: row -2 too
    let three = ["R,7,1,1,1", "T,1,1,1,0", "T,2,2,1,0", "T,3,3,1,0", "E,3"];
    let more = short_row("-2:", &["-"]) + &expected.concat();
    assert_eq!(minimal_of(&three), more);
    // all variables, then 1: nine columns of the Betti page
    for n in 1..=8_usize {
        for order in 1..=3 {
            let mut text_of_file = format!("R,101,{n},{order},1\n");
            for x in 0..=n {
                let exponents: Vec<&str> =
                    (0..n).map(|y| ["0", "1"][usize::from(x == y)]).collect();
                text_of_file += &format!("T,{},1,1,{}\n", x + 1, exponents.join(","));
            }
            text_of_file += &format!("E,{}\n", n + 1);
            let file = text_of_file.as_bytes();
            assert_eq!(text(minimal, file), expected.concat());
            let (.., rows) = read_page(&text(page, file));
            assert_eq!(rows, [-1, 0]);
        }
    }
    // in one component of two the other one stays, with its rows between
    let two = ["R,7,1,1,2", "D,0,3", "T,1,1,1,0", "T,2,1,1,0", "E,2"];
    let dash = |label: &str| short_row(label, &["-"]);
    let expected = [
        dash("-2:"),
        dash("-1:"),
        dash("0:"),
        dash("1:"),
        dash("2:"),
        short_row("3:", &["1"]),
        short_row("total", &["1"]),
    ];
    assert_eq!(minimal_of(&two), expected.concat());
}

/// "terms with the unit monomial of elements", where degrees meet by a D line.
#[test]
fn from_column_0_to_1() {
    // x·e_1 + e_2, where e_2 has degree 1: it is no generator
    let meet = ["R,7,2,1,2", "D,0,1", "T,1,1,1,1,0", "T,1,1,2,0,0", "E,2"];
    let expected = [
        short_row("0:", &["1"]),
        short_row("1:", &["-"]),
        short_row("total", &["1"]),
    ];
    assert_eq!(minimal_of(&meet), expected.concat());
    // x·e_2 and y·e_2 besides, which are -x² and -xy then, and the first of them again
    let more = [
        "R,7,2,1,2",
        "D,0,1",
        "T,1,1,1,1,0",
        "T,1,1,2,0,0",
        "T,2,1,2,1,0",
        "T,3,1,2,0,1",
        "T,4,2,2,1,0",
        "E,5",
    ];
    let expected = Numbers::from([((0, 0), 1), ((1, 2), 2), ((2, 3), 1)]);
    let printed = minimal_of(&more);
    assert_eq!(read_numbers(&printed), expected, "{printed}");
    assert!(printed.starts_with(&short_row("0:", &["1"])));
    // rows of constants: (1, 1) and (1, 3) depend on each other modulo 2 alone, (1, 1) and (2, 2)
    // modulo every p
    let of = |p: u64, rows: &[[u64; 2]]| {
        let mut lines = vec![format!("R,{p},1,1,2")];
        let mut count = 0;
        for (number, row) in (1..).zip(rows) {
            for (component, coefficient) in [(2, row[1] % p), (1, row[0] % p)] {
                if coefficient > 0 {
                    lines.push(format!("T,{number},{coefficient},{component},0"));
                    count += 1;
                }
            }
        }
        lines.push(format!("E,{count}"));
        let lines: Vec<&str> = lines.iter().map(String::as_str).collect();
        read_numbers(&minimal_of(&lines))
    };
    assert_eq!(of(3, &[[1, 1], [2, 2]]), Numbers::from([((0, 0), 1)]));
    assert_eq!(of(3, &[[1, 1], [1, 2], [1, 0]]), Numbers::new());
    assert_eq!(of(2, &[[1, 1], [1, 3]]), Numbers::from([((0, 0), 1)]));
    assert_eq!(of(5, &[[1, 1], [1, 3], [1, 0]]), Numbers::new());
}

/// The Koszul complex of generators that are repeated, in any sequence, is that of the generators.
#[test]
fn repeated_generators() {
    let mut random = Random::new(71);
    let choose = |n: u64, k: u64| (0..k).fold(1, |all, i| all * (n - i) / (i + 1));
    let mut lifted = 0;
    for case in 0..240 {
        let (n, more) = (random.between(1, 5), random.below(4));
        let mut forms: Vec<u64> = (0..n).collect();
        forms.extend((0..more).map(|_| random.below(n)));
        random.shuffle(&mut forms);
        let p = *random.pick(&[2, 3, 7, 65_521]);
        let mut lines = vec![format!("R,{p},{n},{},1", random.between(1, 3))];
        for (number, x) in (1..).zip(&forms) {
            let exponents: Vec<&str> = (0..n).map(|y| ["0", "1"][usize::from(*x == y)]).collect();
            let by = random.between(1, p - 1);
            lines.push(format!("T,{number},{by},1,{}", exponents.join(",")));
        }
        lines.push(format!("E,{}", forms.len()));
        let lines: Vec<&str> = lines.iter().map(String::as_str).collect();
        let printed = minimal_of(&lines);
        let expected: Numbers = (0..=n).map(|k| ((k, k), choose(n, k))).collect();
        assert_eq!(read_numbers(&printed), expected, "case {case}: {lines:?}");
        let all = read_numbers(&text(page, &file(&lines)));
        lifted += u64::from(all != expected);
    }
    assert!(lifted > 60, "{lifted}");
}

/// Resolutions that everybody knows, whatever the basis they are found from.
#[test]
fn well_known_resolutions() {
    let examples = concat!(env!("CARGO_MANIFEST_DIR"), "/../examples");
    let example = |name: &str| std::fs::read(format!("{examples}/{name}.txt")).expect("it");
    // the twisted cubic: 3 quadrics, 2 syzygies
    let cubic = Numbers::from([((0, 0), 1), ((1, 2), 3), ((2, 3), 2)]);
    for name in ["twisted_cubic_dp", "twisted_cubic_lp"] {
        assert_eq!(read_numbers(&text(minimal, &example(name))), cubic);
    }
    // with x²w - y³, which is made of them, in each place, and with that and 2·z times the first
    let quadrics = [
        [(1, [1, 0, 1, 0]), (100, [0, 2, 0, 0])],
        [(1, [1, 0, 0, 1]), (100, [0, 1, 1, 0])],
        [(1, [0, 1, 0, 1]), (100, [0, 0, 2, 0])],
    ];
    let more = [
        [(1, [2, 0, 0, 1]), (100, [0, 3, 0, 0])],
        [(2, [1, 0, 2, 0]), (99, [0, 2, 1, 0])],
    ];
    for places in [vec![0], vec![1], vec![2], vec![3], vec![0, 0], vec![3, 1]] {
        let mut elements = quadrics.to_vec();
        for (place, element) in places.iter().zip(more) {
            elements.insert(*place, element);
        }
        let mut lines = vec!["R,101,4,1,1".to_string()];
        for (number, terms) in (1..).zip(&elements) {
            for (coefficient, [x, y, z, w]) in terms {
                lines.push(format!("T,{number},{coefficient},1,{x},{y},{z},{w}"));
            }
        }
        lines.push(format!("E,{}", 2 * elements.len()));
        let lines: Vec<&str> = lines.iter().map(String::as_str).collect();
        assert_eq!(read_numbers(&minimal_of(&lines)), cubic, "{places:?}");
        assert_ne!(read_numbers(&text(page, &file(&lines))), cubic);
    }
    // the real projective plane, whose last numbers are there modulo 2 alone
    let plane = |last: &[((u64, u64), u64)]| {
        let mut numbers = Numbers::from([((0, 0), 1), ((1, 3), 10), ((2, 4), 15), ((3, 5), 6)]);
        numbers.extend(last.iter().copied());
        numbers
    };
    let found = |name| read_numbers(&text(minimal, &example(name)));
    assert_eq!(found("rp2_char2"), plane(&[((3, 6), 1), ((4, 6), 1)]));
    assert_eq!(found("rp2_char3"), plane(&[]));
    let minors = Numbers::from([((0, 0), 1), ((1, 2), 6), ((2, 3), 8), ((3, 4), 3)]);
    assert_eq!(found("minors2_2x4"), minors);
}

// ---- ranks

/// "The rank of a matrix modulo p is the largest number of its rows that are independent: only with
/// all coefficients zero modulo p is a combination of them zero modulo p in every column."
fn largest_independent(p: u64, rows: &[Vec<u64>]) -> i64 {
    (0..1_usize << rows.len())
        .filter(|set| {
            let members = rows.iter().enumerate();
            let chosen: Vec<&Vec<u64>> = members
                .filter(|(row, _)| set >> row & 1 == 1)
                .map(|(_, row)| row)
                .collect();
            independent(p, &chosen)
        })
        .map(|set| i64::from(set.count_ones()))
        .max()
        .expect("the empty set is independent")
}

fn independent(p: u64, rows: &[&Vec<u64>]) -> bool {
    (1..p.pow(rows.len() as u32)).all(|combination| {
        let coefficient = |row: usize| combination / p.pow(row as u32) % p;
        let columns = rows.first().map_or(0, |row| row.len());
        (0..columns).any(|column| {
            let products = rows.iter().enumerate();
            let sum: u64 = products
                .map(|(row, numbers)| coefficient(row) * numbers[column])
                .sum();
            !sum.is_multiple_of(p)
        })
    })
}

/// Matrix number so and so of this size modulo p.
fn matrix(p: u64, rows: u32, columns: u32, mut number: u64) -> Vec<Vec<u64>> {
    let mut next = || {
        let entry = number % p;
        number /= p;
        entry
    };
    (0..rows)
        .map(|_| (0..columns).map(|_| next()).collect())
        .collect()
}

#[test]
fn ranks_by_the_definition() {
    let mut random = Random::new(72);
    let mut met: BTreeMap<i64, u64> = BTreeMap::new();
    for p in [2, 3] {
        let field = Field::new(p);
        for rows in 0..=4 {
            for columns in 0..=4 {
                let all = p.pow(rows * columns);
                // every one of them, or a thousand
                let whole = all <= 20_000;
                for number in 0..all.min(1_000 + 19_000 * u64::from(whole)) {
                    let number = if whole { number } else { random.below(all) };
                    let matrix = matrix(p, rows, columns, number);
                    let found = rank(&field, entries_of(&matrix));
                    assert_eq!(found, largest_independent(p, &matrix), "{p}: {matrix:?}");
                    assert_eq!(found as u64, rank_by_rows(&field, matrix));
                    *met.entry(found).or_default() += 1;
                }
            }
        }
    }
    assert!(
        met[&0] > 40 && (1..=4).all(|rank| met[&rank] > 800),
        "{met:?}"
    );
}

/// Larger ones by row after row, and the rank of the columns is that of the rows.
#[test]
fn ranks_of_larger_matrices() {
    let mut random = Random::new(73);
    let mut dropped = 0;
    for _ in 0..400 {
        let p = *random.pick(&[2, 3, 5, 7, 32_749, 65_521]);
        let field = Field::new(p);
        let (rows, columns) = (random.between(1, 30), random.between(1, 30));
        let dense = random.between(3, 60);
        let mut matrix: Vec<Vec<u64>> = (0..rows)
            .map(|_| {
                (0..columns)
                    .map(|_| match random.chance(dense) {
                        true => random.below(p),
                        false => 0,
                    })
                    .collect()
            })
            .collect();
        for _ in 0..random.below(6) {
            // a row that depends on two others
            let (a, b) = (random.pick(&matrix).clone(), random.pick(&matrix).clone());
            let by = random.below(p);
            let sum = a.iter().zip(&b);
            let sum = sum.map(|(a, b)| field.add(*a, field.multiply(by, *b)));
            matrix.push(sum.collect());
        }
        let found = rank(&field, entries_of(&matrix));
        assert_eq!(found as u64, rank_by_rows(&field, matrix.clone()));
        let turned: Vec<Vec<u64>> = (0..columns as usize)
            .map(|column| matrix.iter().map(|row| row[column]).collect())
            .collect();
        assert_eq!(rank(&field, entries_of(&turned)), found);
        dropped += u64::from((found as usize) < matrix.len().min(columns as usize));
    }
    assert!(dropped > 100, "{dropped}");
}

// ---- the numbers by other ways

/// The numbers from the text of the file and of its sheet alone: degrees level by level, the
/// matrices as lists of rows, ranks by the definition where they are small.
fn numbers_from_the_sheet(file: &str, sheet: &str) -> (Numbers, u64) {
    let numbers = |line: &str| -> Vec<u64> { line[2..].split(',').flat_map(str::parse).collect() };
    let mut head = file.lines().map(|line| (line.as_bytes()[0], numbers(line)));
    let (_, parameters) = head.next().expect("an R line");
    let p = parameters[0];
    // for each level the terms (coefficient, component, exponents) of each vector
    let mut levels: Vec<Vec<Vec<(u64, u64, u64)>>> = vec![Vec::new()];
    let mut of_components = vec![0; parameters[3] as usize];
    let mut add = |level: usize, vector: u64, term: &[u64]| {
        levels.resize(levels.len().max(level + 1), Vec::new());
        let of_level = &mut levels[level];
        of_level.resize(of_level.len().max(vector as usize), Vec::new());
        let sum = term[2..].iter().sum();
        of_level[vector as usize - 1].push((term[0], term[1], sum));
    };
    for (letter, line) in head {
        match letter {
            b'D' => of_components = line,
            b'T' => add(0, line[0], &line[1..]),
            _ => {}
        }
    }
    for line in sheet.lines().filter(|line| line.starts_with('S')) {
        let line = numbers(line);
        add(line[0] as usize, line[1], &line[2..]);
    }
    let mut degrees = vec![of_components];
    for (level, vectors) in levels.iter().enumerate() {
        let below = &degrees[level];
        let own = vectors.iter().map(|vector| {
            let all: BTreeSet<u64> = vector
                .iter()
                .map(|(_, component, sum)| below[*component as usize - 1] + sum)
                .collect();
            assert_eq!(
                all.len(),
                1,
                "a vector of a homogeneous file has one degree"
            );
            *all.first().expect("a term")
        });
        degrees.push(own.collect());
    }
    let mut found = Numbers::new();
    for (column, degree) in (0..)
        .zip(&degrees)
        .flat_map(|(column, degrees)| degrees.iter().map(move |degree| (column, *degree)))
    {
        *found.entry((column, degree)).or_default() += 1;
    }
    let mut by_definition = 0;
    for (column, vectors) in levels.iter().enumerate() {
        let of_degrees: BTreeSet<u64> = degrees[column + 1].iter().copied().collect();
        for degree in of_degrees {
            let generators: Vec<usize> = (0..degrees[column].len())
                .filter(|at| degrees[column][*at] == degree)
                .collect();
            let rows: Vec<Vec<u64>> = vectors
                .iter()
                .zip(&degrees[column + 1])
                .filter(|(_, own)| **own == degree)
                .map(|(vector, _)| {
                    let at = |generator: &usize| {
                        let constant = vector.iter().find(|(_, component, sum)| {
                            *sum == 0 && *component as usize == generator + 1
                        });
                        constant.map_or(0, |(coefficient, ..)| *coefficient)
                    };
                    generators.iter().map(at).collect()
                })
                .collect();
            let rank = if rows.len() <= 4 && p <= 3 {
                by_definition += 1;
                largest_independent(p, &rows) as u64
            } else {
                rank_by_rows(&Field::new(p), rows)
            };
            for of in [column as u64, column as u64 + 1] {
                if let Some(number) = found.get_mut(&(of, degree)) {
                    *number -= rank;
                }
            }
        }
    }
    found.retain(|_, number| *number > 0);
    (found, by_definition)
}

#[test]
fn numbers_from_the_text() {
    let mut random = Random::new(74);
    let (mut tried, mut changed, mut by_definition) = (0, 0, 0);
    for _ in 0..1_500 {
        let problem = match random.below(5) {
            0 => graded_problem(&mut random),
            _ => redundant_problem(&mut random),
        };
        let file = problem_file(&problem);
        let Some(printed) = within(minimal, &file, 40_000) else {
            continue;
        };
        if printed.starts_with("X,") {
            continue;
        }
        let listed = text(sheet, &file);
        let file = String::from_utf8(file).expect("text");
        let (expected, small) = numbers_from_the_sheet(&file, &listed);
        let found = read_numbers(&printed);
        assert_eq!(found, expected, "{file}");
        tried += 1;
        changed += u64::from(read_numbers(&text(page, file.as_bytes())) != found);
        by_definition += small;
    }
    assert!(tried > 1_300 && changed > 900, "{tried} {changed}");
    assert!(by_definition > 2_000, "{by_definition}");
}

/// The quotient of a problem's module, by its monomials that no leading monomial divides.
struct Quotient<'a> {
    problem: &'a Problem,
    field: Field,
    /// what monomials come to
    known: BTreeMap<Monomial, BTreeMap<Monomial, u64>>,
}

impl<'a> Quotient<'a> {
    fn new(problem: &'a Problem) -> Quotient<'a> {
        Quotient {
            problem,
            field: Field::new(problem.parameters.p),
            known: BTreeMap::new(),
        }
    }

    fn reducer(&self, at: &Monomial) -> Option<(usize, Monomial)> {
        let elements = self.problem.elements.iter().enumerate();
        elements.rev().find_map(|(i, element)| {
            let lead = leading_monomial(element);
            let exponents = quotient(&at.exponents, &lead.exponents)?;
            (lead.component == at.component).then_some((
                i,
                Monomial {
                    component: at.component,
                    exponents,
                },
            ))
        })
    }

    /// The monomials of this degree that no leading monomial divides.
    fn basis(&self, degree: i64) -> Vec<Monomial> {
        let n = self.problem.parameters.n as usize;
        let mut all = Vec::new();
        for (component, own) in (1..).zip(&self.problem.degrees) {
            let left = u64::try_from(degree - *own as i64);
            for exponents in left.map_or(Vec::new(), |left| power_products(n, left)) {
                let monomial = Monomial {
                    component,
                    exponents,
                };
                if self.reducer(&monomial).is_none() {
                    all.push(monomial);
                }
            }
        }
        all
    }

    fn normal_form(&mut self, at: Monomial) -> BTreeMap<Monomial, u64> {
        if let Some(known) = self.known.get(&at) {
            return known.clone();
        }
        let Some((i, factor)) = self.reducer(&at) else {
            return BTreeMap::from([(at, 1)]);
        };
        let element = &self.problem.elements[i];
        let lead = leading_coefficient(element);
        let mut sum: BTreeMap<Monomial, u64> = BTreeMap::new();
        for term in &element[1..] {
            let by = self.field.negate(self.field.divide(term.coefficient, lead));
            let product = Monomial {
                component: term.monomial.component,
                exponents: multiply(&factor.exponents, &term.monomial.exponents),
            };
            for (monomial, coefficient) in self.normal_form(product) {
                let held = sum.entry(monomial).or_default();
                *held = self.field.add(*held, self.field.multiply(by, coefficient));
            }
        }
        sum.retain(|_, coefficient| *coefficient != 0);
        self.known.insert(at, sum.clone());
        sum
    }

    /// The dimension of Tor_i(quotient, field) in this degree, by the Koszul complex of the variables
    /// over the quotient: no syzygy is known here. `None` where the complex is large.
    fn koszul(&mut self, i: u64, degree: u64) -> Option<u64> {
        let sizes = [i, i + 1].map(|k| self.boundary(k, degree));
        let [down, up] = sizes;
        let field = self.field;
        let (down, up) = (down?, up?);
        let dimension = down.len() as u64;
        Some(dimension - rank_by_rows(&field, down) - rank_by_rows(&field, up))
    }

    /// The matrix of the map from the k-th place, a row for each product of k variables and monomial.
    fn boundary(&mut self, k: u64, degree: u64) -> Option<Vec<Vec<u64>>> {
        const LARGE: usize = 160;
        let n = self.problem.parameters.n;
        let sets = |size: u64| -> Vec<u64> {
            let all = 0..1_u64 << n;
            all.filter(|set| u64::from(set.count_ones()) == size)
                .collect()
        };
        let degree = degree as i64;
        let (from, to) = (
            self.basis(degree - k as i64),
            self.basis(degree - k as i64 + 1),
        );
        let targets: BTreeMap<(u64, Monomial), usize> = match k {
            0 => BTreeMap::new(),
            _ => sets(k - 1)
                .iter()
                .flat_map(|set| to.iter().map(|monomial| (*set, *monomial)))
                .zip(0..)
                .collect(),
        };
        let mut rows = Vec::new();
        for set in sets(k) {
            for monomial in &from {
                let mut row = vec![0; targets.len()];
                let mut sign = 1;
                for x in (0..n).filter(|x| set >> x & 1 == 1) {
                    let mut product = *monomial;
                    product.exponents[x as usize] += 1;
                    for (target, coefficient) in self.normal_form(product) {
                        let at = targets[&(set & !(1 << x), target)];
                        row[at] = self.field.multiply(sign, coefficient);
                    }
                    sign = self.field.negate(sign);
                }
                rows.push(row);
            }
        }
        (rows.len().max(targets.len()) <= LARGE).then_some(rows)
    }
}

/// The minimal numbers are the dimensions of Tor, which the Koszul complex has without a resolution.
#[test]
fn numbers_by_the_koszul_complex() {
    let mut random = Random::new(75);
    let (mut tried, mut compared, mut positive, mut changed) = (0, 0, 0, 0);
    while tried < 250 {
        let problem = redundant_problem(&mut random);
        let small = problem.parameters.n <= 4 && problem.parameters.s <= 3;
        if !small {
            continue;
        }
        let Some(numbers) = numbers_of(&problem) else {
            continue;
        };
        let all = read_numbers(&text(page, &problem_file(&problem)));
        tried += 1;
        changed += u64::from(all != numbers);
        let mut quotient = Quotient::new(&problem);
        let least = *problem.degrees.iter().min().expect("a component");
        for degree in least..=least + 6 {
            for i in 0..=problem.parameters.n {
                let Some(expected) = quotient.koszul(i, degree) else {
                    continue;
                };
                let found = numbers.get(&(i, degree)).copied().unwrap_or(0);
                assert_eq!(found, expected, "{i} {degree} {problem:?}");
                compared += 1;
                positive += u64::from(found > 0 && all[&(i, degree)] > found);
            }
        }
    }
    assert!(compared > 4_000 && positive > 100, "{compared} {positive}");
    assert!(changed > 150, "{changed}");
}

/// The alternating sums of each degree are those of the Betti page, and with them the Hilbert
/// function.
#[test]
fn alternating_sums() {
    let mut random = Random::new(76);
    let (mut tried, mut changed) = (0, 0);
    for _ in 0..1_200 {
        let problem = match random.below(3) {
            0 => graded_problem(&mut random),
            _ => redundant_problem(&mut random),
        };
        let Some(found) = numbers_of(&problem) else {
            continue;
        };
        let file = problem_file(&problem);
        let all = read_numbers(&text(page, &file));
        let sums = |numbers: &Numbers| {
            let mut sums: BTreeMap<u64, i128> = BTreeMap::new();
            for ((column, degree), number) in numbers {
                let sign = if column % 2 == 0 { 1 } else { -1 };
                *sums.entry(*degree).or_default() += sign * i128::from(*number);
            }
            sums.retain(|_, sum| *sum != 0);
            sums
        };
        let of_degrees = sums(&found);
        assert_eq!(of_degrees, sums(&all));
        // C(d - g + n - 1, n - 1) by the generators that are left
        let n = i128::from(problem.parameters.n);
        let values: String = (0..33)
            .map(|d| {
                let own = of_degrees.iter().map(|(degree, sum)| {
                    let left = d - i128::from(*degree);
                    let count = (1..n).fold(1, |all, i| all * (left + i) / i);
                    sum * if left < 0 { 0 } else { count }
                });
                format!("H,{d},{}\n", own.sum::<i128>())
            })
            .collect();
        assert_eq!(text(hilbert, &file), values);
        tried += 1;
        changed += u64::from(all != found);
    }
    assert!(tried > 1_000 && changed > 500, "{tried} {changed}");
}

// ---- what the numbers do not depend on

/// An element again, or made of others; another sequence; other coefficients of whole elements.
#[test]
fn the_same_module() {
    let mut random = Random::new(77);
    let mut tried = [0; 4];
    for _ in 0..900 {
        let problem = redundant_problem(&mut random);
        let Some(numbers) = numbers_of(&problem) else {
            continue;
        };
        let same = |other: &Problem, what: usize, tried: &mut [u64; 4]| {
            if let Some(found) = numbers_of(other) {
                assert_eq!(found, numbers, "{what}: {problem:?} {other:?}");
                tried[what] += 1;
            }
        };
        let mut other = problem.clone();
        let again = random.pick(&problem.elements).clone();
        let place = random.below(problem.elements.len() as u64 + 1);
        other.elements.insert(place as usize, again);
        same(&other, 0, &mut tried);
        let more = with_more(&mut random, problem.clone());
        same(&more, 1, &mut tried);
        let mut other = problem.clone();
        random.shuffle(&mut other.elements);
        same(&other, 2, &mut tried);
        for element in &mut other.elements {
            let p = problem.parameters.p;
            let by = random.between(1, p - 1);
            for term in element {
                term.coefficient = term.coefficient * by % p;
            }
        }
        same(&other, 3, &mut tried);
    }
    assert!(tried.iter().all(|count| *count > 700), "{tried:?}");
}

/// Another order code, where the elements are a basis by that too.
#[test]
fn another_order() {
    let mut random = Random::new(78);
    let limits = Limits::document_01();
    let (mut tried, mut terms) = (0, 0);
    for _ in 0..1_500 {
        let problem = redundant_problem(&mut random);
        let Some(numbers) = numbers_of(&problem) else {
            continue;
        };
        for order in 1..=3 {
            let mut other = problem.clone();
            other.parameters.order = order;
            let parameters = other.parameters;
            for element in &mut other.elements {
                let any = element.clone();
                *element = reference::generate::problems::element_of(&parameters, &any);
            }
            let accepted = accept(&limits, &parameters, &other.elements, None)
                .0
                .is_ok();
            if order == problem.parameters.order || !accepted {
                continue;
            }
            if let Some(found) = numbers_of(&other) {
                assert_eq!(found, numbers, "{order}: {problem:?}");
                tried += 1;
                terms += u64::from(other.elements.iter().any(|element| element.len() > 1));
            }
        }
    }
    assert!(tried > 1_200 && terms > 500, "{tried} {terms}");
}

/// One degree more for all components moves the rows and no number; a G line changes no byte.
#[test]
fn with_the_lines() {
    let mut random = Random::new(79);
    let (mut tried, mut weighted) = (0, 0);
    for _ in 0..400 {
        let problem = redundant_problem(&mut random);
        let file = problem_file(&problem);
        let Some(printed) = within(minimal, &file, 40_000) else {
            continue;
        };
        let with = with_random_weights(&mut random, &file);
        assert_eq!(text(minimal, &with), printed);
        weighted += u64::from(without_weight_lines(&with).len() < with.len());
        let most = *problem.degrees.iter().max().expect("a component");
        if printed.starts_with("X,") || most == 255 {
            continue;
        }
        let by = random.between(1, 255 - most);
        let mut other = problem.clone();
        other.degrees.iter_mut().for_each(|degree| *degree += by);
        let (table, total, rows) = read_page(&text(minimal, &problem_file(&other)));
        let (plain, same_total, plain_rows) = read_page(&printed);
        let moved =
            |((row, column), number): (&(i64, usize), &u64)| ((row + by as i64, *column), *number);
        assert_eq!(table, plain.iter().map(moved).collect());
        assert_eq!(total, same_total);
        let moved: Vec<i64> = plain_rows.iter().map(|row| row + by as i64).collect();
        assert_eq!(rows, moved);
        tried += 1;
    }
    assert!(tried > 300 && weighted > 300, "{tried} {weighted}");
}

/// Two modules side by side: the numbers are the sums.
#[test]
fn side_by_side() {
    let mut random = Random::new(80);
    let mut kept: BTreeMap<[u64; 3], Problem> = BTreeMap::new();
    let mut tried = 0;
    for _ in 0..1_500 {
        let one = redundant_problem(&mut random);
        let parameters = one.parameters;
        // with the last one over the same ring
        let ring = [parameters.p, parameters.n, parameters.order];
        let Some(two) = kept.insert(ring, one.clone()) else {
            continue;
        };
        let mut both = one.clone();
        both.parameters.s += two.parameters.s;
        if both.parameters.s > 16 || one.elements.len() + two.elements.len() > 30 {
            continue;
        }
        both.degrees.extend(&two.degrees);
        for element in &two.elements {
            let mut moved = element.clone();
            for term in &mut moved {
                term.monomial.component += one.parameters.s;
            }
            let place = random.below(both.elements.len() as u64 + 1);
            both.elements.insert(place as usize, moved);
        }
        let found = [&one, &two, &both].map(numbers_of);
        if let [Some(mut one), Some(two), Some(both)] = found {
            for (place, number) in two {
                *one.entry(place).or_default() += number;
            }
            assert_eq!(one, both);
            tried += 1;
        }
    }
    assert!(tried > 1_000, "{tried}");
}

// ---- beside the Betti page

/// "in the same layout and rows": the same labels, no number above the page's; what is refused is
/// what the page refuses.
#[test]
fn beside_the_page() {
    let mut met: BTreeMap<String, u64> = BTreeMap::new();
    let (mut pages, mut dashes, mut less) = (0, 0, 0);
    for case in 1..=4_000 {
        let (file, printed) = minimal_case("minimal", 3, case).expect("a kind");
        let printed = String::from_utf8(printed).expect("text");
        let all = text(page, &file);
        if let Some(rest) = all.strip_prefix("X,") {
            assert_eq!(printed, all);
            let number = rest.split(',').next().expect("a number");
            *met.entry(number.to_string()).or_default() += 1;
            continue;
        }
        let (table, total, rows) = read_page(&printed);
        let (of_page, of_total, of_rows) = read_page(&all);
        assert_eq!(rows, of_rows);
        assert!(table.iter().all(|(at, number)| *number <= of_page[at]));
        assert!(total.iter().zip(&of_total).all(|(a, b)| a <= b));
        pages += 1;
        dashes += u64::from(table.is_empty());
        less += u64::from(table != of_page);
    }
    for number in [1, 2, 3, 4, 5, 6, 7, 8, 9, 13, 14, 15, 17, 18, 24] {
        assert!(met.contains_key(&number.to_string()), "{number}: {met:?}");
    }
    assert_eq!(met.len(), 15, "{met:?}");
    assert!(pages > 2_000 && less > 1_200, "{pages} {less}");
    assert!(dashes > 30, "{dashes}");
}

/// "17 applies as before": before what would stop the lifting.
#[test]
fn two_degrees() {
    assert_eq!(
        minimal_of(&[
            "R,7,2,1,1",
            "T,1,1,1,1,0",
            "T,2,1,1,0,2",
            "T,2,1,1,0,0",
            "E,3"
        ]),
        "X,17,2\n"
    );
    let mut random = Random::new(81);
    let mut first = 0;
    for _ in 0..60 {
        let problem = large_product(&mut random);
        let stopped = text(minimal, &problem_file(&problem)) == "X,13,1\n";
        let file = problem_file(&with_mixed_elements(&mut random, problem));
        assert!(text(minimal, &file).starts_with("X,17,"));
        first += u64::from(stopped);
    }
    assert!(first > 10, "{first}");
}

/// 20 never comes with document 01's limits; where lists may have fewer levels it comes after them.
#[test]
fn levels_that_are_cut_off() {
    let koszul = file(&[
        "R,7,3,1,1",
        "T,1,1,1,1,0,0",
        "T,2,1,1,0,1,0",
        "T,3,1,1,0,0,1",
        "E,3",
    ]);
    let with = |change: &dyn Fn(&mut Limits), file: &[u8]| {
        let mut limits = Limits::document_01();
        change(&mut limits);
        let printed = minimal(&limits, file, None).0.expect("no budget");
        String::from_utf8(printed).expect("text")
    };
    let levels = |levels: u64| with(&|limits| limits.levels = levels, &koszul);
    assert_eq!(levels(1), "X,20,1\n");
    assert_eq!(levels(2), "X,20,2\n");
    let whole = text(minimal, &koszul);
    for more in 3..=9 {
        assert_eq!(levels(more), whole);
    }
    // after all lifting, so after 13 to 15; and after 17
    let refused = |change: &dyn Fn(&mut Limits)| {
        let cut = |limits: &mut Limits| {
            limits.levels = 2;
            change(limits);
        };
        with(&cut, &koszul)
    };
    assert_eq!(refused(&|limits| limits.vectors = 2), "X,15,0\n");
    assert_eq!(refused(&|limits| limits.level_terms = 5), "X,15,1\n");
    let mixed = file(&[
        "R,7,1,1,1",
        "T,1,1,1,1",
        "T,1,1,1,0",
        "T,2,1,1,1",
        "T,2,1,1,0",
        "E,4",
    ]);
    assert_eq!(with(&|limits| limits.levels = 1, &mixed), "X,17,1\n");
}

// ---- the library

/// Where a vector has constants, and which of them count.
#[test]
fn matrices_of_constants() {
    // x, x, y and x + y: level 1 is e_2 - e_1, x·e_3 - .., e_4 - e_3 - e_1
    let file = file(&[
        "R,7,2,1,1",
        "T,1,1,1,1,0",
        "T,2,1,1,1,0",
        "T,3,1,1,0,1",
        "T,4,1,1,1,0",
        "T,4,1,1,0,1",
        "E,5",
    ]);
    let basis = resolved(&file).expect("it is a basis");
    let expected = Entries::from([
        (1, BTreeMap::from([(1, 6), (3, 6)])),
        (2, BTreeMap::from([(1, 1)])),
        (3, BTreeMap::from([(3, 6)])),
        (4, BTreeMap::from([(3, 1)])),
    ]);
    assert_eq!(constants(&basis), BTreeMap::from([((1, 1), expected)]));
    assert_eq!(ranks(&basis), BTreeMap::from([((1, 1), 2)]));
    let left = Numbers::from([((0, 0), 1), ((1, 1), 2), ((2, 2), 1)]);
    assert_eq!(by_degree(&numbers(&basis)), left);
    assert_eq!(lines(&numbers(&basis)), text(minimal, &file));
}

#[test]
fn a_budget_gives_up_and_is_no_refusal() {
    let example = concat!(env!("CARGO_MANIFEST_DIR"), "/../examples/katsura4_h_ds.txt");
    let file = std::fs::read(example).expect("the example");
    let limits = Limits::document_01();
    let (whole, usage) = minimal(&limits, &file, None);
    assert_eq!(usage, sheet(&limits, &file, None).1);
    assert_eq!(minimal(&limits, &file, Some(usage.products)).0, whole);
    assert_eq!(minimal(&limits, &file, Some(usage.products - 1)).0, None);
    assert_eq!(minimal(&limits, &file, Some(0)).0, None);
}

/// "file, state and work as for reading, an out of bytes, and instead of a place the length"; "out is
/// as long as for the Betti page".
#[test]
fn the_call() {
    let limits = Limits::document_01();
    let lengths = [125_471, 3_072, 1_508_691];
    assert_eq!(minimal_bytes(&limits), 1_508_691);
    let small = Limits {
        levels: 0,
        exponent: 1,
        variables: 1,
        ..limits
    };
    // rows -1 to 256 and the totals, or the lines of a refusal
    assert_eq!(minimal_bytes(&small), 31_773);
    let smaller = Limits {
        working: 1,
        ..small
    };
    assert_eq!(minimal_bytes(&smaller), 73 * 259);
    let mut random = Random::new(82);
    for more in [0, 1, 77] {
        for case in 1..=40 {
            let (file, expected) = minimal_case("minimal", 6, case).expect("a kind");
            let [state, work, out] = lengths.map(|length| length + more);
            let mut state = vec![random.bits() as u16; state];
            let mut work = vec![random.bits() as u16; work];
            let mut out = vec![random.bits() as u8; out];
            let found = MINIMAL_CALL.make(&limits, &file, &mut state, &mut work, &mut out);
            assert_eq!(found, (0, expected.len() as u64));
            assert!(out.starts_with(&expected));
            assert!(out[expected.len()..].iter().all(|byte| *byte == 0));
            assert!(state.iter().chain(&work).all(|word| *word == 0));
        }
    }
    // too short by one, each of them: 16, and nothing is changed
    let small = b"R,7,2,1,1\nT,1,1,1,1,0\nT,2,1,1,0,1\nE,2\n";
    for file in [&small[..], b"", &[b'0'; 65_537]] {
        for short in 0..3 {
            let mut least = lengths;
            least[short] -= 1;
            let [state, work, out] = least;
            let (mut state, mut work, mut out) = (vec![5; state], vec![5; work], vec![5; out]);
            let found = MINIMAL_CALL.make(&limits, file, &mut state, &mut work, &mut out);
            assert_eq!(found, (16, 0));
            assert!(state.iter().chain(&work).all(|word| *word == 5));
            assert!(out.iter().all(|byte| *byte == 5));
        }
    }
    // giving up changes nothing either
    let [state, work, out] = lengths;
    let (mut state, mut work, mut out) = (vec![5; state], vec![5; work], vec![5; out]);
    let found = MINIMAL_CALL.make_within(&limits, small, &mut state, &mut work, &mut out, Some(0));
    assert_eq!(found, None);
    assert!(state.iter().chain(&work).all(|word| *word == 5));
    assert!(out.iter().all(|byte| *byte == 5));
}

// ---- what is generated

/// Most of the files have constants, many of them in several columns and degrees, with rows that
/// depend on each other.
#[test]
fn redundant_files() {
    let limits = Limits::document_01();
    let (mut pages, mut any, mut components, mut small) = (0, 0, 0, 0);
    let (mut columns, mut degrees, mut dependent, mut entered) = ([0; 4], 0, 0, [0; 10]);
    for case in 1..=3_000 {
        let (file, printed) = minimal_case("redundant", 5, case).expect("a kind");
        let problem = read_problem(&limits, &file).expect("it is read");
        let Some(basis) = resolved(&file).filter(|_| !printed.starts_with(b"X,")) else {
            continue;
        };
        pages += 1;
        let ranks = ranks(&basis);
        assert!(ranks.values().all(|rank| *rank > 0));
        any += u64::from(!ranks.is_empty());
        let in_columns: BTreeSet<u64> = ranks.keys().map(|(column, _)| *column).collect();
        let in_degrees: BTreeSet<u64> = ranks.keys().map(|(_, degree)| *degree).collect();
        columns[in_columns.len().min(3)] += 1;
        degrees += u64::from(in_degrees.len() > 1);
        for column in in_columns {
            entered[column as usize] += 1;
        }
        // rows with an entry, more than are independent
        dependent += u64::from(constants(&basis).iter().any(|(place, entries)| {
            let rows: BTreeSet<&u64> = entries.values().flat_map(BTreeMap::keys).collect();
            rows.len() as i64 > ranks[place]
        }));
        components += u64::from(problem.parameters.s > 1);
        small += u64::from(problem.parameters.p <= 3);
    }
    assert!(pages > 2_900 && any > 2_600, "{pages} {any}");
    assert!(columns[2] + columns[3] > 1_200, "{columns:?}");
    assert!(columns[3] > 300, "{columns:?}");
    assert!(degrees > 1_800 && dependent > 700, "{degrees} {dependent}");
    assert!(entered[..5].iter().all(|count| *count > 80), "{entered:?}");
    assert!(entered[5] > 20 && entered[6] > 3, "{entered:?}");
    assert!(components > 900 && small > 1_500, "{components} {small}");
}

#[test]
fn every_refusal_is_generated() {
    let mut met: BTreeMap<String, u64> = BTreeMap::new();
    for case in 1..=5_000 {
        let (file, printed) = minimal_case("minimal", 4, case).expect("a kind");
        let text = String::from_utf8_lossy(&printed).into_owned();
        let number = match text.strip_prefix("X,") {
            Some(rest) => rest.split(',').next().expect("a number").to_string(),
            None => "page".to_string(),
        };
        *met.entry(number).or_default() += 1;
        if case % 100 == 0 {
            assert_eq!(minimal_case("minimal", 4, case), Some((file, printed)));
        }
    }
    for number in [1, 2, 3, 4, 5, 6, 7, 8, 9, 13, 14, 15, 17, 18, 24] {
        assert!(met.contains_key(&number.to_string()), "{number}: {met:?}");
    }
    assert_eq!(met.len(), 16, "{met:?}");
    assert!(met["page"] > 2_800 && met["1"] < 1_000, "{met:?}");
    assert!(MINIMAL_KINDS.contains(&"minimal") && minimal_case("odd", 1, 1).is_none());
}
