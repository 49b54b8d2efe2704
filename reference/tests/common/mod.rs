// SPDX-License-Identifier: MIT OR Apache-2.0
//! What several tests use.
#![allow(dead_code)]

use reference::betti::Counts;
use reference::engine::{Answer, State};
use reference::lifting::Way;
use reference::monomial::{divides, Exponents, Level, Monomial, Term, Vector, UNIT};
use reference::reader::Problem;
use reference::reckoning::reckon_level;
use reference::sheet::sheet;
use reference::{Limits, Printed};
use std::collections::BTreeMap;

/// A term from its coefficient, component and first exponents.
pub fn term(coefficient: u64, component: u64, exponents: &[u64]) -> Term {
    Term {
        coefficient,
        monomial: monomial(component, exponents),
    }
}

/// A monomial from its component and first exponents.
pub fn monomial(component: u64, exponents: &[u64]) -> Monomial {
    let mut all = UNIT;
    all[..exponents.len()].copy_from_slice(exponents);
    Monomial {
        component,
        exponents: all,
    }
}

/// A file from its lines.
pub fn file(lines: &[&str]) -> Vec<u8> {
    lines
        .iter()
        .flat_map(|line| format!("{line}\n").into_bytes())
        .collect()
}

/// The sheet of a file under the limits of document 01, as lines.
pub fn sheet_lines(file: &[u8]) -> Vec<String> {
    let (printed, _) = sheet(&Limits::document_01(), file, None);
    let printed = String::from_utf8(printed.expect("there is no budget")).expect("text");
    assert!(printed.is_empty() || printed.ends_with('\n'));
    printed.lines().map(str::to_string).collect()
}

/// Reads a file under the limits of document 01 and says what came of it.
pub fn read(file: &[u8]) -> (State, Answer) {
    let mut state = State::new();
    let answer = state
        .read(&Limits::document_01(), file, None)
        .answer()
        .expect("there is no budget");
    (state, answer)
}

/// A state with an accepted basis.
pub fn accepted(lines: &[&str]) -> State {
    let (state, answer) = read(&file(lines));
    assert_eq!(answer.number, 0);
    state
}

/// Lifts without a budget.
pub fn lift(state: &mut State, limits: &Limits, level: u64, way: Way, cache: u64) -> Answer {
    state
        .lift(limits, level, way, cache, None)
        .answer()
        .expect("there is no budget")
}

/// All the ways, the tree with caches of several lengths.
pub fn all_ways() -> Vec<(Way, u64)> {
    let mut ways = vec![
        (Way::Division, 0),
        (Way::Hybrid(1), 0),
        (Way::Hybrid(2), 0),
        (Way::Hybrid(3), 0),
    ];
    ways.extend([0, 1, 7, 60, 1000].map(|cache| (Way::Tree, cache)));
    ways
}

/// Level 1 of a basis by one way.
pub fn level_1(state: &State, way: Way, cache: u64) -> Level {
    let mut state = state.clone();
    let answer = lift(&mut state, &Limits::document_01(), 1, way, cache);
    assert_eq!(answer.number, 0);
    state.levels()[1].clone()
}

/// Asserts that level 1 is this by all ways and by the plain reckoning.
pub fn assert_level_1(state: &State, expected: &[Vector]) {
    for (way, cache) in all_ways() {
        assert_eq!(level_1(state, way, cache), expected, "{way:?} {cache}");
    }
    let basis = state.basis.as_ref().expect("a basis");
    let (reckoned, _) = reckon_level(&basis.parameters, &basis.levels[..1], None);
    assert_eq!(reckoned.as_deref(), Ok(expected));
}

/// What is printed of a file, or nothing where it takes too many products.
pub fn within(what: Printed, file: &[u8], budget: u64) -> Option<String> {
    let (printed, _) = what(&Limits::document_01(), file, Some(budget));
    printed.map(|printed| String::from_utf8(printed).expect("text"))
}

pub fn text(what: Printed, file: &[u8]) -> String {
    within(what, file, u64::MAX).expect("it is not used up")
}

/// A line from its fields, written out by hand.
pub fn row(label: &str, fields: &[&str]) -> String {
    assert_eq!(fields.len(), 11);
    let mut text = " ".repeat(6 - label.len()) + label;
    for field in fields {
        text += &(" ".repeat(6 - field.len()) + field);
    }
    text + "\n"
}

/// The same with dashes behind the fields.
pub fn short_row(label: &str, fields: &[&str]) -> String {
    let mut all = fields.to_vec();
    all.resize(11, "-");
    row(label, &all)
}

/// The counts of a page that are not zero, by row and column.
pub type Table = BTreeMap<(i64, usize), u64>;

/// What a page says: the counts, the last line's, and the rows. The form of the page is tested on
/// the way.
pub fn read_page(text: &str) -> (Table, Vec<u64>, Vec<i64>) {
    assert!(text.ends_with('\n'));
    let mut table = BTreeMap::new();
    let mut rows: Vec<i64> = Vec::new();
    let mut last = None;
    for line in text.lines() {
        assert!(last.is_none(), "a line behind the last one");
        assert_eq!(line.len(), 72);
        let (label, rest) = line.split_at(6);
        let fields: Vec<u64> = (0..11)
            .map(|column| {
                let field = &rest[6 * column..6 * column + 6];
                let word = field.trim_start();
                assert!(word.len() < 6 && !word.is_empty() && !word.contains(' '));
                match word {
                    "-" => 0,
                    number => {
                        assert!(!number.starts_with('0'));
                        number.parse().expect("a number")
                    }
                }
            })
            .collect();
        if label == " total" {
            last = Some(fields);
            continue;
        }
        let number = label.trim_start().strip_suffix(':').expect("a colon");
        rows.push(number.parse().expect("a row"));
        assert_eq!(rows[rows.len() - 1].to_string(), number);
        for (column, count) in fields.into_iter().enumerate() {
            if count > 0 {
                table.insert((rows[rows.len() - 1], column), count);
            }
        }
    }
    (table, last.expect("a line `total`"), rows)
}

/// The numbers of a page that are not zero, by column and degree.
pub fn by_degree(counts: &Counts) -> BTreeMap<(u64, u64), u64> {
    let of_row = |(row, columns): (&i64, &BTreeMap<u64, u64>)| {
        let row = *row;
        let at = move |(column, count): (u64, u64)| {
            let degree = u64::try_from(row + column as i64).expect("a degree");
            ((column, degree), count)
        };
        columns.clone().into_iter().map(at)
    };
    let numbers = counts.iter().flat_map(of_row);
    numbers.filter(|(_, count)| *count > 0).collect()
}

/// The power products of degree d in n variables.
pub fn power_products(n: usize, d: u64) -> Vec<Exponents> {
    if n == 1 {
        let mut last = UNIT;
        last[0] = d;
        return vec![last];
    }
    let mut all = Vec::new();
    for e in 0..=d {
        for mut exponents in power_products(n - 1, d - e) {
            exponents[n - 1] = e;
            all.push(exponents);
        }
    }
    all
}

/// The monomials of degree d that no leading monomial divides, counted one by one, each component
/// with its own degree.
pub fn standard_monomials(problem: &Problem, d: u64) -> i128 {
    let mut count = 0;
    for (component, degree) in (1..).zip(&problem.degrees) {
        let Some(left) = d.checked_sub(*degree) else {
            continue;
        };
        for exponents in power_products(problem.parameters.n as usize, left) {
            let below = problem.elements.iter().any(|element| {
                let leading = &element[0].monomial;
                leading.component == component && divides(&leading.exponents, &exponents)
            });
            count += i128::from(!below);
        }
    }
    count
}

/// A value of a JSON text.
#[derive(Debug, Clone, PartialEq)]
pub enum Json {
    Null,
    Truth(bool),
    Number(i64),
    Text(String),
    List(Vec<Json>),
    Map(BTreeMap<String, Json>),
}

impl Json {
    /// Reads a text that has only whole numbers and no escapes but `\"` and the like.
    pub fn parse(text: &str) -> Json {
        let mut rest = text.trim_start();
        let value = Json::value(&mut rest);
        assert!(rest.trim().is_empty(), "text after the value");
        value
    }

    fn value(rest: &mut &str) -> Json {
        let next = rest.chars().next().expect("a value");
        match next {
            '{' => {
                let mut map = BTreeMap::new();
                Json::items(rest, '}', |rest| {
                    let Json::Text(name) = Json::value(rest) else {
                        panic!("a name");
                    };
                    Json::skip(rest, ":");
                    map.insert(name, Json::value(rest));
                });
                Json::Map(map)
            }
            '[' => {
                let mut list = Vec::new();
                Json::items(rest, ']', |rest| list.push(Json::value(rest)));
                Json::List(list)
            }
            '"' => {
                let mut text = String::new();
                let mut chars = rest[1..].char_indices();
                let end = loop {
                    match chars.next().expect("the text ends") {
                        (at, '"') => break at,
                        (_, '\\') => text.extend(chars.next().map(|(_, after)| after)),
                        (_, other) => text.push(other),
                    }
                };
                *rest = rest[1 + end + 1..].trim_start();
                Json::Text(text)
            }
            _ => {
                let end = rest
                    .find(|c: char| !c.is_ascii_alphanumeric() && c != '-')
                    .unwrap_or(rest.len());
                let word = &rest[..end];
                *rest = rest[end..].trim_start();
                match word {
                    "true" => Json::Truth(true),
                    "false" => Json::Truth(false),
                    "null" => Json::Null,
                    number => Json::Number(number.parse().expect("a number")),
                }
            }
        }
    }

    fn skip(rest: &mut &str, token: &str) {
        *rest = rest.strip_prefix(token).expect("the token").trim_start();
    }

    /// The items of a list or map, up to its closing sign.
    fn items(rest: &mut &str, close: char, mut item: impl FnMut(&mut &str)) {
        *rest = rest[1..].trim_start();
        while !rest.starts_with(close) {
            item(rest);
            if rest.starts_with(',') {
                Json::skip(rest, ",");
            }
        }
        *rest = rest[1..].trim_start();
    }

    pub fn get(&self, name: &str) -> Option<&Json> {
        match self {
            Json::Map(map) => map.get(name),
            _ => None,
        }
    }

    pub fn number(&self) -> i64 {
        match self {
            Json::Number(number) => *number,
            other => panic!("{other:?} is not a number"),
        }
    }
}
