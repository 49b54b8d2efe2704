// SPDX-License-Identifier: MIT OR Apache-2.0
//! The Hilbert function (request A13): the lines, what they count, and what is refused.

use crate::common::*;
use reference::betti::page;
use reference::bidegrees::bidegrees;
use reference::buffers::*;
use reference::generate::cases::{hilbert_case, HILBERT_KINDS};
use reference::generate::degree_lines::{with_degrees, without_degree_lines};
use reference::generate::low::low_problem;
use reference::generate::pages::{
    graded_problem, is_graded, large_product, mixed_file, with_mixed_elements,
};
use reference::generate::problems::{problem_file, random_basis, random_degrees, Size};
use reference::generate::weight_lines::{with_random_weights, without_weight_lines};
use reference::hilbert::{hilbert, lines, value, HIGHEST_DEGREE};
use reference::monomial::{leading_monomial, Exponents, Parameters, Term};
use reference::random::Random;
use reference::reader::{read_problem, Problem};
use reference::sheet::sheet;
use reference::Limits;
use std::collections::{BTreeMap, BTreeSet};

/// The values of lines; their form and sequence are tested on the way.
fn read_values(text: &str) -> Vec<i128> {
    assert!(text.ends_with('\n'));
    let values: Vec<i128> = (0..)
        .zip(text.lines())
        .map(|(d, line)| {
            let value = line.strip_prefix(&format!("H,{d},")).expect("a line");
            let number: i128 = value.parse().expect("a number");
            assert_eq!(number.to_string(), value);
            assert!(number >= 0 && line.len() < 17, "{line}");
            number
        })
        .collect();
    assert_eq!(values.len(), 33);
    values
}

fn values(file: &[u8]) -> Vec<i128> {
    read_values(&text(hilbert, file))
}

/// How many subsets of k among m things there are, by Pascal's rule alone.
fn choose(m: u64, k: u64) -> i128 {
    let mut row = vec![1];
    for _ in 0..m {
        let next = row.windows(2).map(|two| two[0] + two[1]);
        row = [1].into_iter().chain(next).chain([1]).collect();
    }
    row.get(k as usize).copied().unwrap_or(0)
}

/// How many power products of degree d there are in n variables, none below 0.
fn all_of_degree(n: u64, d: i128) -> i128 {
    u64::try_from(d).map_or(0, |d| choose(d + n - 1, n - 1))
}

/// How many power products in the first n variables, of each degree 0 to 32, none of these divides:
/// by the exponent of the last variable.
fn by_slices(leads: &[Exponents], n: usize) -> Vec<i128> {
    let mut counts = vec![0; 33];
    if leads.iter().any(|lead| lead[..n].iter().all(|e| *e == 0)) {
        return counts;
    }
    if n == 0 {
        counts[0] = 1;
        return counts;
    }
    let (mut slice, mut before) = (Vec::new(), None);
    for e in 0..33 {
        let below = |lead: &&Exponents| lead[n - 1] <= e as u64;
        let here: Vec<Exponents> = leads.iter().filter(below).copied().collect();
        if before != Some(here.len()) {
            before = Some(here.len());
            slice = by_slices(&here, n - 1);
        }
        for d in e..33 {
            counts[d] += slice[d - e];
        }
    }
    counts
}

/// The values of a problem by slices, component by component.
fn values_by_slices(problem: &Problem) -> Vec<i128> {
    let mut values = vec![0; 33];
    for (component, degree) in (1..).zip(&problem.degrees) {
        let leads = problem.elements.iter().map(|f| leading_monomial(f));
        let leads: Vec<Exponents> = leads
            .filter(|lead| lead.component == component)
            .map(|lead| lead.exponents)
            .collect();
        let own = by_slices(&leads, problem.parameters.n as usize);
        for (d, value) in (0..).zip(&mut values) {
            if let Some(left) = u64::checked_sub(d, *degree) {
                *value += own[left as usize];
            }
        }
    }
    values
}

// ---- the lines

#[test]
fn the_printed_instance() {
    for order in 1..=3 {
        for p in [2, 7, 32_749, 65_521] {
            let r = format!("R,{p},2,{order},1");
            let file = file(&[
                &r,
                "T,1,1,1,1,0",
                "T,1,1,1,0,1",
                "T,2,1,1,0,2",
                "T,2,1,1,0,0",
                "E,4",
            ]);
            let mut printed = "H,0,1\nH,1,1\n".to_string();
            for d in 2..=32 {
                printed.push_str(&format!("H,{d},0\n"));
            }
            assert_eq!(text(hilbert, &file), printed);
        }
    }
    assert_eq!(HIGHEST_DEGREE, 32);
}

/// "1, 1, then 0", and others that are easy to count.
#[test]
fn by_hand() {
    let expect = |lines: &[&str], expected: &dyn Fn(i128) -> i128| {
        let expected: Vec<i128> = (0..33).map(expected).collect();
        assert_eq!(values(&file(lines)), expected, "{lines:?}");
    };
    // x², xy, y²: 1, x and y are left
    let squares = ["T,1,1,1,2,0", "T,2,1,1,1,1", "T,3,1,1,0,2", "E,3"];
    for order in ["R,7,2,1,1", "R,7,2,2,1", "R,7,2,3,1"] {
        let mut lines = vec![order];
        lines.extend(squares);
        expect(&lines, &|d| [1, 2].get(d as usize).copied().unwrap_or(0));
    }
    // the same with x² + y for x², which has terms of two degrees
    expect(
        &[
            "R,7,2,1,1",
            "T,1,1,1,2,0",
            "T,1,1,1,0,1",
            "T,2,1,1,1,1",
            "T,3,1,1,0,2",
            "E,4",
        ],
        &|d| [1, 2].get(d as usize).copied().unwrap_or(0),
    );
    // powers of one variable up to a bound, past the last line, or none
    expect(&["R,7,1,1,1", "T,1,1,1,32", "E,1"], &|d| i128::from(d < 32));
    expect(&["R,7,1,1,1", "T,1,1,1,33", "E,1"], &|_| 1);
    expect(&["R,7,1,1,1", "T,1,1,1,255", "E,1"], &|_| 1);
    expect(&["R,7,1,1,1", "T,1,1,1,0", "E,1"], &|_| 0);
    // nothing but a constant, and with it elements that it makes superfluous
    expect(
        &["R,7,3,2,1", "T,1,1,1,1,2,0", "T,2,1,1,0,0,0", "E,2"],
        &|_| 0,
    );
    // a component that no element leads with, and one of which nothing is left
    expect(&["R,7,2,3,2", "T,1,1,2,0,0", "E,1"], &|d| d + 1);
    expect(&["R,7,2,3,2", "T,1,1,2,0,0", "T,1,1,1,0,0", "E,2"], &|d| {
        d + 1
    });
    // one equation of degree 3 in four variables
    expect(&["R,7,4,3,1", "T,1,1,1,1,1,1,0", "E,1"], &|d| {
        all_of_degree(4, d) - all_of_degree(4, d - 3)
    });
}

/// "components' degrees included".
#[test]
fn degrees_of_components() {
    let element = ["T,1,1,1,2,0", "E,1"];
    let with = |line: &str| values(&file(&["R,7,2,1,1", line, element[0], element[1]]));
    // 1, then 2 for each degree
    let bare = values(&file(&["R,7,2,1,1", element[0], element[1]]));
    assert_eq!(bare[..3], [1, 2, 2]);
    for own in [0, 1, 2, 7, 30, 31, 32, 33, 34, 100, 254, 255_usize] {
        let mut expected = vec![0; own];
        expected.extend(&bare);
        expected.truncate(33);
        assert_eq!(with(&format!("D,{own}")), expected, "D,{own}");
    }
    // each component with its own: a generator of degree 32 counts, one of degree 33 does not
    let module = file(&[
        "R,7,2,1,2",
        "D,30,31",
        "T,1,1,1,2,0",
        "T,2,1,1,1,1",
        "T,3,1,2,0,1",
        "T,3,3,1,0,0",
        "E,4",
    ]);
    let mut expected = vec![0; 30];
    expected.extend([1, 3, 2]);
    assert_eq!(values(&module), expected);
    // all sixteen in all eight variables: the largest value that there is
    let degrees = format!("D{}\n", ",0".repeat(16));
    for line in ["", &degrees] {
        let printed = |exponent: &str| {
            let exponents = exponent.repeat(8);
            let file = format!("R,7,8,3,16\n{line}T,1,1,16{exponents}\nE,1\n");
            text(hilbert, file.as_bytes())
        };
        assert_eq!(read_values(&printed(",255"))[32], 16 * choose(39, 7));
        assert!(printed(",255").ends_with("H,32,246094992\n"));
        assert_eq!(read_values(&printed(",0"))[32], 15 * choose(39, 7));
    }
}

/// All variables, and 1 beside them: nine columns behind column 0.
#[test]
fn every_column() {
    for n in 1..=8_usize {
        for unit in [false, true] {
            let count = n + usize::from(unit);
            let mut lines = vec![format!("R,101,{n},2,1")];
            for x in 0..count {
                let exponents: Vec<&str> =
                    (0..n).map(|y| ["0", "1"][usize::from(x == y)]).collect();
                lines.push(format!("T,{},1,1,{}", x + 1, exponents.join(",")));
            }
            lines.push(format!("E,{count}"));
            let printed = values((lines.join("\n") + "\n").as_bytes());
            let mut expected = vec![0; 33];
            expected[0] = i128::from(!unit);
            assert_eq!(printed, expected, "{n} {unit}");
        }
    }
}

// ---- what the values count

/// The degree up to which monomials in n variables are counted one by one.
const COUNTED: [u64; 9] = [0, 32, 32, 32, 24, 12, 9, 7, 6];

/// "the value equals the number of monomials of that degree, components' degrees included, that no
/// leading monomial of the basis divides": counted one by one, and all degrees by slices.
#[test]
fn standard_monomials_of_random_files() {
    let mut random = Random::new(131);
    let (mut tried, mut mixed, mut modules, mut degrees) = (0, 0, 0, 0);
    let (mut variables, mut long) = ([0; 9], 0);
    for _ in 0..1_500 {
        let problem = match random.below(4) {
            0 => random_basis(&mut random, &Size::tiny()),
            1 => graded_problem(&mut random),
            _ => low_problem(&mut random),
        };
        let Some(printed) = within(hilbert, &problem_file(&problem), 20_000) else {
            continue;
        };
        if printed.starts_with("X,") {
            assert!(printed.starts_with("X,1"), "{printed}");
            continue;
        }
        let values = read_values(&printed);
        let n = problem.parameters.n;
        for d in 0..=COUNTED[n as usize] {
            assert_eq!(values[d as usize], standard_monomials(&problem, d), "{d}");
        }
        assert_eq!(values, values_by_slices(&problem));
        tried += 1;
        mixed += u64::from(!is_graded(&problem));
        let s = problem.parameters.s;
        modules += u64::from(s > 1);
        degrees += u64::from(s > 1 && problem.degrees.iter().any(|degree| *degree > 0));
        variables[n as usize] += 1;
        long += u64::from(values[32] > 0 && values.contains(&0));
    }
    assert!(tried > 1_200 && mixed > 400, "{tried} {mixed}");
    assert!(
        modules > 500 && degrees > 300 && long > 30,
        "{modules} {degrees} {long}"
    );
    assert!(
        variables[1..].iter().all(|count| *count > 10),
        "{variables:?}"
    );
}

/// The two ways to count agree where nothing was resolved.
#[test]
fn slices() {
    assert_eq!(by_slices(&[], 0)[..2], [1, 0]);
    for n in 1..=8 {
        let expected: Vec<i128> = (0..33).map(|d| all_of_degree(n, d)).collect();
        assert_eq!(by_slices(&[], n as usize), expected);
    }
    let mut random = Random::new(132);
    for _ in 0..300 {
        let parameters = Parameters {
            p: 2,
            n: random.between(1, 3),
            order: 1,
            s: random.between(1, 2),
        };
        let elements = (0..random.between(1, 5))
            .map(|_| {
                let exponents: Vec<u64> = (0..parameters.n).map(|_| random.below(6)).collect();
                vec![term(1, random.between(1, parameters.s), &exponents)]
            })
            .collect();
        let degrees = random_degrees(&mut random, parameters.s);
        let problem = Problem::with_degrees(parameters, degrees, elements);
        let counted: Vec<i128> = (0..33).map(|d| standard_monomials(&problem, d)).collect();
        assert_eq!(values_by_slices(&problem), counted);
    }
}

/// The values by the counts of the Betti page's text, or of the bidegrees' where all weights are 1
/// and 0, and Pascal's rule.
#[test]
fn values_from_the_page() {
    let mut random = Random::new(133);
    let mut tried = 0;
    for _ in 0..600 {
        let problem = graded_problem(&mut random);
        let file = problem_file(&problem);
        let Some(lines) = within(bidegrees, &file, 20_000) else {
            continue;
        };
        if lines.starts_with("X,") {
            assert_eq!(text(hilbert, &file), lines);
            continue;
        }
        let mut expected = vec![0; 33];
        for line in lines.lines() {
            let numbers: Vec<i128> = line[2..].split(',').flat_map(str::parse).collect();
            let sign = if numbers[0] % 2 == 0 { 1 } else { -1 };
            for (d, value) in (0..).zip(&mut expected) {
                let left = all_of_degree(problem.parameters.n, d - numbers[1]);
                *value += sign * numbers[3] * left;
            }
        }
        assert_eq!(values(&file), expected);
        tried += 1;
    }
    assert!(tried > 500, "{tried}");
}

/// The leading monomials alone, in any sequence and by any order code, have the same values.
#[test]
fn values_of_the_leading_monomials() {
    let mut random = Random::new(134);
    let (mut tried, mut mixed) = (0, 0);
    for _ in 0..800 {
        let problem = low_problem(&mut random);
        let Some(printed) = within(hilbert, &problem_file(&problem), 20_000) else {
            continue;
        };
        let mut leads = problem.clone();
        for element in &mut leads.elements {
            element.truncate(1);
            element[0].coefficient = 1;
        }
        leads.parameters.order = random.between(1, 3);
        random.shuffle(&mut leads.elements);
        let of_leads = text(hilbert, &problem_file(&leads));
        if printed.starts_with("X,") || of_leads.starts_with("X,") {
            continue;
        }
        assert_eq!(of_leads, printed);
        tried += 1;
        mixed += u64::from(!is_graded(&problem));
    }
    assert!(tried > 600 && mixed > 300, "{tried} {mixed}");
}

/// An element more, that the others generate, changes nothing; one that they do not generate takes
/// away.
#[test]
fn smaller_modules() {
    let mut random = Random::new(135);
    let mut tried = 0;
    for _ in 0..400 {
        let problem = low_problem(&mut random);
        let file = problem_file(&problem);
        let Some(printed) = within(hilbert, &file, 20_000) else {
            continue;
        };
        let mut double = problem.clone();
        let again = random.pick(&problem.elements).clone();
        double.elements.insert(0, again);
        let Some(of_double) = within(hilbert, &problem_file(&double), 40_000) else {
            continue;
        };
        // all that leads in one component is put away by 1
        let mut without = problem.clone();
        let component = problem.elements[0][0].monomial.component;
        without
            .elements
            .retain(|f| f[0].monomial.component != component);
        without.elements.push(vec![term(1, component, &[0])]);
        for element in &mut without.elements {
            element.truncate(1);
        }
        let of_less = text(hilbert, &problem_file(&without));
        if [&printed, &of_double, &of_less]
            .iter()
            .any(|text| text.starts_with("X,"))
        {
            continue;
        }
        assert_eq!(of_double, printed);
        let (whole, less) = (read_values(&printed), read_values(&of_less));
        assert!(whole.iter().zip(&less).all(|(a, b)| a >= b));
        tried += 1;
    }
    assert!(tried > 250, "{tried}");
}

/// One degree for all components moves the values by it, and a G line changes no byte.
#[test]
fn with_and_without_the_lines() {
    let mut random = Random::new(136);
    let (mut moved, mut weighted) = (0, 0);
    for case in 1..=1_200 {
        let (file, printed) = hilbert_case("hilbert", 2, case).expect("a kind");
        let printed = String::from_utf8(printed).expect("text");
        let Ok(problem) = read_problem(&Limits::document_01(), &file) else {
            continue;
        };
        let bare = without_weight_lines(&file);
        assert_eq!(text(hilbert, &bare), printed);
        let with = with_random_weights(&mut random, &bare);
        let own = random.between(0, 40);
        let bare = without_degree_lines(&bare);
        let degrees = with_degrees(&bare, &vec![own; problem.degrees.len()]);
        // the lines count for the length
        if with.len().max(degrees.len()) > 65_536 {
            continue;
        }
        assert_eq!(text(hilbert, &with), printed);
        weighted += 1;
        if printed.starts_with("X,") {
            continue;
        }
        let mut expected = vec![0; own as usize];
        expected.extend(values(&bare));
        expected.truncate(33);
        assert_eq!(values(&degrees), expected);
        moved += 1;
    }
    assert!(moved > 600 && weighted > 800, "{moved} {weighted}");
}

/// The files of `examples/` against what Singular and Macaulay2 say.
#[test]
fn lines_of_the_examples() {
    let examples = concat!(env!("CARGO_MANIFEST_DIR"), "/../examples");
    let truth = std::fs::read_to_string(format!("{examples}/truth.json")).expect("truth.json");
    let Json::Map(truth) = Json::parse(&truth) else {
        panic!("truth.json is a map");
    };
    let (mut seen, mut mixed) = (0, 0);
    for (name, facts) in truth {
        let file = std::fs::read(format!("{examples}/{name}.txt")).expect("an example");
        let Some(Json::List(expected)) = facts.get("hilbert") else {
            continue;
        };
        // what takes long is left to the tests of the program
        let Some(printed) = within(hilbert, &file, 1_000_000) else {
            continue;
        };
        if printed.starts_with("X,") {
            continue;
        }
        let expected: Vec<i128> = expected.iter().map(|v| i128::from(v.number())).collect();
        assert_eq!(read_values(&printed), expected, "{name}");
        seen += 1;
        mixed += u64::from(text(page, &file).starts_with("X,17,"));
    }
    assert!(seen > 30 && mixed > 2, "{seen} {mixed}");
}

// ---- refusals

/// What is refused is what the sheet refuses; where that has finished levels before it they are not
/// told.
#[test]
fn refused_as_the_sheet_is() {
    let mut met: BTreeMap<(String, bool), u64> = BTreeMap::new();
    for case in 1..=4_000 {
        let (file, printed) = hilbert_case("hilbert", 3, case).expect("a kind");
        let printed = String::from_utf8(printed).expect("text");
        let sheet = text(sheet, &file);
        let refusal = match sheet.find("X,") {
            None => {
                read_values(&printed);
                continue;
            }
            Some(at) => {
                assert!(at == 0 || sheet.as_bytes()[at - 1] == 10);
                &sheet[at..]
            }
        };
        assert_eq!(printed, refusal);
        let number = refusal[2..].split(',').next().expect("a number");
        let levels = refusal.len() < sheet.len();
        *met.entry((number.to_string(), levels)).or_default() += 1;
    }
    for number in [1, 2, 3, 4, 5, 6, 7, 8, 9, 13, 14, 15, 18, 24] {
        let came = met.contains_key(&(number.to_string(), false));
        assert!(came, "{number} did not come: {met:?}");
    }
    for number in ["17", "20", "25"] {
        assert!(met.keys().all(|(other, _)| other != number), "{met:?}");
    }
    assert!(met.keys().any(|(_, levels)| *levels), "{met:?}");
}

/// "so 17 is not tested": the files that the page refuses so have lines.
#[test]
fn two_degrees_are_no_refusal() {
    let mut random = Random::new(137);
    let (mut tried, mut whole) = (0, 0);
    while tried < 600 {
        let file = mixed_file(&mut random);
        if !within(page, &file, 20_000).is_some_and(|page| page.starts_with("X,17,")) {
            continue;
        }
        let Some(printed) = within(hilbert, &file, 20_000) else {
            continue;
        };
        tried += 1;
        if printed.starts_with("X,") {
            // nothing but a limit that lifting meets
            let level = printed.rsplit(',').next().expect("a place");
            assert!(printed.starts_with("X,1") && level != "0\n", "{printed}");
            continue;
        }
        read_values(&printed);
        whole += 1;
    }
    assert!(whole > 500, "{whole}");
    // 13 while lifting, where the page has 17
    let mut stopped = 0;
    for _ in 0..60 {
        let problem = large_product(&mut random);
        let file = problem_file(&with_mixed_elements(&mut random, problem));
        assert!(text(page, &file).starts_with("X,17,"));
        stopped += u64::from(text(hilbert, &file) == "X,13,1\n");
    }
    assert!(stopped > 10, "{stopped}");
}

/// Levels that a lower limit ends leave the sum as it then is; no rule tests that.
#[test]
fn small_limits() {
    let koszul = file(&[
        "R,7,3,1,1",
        "T,1,1,1,1,0,0",
        "T,2,1,1,0,1,0",
        "T,3,1,1,0,0,1",
        "E,3",
    ]);
    let first = |levels: u64| {
        let mut limits = Limits::document_01();
        limits.levels = levels;
        let printed = hilbert(&limits, &koszul, None).0.expect("no budget");
        let text = String::from_utf8(printed).expect("text");
        text.lines().take(3).map(str::to_string).collect::<Vec<_>>()
    };
    assert_eq!(first(0), ["H,0,1", "H,1,0", "H,2,-3"]);
    assert_eq!(first(1), ["H,0,1", "H,1,0", "H,2,0"]);
    assert_eq!(first(3), ["H,0,1", "H,1,0", "H,2,0"]);
    let refused = |change: &dyn Fn(&mut Limits)| {
        let mut limits = Limits::document_01();
        change(&mut limits);
        hilbert(&limits, &koszul, None).0.expect("no budget")
    };
    assert_eq!(refused(&|limits| limits.vectors = 2), b"X,15,0\n");
    assert_eq!(refused(&|limits| limits.level_terms = 5), b"X,15,1\n");
}

#[test]
fn a_budget_gives_up_and_is_no_refusal() {
    let example = concat!(env!("CARGO_MANIFEST_DIR"), "/../examples/katsura4_h_ds.txt");
    let file = std::fs::read(example).expect("the example");
    let limits = Limits::document_01();
    let (whole, usage) = hilbert(&limits, &file, None);
    assert_eq!(usage, sheet(&limits, &file, None).1);
    assert_eq!(hilbert(&limits, &file, Some(usage.products)).0, whole);
    assert_eq!(hilbert(&limits, &file, Some(usage.products - 1)).0, None);
    assert_eq!(hilbert(&limits, &file, Some(0)).0, None);
}

/// Any degree, not only those that have lines.
#[test]
fn values_past_the_lines() {
    let (mut state, answer) = read(b"R,7,2,1,1\nT,1,1,1,40,0\nT,2,1,1,0,60\nE,2\n");
    assert_eq!(answer.number, 0);
    let limits = Limits::document_01();
    for level in 1..=2 {
        lift(&mut state, &limits, level, reference::lifting::Way::Tree, 0);
    }
    let basis = state.basis.as_ref().expect("a basis");
    for d in 0..120 {
        let left = |bound: i128| (d - bound + 1).max(0);
        let expected = left(0) - left(40) - left(60) + left(100);
        assert_eq!(value(basis, d as u64), expected);
    }
    assert!(lines(basis).ends_with("H,32,33\n"));
}

// ---- the call

/// "file, state and work as for reading, an out of bytes, and instead of a place the length".
#[test]
fn the_call() {
    let mut limits = Limits::document_01();
    assert_eq!(hilbert_bytes(&limits), 31_773);
    limits.working = 0;
    assert_eq!(hilbert_bytes(&limits), 33 * 17);
    let limits = Limits::document_01();
    let lengths = [125_471, 3_072, 31_773];
    let mut random = Random::new(138);
    for more in [0, 1, 77] {
        for case in 1..=60 {
            let (file, expected) = hilbert_case("hilbert", 6, case).expect("a kind");
            let [state, work, out] = lengths.map(|length| length + more);
            let mut state = vec![random.bits() as u16; state];
            let mut work = vec![random.bits() as u16; work];
            let mut out = vec![random.bits() as u8; out];
            let found = HILBERT_CALL.make(&limits, &file, &mut state, &mut work, &mut out);
            assert_eq!(found, (0, expected.len() as u64));
            assert!(out.starts_with(&expected));
            assert!(out[expected.len()..].iter().all(|byte| *byte == 0));
            assert!(state.iter().chain(&work).all(|word| *word == 0));
        }
    }
    // too short by one, each of them: 16, and nothing is changed
    let small = b"R,7,2,1,1\nT,1,1,1,1,0\nT,2,1,1,0,1\nE,2\n";
    for file in [&small[..], b"", &[b'0'; 65_537]] {
        for short in 0..3 {
            let mut least = lengths;
            least[short] -= 1;
            let [state, work, out] = least;
            let (mut state, mut work, mut out) = (vec![5; state], vec![5; work], vec![5; out]);
            let found = HILBERT_CALL.make(&limits, file, &mut state, &mut work, &mut out);
            assert_eq!(found, (16, 0));
            assert!(state.iter().chain(&work).all(|word| *word == 5));
            assert!(out.iter().all(|byte| *byte == 5));
        }
    }
    // giving up changes nothing either
    let (mut state, mut work, mut out) = (vec![5; 125_471], vec![5; 3_072], vec![5; 31_773]);
    let found = HILBERT_CALL.make_within(&limits, small, &mut state, &mut work, &mut out, Some(0));
    assert_eq!(found, None);
    assert!(state.iter().chain(&work).all(|word| *word == 5));
    assert!(out.iter().all(|byte| *byte == 5));
}

/// The most that a refusal prints fits: 512 W lines of long terms.
#[test]
fn the_longest_refusal_fits() {
    let parameters = Parameters {
        p: 65_521,
        n: 8,
        order: 1,
        s: 16,
    };
    let element = |x1: u64, tail: u64| -> Vec<Term> {
        let mut terms = vec![term(1, 16, &[201])];
        for i in 0..tail {
            let exponents = [x1, 255 - i / 64, 255 - i % 64, 255, 255, 255, 255, 255];
            terms.push(term(65_519, 16, &exponents));
        }
        terms
    };
    // the second less the first: a term for each tail
    for (tail, number) in [(1, "9"), (2, "14")] {
        let problem = Problem::new(parameters, vec![element(199, tail), element(200, 511)]);
        let printed = text(hilbert, &problem_file(&problem));
        assert!(printed.starts_with(&format!("X,{number},")), "{printed}");
        if number == "9" {
            assert_eq!(printed.lines().count(), 513);
            assert!((512 * 40..=31_773).contains(&printed.len()));
        }
    }
}

// ---- what is generated

#[test]
fn every_refusal_is_generated() {
    let mut met: BTreeMap<String, u64> = BTreeMap::new();
    let mut last = BTreeSet::new();
    for case in 1..=6_000 {
        let (file, printed) = hilbert_case("hilbert", 4, case).expect("a kind");
        let text = String::from_utf8_lossy(&printed).into_owned();
        let number = match text.strip_prefix("X,") {
            Some(rest) => rest.split(',').next().expect("a number").to_string(),
            None => "lines".to_string(),
        };
        if number == "lines" {
            last.insert(read_values(&text)[32]);
        }
        *met.entry(number).or_default() += 1;
        if case % 100 == 0 {
            assert_eq!(hilbert_case("hilbert", 4, case), Some((file, printed)));
        }
    }
    for number in [1, 2, 3, 4, 5, 6, 7, 8, 9, 13, 14, 15, 18, 24] {
        assert!(met.contains_key(&number.to_string()), "{number}: {met:?}");
    }
    assert_eq!(met.len(), 15, "{met:?}");
    assert!(met["lines"] > 3_500 && met["1"] < 1_200, "{met:?}");
    assert!(last.len() > 300 && last.contains(&0), "{}", last.len());
    assert!(HILBERT_KINDS.contains(&"low") && hilbert_case("odd", 1, 1).is_none());
}

/// Of the files with low degrees hardly any has the same value throughout.
#[test]
fn low_files() {
    let limits = Limits::document_01();
    let (mut lines, mut mixed, mut weighted, mut highest) = (0, 0, 0, 0);
    for case in 1..=1_500 {
        let (file, printed) = hilbert_case("low", 5, case).expect("a kind");
        let text = String::from_utf8(printed).expect("text");
        let problem = read_problem(&limits, &file).expect("it is read");
        if text.starts_with("X,") {
            continue;
        }
        lines += 1;
        mixed += u64::from(!is_graded(&problem));
        weighted += u64::from(file.windows(3).any(|bytes| bytes == b"\nG,"));
        // a generator about the last line: its degree counts or just does not
        let of_element = |f: &Vec<Term>| {
            let lead = leading_monomial(f);
            let own = problem.degrees[lead.component as usize - 1];
            own + lead.exponents.iter().sum::<u64>()
        };
        highest += u64::from(
            problem
                .elements
                .iter()
                .any(|f| (32..=33).contains(&of_element(f))),
        );
    }
    assert!(lines > 1_400 && mixed > 600, "{lines} {mixed}");
    assert!(weighted > 250 && highest > 100, "{weighted} {highest}");
}
