// SPDX-License-Identifier: MIT OR Apache-2.0
//! Whether a vector is in the module (request A12): quotients, remainder, and what is refused.

use crate::common::*;
use reference::behind::split;
use reference::frame::Reducers;
use reference::generate::cases::vector_case;
use reference::generate::pages::graded_problem;
use reference::generate::problems::{element_of, problem_file, random_basis, Size};
use reference::generate::vectors::{
    any_problem, limit_input, member, non_member, random_vector, vector_input, with_vector,
};
use reference::membership::{cut, membership, read_vector};
use reference::monomial::{multiply, Exponents, Monomial, Parameters, Term, Vector};
use reference::order::Modules;
use reference::random::Random;
use reference::reader::{read_problem, Problem};
use reference::Limits;
use std::cmp::Ordering;
use std::collections::BTreeMap;

/// x + y, y² + 1 modulo 7, lexicographic
const PROBLEM: [&str; 6] = [
    "R,7,2,1,1",
    "T,1,1,1,1,0",
    "T,1,1,1,0,1",
    "T,2,1,1,0,2",
    "T,2,1,1,0,0",
    "E,4",
];

fn with_lines(lines: &[&str]) -> Vec<u8> {
    file(&[&PROBLEM, lines].concat())
}

fn printed(lines: &[&str]) -> String {
    text(membership, &with_lines(lines))
}

/// The quotient terms, the remainder and M of a text; its form is tested on the way.
fn read_lines(text: &str, n: usize) -> (Vector, Vector, bool) {
    let (mut quotients, mut remainder) = (Vector::new(), Vector::new());
    let mut found = None;
    assert!(text.ends_with('\n'));
    for line in text.lines() {
        assert!(found.is_none(), "a line behind M");
        let mut fields = line.split(',');
        let letter = fields.next().expect("a letter");
        let numbers: Vec<u64> = fields
            .map(|field| field.parse().expect("a number"))
            .collect();
        let again: String = numbers.iter().map(|number| format!(",{number}")).collect();
        assert_eq!(format!("{letter}{again}"), line);
        match letter {
            "C" => {
                assert!(remainder.is_empty() && numbers.len() == 2 + n);
                quotients.push(term(numbers[0], numbers[1], &numbers[2..]));
            }
            "W" => {
                assert_eq!(numbers.len(), 2 + n);
                remainder.push(term(numbers[0], numbers[1], &numbers[2..]));
            }
            "M" => found = Some(numbers == [1]),
            _ => panic!("{line}"),
        }
    }
    (quotients, remainder, found.expect("an M line"))
}

// ---- the lines

#[test]
fn by_hand() {
    // the zero vector
    assert_eq!(printed(&[]), "M,1\n");
    // an element, a multiple of it, a sum
    assert_eq!(printed(&["V,1,1,1,0", "V,1,1,0,1"]), "C,1,1,0,0\nM,1\n");
    assert_eq!(printed(&["V,3,1,2,0", "V,3,1,1,1"]), "C,3,1,1,0\nM,1\n");
    // x·y² + x is in the module by way of the first element: y²·f_1 and f_1, less y·f_2
    let vector = ["V,1,1,1,2", "V,1,1,1,0"];
    assert_eq!(printed(&vector), "C,1,1,0,2\nC,1,1,0,0\nC,6,2,0,1\nM,1\n");
    // x² + y³ + 2
    let vector = ["V,1,1,2,0", "V,1,1,0,3", "V,2,1,0,0"];
    let lines = "C,1,1,1,0\nC,6,1,0,1\nC,1,2,0,1\nC,1,2,0,0\nW,6,1,0,1\nW,1,1,0,0\nM,0\n";
    assert_eq!(printed(&vector), lines);
    // nothing to divide
    let vector = ["V,4,1,0,1", "V,2,1,0,0"];
    assert_eq!(printed(&vector), "W,4,1,0,1\nW,2,1,0,0\nM,0\n");
}

#[test]
fn coefficients_and_components() {
    // 2x·e_1, 3y·e_2 and x·e_2 + 5x·e_1: the lowest number is taken
    let file = file(&[
        "R,7,2,3,2",
        "T,1,2,1,1,0",
        "T,2,3,2,0,1",
        "T,3,1,2,1,0",
        "T,3,5,1,1,0",
        "E,4",
        "V,1,2,1,1",
        "V,1,2,1,0",
        "V,4,1,1,0",
        "V,6,2,0,0",
    ]);
    // x·y·e_2 is 5x times 3y·e_2; x·e_2 is the third, which leaves 4 − 5 = 6 of x·e_1: 3 times 2x
    let lines = "C,5,2,1,0\nC,1,3,0,0\nC,3,1,0,0\nW,6,2,0,0\nM,0\n";
    assert_eq!(text(membership, &file), lines);
}

#[test]
fn a_d_or_g_line_changes_nothing() {
    let lines = ["D,3", "G,1,0,0,1"];
    let vector = ["V,1,1,2,0", "V,1,1,0,3"];
    let plain = printed(&vector);
    for middle in [&lines[..1], &lines[1..], &lines] {
        let all = [&PROBLEM[..1], middle, &PROBLEM[1..], &vector].concat();
        assert_eq!(text(membership, &file(&all)), plain);
    }
}

/// Sums by monomial of quotients applied to the elements, and of the remainder.
fn applied(problem: &Problem, quotients: &[Term], remainder: &[Term]) -> Vector {
    let p = problem.parameters.p;
    let mut terms = remainder.to_vec();
    for quotient in quotients {
        for own in &problem.elements[quotient.monomial.component as usize - 1] {
            terms.push(Term {
                coefficient: quotient.coefficient * own.coefficient % p,
                monomial: Monomial {
                    component: own.monomial.component,
                    exponents: multiply(&quotient.monomial.exponents, &own.monomial.exponents),
                },
            });
        }
    }
    element_of(&problem.parameters, &terms)
}

/// What the request says of everything that is printed for a vector.
fn assert_divided(problem: &Problem, vector: &[Term], text: &str) -> bool {
    let (quotients, remainder, found) = read_lines(text, problem.parameters.n as usize);
    assert_eq!(applied(problem, &quotients, &remainder), vector);
    assert_eq!(found, remainder.is_empty());
    let reducers = Reducers::new(&problem.elements);
    assert!(remainder
        .iter()
        .all(|term| reducers.reducer(&term.monomial).is_none()));
    let levels = [problem.elements.clone()];
    let modules = Modules::new(problem.parameters.file_order(), &levels);
    for (k, terms) in [(1, &quotients), (0, &remainder)] {
        for two in terms.windows(2) {
            let order = modules.compare(k, &two[0].monomial, &two[1].monomial);
            assert_eq!(order, Ordering::Greater);
        }
    }
    // each quotient term is of the lowest number: no element before it divides its image
    for quotient in &quotients {
        let image = modules.image(1, &quotient.monomial);
        let lowest = reducers.reducer(&image).expect("its own element");
        assert_eq!(lowest.number, quotient.monomial.component);
    }
    found
}

fn divided(problem: &Problem, vector: &[Term]) -> Option<bool> {
    let input = with_vector(problem_file(problem), &problem.parameters, vector);
    let text = within(membership, &input, 300_000)?;
    (!text.starts_with('X')).then(|| assert_divided(problem, vector, &text))
}

#[test]
fn members_and_others() {
    let mut random = Random::new(20_261_201);
    let mut counts = [0; 4];
    for _ in 0..1_500 {
        let problem = any_problem(&mut random);
        let vector = member(&mut random, &problem);
        if let Some(found) = divided(&problem, &vector) {
            assert!(found);
            counts[0] += 1;
        }
        if let Some(other) = non_member(&mut random, &problem, &vector) {
            if let Some(found) = divided(&problem, &other) {
                assert!(!found);
                counts[1] += 1;
            }
        }
        let any = random_vector(&mut random, &problem);
        if let Some(found) = divided(&problem, &any) {
            counts[2 + usize::from(found)] += 1;
        }
    }
    assert!(counts[0] > 1_200 && counts[1] > 900, "{counts:?}");
    assert!(counts[2] > 600 && counts[3] > 200, "{counts:?}");
}

/// Whether a vector, terms of one degree, is a combination of the multiples of elements of that
/// degree: by elimination in all of them, without a division.
fn spans(problem: &Problem, vector: &[Term], d: u64) -> bool {
    let p = problem.parameters.p;
    let n = problem.parameters.n as usize;
    let mut rows: BTreeMap<Monomial, BTreeMap<Monomial, u64>> = BTreeMap::new();
    let inverse = |a: u64| (1..p).find(|b| a * b % p == 1).expect("a field");
    let mut reduce = |mut row: BTreeMap<Monomial, u64>, keep: bool| {
        let mut from = None;
        loop {
            let next = match from {
                None => row.keys().next().copied(),
                Some(at) => row
                    .range((std::ops::Bound::Excluded(at), std::ops::Bound::Unbounded))
                    .map(|(key, _)| *key)
                    .next(),
            };
            let Some(at) = next else {
                return row.is_empty();
            };
            from = Some(at);
            let Some(own) = rows.get(&at) else {
                if keep {
                    let by = inverse(row[&at]);
                    for value in row.values_mut() {
                        *value = *value * by % p;
                    }
                    rows.insert(at, row);
                    return false;
                }
                continue;
            };
            let by = p - row[&at];
            for (key, value) in own {
                let sum = (row.get(key).copied().unwrap_or(0) + by * value) % p;
                match sum {
                    0 => row.remove(key),
                    _ => row.insert(*key, sum),
                };
            }
        }
    };
    let degree = |monomial: &Monomial| {
        let own: u64 = monomial.exponents.iter().sum();
        own + problem.degrees[monomial.component as usize - 1]
    };
    for element in &problem.elements {
        let Some(left) = d.checked_sub(degree(&element[0].monomial)) else {
            continue;
        };
        for factor in power_products(n, left) {
            let shifted = |exponents: &Exponents| multiply(&factor, exponents);
            let row = element.iter().map(|term| {
                let monomial = Monomial {
                    component: term.monomial.component,
                    exponents: shifted(&term.monomial.exponents),
                };
                (monomial, term.coefficient)
            });
            reduce(row.collect(), true);
        }
    }
    let own = vector.iter().map(|term| (term.monomial, term.coefficient));
    reduce(own.collect(), false)
}

#[test]
fn found_exactly_where_linear_algebra_finds_it() {
    let mut random = Random::new(20_261_202);
    let mut counts = [0; 2];
    while counts[0] + counts[1] < 300 {
        let problem = graded_problem(&mut random);
        let Parameters { p, n, s, .. } = problem.parameters;
        let d = random.between(1, 6);
        if n > 4 || p > 300 {
            continue;
        }
        // terms of degree d, at times those of an element's multiple besides
        let monomials: Vec<Monomial> = (1..=s)
            .filter_map(|component| {
                let left = d.checked_sub(problem.degrees[component as usize - 1])?;
                let all = power_products(n as usize, left);
                let own = move |exponents| Monomial {
                    component,
                    exponents,
                };
                Some(all.into_iter().map(own))
            })
            .flatten()
            .collect();
        if monomials.is_empty() {
            continue;
        }
        let few = random.between(1, 3);
        let terms: Vec<Term> = (0..few)
            .map(|_| Term {
                coefficient: random.between(1, p - 1),
                monomial: *random.pick(&monomials),
            })
            .collect();
        let vector = element_of(&problem.parameters, &terms);
        let Some(found) = divided(&problem, &vector) else {
            continue;
        };
        assert_eq!(found, spans(&problem, &vector, d));
        counts[usize::from(found)] += 1;
    }
    assert!(counts[0] > 50 && counts[1] > 50, "{counts:?}");
}

// ---- what is refused

#[test]
fn lines_that_are_refused() {
    let good = "V,1,1,1,1";
    for bad in [
        "",
        " ",
        "V",
        "V,",
        ",",
        "v,1,1,0,1",
        "W,1,1,0,1",
        "T,1,1,0,1",
        "VV,1,1,0,1",
        "V ,1,1,0,1",
        " V,1,1,0,1",
        "V,1,1,0",
        "V,1,1,0,1,0",
        "V,1,1,0,1,",
        "V,,1,0,1",
        "V,1,1,0,",
        "V,01,1,0,1",
        "V,1,00,0,1",
        "V,+1,1,0,1",
        "V,1,1,0,-1",
        "V,1,1,0,1 ",
        "V,1,1,0,1\r",
        "V,1,1,0,0x1",
        "V,1,1,0,65536",
        "V,99999,1,0,1",
        "V,1,1,0,18446744073709551617",
        "V,0,1,0,1",
        "V,7,1,0,1",
        "V,8,1,0,1",
        "V,65535,1,0,1",
        "V,1,0,0,1",
        "V,1,2,0,1",
        "V,1,17,0,1",
        "V,1,1,0,256",
        "V,1,1,256,0",
        "V,1,1,0,65535",
        "V,1,1,1,1",
        "V,2,1,1,1",
        "V,1,1,1,2",
        "V,1,1,2,0",
        "E,4",
        "E,0",
        "E",
        "R,7,2,1,1",
        "M,1",
        "C,1,1,0,0",
        "L,1,1",
        "P,1,1,1",
        "D,0",
        "V;1;1;0;1",
        "V,1,1,0,1,,",
        "V\0,1,1,0,1",
    ] {
        assert_eq!(printed(&[good, bad]), "X,23,8\n", "{bad:?}");
        // the first bad line counts
        assert_eq!(printed(&[good, bad, "V,0,0,0,0"]), "X,23,8\n", "{bad:?}");
        let alone = ["V,1,1,1,1", "V,2,1,1,1", "V,1,1,1,2", "V,1,1,2,0"].contains(&bad);
        if !alone {
            assert_eq!(printed(&[bad, good]), "X,23,7\n", "{bad:?}");
        }
    }
    for right in ["V,6,1,0,255", "V,1,1,0,0", "V,1,1,1,0"] {
        assert!(!printed(&[good, right]).starts_with("X,23"), "{right}");
    }
    // byte 10 is missing, or one is too many
    let mut input = with_lines(&[good]);
    input.pop();
    assert_eq!(text(membership, &input), "X,23,7\n");
    input.extend(b"\n\n");
    assert_eq!(text(membership, &input), "X,23,8\n");
    input.truncate(input.len() - 1);
    input.push(0);
    assert_eq!(text(membership, &input), "X,23,8\n");
}

#[test]
fn the_file_is_refused_first() {
    let bad = "V,0,0";
    // 1 at E's own line, and an E line that ends the file without being one
    for (lines, expected) in [
        (vec!["R,7,2,1,1", "T,1,1,1,1,0", "E,2", bad], "X,7,3\n"),
        (vec!["R,7,2,1,1", "T,1,1,1,1,0", "Exyz", bad], "X,1,3\n"),
        (vec!["R,7,2,1,1", "T,1,1,1,1,0", "E", "E,1"], "X,1,3\n"),
        (vec!["R,8,2,1,1", "T,1,1,1,1,0", "E,1", bad], "X,2,1\n"),
        (vec!["R,7,2,1,1", "T,1,0,1,1,0", "E,1", bad], "X,4,2\n"),
        (vec!["E,1", bad], "X,1,1\n"),
        (vec!["R,7,2,1,1", bad, "E,1"], "X,1,2\n"),
        (vec!["R,7,2,1,1", "T,1,1,1,1,0"], "X,1,3\n"),
        (vec!["R,7,2,1,1", "T,1,1,1,1,0", bad], "X,1,3\n"),
        (vec!["R,7,2,1,1", "D,256", "T,1,1,1,1,0", "E,1"], "X,18,2\n"),
        // x², xy + y²: the value follows
        (
            vec![
                "R,7,2,1,1",
                "T,1,1,1,2,0",
                "T,2,1,1,1,1",
                "T,2,1,1,0,2",
                "E,3",
                bad,
            ],
            "X,9,1\nW,6,1,0,3\n",
        ),
        // x + y^255, y²
        (
            vec![
                "R,7,2,1,1",
                "T,1,1,1,1,0",
                "T,1,1,1,0,255",
                "T,2,1,1,0,2",
                "E,3",
                bad,
            ],
            "X,13,0\n",
        ),
    ] {
        assert_eq!(text(membership, &file(&lines)), expected, "{lines:?}");
    }
    assert_eq!(text(membership, b""), "X,1,1\n");
    // an E line that is not ended is the file's
    let mut input = with_lines(&[]);
    input.pop();
    assert_eq!(text(membership, &input), "X,1,6\n");
}

/// V lines for so many powers of two variables, descending.
fn powers(count: u64, first: &str) -> Vec<String> {
    (0..count)
        .rev()
        .map(|at| format!("V,1,1,{first},{},{}", at / 200, at % 200))
        .collect()
}

fn input_of(head: &[String], vector: &[String]) -> Vec<u8> {
    let lines: Vec<&str> = head.iter().chain(vector).map(String::as_str).collect();
    file(&lines)
}

/// R with four variables, lexicographic, modulo 7, elements of T lines without their numbers, E.
fn head(elements: &[Vec<String>]) -> Vec<String> {
    let mut lines = vec!["R,7,4,1,1".to_string()];
    for (number, element) in (1..).zip(elements) {
        let numbered = |term: &String| format!("T,{number},1,1,{term}");
        lines.extend(element.iter().map(numbered));
    }
    lines.push(format!("E,{}", lines.len() - 1));
    lines
}

fn tail(count: u64) -> impl Iterator<Item = String> {
    (0..count)
        .rev()
        .map(|at| format!("0,0,{},{}", at / 200, at % 200))
}

#[test]
fn up_to_512_lines() {
    let head = head(&[vec!["1,0,0,0".to_string()]]);
    for (count, refused) in [(511, false), (512, false), (513, true), (600, true)] {
        let text = text(membership, &input_of(&head, &powers(count, "0,0")));
        match refused {
            false => assert_eq!(text.lines().count() as u64, count + 1),
            true => assert_eq!(text, format!("X,23,{}\n", 3 + 513)),
        }
    }
    // the 513th line is refused for what it is, not for what it says
    for line in ["", "V,1,1,0,0,0,0", "V,1"] {
        let mut vector = powers(512, "1,0");
        vector.push(line.to_string());
        let text = text(membership, &input_of(&head, &vector));
        assert_eq!(text, "X,23,516\n");
    }
}

#[test]
fn thirteen_and_fourteen() {
    // 13: x + y^200 and x·y^55, x·y^56
    let elements = head(&[vec!["1,0,0,0".to_string(), "0,200,0,0".to_string()]]);
    for (y, expected) in [
        (55, "C,1,1,0,55,0,0\nW,6,1,0,255,0,0\nM,0\n"),
        (56, "X,13,0\n"),
    ] {
        let vector = [format!("V,1,1,1,{y},0,0")];
        assert_eq!(text(membership, &input_of(&elements, &vector)), expected);
    }
    // the working value: x and so many others, where x + A has so many terms in A
    for (own, more, refused) in [
        (300, 212, false),
        (300, 213, true),
        (511, 1, false),
        (511, 2, true),
    ] {
        let mut element = vec!["1,0,0,0".to_string()];
        element.extend(tail(more));
        let mut vector = vec!["V,1,1,1,0,0,0".to_string()];
        vector.extend(powers(own, "0,1"));
        let text = text(membership, &input_of(&head(&[element]), &vector));
        match refused {
            true => assert_eq!(text, "X,14,0\n"),
            false => assert_eq!(text.lines().count() as u64, 1 + own + more + 1),
        }
    }
    // quotients: k of x and k·t of y
    for (k, t, more, refused) in [
        (8, 63, 0, false),
        (8, 63, 1, true),
        (2, 254, 2, false),
        (2, 254, 3, true),
    ] {
        let mut first = vec!["1,0,0,0".to_string()];
        first.extend((1..=t).rev().map(|y| format!("0,{y},0,0")));
        let elements = head(&[first, vec!["0,1,0,0".to_string()]]);
        let mut vector: Vec<String> = (0..k).rev().map(|z| format!("V,1,1,1,0,{z},0")).collect();
        vector.extend((0..more).rev().map(|w| format!("V,1,1,0,1,100,{w}")));
        let text = text(membership, &input_of(&elements, &vector));
        match refused {
            true => assert_eq!(text, "X,14,0\n"),
            false => {
                assert_eq!(text.lines().count() as u64, k + k * t + more + 1);
                assert!(text.ends_with("\nM,1\n"));
            }
        }
    }
    // the remainder: those of x before y is met, and the element's tail
    for (before, more, refused) in [(400, 112, false), (400, 113, true)] {
        let mut element = vec!["0,1,0,0".to_string()];
        element.extend(tail(more));
        let mut vector = powers(before, "1,0");
        vector.push("V,1,1,0,1,0,0".to_string());
        let text = text(membership, &input_of(&head(&[element]), &vector));
        match refused {
            true => assert_eq!(text, "X,14,0\n"),
            false => assert_eq!(text.lines().count() as u64, 1 + before + more + 1),
        }
    }
    // 23 comes before either
    let vector = ["V,1,1,1,56,0,0".to_string(), "V,1,1,1,56,0,0".to_string()];
    assert_eq!(text(membership, &input_of(&elements, &vector)), "X,23,6\n");
}

/// "A step records before its products", and "a product is tested for 13 before 14".
#[test]
fn which_of_two_comes_first() {
    let limits = Limits {
        working: 2,
        vector: 1,
        ..Limits::document_01()
    };
    // x + y^200 + z: x·y^56 has its second product past 255
    let elements = ["1,0,0,0", "0,200,0,0", "0,0,1,0"].map(str::to_string);
    let head = head(&[elements.to_vec()]);
    let printed = |vector: &[&str], limits: &Limits| {
        let vector: Vec<String> = vector.iter().map(|line| line.to_string()).collect();
        let (printed, _) = membership(limits, &input_of(&head, &vector), None);
        String::from_utf8(printed.expect("no budget")).expect("text")
    };
    assert_eq!(printed(&["V,1,1,1,56,0,0"], &limits), "X,13,0\n");
    // the first step has it too, before a second quotient term
    assert_eq!(
        printed(&["V,1,1,1,57,0,0", "V,1,1,1,56,0,0"], &limits),
        "X,13,0\n"
    );
    assert_eq!(
        printed(&["V,1,1,1,1,0,0", "V,1,1,1,0,0,0"], &limits),
        "X,14,0\n"
    );
    let limits = Limits {
        vector: 0,
        ..limits
    };
    assert_eq!(printed(&["V,1,1,1,56,0,0"], &limits), "X,14,0\n");
    // a third V line where a working value has two
    let three = ["V,1,1,0,2,0,0", "V,1,1,0,1,0,0", "V,1,1,0,0,0,0"];
    assert_eq!(printed(&three, &limits), "X,23,8\n");
}

// ---- the input

#[test]
fn the_file_ends_with_the_first_e() {
    for (input, file) in [
        ("", ""),
        ("R\n", "R\n"),
        ("R\nE", "R\nE"),
        ("R\nE\n", "R\nE\n"),
        ("R\nE,1\nV\nE,2\n", "R\nE,1\n"),
        ("E", "E"),
        ("\nE\nV", "\nE\n"),
        (" E\n,E\nRE\n", " E\n,E\nRE\n"),
    ] {
        let (first, rest) = split(input.as_bytes());
        assert_eq!(first, file.as_bytes());
        assert_eq!([first, rest].concat(), input.as_bytes());
    }
}

#[test]
fn what_is_behind_the_bytes_that_matter() {
    let limits = Limits::document_01();
    let long = vec![b'V'; 200_000];
    assert_eq!(cut(&limits, &long).len(), 97_281);
    assert_eq!(cut(&limits, &long[..97_281]).len(), 97_281);
    assert_eq!(cut(&limits, &long[..97_280]).len(), 97_280);
    // the longest of everything: 65,536 bytes and 512 lines of 62, then one byte
    let mut random = Random::new(20_261_203);
    let mut cases = 0;
    for _ in 0..600 {
        let mut input = match random.below(3) {
            0 => limit_input(&mut random),
            _ => vector_input(&mut random),
        };
        if random.chance(60) {
            // the first E line stays where it is, or there is none
            let byte = *random.pick(b"V,1\n ");
            let length = random.between(1, 130_000) as usize;
            input.extend(vec![byte; length]);
        }
        let whole = membership(&limits, &input, Some(300_000));
        let part = membership(&limits, cut(&limits, &input), Some(300_000));
        assert_eq!(whole, part);
        cases += u64::from(input.len() > 97_281);
    }
    assert!(cases > 50, "{cases}");
}

#[test]
fn the_longest_lines_in_the_longest_file() {
    // 65,536 bytes, then lines whose fields have five digits, so that each is out of range
    let mut random = Random::new(20_261_204);
    let file = reference::generate::files::exact_length_file(&mut random, 65_536);
    let limits = Limits::document_01();
    let lines = file.iter().filter(|byte| **byte == 10).count();
    let long = format!("V{}\n", ",65535".repeat(10));
    assert_eq!(long.len(), 62);
    let input = [file.clone(), long.into_bytes()].concat();
    assert_eq!(text(membership, &input), format!("X,23,{}\n", lines + 1));
    // a file that is a byte longer, with and without lines behind it
    let file = reference::generate::files::exact_length_file(&mut random, 65_537);
    for more in ["", "V,1,1,0,0,0,0,0,0,0,0\n", "x"] {
        let input = [file.clone(), more.as_bytes().to_vec()].concat();
        assert_eq!(text(membership, &input), "X,1,0\n");
    }
    // 70,000 bytes without a line that begins with E
    let input = vec![b'T'; 70_000];
    assert_eq!(
        membership(&limits, &input, None).0.as_deref(),
        Some(&b"X,1,0\n"[..])
    );
}

#[test]
fn vectors_are_read_as_they_are_written() {
    let mut random = Random::new(20_261_205);
    let limits = Limits::document_01();
    for _ in 0..300 {
        let problem = random_basis(&mut random, &Size::small());
        let vector = random_vector(&mut random, &problem);
        let input = with_vector(problem_file(&problem), &problem.parameters, &vector);
        assert_eq!(
            read_vector(&limits, &problem.parameters, &input),
            Ok(vector)
        );
        let (file, _) = split(&input);
        assert_eq!(read_problem(&limits, file).as_ref(), Ok(&problem));
    }
}

#[test]
fn a_budget() {
    let input = with_lines(&["V,1,1,2,0", "V,1,1,0,3", "V,2,1,0,0"]);
    let limits = Limits::document_01();
    let (_, usage) = membership(&limits, &input, None);
    assert!(membership(&limits, &input, Some(usage.products))
        .0
        .is_some());
    assert!(membership(&limits, &input, Some(usage.products - 1))
        .0
        .is_none());
}

#[test]
fn generated_inputs() {
    let mut refused: BTreeMap<u64, u64> = BTreeMap::new();
    for case in 1..=1_500 {
        let (_, lines) = vector_case("vectors", 3, case).expect("a kind");
        let text = String::from_utf8(lines).expect("text");
        let number = text
            .strip_prefix("X,")
            .map_or("0", |rest| rest.split(',').next().expect("a number"));
        *refused
            .entry(number.parse().expect("a number"))
            .or_default() += 1;
    }
    for number in [0, 1, 9, 13, 14, 23] {
        assert!(
            refused.get(&number).is_some_and(|count| *count >= 5),
            "{refused:?}"
        );
    }
    for case in 1..=200 {
        let (input, lines) = vector_case("divided", 3, case).expect("a kind");
        let limits = Limits::document_01();
        let problem = read_problem(&limits, split(&input).0).expect("it is read");
        let vector = read_vector(&limits, &problem.parameters, &input).expect("it is read");
        assert_divided(
            &problem,
            &vector,
            std::str::from_utf8(&lines).expect("text"),
        );
    }
}
