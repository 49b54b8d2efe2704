// SPDX-License-Identifier: MIT OR Apache-2.0
//! Problem files with V lines behind them (request A12): vectors that are in the module, vectors that
//! are not, vectors at the limits, and V lines damaged in every way.

use crate::frame::Reducers;
use crate::generate::files::{damage, exact_length_file, plain_file};
use crate::generate::low::low_problem;
use crate::generate::pages::graded_problem;
use crate::generate::problems::{
    element_of, problem_file, random_basis, random_set, Size, LARGE_PRIMES, PRIMES,
};
use crate::generate::weight_lines::with_random_weights;
use crate::limits::Limits;
use crate::monomial::{multiply, Exponents, Level, Monomial, Parameters, Term, Vector, UNIT};
use crate::random::Random;
use crate::reader::{read_problem, Problem};

/// The V lines that there may be.
const MOST_LINES: usize = 512;

/// Any input: mostly a file that is accepted with a vector that is read, else one for each refusal.
pub fn vector_input(random: &mut Random) -> Vec<u8> {
    match random.below(100) {
        0..=54 => divided_input(random),
        55..=79 => {
            let mut input = divided_input(random);
            for _ in 0..random.between(1, 2) {
                damage_behind(random, &mut input);
            }
            input
        }
        80..=89 => limit_input(random),
        90..=93 => {
            // mostly no Gröbner basis
            let problem = random_set(random, &Size::small());
            let vector = random_vector(random, &problem);
            with_vector(problem_file(&problem), &problem.parameters, &vector)
        }
        _ => {
            let mut input = divided_input(random);
            for _ in 0..random.between(1, 3) {
                damage(random, &mut input);
            }
            input
        }
    }
}

/// A Gröbner basis and a vector that is read: in the module, not in it, or any.
pub fn divided_input(random: &mut Random) -> Vec<u8> {
    let problem = any_problem(random);
    let vector = match random.below(100) {
        0..=44 => member(random, &problem),
        45..=74 => {
            let vector = member(random, &problem);
            non_member(random, &problem, &vector).unwrap_or(vector)
        }
        75..=94 => random_vector(random, &problem),
        _ => Vector::new(),
    };
    let mut file = problem_file(&problem);
    if random.chance(20) {
        file = with_random_weights(random, &file);
    }
    with_vector(file, &problem.parameters, &vector)
}

/// A random Gröbner basis of any kind.
pub fn any_problem(random: &mut Random) -> Problem {
    match random.below(10) {
        0..=2 => random_basis(random, &Size::tiny()),
        3..=5 => random_basis(random, &Size::small()),
        6 => random_basis(random, &Size::small().over_large_primes()),
        7 => random_basis(random, &Size::medium()),
        8 => graded_problem(random),
        _ => low_problem(random),
    }
}

/// The file with a V line for each term of the vector behind it.
pub fn with_vector(mut file: Vec<u8>, parameters: &Parameters, vector: &[Term]) -> Vec<u8> {
    for term in vector {
        file.extend(vector_line(parameters, term).into_bytes());
    }
    file
}

/// `V,coefficient,component,e1,..,en` and byte 10.
pub fn vector_line(parameters: &Parameters, term: &Term) -> String {
    let mut line = format!("V,{},{}", term.coefficient, term.monomial.component);
    for exponent in &term.monomial.exponents[..parameters.n as usize] {
        line.push_str(&format!(",{exponent}"));
    }
    line.push('\n');
    line
}

/// Whether there may be such V lines.
fn fits(vector: &[Term]) -> bool {
    let small = |term: &Term| term.monomial.exponents.iter().all(|e| *e <= 255);
    vector.len() <= MOST_LINES && vector.iter().all(small)
}

/// A random combination of the elements that fits into V lines; zero at times.
pub fn member(random: &mut Random, problem: &Problem) -> Vector {
    let parameters = &problem.parameters;
    let most = *random.pick(&[1, 2, 3, 6, 12]);
    let mut vector = Vector::new();
    for _ in 0..random.between(1, most) {
        let element = random.pick(&problem.elements);
        let by = random.between(1, parameters.p - 1);
        let degree = *random.pick(&[0, 1, 2, 3, 6]);
        let factor = power_product(random, parameters, degree);
        let mut terms = vector.clone();
        terms.extend(element.iter().map(|term| Term {
            coefficient: by * term.coefficient % parameters.p,
            monomial: Monomial {
                component: term.monomial.component,
                exponents: multiply(&factor, &term.monomial.exponents),
            },
        }));
        let sum = element_of(parameters, &terms);
        if fits(&sum) {
            vector = sum;
        }
    }
    vector
}

/// The vector, which is in the module, with a monomial added that no leading monomial divides: it is
/// not in the module. `None` if no such monomial was found.
pub fn non_member(random: &mut Random, problem: &Problem, vector: &[Term]) -> Option<Vector> {
    let parameters = &problem.parameters;
    let reducers = Reducers::new(&problem.elements);
    for _ in 0..60 {
        let degree = random.below(7);
        let monomial = Monomial {
            component: random.between(1, parameters.s),
            exponents: power_product(random, parameters, degree),
        };
        if reducers.reducer(&monomial).is_none() {
            let mut terms = vector.to_vec();
            terms.push(Term {
                coefficient: random.between(1, parameters.p - 1),
                monomial,
            });
            return Some(element_of(parameters, &terms)).filter(|sum| fits(sum));
        }
    }
    None
}

/// Any vector.
pub fn random_vector(random: &mut Random, problem: &Problem) -> Vector {
    let parameters = &problem.parameters;
    let most = *random.pick(&[1, 3, 8, 30]);
    let degree = *random.pick(&[2, 4, 8]);
    let large = random.chance(10);
    let terms: Vec<Term> = (0..random.between(1, most))
        .map(|_| {
            let degree = random.between(0, degree);
            let mut exponents = power_product(random, parameters, degree);
            if large && random.chance(50) {
                let x = random.below(parameters.n) as usize;
                exponents[x] = random.between(240, 255);
            }
            Term {
                coefficient: random.between(1, parameters.p - 1),
                monomial: Monomial {
                    component: random.between(1, parameters.s),
                    exponents,
                },
            }
        })
        .collect();
    element_of(parameters, &terms)
}

fn power_product(random: &mut Random, parameters: &Parameters, degree: u64) -> Exponents {
    let mut exponents = UNIT;
    for _ in 0..degree {
        exponents[random.below(parameters.n) as usize] += 1;
    }
    exponents
}

/// An input at or past a limit: 13, 14 in the working value, the quotients and the remainder, 512
/// and 513 lines, a file of 65,536 bytes.
pub fn limit_input(random: &mut Random) -> Vec<u8> {
    match random.below(8) {
        0 => large_product_input(random),
        1 => long_value_input(random),
        2 => long_quotients_input(random),
        3 => long_remainder_input(random),
        4..=6 => {
            let count = *random.pick(&[510, 511, 512, 513, 514, 600]);
            let longest = random.chance(50);
            many_lines_input(random, count, longest)
        }
        _ => {
            let length = *random.pick(&[65_535, 65_536, 65_536, 65_537]);
            let file = exact_length_file(random, length);
            let mut parameters = read_problem(&Limits::document_01(), &file)
                .map_or(None, |problem| Some(problem.parameters));
            if parameters.is_none() {
                // one byte too many
                parameters = read_problem(&larger(), &file)
                    .ok()
                    .map(|own| own.parameters);
            }
            let parameters = parameters.expect("its lines are in order");
            let one = Term {
                coefficient: 1,
                monomial: Monomial {
                    component: 16,
                    exponents: UNIT,
                },
            };
            with_vector(file, &parameters, &[one])
        }
    }
}

fn larger() -> Limits {
    Limits {
        file: 70_000,
        ..Limits::document_01()
    }
}

fn lexicographic(random: &mut Random, n: u64) -> Parameters {
    let primes: &[u64] = match random.below(4) {
        0 => &LARGE_PRIMES,
        _ => &PRIMES,
    };
    Parameters {
        p: *random.pick(primes),
        n,
        order: 1,
        s: 1,
    }
}

fn terms_of(
    random: &mut Random,
    parameters: &Parameters,
    exponents: impl IntoIterator<Item = [u64; 4]>,
) -> Vector {
    let terms: Vec<Term> = exponents
        .into_iter()
        .map(|first| {
            let mut exponents = UNIT;
            exponents[..4].copy_from_slice(&first);
            Term {
                coefficient: random.between(1, parameters.p - 1),
                monomial: Monomial {
                    component: 1,
                    exponents,
                },
            }
        })
        .collect();
    element_of(parameters, &terms)
}

fn input_of(parameters: Parameters, elements: Level, vector: &[Term]) -> Vec<u8> {
    let file = problem_file(&Problem::new(parameters, elements));
    with_vector(file, &parameters, vector)
}

/// `x + y^a` and `x·y^b`, where a + b is about 255.
fn large_product_input(random: &mut Random) -> Vec<u8> {
    let parameters = lexicographic(random, 4);
    let a = random.between(1, 255);
    let b = (255 - a + random.below(3)).saturating_sub(1).min(255);
    let element = terms_of(random, &parameters, [[1, 0, 0, 0], [0, a, 0, 0]]);
    let vector = terms_of(random, &parameters, [[1, b, 0, 0], [0, 0, 1, 0]]);
    input_of(parameters, vec![element], &vector)
}

/// So many different exponents of z and w.
fn of_two(count: u64) -> impl Iterator<Item = [u64; 4]> {
    (0..count).map(|at| [0, 0, at / 200, at % 200])
}

/// `x` and terms that are left, and an element `x + A` with many terms: together about 512.
fn long_value_input(random: &mut Random) -> Vec<u8> {
    let parameters = lexicographic(random, 4);
    let own = random.between(1, 511);
    let tail = 512 - own + random.below(3) - 1;
    let mut element = vec![[1, 0, 0, 0]];
    element.extend(of_two(tail));
    let mut vector = vec![[1, 0, 0, 0]];
    vector.extend(of_two(own).map(|[_, _, z, w]| [0, 1, z, w]));
    let element = terms_of(random, &parameters, element);
    let vector = terms_of(random, &parameters, vector);
    input_of(parameters, vec![element], &vector)
}

/// `x + A` with t terms, all of them multiples of y, and `y`; k multiples of x: k + k·t quotient terms,
/// about 512.
fn long_quotients_input(random: &mut Random) -> Vec<u8> {
    let parameters = lexicographic(random, 4);
    let (k, t) = *random.pick(&[(8, 63), (8, 63), (16, 31), (2, 255), (19, 26), (27, 18)]);
    let mut element = vec![[1, 0, 0, 0]];
    element.extend((1..=t).map(|y| [0, y, 0, 0]));
    let first = terms_of(random, &parameters, element);
    let second = terms_of(random, &parameters, [[0, 1, 0, 0]]);
    let mut vector: Vec<[u64; 4]> = (0..k).map(|z| [1, 0, z, 0]).collect();
    // some that are left as quotients of y alone
    let more = random.below(3);
    vector.extend((0..more).map(|w| [0, 1, 100, w]));
    let vector = terms_of(random, &parameters, vector);
    input_of(parameters, vec![first, second], &vector)
}

/// `y + A` with many terms; powers of x that are left before y is met, so that the remainder has
/// about 512 terms, and the working value never as many.
fn long_remainder_input(random: &mut Random) -> Vec<u8> {
    let parameters = lexicographic(random, 4);
    let before = random.between(200, 500);
    let tail = 512 - before + random.below(3) - 1;
    let mut element = vec![[0, 1, 0, 0]];
    element.extend(of_two(tail));
    let mut vector: Vec<[u64; 4]> = of_two(before).map(|[_, _, z, w]| [1, 0, z, w]).collect();
    vector.push([0, 1, 0, 0]);
    let element = terms_of(random, &parameters, element);
    let vector = terms_of(random, &parameters, vector);
    input_of(parameters, vec![element], &vector)
}

/// So many V lines, at times as long as a line in range can be; some with bytes behind them.
fn many_lines_input(random: &mut Random, count: u64, longest: bool) -> Vec<u8> {
    let mut parameters = lexicographic(random, 4);
    let element = terms_of(random, &parameters, [[1, 0, 0, 0]]);
    let divided = random.between(0, 1);
    let vector = of_two(count).map(|[_, _, z, w]| [divided, 0, z, w]);
    let mut vector = terms_of(random, &parameters, vector);
    if longest {
        parameters.n = 8;
        for term in &mut vector {
            term.monomial.exponents[4..].fill(255);
        }
    }
    let mut input = input_of(parameters, vec![element], &vector);
    if random.chance(30) {
        let length = *random.pick(&[1, 60, 1_000, 40_000, 100_000]);
        let byte = *random.pick(b"V,0\n\r ");
        input.extend(vec![byte; length]);
    }
    input
}

/// The input with something wrong, at times with something that is right, behind the file's E line.
pub fn damage_behind(random: &mut Random, input: &mut Vec<u8>) {
    let (file, rest) = crate::behind::split(input);
    let mut lines: Vec<Vec<u8>> = rest
        .split_inclusive(|byte| *byte == 10)
        .map(<[u8]>::to_vec)
        .collect();
    let head = file.split(|byte| *byte == b'\n').next().unwrap_or_default();
    damage_vector_lines(random, head, &mut lines);
    let mut damaged = file.to_vec();
    damaged.extend(lines.concat());
    *input = damaged;
}

/// Fields that are no numbers, and numbers that are none of any line.
pub(crate) const BAD_FIELDS: [&str; 22] = [
    "",
    "00",
    "01",
    "007",
    "+1",
    "-1",
    " 1",
    "1 ",
    "1\r",
    "1\t",
    "0x1",
    "1.0",
    "1e2",
    "a",
    "\0",
    "65535",
    "65536",
    "65537",
    "99999",
    "100000",
    "4294967297",
    "18446744073709551617",
];

/// Lines that are no V lines.
pub(crate) const OTHER_LINES: [&[u8]; 14] = [
    b"\n",
    b"\r\n",
    b" \n",
    b"V\n",
    b",\n",
    b"V,\n",
    b"\0\n",
    b"\xff\n",
    b"#\n",
    b"E,0\n",
    b"E,1\n",
    b"M,1\n",
    b"R,7,2,1,1\n",
    b"T,1,1,1,0\n",
];

/// Bytes behind the last line.
pub(crate) const ENDS: [&[u8]; 6] = [b"\n", b"\0", b" ", b"V", b"V,1,1", b"\n\n"];

fn damage_vector_lines(random: &mut Random, head: &[u8], lines: &mut Vec<Vec<u8>>) {
    let head: Vec<u64> = String::from_utf8_lossy(head)
        .split(',')
        .skip(1)
        .map(|field| field.parse().unwrap_or(1))
        .collect();
    let number = |at: usize| head.get(at).copied().unwrap_or(1);
    let (p, n, s) = (number(0), number(1), number(3));
    if lines.is_empty() {
        // a term of its own
        let zeros = ",0".repeat(n as usize);
        lines.push(format!("V,1,1{zeros}\n").into_bytes());
    }
    let at = random.below(lines.len() as u64) as usize;
    let text = String::from_utf8_lossy(&lines[at]).into_owned();
    let ended = text.ends_with('\n');
    let mut fields: Vec<String> = text
        .trim_end_matches('\n')
        .split(',')
        .map(str::to_string)
        .collect();
    let last = fields.len() - 1;
    let mut set = |field: usize, value: String| {
        if let Some(own) = fields.get_mut(field) {
            *own = value;
        }
    };
    match random.below(24) {
        0 => set(
            random.between(0, last as u64) as usize,
            random.pick(&BAD_FIELDS).to_string(),
        ),
        1 => set(
            random.between(1, last.max(1) as u64) as usize,
            random.pick(&BAD_FIELDS).to_string(),
        ),
        2 => set(
            random.between(3, 2 + n) as usize,
            random.pick(&[255, 255, 256, 257, 300, 65_535]).to_string(),
        ),
        3 => set(1, random.pick(&[0, p - 1, p, p + 1, 65_535]).to_string()),
        4 => set(2, random.pick(&[0, s, s + 1, 16, 17, 65_535]).to_string()),
        5 => set(
            0,
            random
                .pick(&[
                    "v", "W", "T", "R", "E", "D", "G", "L", "P", "VV", "V ", " V", "", "C", "M",
                ])
                .to_string(),
        ),
        6 => {
            fields.pop();
        }
        7 => fields.push(random.pick(&["0", "1", "", "255"]).to_string()),
        8 => {
            // twice
            let line = lines[at].clone();
            lines.insert(at, line);
            return;
        }
        9 => {
            // not descending
            let other = random.below(lines.len() as u64) as usize;
            lines.swap(at, other);
            return;
        }
        10 => {
            lines.reverse();
            return;
        }
        11 => {
            // one line less changes the vector alone
            lines.remove(at);
            return;
        }
        12 => {
            let between = random.between(0, lines.len() as u64) as usize;
            let line = random.pick(&OTHER_LINES).to_vec();
            lines.insert(between, line);
            return;
        }
        13 => {
            // byte 10 is missing
            let end = lines.len() - 1;
            lines[end].pop();
            return;
        }
        14 => {
            let line = &mut lines[at];
            let place = random.below(line.len() as u64) as usize;
            line.truncate(place);
            return;
        }
        15 => {
            for line in lines.iter_mut() {
                line.pop();
                line.extend(b"\r\n");
            }
            return;
        }
        16 => {
            let bytes = random.pick(&ENDS).to_vec();
            lines.push(bytes);
            return;
        }
        17 => {
            // a line without an end, up to the bytes that matter and past them
            let length = *random.pick(&[61, 62, 63, 31_744, 31_745, 97_281, 120_000]);
            let byte = *random.pick(b"V,1 \r\0");
            lines.insert(at, vec![byte; length]);
            return;
        }
        18 => {
            // more lines than are allowed, all the same or blank
            let line = random.pick(&[lines[at].clone(), b"\n".to_vec()]).clone();
            lines.extend(vec![line; 600]);
            return;
        }
        19 => {
            let line = &mut lines[at];
            let place = random.below(line.len() as u64) as usize;
            line[place] ^= 1 << random.below(8);
            return;
        }
        20 => {
            let line = &mut lines[at];
            let place = random.below(line.len() as u64 + 1) as usize;
            line.insert(place, *random.pick(b"0123456789,V\n\r -+"));
            return;
        }
        21 => {
            // a file of its own
            let file = plain_file(random, &Size::tiny());
            lines.push(file);
            return;
        }
        22 => set(
            random.between(3, 2 + n) as usize,
            random.below(8).to_string(),
        ),
        _ => set(1, random.between(1, p.max(2) - 1).to_string()),
    }
    let mut line = fields.join(",").into_bytes();
    if ended {
        line.push(b'\n');
    }
    lines[at] = line;
}
