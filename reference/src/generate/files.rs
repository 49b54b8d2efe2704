// SPDX-License-Identifier: MIT OR Apache-2.0
//! Files at and past the limits, and damaged files.

use crate::generate::degree_lines::{spoil_degree_line, with_degrees, with_random_degrees};
use crate::generate::problems::{
    element_of, problem_file, random_basis, random_degrees, random_set, Size, PRIMES,
};
use crate::monomial::{Exponents, Level, Monomial, Parameters, Term, Vector, UNIT};
use crate::random::Random;
use crate::reader::Problem;
use std::collections::BTreeSet;

/// A file of a random basis or, at times, of a random set; about half of them have a D line, some
/// with zeros alone.
pub fn plain_file(random: &mut Random, size: &Size) -> Vec<u8> {
    let problem = if random.chance(75) {
        random_basis(random, size)
    } else {
        random_set(random, size)
    };
    let file = problem_file(&problem);
    if random.chance(10) {
        return with_degrees(&file, &problem.degrees);
    }
    file
}

/// The file of these elements, at times with a D line.
fn file_with(random: &mut Random, parameters: Parameters, elements: Level) -> Vec<u8> {
    problem_file(&Problem::with_degrees(
        parameters,
        random_degrees(random, parameters.s),
        elements,
    ))
}

/// A file that stands at a limit or passes one.
pub fn limit_file(random: &mut Random) -> Vec<u8> {
    match random.below(20) {
        0 => exact_length_file(random, 65_536),
        1 => exact_length_file(random, 65_537),
        2 => exact_t_lines_file(random, 2_048),
        3 => exact_t_lines_file(random, 2_049),
        4 => many_elements_file(random),
        5 => large_exponents_file(random),
        6 => long_vector_file(random),
        7 => long_level_file(random),
        8 => large_frame_file(random),
        _ => edited_file(random),
    }
}

/// A small file in which one number, or two, is at or past its limit.
pub fn edited_file(random: &mut Random) -> Vec<u8> {
    let file = plain_file(random, &Size::small());
    edit(random, &file)
}

/// The file with one number, or two, at or past its limit.
pub fn edit(random: &mut Random, file: &[u8]) -> Vec<u8> {
    let mut lines = fields_of(file);
    for _ in 0..random.between(1, 2) {
        let line = match random.below(4) {
            0 => 0,
            1 => lines.len() - 1,
            _ => random.below(lines.len() as u64) as usize,
        };
        let fields = lines[line].len() as u64;
        if fields > 1 {
            let field = random.between(1, fields - 1) as usize;
            let bounds = bounds_of(&lines[line][0], field);
            lines[line][field] = match random.below(6) {
                0 => random
                    .pick(&[
                        "65535",
                        "65536",
                        "65537",
                        "99999",
                        "100000",
                        "4294967296",
                        "18446744073709551617",
                        "00",
                        "01",
                        "",
                        "+1",
                        "-1",
                        " 1",
                        "1 ",
                        "1\r",
                        "0x1",
                        "1.0",
                    ])
                    .to_string(),
                1 => random.below(70_000).to_string(),
                _ => random.pick(bounds).to_string(),
            };
        }
        if random.chance(5) {
            let copy = lines[line].last().cloned().unwrap_or_default();
            lines[line].push(copy);
        }
        if random.chance(5) {
            lines[line].pop();
        }
    }
    file_of(&lines)
}

/// Numbers about the limits of a field.
fn bounds_of(letter: &str, field: usize) -> &'static [u64] {
    match (letter, field) {
        ("R", 1) => &[
            0, 1, 2, 3, 4, 9, 181, 32_748, 32_749, 32_750, 32_761, 32_767, 32_768, 32_771, 65_521,
            65_535,
        ],
        ("R", 2) => &[0, 1, 2, 7, 8, 9, 10, 255, 65_535],
        ("R", 3) => &[0, 1, 2, 3, 4, 5, 65_535],
        ("R", _) => &[0, 1, 2, 15, 16, 17, 65_535],
        ("D", _) => &[0, 1, 127, 128, 254, 255, 256, 257, 511, 512, 65_535],
        ("G", _) => &[0, 1, 7, 8, 14, 15, 16, 17, 31, 32, 255, 65_535],
        ("T", 1) => &[0, 1, 2, 3, 4, 63, 64, 65, 66, 65_535],
        ("T", 2) => &[
            0, 1, 2, 6, 7, 8, 100, 101, 250, 251, 32_002, 32_003, 32_748, 32_749, 65_535,
        ],
        ("T", 3) => &[0, 1, 2, 3, 4, 15, 16, 17, 65_535],
        ("T", _) => &[0, 1, 2, 3, 127, 128, 254, 255, 256, 257, 65_535],
        _ => &[0, 1, 2, 3, 2_047, 2_048, 2_049, 65_535],
    }
}

fn fields_of(file: &[u8]) -> Vec<Vec<String>> {
    String::from_utf8_lossy(file)
        .lines()
        .map(|line| line.split(',').map(str::to_string).collect())
        .collect()
}

fn file_of(lines: &[Vec<String>]) -> Vec<u8> {
    let mut file = String::new();
    for line in lines {
        file.push_str(&line.join(","));
        file.push('\n');
    }
    file.into_bytes()
}

/// A file of exactly so many bytes (60,000 to 66,000), its lines in order. It has one element for
/// each of some components, so that there is no frame.
pub fn exact_length_file(random: &mut Random, length: usize) -> Vec<u8> {
    let parameters = Parameters {
        p: 32_749,
        n: 8,
        order: random.between(1, 3),
        s: 16,
    };
    let elements_wanted = random.between(1, 4);
    let t_lines = random.between(1_500, 1_620);
    let mut elements = Level::new();
    for component in 1..=elements_wanted {
        let lines = t_lines / elements_wanted;
        let mut monomials: BTreeSet<Exponents> = BTreeSet::new();
        while (monomials.len() as u64) < lines {
            monomials.insert(std::array::from_fn(|_| random.between(100, 255)));
        }
        elements.push(element_with(&parameters, component, &monomials, 100));
    }
    let mut problem =
        Problem::with_degrees(parameters, random_degrees(random, parameters.s), elements);
    set_length(&mut problem, length);
    problem_file(&problem)
}

/// Makes coefficients longer or shorter until the file has this length.
fn set_length(problem: &mut Problem, length: usize) {
    let mut now = problem_file(problem).len();
    for term in problem.elements.iter_mut().flatten() {
        // the coefficient has three digits and may have one to five
        let (coefficient, change) = match length as i64 - now as i64 {
            0 => break,
            1 => (1_000, 1),
            difference if difference > 1 => (10_000, 2),
            -1 => (10, -1),
            _ => (1, -2),
        };
        term.coefficient = coefficient;
        now = (now as i64 + change) as usize;
    }
}

fn element_with(
    parameters: &Parameters,
    component: u64,
    monomials: &BTreeSet<Exponents>,
    coefficient: u64,
) -> Vector {
    let terms: Vec<Term> = monomials
        .iter()
        .map(|exponents| Term {
            coefficient,
            monomial: Monomial {
                component,
                exponents: *exponents,
            },
        })
        .collect();
    element_of(parameters, &terms)
}

/// A file with exactly so many T lines and short lines.
pub fn exact_t_lines_file(random: &mut Random, t_lines: usize) -> Vec<u8> {
    let parameters = Parameters {
        p: *random.pick(&PRIMES),
        n: random.between(2, 3),
        order: random.between(1, 3),
        s: 2,
    };
    let mut elements = Level::new();
    let mut left = t_lines;
    for component in 1..=2 {
        let lines = if component == 2 {
            left
        } else {
            random.between(1, left as u64 - 1) as usize
        };
        left -= lines;
        let mut monomials: BTreeSet<Exponents> = BTreeSet::new();
        while monomials.len() < lines {
            let mut exponents = UNIT;
            for exponent in exponents.iter_mut().take(parameters.n as usize) {
                *exponent = random.below(100);
            }
            monomials.insert(exponents);
        }
        elements.push(element_with(&parameters, component, &monomials, 1));
    }
    file_with(random, parameters, elements)
}

/// 63 to 65 elements, of few components or with one leading monomial over and over.
fn many_elements_file(random: &mut Random) -> Vec<u8> {
    let parameters = Parameters {
        p: *random.pick(&PRIMES),
        n: random.between(1, 3),
        order: random.between(1, 3),
        s: 16,
    };
    let equal = random.chance(50);
    let elements = (0..random.between(63, 65))
        .map(|i| {
            let mut exponents = UNIT;
            exponents[0] = if equal { 3 } else { 64 - i.min(64) };
            vec![Term {
                coefficient: random.between(1, parameters.p - 1),
                monomial: Monomial {
                    component: 1 + i % random.between(1, 16),
                    exponents,
                },
            }]
        })
        .collect();
    file_with(random, parameters, elements)
}

/// x + y^a and powers of y and z, so that products come close to exponent 255 or past it.
fn large_exponents_file(random: &mut Random) -> Vec<u8> {
    let p = *random.pick(&PRIMES);
    let a = *random.pick(&[126, 127, 128, 250, 251, 252, 253, 254, 255]);
    let b = random.between(1, 5);
    let c = *random.pick(&[1, 2, 3, 100, 254, 255]);
    let one = p - 1;
    let mut file = format!("R,{p},3,1,1\nT,1,1,1,1,0,0\nT,1,{one},1,0,{a},0\n");
    if random.chance(50) {
        file.push_str(&format!("T,2,1,1,0,{b},0\nT,3,1,1,0,0,{c}\nE,4\n"));
    } else {
        file.push_str(&format!("T,2,1,1,0,{b},0\nT,2,1,1,0,0,{c}\nE,4\n"));
    }
    file.into_bytes()
}

/// x + (about 510 terms), y: the vector has about 512 terms.
fn long_vector_file(random: &mut Random) -> Vec<u8> {
    let parameters = Parameters {
        p: *random.pick(&PRIMES),
        n: 4,
        order: 1,
        s: 1,
    };
    let t = random.between(508, 513);
    let mut monomials: BTreeSet<Exponents> = BTreeSet::new();
    while (monomials.len() as u64) < t {
        monomials.insert([0, 0, random.below(40), random.below(40), 0, 0, 0, 0]);
    }
    monomials.insert([1, 0, 0, 0, 0, 0, 0, 0]);
    let y = BTreeSet::from([[0, 1, 0, 0, 0, 0, 0, 0]]);
    let mut elements = vec![
        element_with(&parameters, 1, &monomials, 1),
        element_with(&parameters, 1, &y, 1),
    ];
    if random.chance(50) {
        elements.reverse();
    }
    file_with(random, parameters, elements)
}

/// Variables with tails so long that a level has about 2,048 terms.
fn long_level_file(random: &mut Random) -> Vec<u8> {
    let parameters = Parameters {
        p: *random.pick(&PRIMES),
        n: 8,
        order: 1,
        s: 1,
    };
    let leads = random.between(4, 6);
    let pairs = leads * (leads - 1) / 2;
    // each vector of level 1 has two terms more than two tails
    let t = (2_048 / pairs - 2) / 2 + random.below(3) - 1;
    let mut elements = Level::new();
    for x in 0..leads {
        let mut monomials: BTreeSet<Exponents> = BTreeSet::new();
        while (monomials.len() as u64) < t {
            let mut exponents = UNIT;
            exponents[6] = random.below(60);
            exponents[7] = random.below(60);
            monomials.insert(exponents);
        }
        let mut leading = UNIT;
        leading[x as usize] = 1;
        monomials.insert(leading);
        elements.push(element_with(&parameters, 1, &monomials, 1));
    }
    file_with(random, parameters, elements)
}

/// Many monomials, so that a frame has about 128 terms or more.
pub fn large_frame_file(random: &mut Random) -> Vec<u8> {
    let parameters = Parameters {
        p: *random.pick(&PRIMES),
        n: random.between(3, 8),
        order: random.between(1, 3),
        s: random.between(1, 2),
    };
    let elements = (0..random.between(8, 64))
        .map(|_| {
            let mut exponents = UNIT;
            for _ in 0..random.between(2, 5) {
                exponents[random.below(parameters.n) as usize] += 1;
            }
            vec![Term {
                coefficient: random.between(1, parameters.p - 1),
                monomial: Monomial {
                    component: random.between(1, parameters.s),
                    exponents,
                },
            }]
        })
        .collect();
    file_with(random, parameters, elements)
}

/// A file damaged once to three times.
pub fn damaged_file(random: &mut Random) -> Vec<u8> {
    let size = if random.chance(80) {
        Size::small()
    } else {
        Size::medium()
    };
    let mut file = plain_file(random, &size);
    for _ in 0..random.between(1, 3) {
        damage(random, &mut file);
    }
    file
}

/// Truncates, flips, deletes, doubles, inserts or changes at any byte, swaps, drops or doubles
/// lines, or spoils the D line, at times by a right one.
pub fn damage(random: &mut Random, file: &mut Vec<u8>) {
    if file.is_empty() {
        file.push(random.bits() as u8);
        return;
    }
    let at = random.below(file.len() as u64) as usize;
    match random.below(16) {
        0 => file.truncate(at),
        1 => file[at] ^= 1 << random.below(8),
        2 => {
            file.remove(at);
        }
        3 => file.insert(at, file[at]),
        4 => {
            let byte = random.bits() as u8;
            file.insert(at, byte);
        }
        5 => {
            let byte = *random.pick(b"0123456789,RDTE\n\r -+");
            file.insert(at, byte);
        }
        6 => file[at] = *random.pick(b"0123456789,RDTE\n"),
        kind @ 7..=9 => damage_lines(random, file, kind),
        10 if random.chance(25) => *file = with_random_degrees(random, file),
        10 | 11 => spoil_degree_line(random, file),
        _ => {
            // a digit becomes another one, so that the line keeps its shape
            let digits = (at..file.len()).chain(0..at);
            if let Some(digit) = digits
                .into_iter()
                .find(|place| file[*place].is_ascii_digit())
            {
                file[digit] = *random.pick(b"0123456789");
            }
        }
    }
}

fn damage_lines(random: &mut Random, file: &mut Vec<u8>, kind: u64) {
    let mut lines: Vec<Vec<u8>> = file
        .split_inclusive(|byte| *byte == 10)
        .map(<[u8]>::to_vec)
        .collect();
    let count = lines.len() as u64;
    let (a, b) = (random.below(count) as usize, random.below(count) as usize);
    match kind {
        7 => lines.swap(a, b),
        8 => {
            lines.remove(a);
        }
        _ => {
            let line = lines[a].clone();
            lines.insert(b, line);
        }
    }
    *file = lines.concat();
}
