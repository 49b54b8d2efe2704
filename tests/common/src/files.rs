// SPDX-License-Identifier: MIT OR Apache-2.0
//! Problem files: some written out, some random; and every way to damage one at a byte.

use reference::generate::problems::{element_of, random_basis, random_degrees, random_set, Size};
use reference::generate::weight_lines::{damage_weights, spoil_weight_line, with_random_weights};
use reference::monomial::{Level, Monomial, Parameters, Term, UNIT};
use reference::order::Modules;
use reference::random::Random;
use reference::reader::Problem;
use std::cmp::Ordering;

/// Small files that are read, with all codes, 1 to 8 variables, with and without D and G lines, and numbers at their limits.
pub const WRITTEN: [&str; 19] = [
    "R,7,2,1,1\nT,1,1,1,1,0\nT,1,1,1,0,1\nT,2,1,1,0,2\nT,2,1,1,0,0\nE,4\n",
    "R,2,1,1,1\nT,1,1,1,255\nE,1\n",
    "R,32749,1,2,16\nT,1,32748,16,255\nT,1,1,15,255\nT,1,10000,16,0\nE,3\n",
    "R,32749,8,3,2\nT,1,12345,2,1,2,3,4,5,6,7,8\nT,1,1,1,1,2,3,4,5,6,7,8\nT,2,9,1,255,0,0,0,0,0,0,1\nE,3\n",
    "R,101,3,3,1\nT,1,1,1,1,0,1\nT,1,100,1,0,2,0\nT,2,5,1,0,0,2\nT,3,7,1,0,0,1\nE,4\n",
    "R,3,4,2,3\nT,1,2,3,0,1,0,1\nT,1,1,2,0,1,0,1\nT,1,2,1,0,0,0,2\nE,3\n",
    "R,5,2,1,1\nT,1,4,1,10,0\nT,1,3,1,9,20\nT,1,2,1,9,10\nT,1,1,1,0,0\nT,2,1,1,0,1\nE,5\n",
    "R,181,2,2,2\nT,1,1,2,0,0\nT,1,1,1,0,0\nE,2\n",
    "R,11,1,3,1\nT,1,1,1,1\nT,2,1,1,1\nT,3,1,1,1\nT,4,1,1,1\nT,5,1,1,1\nT,6,1,1,1\nT,7,1,1,1\nT,8,1,1,1\nT,9,1,1,1\nT,10,1,1,1\nE,10\n",
    "R,13,2,1,1\nE,0\n",
    "R,7,3,1,2\nD,3,0\nT,1,1,1,2,0,0\nT,2,1,1,0,3,0\nT,3,1,2,1,0,0\nT,3,1,1,0,0,1\nE,4\n",
    "R,3,1,2,1\nD,255\nT,1,2,1,255\nT,1,1,1,0\nE,2\n",
    "R,65521,2,3,16\nD,0,1,2,3,4,5,6,7,8,9,10,99,100,199,254,255\nT,1,65520,16,255,255\nT,1,1,3,0,1\nT,2,1,1,0,0\nE,3\n",
    "R,13,2,1,3\nD,0,0,0\nE,0\n",
    "R,7,4,3,1\nG,1,0,1,0,0,1,0,1\nT,1,1,1,1,0,1,0\nT,2,1,1,0,1,0,1\nE,2\n",
    "R,7,2,1,2\nD,0,1\nG,1,0,2,15\nT,1,1,1,2,0\nT,1,1,2,1,0\nT,2,1,2,0,1\nE,3\n",
    "R,2,1,2,2\nG,0,15\nT,1,1,1,2\nE,1\n",
    "R,65521,8,2,1\nG,0,1,2,3,4,5,6,7,8,9,10,11,12,13,14,15\nT,1,1,1,0,0,0,0,0,0,0,255\nT,2,1,1,0,0,0,0,0,0,1,0\nE,2\n",
    "R,13,1,1,1\nD,7\nG,0,0\nE,0\n",
];

/// What a field may be changed to: numbers about every limit, and what is no number.
pub const FIELDS: [&str; 59] = [
    "0",
    "1",
    "2",
    "3",
    "4",
    "5",
    "6",
    "7",
    "8",
    "9",
    "10",
    "15",
    "16",
    "17",
    "63",
    "64",
    "65",
    "100",
    "101",
    "102",
    "180",
    "181",
    "254",
    "255",
    "256",
    "257",
    "2047",
    "2048",
    "2049",
    "32748",
    "32749",
    "32750",
    "32761",
    "32767",
    "32768",
    "32771",
    "63001",
    "65518",
    "65519",
    "65520",
    "65521",
    "65533",
    "65535",
    "65536",
    "65537",
    "99999",
    "100000",
    "4294967296",
    "18446744073709551616",
    "18446744073709551617",
    "00",
    "01",
    "065535",
    "",
    "+1",
    "-1",
    " 1",
    "1 ",
    "1\r",
];

const PRIMES: [u64; 10] = [2, 3, 5, 7, 101, 181, 32_003, 32_749, 65_519, 65_521];

/// One in twenty is medium, so many are small, the others tiny.
pub fn random_size(random: &mut Random, small: u64) -> Size {
    match random.below(20) {
        0 => Size::medium(),
        n if n <= small => Size::small(),
        _ => Size::tiny(),
    }
}

/// Mostly a Gröbner basis, else a set that mostly is none.
pub fn basis_or_set(random: &mut Random, size: &Size) -> Problem {
    if random.chance(85) {
        random_basis(random, size)
    } else {
        random_set(random, size)
    }
}

/// A file that is read: elements whose terms descend strictly.
pub fn random_problem(random: &mut Random) -> Problem {
    let parameters = Parameters {
        p: *random.pick(&PRIMES),
        n: random.between(1, 8),
        order: random.between(1, 3),
        s: match random.below(3) {
            0 => 1,
            _ => random.between(1, 16),
        },
    };
    let count = match random.below(8) {
        0 => random.between(60, 64),
        _ => random.between(1, 5),
    };
    let most = *random.pick(&[1, 2, 5, 255]);
    let mut elements = Level::new();
    for _ in 0..count {
        let wanted = random.between(1, 5);
        let mut terms: Vec<Term> = (0..wanted)
            .map(|_| Term {
                coefficient: random.between(1, parameters.p - 1),
                monomial: Monomial {
                    component: random.between(1, parameters.s),
                    exponents: std::array::from_fn(|x| {
                        if (x as u64) < parameters.n {
                            random.between(0, most)
                        } else {
                            0
                        }
                    }),
                },
            })
            .collect();
        let modules = Modules::new(parameters.file_order(), &[]);
        let order = |a: &Term, b: &Term| modules.compare(0, &b.monomial, &a.monomial);
        terms.sort_by(order);
        terms.dedup_by(|a, b| order(a, b) == Ordering::Equal);
        elements.push(terms);
    }
    Problem::with_degrees(parameters, random_degrees(random, parameters.s), elements)
}

/// Monomials whose frame has about 128 terms or more; where it has fewer, that of the next level may have more.
pub fn many_monomials(random: &mut Random) -> Problem {
    let parameters = Parameters {
        p: *random.pick(&[2, 7, 32_749]),
        n: random.between(4, 8),
        order: random.between(1, 3),
        s: random.between(1, 2),
    };
    let elements = (0..random.between(20, 64))
        .map(|_| {
            let mut exponents = UNIT;
            for _ in 0..random.between(2, 4) {
                exponents[random.below(parameters.n) as usize] += 1;
            }
            vec![Term {
                coefficient: random.between(1, parameters.p - 1),
                monomial: Monomial {
                    component: random.between(1, parameters.s),
                    exponents,
                },
            }]
        })
        .collect();
    Problem::with_degrees(parameters, random_degrees(random, parameters.s), elements)
}

/// x, y, z with tails of so many terms in other variables: a vector of level 2 has three terms more than three tails.
pub fn long_tails(random: &mut Random, tail: usize) -> Problem {
    let parameters = Parameters {
        p: *random.pick(&[2, 7, 32_749]),
        n: 5,
        order: 1,
        s: 1,
    };
    let elements = (0..3)
        .map(|x| {
            let mut monomials = std::collections::BTreeSet::new();
            while monomials.len() < tail {
                let mut exponents = UNIT;
                exponents[3] = random.below(30);
                exponents[4] = random.below(30);
                monomials.insert(exponents);
            }
            let mut leading = UNIT;
            leading[x] = 1;
            monomials.insert(leading);
            let terms: Vec<Term> = monomials
                .into_iter()
                .map(|exponents| Term {
                    coefficient: random.between(1, parameters.p - 1),
                    monomial: Monomial {
                        component: 1,
                        exponents,
                    },
                })
                .collect();
            element_of(&parameters, &terms)
        })
        .collect();
    Problem::with_degrees(parameters, random_degrees(random, parameters.s), elements)
}

/// The file with one of its fields changed.
pub fn with_field(file: &[u8], line: usize, field: usize, text: &str) -> Vec<u8> {
    let lines = file.split_inclusive(|byte| *byte == 10).enumerate();
    lines
        .flat_map(|(l, bytes)| {
            if l != line {
                return bytes.to_vec();
            }
            let end = bytes.len() - 1;
            let fields: Vec<&[u8]> = bytes[..end]
                .split(|byte| *byte == b',')
                .enumerate()
                .map(|(f, old)| if f == field { text.as_bytes() } else { old })
                .collect();
            let mut changed = fields.join(&b',');
            changed.push(10);
            changed
        })
        .collect()
}

/// The file with each field changed in turn, to every so-manyth of FIELDS.
pub fn with_each_field(file: &[u8], apart: usize, mut each: impl FnMut(&[u8])) {
    for (line, fields) in fields_of(file).into_iter().enumerate() {
        for field in 0..=fields {
            for text in FIELDS.iter().skip((line + field) % apart).step_by(apart) {
                each(&with_field(file, line, field, text));
            }
        }
    }
}

/// Damages the file once to three times.
pub fn damage_some(random: &mut Random, file: &mut Vec<u8>) {
    for _ in 0..random.between(1, 3) {
        damage_weights(random, file);
    }
}

/// A third of the files get a G line: mostly a right one, some a spoiled one.
pub fn with_some_weights(random: &mut Random, file: &mut Vec<u8>) {
    match random.below(36) {
        0..=9 => *file = with_random_weights(random, file),
        10 | 11 => spoil_weight_line(random, file),
        _ => {}
    }
}

/// How many fields each line has.
pub fn fields_of(file: &[u8]) -> Vec<usize> {
    file.split_inclusive(|byte| *byte == 10)
        .map(|line| line.split(|byte| *byte == b',').count())
        .collect()
}

/// Every file that one change at this byte gives: cut off there, flipped, deleted, doubled, replaced, inserted.
pub fn changed_at(file: &[u8], at: usize, mut each: impl FnMut(&[u8])) {
    const BYTES: &[u8] = b"0123456789,RDGTEtdg\n\r -+.\0\xff";
    each(&file[..at]);
    let mut changed = file.to_vec();
    for bit in 0..8 {
        changed[at] = file[at] ^ (1 << bit);
        each(&changed);
    }
    for byte in BYTES {
        changed[at] = *byte;
        each(&changed);
    }
    let mut shorter = file.to_vec();
    shorter.remove(at);
    each(&shorter);
    let mut longer = file.to_vec();
    longer.insert(at, file[at]);
    each(&longer);
    for byte in BYTES {
        longer[at] = *byte;
        each(&longer);
    }
}
