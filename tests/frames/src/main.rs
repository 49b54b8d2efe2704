// SPDX-License-Identifier: MIT OR Apache-2.0
//! Proved frames against the unrelated implementation: random leading monomials, and those of the example files and of the levels over them.
//!
//!     test-frames [LISTS [SEED]]           at least so many lists of leading monomials (150,000 without it)
//!     test-frames spoil number|count|row   spoils one answer: the run must find it and exit with 1

use common::arguments::{asked, words};
use common::buffers::{row, ROW};
use common::examples::examples;
use common::states::row_is;
use reference::engine::State;
use reference::frame::frame;
use reference::lifting::Way;
use reference::monomial::{leading_monomial, Exponents, Monomial, Term, Vector, VARIABLES};
use reference::order::Order;
use reference::random::Random;
use reference::reader::read_problem;
use reference::Limits;
use testing::frames as proved;

const LISTS: u64 = 150_000;
const SEED: u64 = 20_250_204;
/// More than any list here has, so that a frame need not be cut.
const ROWS: usize = 128 * 127 / 2;

#[derive(Clone, Copy, PartialEq)]
enum Spoiled {
    Number,
    Count,
    Row,
}

const SPOILS: [(&str, Spoiled); 3] = [
    ("number", Spoiled::Number),
    ("count", Spoiled::Count),
    ("row", Spoiled::Row),
];

/// The term of coefficient 1.
fn monic(monomial: &Monomial) -> Term {
    Term {
        coefficient: 1,
        monomial: *monomial,
    }
}

struct Compare {
    frame: Vec<u16>,
    region: Vec<u16>,
    heads: Vec<u16>,
    lists: u64,
    calls: u64,
    full: u64,
    terms: u64,
    spoil: Option<(u64, Spoiled)>,
}

impl Compare {
    /// One list by one order code: without a limit that counts, at its own length, one below it, and one more limit.
    fn list(&mut self, random: &mut Random, list: &[Monomial], code: u64) {
        let elements: Vec<Vector> = list.iter().map(|monomial| vec![monic(monomial)]).collect();
        let expected = frame(
            &elements,
            Order::from_code(code).expect("the order code is 1 to 3"),
        );
        self.heads.clear();
        for monomial in list {
            // the coefficient does not count
            let coefficient = random.below(65_536) as u16;
            let exponents = monomial.exponents.map(|e| e as u8);
            self.heads
                .extend(row(coefficient, monomial.component as u16, exponents));
        }
        self.lists += 1;
        self.terms += expected.len() as u64;
        let length = expected.len();
        self.call(&expected, list.len(), code, 128);
        self.call(&expected, list.len(), code, length);
        if length > 0 {
            self.call(&expected, list.len(), code, length - 1);
            let fewer = random.below(length as u64) as usize;
            self.call(&expected, list.len(), code, fewer);
        }
    }

    fn call(&mut self, expected: &[Monomial], count: usize, code: u64, limit: usize) {
        self.frame.fill(0xaaaa);
        self.region.fill(0x5555);
        // no word more than is asked for
        let (mut number, mut terms) = proved::form(
            &mut self.frame[..ROW * limit],
            limit,
            &mut self.region[..ROW * count],
            &self.heads,
            count,
            code as u16,
        );
        // the first call from there on whose frame has a term
        if let Some((_, what)) = self.spoil.filter(|(at, _)| *at <= self.calls && terms > 0) {
            self.spoil = None;
            match what {
                Spoiled::Number => number = 15,
                Spoiled::Count => terms += 1,
                Spoiled::Row => self.frame[ROW * terms - 1] ^= 1,
            }
        }
        self.calls += 1;
        let agrees = if expected.len() > limit {
            self.full += 1;
            (number, terms) == (15, 0)
        } else {
            (number, terms) == (0, expected.len())
                && self
                    .frame
                    .chunks_exact(ROW)
                    .zip(expected)
                    .all(|(row, monomial)| row_is(row, &monic(monomial)))
        };
        if !agrees {
            println!(
                "list {}, order code {code}, limit {limit}: the proved frame is {number} with {terms} terms, \
                 the unrelated implementation's has {}\nleading rows: {:?}",
                self.lists,
                expected.len(),
                self.heads
            );
            std::process::exit(1);
        }
    }
}

/// Leading monomials at random: few components and small exponents, so that generators are equal or divide each other often.
fn random_list(random: &mut Random) -> Vec<Monomial> {
    let count = match random.below(100) {
        0 => random.between(60, 128),
        1..=9 => random.between(13, 40),
        _ => random.between(0, 12),
    };
    let n = random.between(1, 8) as usize;
    let components = *random.pick(&[1, 1, 1, 2, 3, 16]);
    let most = *random.pick(&[1, 2, 2, 3, 5, 255]);
    let sparse = random.chance(40);
    let mut list: Vec<Monomial> = (0..count)
        .map(|_| Monomial {
            component: random.between(1, components),
            exponents: exponents(random, n, most, sparse),
        })
        .collect();
    // the same monomial twice: its generator is the unit monomial
    if count > 1 && random.chance(10) {
        let again = *random.pick(&list);
        let at = random.below(count) as usize;
        list[at] = again;
    }
    list
}

fn exponents(random: &mut Random, n: usize, most: u64, sparse: bool) -> Exponents {
    let mut e = [0; VARIABLES];
    for x in &mut e[..n] {
        if !sparse || random.chance(30) {
            *x = random.between(0, most);
        }
    }
    e
}

/// The leading monomials of the example files that are read, and of the levels that lifting makes over them.
fn real_lists() -> Vec<Vec<Monomial>> {
    let limits = Limits::document_01();
    let mut lists = Vec::new();
    for (_, file) in examples() {
        if let Ok(problem) = read_problem(&limits, &file) {
            lists.push(leads(&problem.elements));
        }
        let mut held = State::new();
        held.read(&limits, &file, Some(50_000));
        for k in 1..=4 {
            held.lift(&limits, k, Way::Hybrid(2), 0, Some(50_000));
        }
        lists.extend(held.levels().iter().skip(1).map(|level| leads(level)));
    }
    lists
}

fn leads(level: &[Vector]) -> Vec<Monomial> {
    level.iter().map(|v| *leading_monomial(v)).collect()
}

/// A slice that is one word too short is 16, and so is a count past 65,535.
fn short_slices() {
    let heads = [1; 4 * ROW];
    let (mut frame, mut region) = ([0; 3 * ROW], [0; 4 * ROW]);
    assert_eq!(
        proved::form(&mut frame, 3, &mut region, &heads, 4, 1),
        (0, 3)
    );
    let refused = (16, 0);
    assert_eq!(
        proved::form(&mut frame[1..], 3, &mut region, &heads, 4, 1),
        refused
    );
    assert_eq!(
        proved::form(&mut frame, 3, &mut region[1..], &heads, 4, 1),
        refused
    );
    assert_eq!(
        proved::form(&mut frame, 3, &mut region, &heads[1..], 4, 1),
        refused
    );
    assert_eq!(
        proved::form(&mut frame, usize::MAX, &mut region, &heads, 4, 1),
        refused
    );
    for count in [65_536, usize::MAX] {
        assert_eq!(
            proved::form(&mut frame, 3, &mut region, &heads, count, 1),
            refused
        );
    }
}

fn main() {
    let (wanted, seed, spoil) = asked(&words(), "lists", (LISTS, SEED), &SPOILS);
    let mut compare = Compare {
        frame: vec![0; ROW * ROWS],
        region: vec![0; ROW * 128],
        heads: Vec::new(),
        lists: 0,
        calls: 0,
        full: 0,
        terms: 0,
        spoil: spoil.map(|what| (16, what)),
    };
    let mut random = Random::new(seed);
    short_slices();
    let real = real_lists();
    for list in &real {
        for code in 1..=3 {
            compare.list(&mut random, list, code);
        }
    }
    let of_files = compare.lists;
    // parts of the real lists, in any sequence
    while compare.lists < wanted / 4 {
        let mut list = random.pick(&real).clone();
        random.shuffle(&mut list);
        list.truncate(random.between(0, 24) as usize);
        let code = random.between(1, 3);
        compare.list(&mut random, &list, code);
    }
    while compare.lists < wanted {
        let list = random_list(&mut random);
        let code = random.between(1, 3);
        compare.list(&mut random, &list, code);
    }
    println!(
        "frames: {} lists agree in {} calls, {} of them full ({of_files} lists of the example files and their levels, {} frame terms, seed {seed})",
        compare.lists, compare.calls, compare.full, compare.terms
    );
    // a run in which one of the answers hardly comes tests too little
    assert!(compare.full * 10 >= compare.calls && compare.full * 10 <= compare.calls * 9);
}
