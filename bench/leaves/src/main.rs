// SPDX-License-Identifier: MIT OR Apache-2.0
//! Times proved leaves beside plain Rust: comparison, product with 13's test, the search for an equal monomial, the reducer search, insertion into a
//! descending sum. Plain Rust works on slices of packed terms; beside it stands the same on the proved code's own rows.
//! All work on the same terms, in turns; a ratio is that of the medians. One argument: how many turns.

mod on_rows;
mod plain;

use bench_common::plain::{terms, Term};
use bench_common::rows::Numbers;
use bench_common::timing::{medians, turns, Run};
use common::buffers::{carried, count, exponents, rows, DEGREES, HEAD, ROW, STATE, VECTORS};
use std::hint::black_box;
use testing::leaves as proved;

/// Operands of one call; terms of one sum.
const OPERANDS: usize = 4_096;
const TERMS: usize = 512;
const P: u16 = 32_749;

struct Random(Numbers);

impl Random {
    fn row(&mut self, component: u64, most: u64) -> [u16; ROW] {
        let coefficient = 1 + self.0.below(u64::from(P) - 1) as u16;
        self.0.row(coefficient, component as u16, most)
    }

    /// Rows with components up to a bound.
    fn rows(&mut self, count: usize, components: u64, most: u64) -> Vec<u16> {
        (0..count)
            .flat_map(|_| {
                let component = 1 + self.0.below(components);
                self.row(component, most)
            })
            .collect()
    }

    /// Any of these rows, so many times.
    fn some_of(&mut self, rows: &[u16], count: usize) -> Vec<u16> {
        let rows: Vec<&[u16]> = rows.chunks_exact(ROW).collect();
        (0..count)
            .flat_map(|_| rows[self.0.below(rows.len() as u64) as usize].to_vec())
            .collect()
    }

    /// A sound state of two levels whose vectors have one term: 4 elements, and over them 128 vectors in the sequence of their components.
    fn state(&mut self, code: u16) -> Vec<u16> {
        let mut state = vec![0; STATE];
        state[..HEAD].copy_from_slice(&[P, 8, code, 1, 2]);
        for (k, vectors) in [(0, 4), (1, VECTORS)] {
            state[count(k)] = vectors as u16;
            for v in 0..vectors {
                state[count(k) + 1 + v] = v as u16 + 1;
                let component = if k == 0 { 1 } else { 1 + v as u64 / 32 };
                let row = self.row(component, 6);
                state[rows(k) + ROW * v..][..ROW].copy_from_slice(&row);
                let below = if k == 0 { DEGREES } else { carried(k - 1) };
                let degree = exponents(&row).iter().map(|e| u16::from(*e)).sum::<u16>();
                state[carried(k) + v] = degree + state[below + component as usize - 1];
            }
        }
        state
    }
}

/// The proved code first, then plain Rust's forms.
fn beside(what: &str, turns: usize, runs: [Run<()>; 3]) {
    let [own, packed, on_rows] = medians(turns, &mut (), runs);
    println!(
        "{what}: proved {own:.1} µs; plain Rust on packed terms {packed:.1} µs, ratio {:.2}; on rows {on_rows:.1} µs, ratio {:.2}",
        own / packed,
        own / on_rows
    );
}

fn comparison(random: &mut Random, turns: usize) {
    for (name, most) in [("exponents to 255", 255), ("exponents 0 and 1", 1)] {
        let rows = random.rows(OPERANDS + 1, 3, most);
        let packed = terms(&rows);
        for code in 1..=3 {
            let count = proved::descents(&rows, OPERANDS, code);
            assert!(count > OPERANDS / 4);
            assert_eq!(count, plain::descents(&packed, OPERANDS, code));
            assert_eq!(count, on_rows::descents(&rows, OPERANDS, code));
            let run = |f: fn(&[u16], usize, u16) -> usize| {
                black_box(f(black_box(&rows), OPERANDS, black_box(code)));
            };
            beside(
                &format!("comparison, order code {code}, {name}"),
                turns,
                [
                    &mut |()| run(proved::descents),
                    &mut |()| {
                        let terms = black_box(&packed);
                        black_box(plain::descents(terms, OPERANDS, black_box(code)));
                    },
                    &mut |()| run(on_rows::descents),
                ],
            );
        }
    }
}

fn product(random: &mut Random, turns: usize) {
    for (name, most) in [("all fit", 127), ("some do not", 150)] {
        let rows = random.rows(OPERANDS + 1, 3, most);
        let packed = terms(&rows);
        let made = |f: fn(&mut [u16], &[u16], usize)| {
            let mut to = vec![0xaaaa; ROW * OPERANDS];
            f(&mut to, black_box(&rows), OPERANDS);
            to
        };
        let mut to = made(proved::products);
        let mut values = vec![Term::default(); OPERANDS];
        plain::products(&mut values, &packed, OPERANDS);
        assert!(values == terms(&to), "the products differ");
        assert!(to == made(on_rows::products), "the products differ");
        let mut words = to.clone();
        beside(
            &format!("product, {name}"),
            turns,
            [
                &mut |()| proved::products(black_box(&mut to), black_box(&rows), OPERANDS),
                &mut |()| plain::products(black_box(&mut values), black_box(&packed), OPERANDS),
                &mut |()| on_rows::products(black_box(&mut words), black_box(&rows), OPERANDS),
            ],
        );
    }
}

/// Terms of the sum itself, or terms that are like these.
fn equal_monomial(random: &mut Random, turns: usize) {
    let sum = random.rows(TERMS, 3, 6);
    for (name, rows) in [
        ("none is found", random.rows(TERMS, 3, 6)),
        ("all are found", random.some_of(&sum, TERMS)),
    ] {
        let (packed_sum, packed) = (terms(&sum), terms(&rows));
        let count = proved::found(&sum, TERMS, &rows, TERMS);
        assert_eq!(count, if name == "none is found" { 0 } else { TERMS });
        assert_eq!(count, plain::found(&packed_sum, &packed, TERMS));
        assert_eq!(count, on_rows::found(&sum, &rows, TERMS));
        beside(
            &format!("equal monomial, {TERMS} terms among {TERMS}, {name}"),
            turns / 4 + 1,
            [
                &mut |()| {
                    let (sum, rows) = (black_box(&sum), black_box(&rows));
                    black_box(proved::found(sum, TERMS, rows, TERMS));
                },
                &mut |()| {
                    let (sum, terms) = (black_box(&packed_sum), black_box(&packed));
                    black_box(plain::found(sum, terms, TERMS));
                },
                &mut |()| {
                    let (sum, rows) = (black_box(&sum), black_box(&rows));
                    black_box(on_rows::found(sum, rows, TERMS));
                },
            ],
        );
    }
}

fn reducer_search(random: &mut Random, turns: usize) {
    let state = random.state(3);
    for (name, most) in [("most are not found", 8), ("most are found", 30)] {
        let rows = random.rows(OPERANDS, 4, most);
        let packed = terms(&rows);
        let count = proved::lower(&state, 1, &rows, OPERANDS);
        assert_eq!(count, plain::lower(&state, 1, &packed, OPERANDS));
        assert_eq!(count, on_rows::lower(&state, 1, &rows, OPERANDS));
        assert!(count > 0 && count < OPERANDS);
        let run = |f: fn(&[u16], usize, &[u16], usize) -> usize| {
            black_box(f(&state, 1, black_box(&rows), OPERANDS));
        };
        beside(
            &format!("reducer search, 4 components of 32, {name} ({count} of {OPERANDS} not)"),
            turns,
            [
                &mut |()| run(proved::lower),
                &mut |()| {
                    let terms = black_box(&packed);
                    black_box(plain::lower(&state, 1, terms, OPERANDS));
                },
                &mut |()| run(on_rows::lower),
            ],
        );
    }
}

type Sort = fn(&mut [u16], &[u16], usize, &[u16], usize) -> usize;

fn insertion(random: &mut Random, turns: usize) {
    for code in 1..=3 {
        let state = random.state(code);
        let rows = random.rows(TERMS, 128, 2);
        let packed = terms(&rows);
        let made = |f: Sort| {
            let mut to = vec![0; ROW * TERMS];
            let count = f(&mut to, black_box(&rows), TERMS, &state, 1);
            to.truncate(ROW * count);
            to
        };
        let made_packed = || {
            let mut to = vec![Term::default(); TERMS];
            let count = plain::sort(&mut to, black_box(&packed), TERMS, &state, 1);
            to.truncate(count);
            to
        };
        let sum = made(proved::sort);
        assert!(!sum.is_empty() && sum == made(on_rows::sort));
        assert!(made_packed() == terms(&sum));
        let run = |f| {
            black_box(made(f));
        };
        beside(
            &format!("insertion of {TERMS} terms, order code {code}"),
            turns / 4 + 1,
            [
                &mut |()| run(proved::sort),
                &mut |()| {
                    black_box(made_packed());
                },
                &mut |()| run(on_rows::sort),
            ],
        );
    }
}

fn main() {
    let turns = turns(1_000);
    let mut random = Random(Numbers(1));
    comparison(&mut random, turns);
    product(&mut random, turns);
    equal_monomial(&mut random, turns);
    reducer_search(&mut random, turns);
    insertion(&mut random, turns);
}
