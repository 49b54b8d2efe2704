// SPDX-License-Identifier: MIT OR Apache-2.0
//! What the plain Rust of several benches is made of, as one would write it. It is compiled into each of them. The exponents of a term are packed: a byte each
//! in one number, x1's the top one. Those of an image may pass 255 and have sixteen bits each.

use common::buffers::{packed, row, COEFFICIENT, COMPONENT, ROW};
use std::cmp::Ordering;

#[derive(Clone, Copy, Debug, Default, PartialEq, Eq)]
pub struct Term {
    pub exponents: u64,
    pub component: u16,
    pub coefficient: u16,
}

impl Term {
    #[inline]
    pub fn of(row: &[u16]) -> Term {
        Term {
            exponents: packed(row),
            component: row[COMPONENT],
            coefficient: row[COEFFICIENT],
        }
    }

    #[inline]
    pub fn row(self) -> [u16; ROW] {
        row(
            self.coefficient,
            self.component,
            self.exponents.to_be_bytes(),
        )
    }

    #[inline]
    pub fn same_monomial(self, other: Term) -> bool {
        self.exponents == other.exponents && self.component == other.component
    }
}

/// The terms of rows.
pub fn terms(rows: &[u16]) -> Vec<Term> {
    rows.chunks_exact(ROW).map(Term::of).collect()
}

/// The top bit of each byte: where a sum or a difference of bytes carries.
const TOPS: u64 = 0x8080_8080_8080_8080;
/// Every second byte: where two bytes are added up without a carry.
const EVERY_SECOND: u64 = 0x00ff_00ff_00ff_00ff;

#[inline]
pub fn degree(e: u64) -> u64 {
    let pairs = (e & EVERY_SECOND) + (e >> 8 & EVERY_SECOND);
    pairs.wrapping_mul(0x0001_0001_0001_0001) >> 48
}

/// By order code.
#[inline]
pub fn compare(code: u16, a: u64, b: u64) -> Ordering {
    match code {
        1 => a.cmp(&b),
        2 => degree(a).cmp(&degree(b)).then_with(|| a.cmp(&b)),
        _ => degree(a)
            .cmp(&degree(b))
            .then_with(|| b.swap_bytes().cmp(&a.swap_bytes())),
    }
}

#[inline]
pub fn divides(a: u64, b: u64) -> bool {
    let difference = b.wrapping_sub(a);
    (!b & a | (!b | a) & difference) & TOPS == 0
}

/// None where an exponent passes 255.
#[inline]
pub fn product(a: u64, b: u64) -> Option<u64> {
    let sum = a.wrapping_add(b);
    let carries = (a & b | (a | b) & !sum) & TOPS;
    (carries == 0).then_some(sum)
}

/// a over the greatest common divisor with b.
#[inline]
pub fn colon(a: u64, b: u64) -> u64 {
    let (a, b) = (a.to_ne_bytes(), b.to_ne_bytes());
    u64::from_ne_bytes(std::array::from_fn(|x| a[x].saturating_sub(b[x])))
}

/// The image of a module monomial on level 0, its exponents in sixteen bits each, x1's the top ones of the first number, and their sum. The rank of its
/// component's image decides ties, then its own component.
#[derive(Clone, Copy, Default)]
pub struct Image {
    exponents: [u64; 2],
    degree: u64,
    rank: u16,
    component: u16,
}

/// Four exponents of a packed term, x1's to x4's or x5's to x8's, in sixteen bits each.
#[inline]
fn widened(packed: u64, half: usize) -> u64 {
    let bytes = if half == 0 {
        packed >> 32
    } else {
        packed & 0xffff_ffff
    };
    let pairs = (bytes | bytes << 16) & 0x0000_ffff_0000_ffff;
    (pairs | pairs << 8) & EVERY_SECOND
}

/// By the last exponent that differs: the smaller one is greater.
#[inline]
fn compare_last(a: u64, b: u64) -> Ordering {
    match (a ^ b).trailing_zeros() / 16 * 16 {
        64 => Ordering::Equal,
        last => ((b >> last) as u16).cmp(&((a >> last) as u16)),
    }
}

/// By order code, an image and another of which only what decides is formed.
#[inline]
fn compare_formed(
    code: u16,
    a: &Image,
    degree: impl Fn() -> u64,
    exponents: impl Fn(usize) -> u64,
) -> Ordering {
    let [first, last] = a.exponents;
    let by_degree = || a.degree.cmp(&degree());
    let by_first = || {
        first
            .cmp(&exponents(0))
            .then_with(|| last.cmp(&exponents(1)))
    };
    let by_last =
        || compare_last(last, exponents(1)).then_with(|| compare_last(first, exponents(0)));
    match code {
        1 => by_first(),
        2 => by_degree().then_with(by_first),
        _ => by_degree().then_with(by_last),
    }
}

#[inline]
pub fn compare_images(code: u16, a: &Image, b: &Image) -> Ordering {
    compare_formed(code, a, || b.degree, |half| b.exponents[half])
        .then_with(|| a.rank.cmp(&b.rank))
        .then_with(|| a.component.cmp(&b.component))
}

const NONE: Image = Image {
    exponents: [0; 2],
    degree: 0,
    rank: 0,
    component: 0,
};

/// The image of a component, from a table with one for each; level 0 has none.
#[inline]
fn below(table: &[Image], component: u16) -> &Image {
    table
        .get(usize::from(component).wrapping_sub(1))
        .unwrap_or(&NONE)
}

/// Through a table.
#[inline]
pub fn image(table: &[Image], term: Term) -> Image {
    let below = below(table, term.component);
    Image {
        exponents: [0, 1].map(|half| widened(term.exponents, half) + below.exponents[half]),
        degree: degree(term.exponents) + below.degree,
        rank: below.rank,
        component: term.component,
    }
}

/// An image against that of a term.
#[inline]
pub fn against_term(code: u16, a: &Image, table: &[Image], term: Term) -> Ordering {
    let below = below(table, term.component);
    let degree = || degree(term.exponents) + below.degree;
    let exponents = |half| widened(term.exponents, half) + below.exponents[half];
    compare_formed(code, a, degree, exponents)
        .then_with(|| a.rank.cmp(&below.rank))
        .then_with(|| a.component.cmp(&term.component))
}

/// The table over vectors with these leading images: the rank of each tie among them.
#[inline]
pub fn ranked(leads: &[Image]) -> impl Iterator<Item = Image> + '_ {
    leads.iter().map(|lead| {
        let tie = (lead.rank, lead.component);
        let lower = leads.iter().filter(|l| (l.rank, l.component) < tie).count();
        Image {
            rank: 1 + lower as u16,
            component: 0,
            ..*lead
        }
    })
}

#[inline]
pub fn is_prime(p: u16) -> bool {
    let p = u32::from(p);
    p >= 2 && (2..).take_while(|d| d * d <= p).all(|d| p % d != 0)
}
