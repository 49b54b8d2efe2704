// SPDX-License-Identifier: MIT OR Apache-2.0
//! The buffers of docs/BUFFERS.md: lengths and places by name, in words; terms as rows of words.

use reference::random::Random;
use std::ops::BitOr;

/// In a row: the coefficient, the component, then the exponents as one number of 64 bits, the lowest word first.
pub const COEFFICIENT: usize = 0;
pub const COMPONENT: usize = 1;
const PACKED: usize = 2;
const PACKED_WORDS: usize = 4;
/// The words of a row.
pub const ROW: usize = PACKED + PACKED_WORDS;
/// The exponents of a row.
pub const VARIABLES: usize = 8;

/// In the state: p, the order code, how many levels are complete.
pub const PRIME: usize = 0;
pub const ORDER: usize = 2;
pub const COMPLETE: usize = 4;
/// Words before the first level's count.
pub const HEAD: usize = 5;
/// Levels that a state has room for, and vectors and terms that each of them has room for.
pub const LEVELS: usize = 10;
pub const VECTORS: usize = 128;
pub const TERMS: usize = 2_048;
/// Components that it has room for the degrees of.
pub const COMPONENTS: usize = 16;
/// The rows of one level.
pub const LEVEL_ROWS: usize = ROW * TERMS;

/// The degree of component 1; those of the others stand behind it.
pub const DEGREES: usize = rows(LEVELS);

/// The lengths that calls need.
pub const STATE: usize = carried(LEVELS);
pub const WORK: usize = ROW * 512;
/// By hybrid a shorter one may be lent (request A11); of a longer one WORK is used.
pub const LEAST_WORK: usize = ROW * 32;
pub const TREE_WORK: usize = ROW * 4_096;
pub const OUT: usize = ROW * 512;
/// The sheet's, in bytes.
pub const SHEET: usize = 1_400_000;
/// That of the bidegrees.
pub const BIDEGREES: usize = 11 * VECTORS * 23;
/// That of the Hilbert function: an X line and 512 W lines.
pub const HILBERT: usize = 29 + 512 * 62;
/// That of the Betti page and of the minimal numbers: 20,666 rows and the totals.
pub const PAGE: usize = 73 * (20_666 + 1);
/// That of membership: 1,024 lines and the M line.
pub const MEMBER: usize = 1_024 * 62 + 4;
/// That of the completed file: 65,536 bytes, and behind them 512 T lines and an E line.
pub const COMPLETED: usize = 65_536 + 512 * 68 + 8;
/// That of a replayed log: 512 lines.
pub const REPLAY: usize = 512 * 74;

// as the page has them
const _: () = assert!(ROW == 6 && rows(0) == 1_295 && LEVEL_ROWS == 12_288 && STATE == 125_471);
const _: () = assert!(DEGREES == 124_175 && carried(0) == 124_191 && carried(9) == 125_343);
const _: () = assert!(WORK == 3_072 && TREE_WORK == 24_576 && OUT == 3_072 && BIDEGREES == 32_384);
const _: () = assert!(LEAST_WORK == 192);
const _: () = assert!(HILBERT == 31_773 && PAGE == 1_508_691);
const _: () = assert!(MEMBER == 63_492 && COMPLETED == 100_360 && REPLAY == 37_888);

/// The word that holds how many vectors level k has; the ends of its vectors stand behind it.
pub const fn count(k: usize) -> usize {
    HEAD + (1 + VECTORS) * k
}

/// The first word of level k's rows.
pub const fn rows(k: usize) -> usize {
    count(LEVELS) + LEVEL_ROWS * k
}

/// The degree that the first vector of level k carries; those of the others stand behind it.
pub const fn carried(k: usize) -> usize {
    DEGREES + COMPONENTS + VECTORS * k
}

/// A term's row; x1's exponent comes first.
#[inline]
pub fn row(coefficient: u16, component: u16, exponents: [u8; VARIABLES]) -> [u16; ROW] {
    let packed = u64::from_be_bytes(exponents);
    let [a, b, c, d] = [0, 16, 32, 48].map(|bits| (packed >> bits) as u16);
    [coefficient, component, a, b, c, d]
}

/// A row's exponents as one number, x1's in its top byte.
#[inline]
pub fn packed(row: &[u16]) -> u64 {
    let words: [u16; PACKED_WORDS] = row[PACKED..ROW].try_into().expect("four words");
    words
        .iter()
        .rev()
        .fold(0, |packed, word| packed << 16 | u64::from(*word))
}

/// A row's exponents, x1's first.
pub fn exponents(row: &[u16]) -> [u8; VARIABLES] {
    packed(row).to_be_bytes()
}

/// The word of a row that has this exponent, x1's being 0, and what 1 of it is there.
pub const fn exponent_at(x: usize) -> (usize, u16) {
    (ROW - 1 - x / 2, [256, 1][x % 2])
}

/// What lifting needs as work, by hybrid what it can use, by the code of the way: 0 division, 1 hybrid, 2 tree.
pub const fn work(way: u16) -> usize {
    if way == 2 {
        TREE_WORK
    } else {
        WORK
    }
}

/// How much longer than it must be a buffer is: nothing three times out of four, else up to so many words.
pub fn more(random: &mut Random, most: usize) -> usize {
    match random.below(4) {
        0 => random.below(most as u64 + 1) as usize,
        _ => 0,
    }
}

/// Without a branch for each word: buffers are long.
pub fn all_zero<T>(words: &[T]) -> bool
where
    T: Copy + Default + PartialEq + BitOr<Output = T>,
{
    let zero = T::default();
    words.iter().fold(zero, |all, word| all | *word) == zero
}

#[cfg(test)]
mod tests {
    use super::{exponent_at, exponents, packed, row, VARIABLES};

    /// the row that the page prints
    #[test]
    fn the_printed_row() {
        let printed = [5, 9, 1800, 1286, 772, 258];
        assert_eq!(row(5, 9, [1, 2, 3, 4, 5, 6, 7, 8]), printed);
        assert_eq!(exponents(&printed), [1, 2, 3, 4, 5, 6, 7, 8]);
        assert_eq!(packed(&printed), 0x0102_0304_0506_0708);
    }

    #[test]
    fn one_exponent() {
        for x in 0..VARIABLES {
            let mut alone = [0; VARIABLES];
            alone[x] = 200;
            let (word, one) = exponent_at(x);
            let mut changed = row(1, 2, [0; VARIABLES]);
            changed[word] += 200 * one;
            assert_eq!(changed, row(1, 2, alone));
        }
    }
}
