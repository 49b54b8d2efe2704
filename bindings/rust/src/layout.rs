// SPDX-License-Identifier: MIT OR Apache-2.0
//! Lengths and places in the lent buffers, in words, by the header's names; a test compares them with it.

pub const STATE_WORDS: usize = 125_471;
pub const WORK_WORDS: usize = 3_072;
pub const TREE_WORK_WORDS: usize = 24_576;
pub const OUT_WORDS: usize = 3_072;
pub const SHEET_BYTES: usize = 1_400_000;
pub const PAGE_BYTES: usize = 1_508_691;
pub const BIDEGREES_BYTES: usize = 32_384;
pub const HILBERT_BYTES: usize = 31_773;
pub const MEMBER_BYTES: usize = 63_492;
pub const COMPLETED_BYTES: usize = 100_360;
pub const REPLAY_BYTES: usize = 37_888;

pub const VARIABLES: usize = 8;
pub const LEVEL_VECTORS: usize = 128;

// a row
pub const ROW_WORDS: usize = 6;
pub const COEFFICIENT_AT: usize = 0;
pub const COMPONENT_AT: usize = 1;
pub const PACKED_AT: usize = 2;

// the state
pub const PRIME_AT: usize = 0;
pub const VARIABLES_AT: usize = 1;
pub const ORDER_AT: usize = 2;
pub const COMPONENTS_AT: usize = 3;
pub const COMPLETE_AT: usize = 4;
pub const COUNTS_AT: usize = 5;
pub const COUNTS_WORDS: usize = 129;
pub const ROWS_AT: usize = 1_295;
pub const LEVEL_WORDS: usize = 12_288;
pub const DEGREES_AT: usize = 124_175;
pub const CARRIED_AT: usize = 124_191;

/// The word of the state that holds how many vectors a level has; their ends stand behind it.
pub const fn count_at(level: usize) -> usize {
    COUNTS_AT + COUNTS_WORDS * level
}

/// The first word of a level's rows.
pub const fn rows_at(level: usize) -> usize {
    ROWS_AT + LEVEL_WORDS * level
}

/// The first word of the degrees that a level's vectors carry.
pub const fn carried_at(level: usize) -> usize {
    CARRIED_AT + LEVEL_VECTORS * level
}

/// A row's exponents, x1's first. They are one number, x1's in its top byte, in words of which the lowest stands first.
pub fn exponents(row: &[u16]) -> [u8; VARIABLES] {
    let words = row[PACKED_AT..ROW_WORDS].iter().rev();
    let packed = words.fold(0_u64, |packed, word| packed << u16::BITS | u64::from(*word));
    packed.to_be_bytes()
}

/// The words of a row.
pub fn row(coefficient: u16, component: u16, exponents: [u8; VARIABLES]) -> [u16; ROW_WORDS] {
    let mut words = [0; ROW_WORDS];
    words[COEFFICIENT_AT] = coefficient;
    words[COMPONENT_AT] = component;
    let packed = u64::from_be_bytes(exponents);
    for (i, word) in words[PACKED_AT..].iter_mut().enumerate() {
        *word = (packed >> (u16::BITS as usize * i)) as u16;
    }
    words
}
