// SPDX-License-Identifier: MIT OR Apache-2.0
//! The proved calls, through the library's Rust crate: number and place as the unrelated implementation has them.

use tagetessash::calls;

fn wide((number, place): (u16, usize)) -> (u64, u64) {
    (u64::from(number), place as u64)
}

pub fn read(file: &[u8], state: &mut [u16], work: &mut [u16]) -> (u64, u64) {
    wide(calls::read(file, state, work))
}

/// The way is 0 division, 1 hybrid, 2 tree.
pub fn lift(
    state: &mut [u16],
    work: &mut [u16],
    cache: &mut [u16],
    level: usize,
    way: u16,
    pick: u16,
) -> (u64, u64) {
    wide(calls::lift(state, work, cache, level, way, pick))
}

/// Number and length.
pub fn bidegrees(
    file: &[u8],
    state: &mut [u16],
    work: &mut [u16],
    printed: &mut [u8],
) -> (u64, u64) {
    wide(calls::bidegrees(file, state, work, printed))
}

/// Number and length.
pub fn hilbert(file: &[u8], state: &mut [u16], work: &mut [u16], printed: &mut [u8]) -> (u64, u64) {
    wide(calls::hilbert(file, state, work, printed))
}

/// Number and length.
pub fn minimal(file: &[u8], state: &mut [u16], work: &mut [u16], printed: &mut [u8]) -> (u64, u64) {
    wide(calls::minimal(file, state, work, printed))
}

pub fn fetch(state: &[u16], out: &mut [u16], level: usize, vector: usize) -> (u64, u64) {
    wide(calls::fetch(state, out, level, vector))
}

pub fn divide(
    state: &[u16],
    vector: &[u16],
    quotients: &mut [u16],
    remainder: &mut [u16],
) -> (u64, u64) {
    wide(calls::divide(state, vector, quotients, remainder))
}
