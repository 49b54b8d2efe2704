// SPDX-License-Identifier: MIT OR Apache-2.0
//! The frame as one would write it in Rust: for each element the generators of the earlier ones, sorted, equal ones once, the minimal ones kept.

use bench_common::plain::{colon, compare, divides, terms, Term};
use common::buffers::ROW;

/// How many frame terms there are now in the rows of `frame`; none where there are more than the limit.
pub fn form(frame: &mut [u16], limit: usize, heads: &[u16], code: u16) -> Option<usize> {
    let heads = terms(heads);
    let mut generators: Vec<u64> = Vec::new();
    let mut count = 0;
    for (i, own) in heads.iter().enumerate() {
        generators.clear();
        for earlier in &heads[..i] {
            if earlier.component == own.component {
                generators.push(colon(earlier.exponents, own.exponents));
            }
        }
        generators.sort_unstable_by(|a, b| compare(code, *a, *b));
        generators.dedup();
        for g in &generators {
            if generators.iter().any(|h| h != g && divides(*h, *g)) {
                continue;
            }
            if count == limit {
                return None;
            }
            let term = Term {
                exponents: *g,
                component: i as u16 + 1,
                coefficient: 1,
            };
            frame[ROW * count..][..ROW].copy_from_slice(&term.row());
            count += 1;
        }
    }
    Some(count)
}
