// SPDX-License-Identifier: MIT OR Apache-2.0
//! Times proved frames beside plain Rust on 128 leading monomials, for each order code and for several spreads over components.
//! Both form the same frame, in turns; the ratio is that of the medians. One argument: how many turns.

mod plain;

use bench_common::rows::Numbers;
use bench_common::timing::{medians, turns};
use common::buffers::{ROW, VECTORS as HEADS};
use std::hint::black_box;
use testing::frames as proved;

/// As many as there can be.
const LIMIT: usize = HEADS * (HEADS - 1) / 2;

/// Leading rows of eight variables with exponents up to 4.
fn leading_rows(components: u64) -> Vec<u16> {
    let mut numbers = Numbers(1);
    (0..HEADS)
        .flat_map(|_| {
            let component = 1 + numbers.below(components) as u16;
            numbers.row(1, component, 4)
        })
        .collect()
}

fn main() {
    let turns = turns(400);
    let mut frame = vec![0_u16; ROW * LIMIT];
    let mut region = vec![0_u16; ROW * HEADS];
    for components in [1, 4, 16] {
        let heads = leading_rows(components);
        for code in 1..=3 {
            let (number, count) = proved::form(&mut frame, LIMIT, &mut region, &heads, HEADS, code);
            assert_eq!(number, 0);
            let rows = frame[..ROW * count].to_vec();
            assert_eq!(plain::form(&mut frame, LIMIT, &heads, code), Some(count));
            assert!(frame[..ROW * count] == rows, "the frames differ");
            let region = &mut region;
            let [ours, theirs] = medians(
                turns,
                &mut frame,
                [
                    &mut |frame| {
                        let heads = black_box(&heads);
                        black_box(proved::form(frame, LIMIT, region, heads, HEADS, code));
                    },
                    &mut |frame| {
                        black_box(plain::form(frame, LIMIT, black_box(&heads), code));
                    },
                ],
            );
            println!(
                "components {components}, order code {code}: {count} frame terms, proved {ours:.0} µs, plain Rust {theirs:.0} µs, ratio {:.2}",
                ours / theirs
            );
        }
    }
}
