// SPDX-License-Identifier: MIT OR Apache-2.0
//! Times the proved soundness test beside a plain Rust one on full states: ten levels of 2,048 terms each.
//! Both look at the same words, in turns; the ratio is that of the medians. One argument: how many turns.

mod plain;

use bench_common::timing::{medians, turns};
use common::buffers::STATE;
use common::states::{full_basis, write_basis};
use reference::random::Random;
use std::hint::black_box;
use testing::soundness;

fn proved(state: &[u16]) -> bool {
    soundness::number(state) == 0
}

fn main() {
    let turns = turns(2_000);
    let mut random = Random::new(20_250_203);
    for order in 1..=3 {
        let mut state = vec![0; STATE];
        write_basis(full_basis(&mut random, order), &mut state);
        let run = |test: fn(&[u16]) -> bool| assert!(black_box(test(black_box(&state))));
        let [ours, theirs] = medians(
            turns,
            &mut (),
            [&mut |()| run(proved), &mut |()| run(plain::sound)],
        );
        println!(
            "order code {order}: proved {ours:.0} µs, plain Rust {theirs:.0} µs, ratio {:.2}",
            ours / theirs
        );
    }
}
