// SPDX-License-Identifier: MIT OR Apache-2.0
//! Times the proved reader beside a plain Rust reader on the largest file that is accepted: 2,048 T lines, 65,536 bytes.
//! Both read the same bytes into the same buffer, in turns; the ratio is that of the medians. One argument: how many turns.

mod plain;

use bench_common::rows::Numbers;
use bench_common::timing::{medians, turns};
use common::buffers::STATE;
use std::hint::black_box;
use testing::reader::read as proved;

/// One element of 2,048 terms, descending in the order of the code, every line 32 bytes long but some shorter by a digit.
fn largest_file(code: u16) -> Vec<u8> {
    let mut numbers = Numbers(1);
    let mut below = |bound| numbers.below(bound);
    let mut terms: Vec<[u64; 8]> = Vec::new();
    while terms.len() < 2_048 {
        let e: [u64; 8] = std::array::from_fn(|i| if i < 4 { 10 + below(90) } else { below(10) });
        if !terms.contains(&e) {
            terms.push(e);
        }
    }
    let degree = |e: &[u64; 8]| e.iter().sum::<u64>();
    terms.sort_by(|a, b| match code {
        1 => b.cmp(a),
        2 => degree(b).cmp(&degree(a)).then(b.cmp(a)),
        _ => degree(b)
            .cmp(&degree(a))
            .then_with(|| a.iter().rev().cmp(b.iter().rev())),
    });
    let mut file = format!("R,32749,8,{code},1\n");
    // 14 bytes for R's line and 7 for E's leave 21 too few
    for (i, e) in terms.iter().enumerate() {
        let coefficient = if i < 21 { 1_000 } else { 10_000 } + below(9_000);
        let exponents: Vec<String> = e.iter().map(u64::to_string).collect();
        file.push_str(&format!("T,1,{coefficient},1,{}\n", exponents.join(",")));
    }
    file.push_str("E,2048\n");
    assert_eq!(file.len(), 65_536);
    file.into_bytes()
}

fn main() {
    let turns = turns(2_000);
    let mut state = vec![0_u16; STATE];
    for code in 1..=3 {
        let file = largest_file(code);
        assert_eq!(proved(&file, &mut state), (0, 0));
        let words = state.clone();
        assert_eq!(plain::read(&file, &mut state), (0, 0));
        assert!(state == words, "the words differ");
        let [ours, theirs] = medians(
            turns,
            &mut state,
            [
                &mut |state| {
                    black_box(proved(black_box(&file), state));
                },
                &mut |state| {
                    black_box(plain::read(black_box(&file), state));
                },
            ],
        );
        println!(
            "order {code}: proved {ours:.1} us, plain {theirs:.1} us, ratio {:.2}",
            ours / theirs
        );
    }
}
