// SPDX-License-Identifier: MIT OR Apache-2.0
//! Bases over which the tree goes down as deep as its work area allows.

use reference::generate::problems::element_of;
use reference::monomial::{Exponents, Monomial, Parameters, Term};
use reference::reader::Problem;

/// The tree's work area in terms: each unfinished subtree holds one at the least.
pub const DEEPEST: u64 = 4_096;

/// A Gröbner basis in the variables w > x > y > z > v (lexicographic) whose first frame term sets so many subtrees (DEEPEST or one more) one inside the
/// other, each with one term:
///
///     twice w·e_2 + m·e_1,  then  v − 1,  y − z·v + z,  x·z^254 − y^254
///
/// A y becomes z·v, then z; with 255 of z an x makes 254 of y again. The liftings of −z·v and of z cancel but for one term, so that with a cache no sum
/// grows; without one the time doubles with each y.
pub fn deep(depth: u64) -> Problem {
    assert!(depth == DEEPEST || depth == DEEPEST + 1);
    let parameters = Parameters {
        p: 7,
        n: 5,
        order: 1,
        s: 2,
    };
    let term = |coefficient, component, exponents: [u64; 5]| {
        let mut all: Exponents = [0; 8];
        all[..5].copy_from_slice(&exponents);
        Term {
            coefficient,
            monomial: Monomial {
                component,
                exponents: all,
            },
        }
    };
    // m's depth: 1 for v, 2 for each y, 509 for each x
    let m = if depth == DEEPEST {
        [0, 8, 11, 244, 1]
    } else {
        [0, 8, 12, 243, 0]
    };
    let start = vec![term(1, 2, [1, 0, 0, 0, 0]), term(1, 1, m)];
    let elements = [
        start.clone(),
        start,
        vec![term(1, 1, [0, 0, 0, 0, 1]), term(6, 1, [0; 5])],
        vec![
            term(1, 1, [0, 0, 1, 0, 0]),
            term(6, 1, [0, 0, 0, 1, 1]),
            term(1, 1, [0, 0, 0, 1, 0]),
        ],
        vec![term(1, 1, [0, 1, 0, 254, 0]), term(6, 1, [0, 0, 254, 0, 0])],
    ];
    let elements = elements.iter().map(|terms| element_of(&parameters, terms));
    Problem::new(parameters, elements.collect())
}

/// Runs this in a thread whose stack has 8 MiB; gives how much of it was touched, in words.
pub fn on_small_stack(run: impl FnOnce() + Send + 'static) -> String {
    let thread = std::thread::Builder::new().stack_size(8 << 20);
    let touched = thread.spawn(|| {
        let before = stack_touched()?;
        run();
        Some(stack_touched()? - before)
    });
    match touched.expect("a thread").join().expect("the run ends") {
        Some(kib) => format!("{kib} KiB of 8,192 of its stack touched"),
        None => "its stack of 8 MiB not measured".to_string(),
    }
}

/// The memory of this thread's stack that was touched so far, in KiB, if the system tells.
fn stack_touched() -> Option<u64> {
    let local = 0_u8;
    let here = std::hint::black_box(&local) as *const u8 as u64;
    let maps = std::fs::read_to_string("/proc/self/smaps").ok()?;
    let mut inside = false;
    for line in maps.lines() {
        let first = line.split(' ').next()?;
        if let Some((from, to)) = first.split_once('-') {
            let bound = |text| u64::from_str_radix(text, 16).ok();
            if let (Some(from), Some(to)) = (bound(from), bound(to)) {
                inside = (from..to).contains(&here);
            }
        } else if inside && first == "Rss:" {
            return line.split_whitespace().nth(1)?.parse().ok();
        }
    }
    None
}
