// SPDX-License-Identifier: MIT OR Apache-2.0
//! The soundness test as one would write it in Rust: one pass over each level, images on level 0 made as it goes.

use bench_common::plain::{compare_images, degree, image, is_prime, ranked, Image, Term};
use common::buffers::{
    carried, count, rows, COMPONENTS, DEGREES, HEAD, LEVEL_ROWS, ROW, TERMS, VECTORS,
};
use std::cmp::Ordering;

/// `past` has the bytes past the last variable.
fn term_sound(term: Term, p: u16, components: u16, past: u64) -> bool {
    (1..p).contains(&term.coefficient)
        && (1..=components).contains(&term.component)
        && term.exponents & past == 0
}

pub fn sound(state: &[u16]) -> bool {
    let head: [u16; HEAD] = state[..HEAD].try_into().expect("five words");
    let [p, n, code, s, complete] = head;
    let complete = usize::from(complete);
    if !(1..=10).contains(&complete)
        || !is_prime(p)
        || !(1..=8).contains(&n)
        || !(1..=3).contains(&code)
        || !(1..=16).contains(&s)
    {
        return false;
    }
    let past = u64::MAX.checked_shr(8 * u32::from(n)).unwrap_or(0);
    let mut degrees = &state[DEGREES..][..COMPONENTS];
    if degrees[..usize::from(s)].iter().any(|d| *d > 255) {
        return false;
    }
    let mut table = [Image::default(); VECTORS];
    let mut below = 0;
    for k in 0..complete {
        let at = count(k);
        let count = usize::from(state[at]);
        let (in_range, most, components) = match k {
            0 => ((1..=64).contains(&count), TERMS, s),
            _ => (count <= VECTORS, 512, below as u16),
        };
        if !in_range {
            return false;
        }
        let rows = &state[rows(k)..][..LEVEL_ROWS];
        let own = &state[carried(k)..][..VECTORS];
        let mut leads = [Image::default(); VECTORS];
        let mut start = 0;
        for (v, end) in state[at + 1..][..count].iter().enumerate() {
            let end = usize::from(*end);
            if end <= start || end > TERMS || end - start > most {
                return false;
            }
            let mut before: Option<Image> = None;
            for row in rows[ROW * start..ROW * end].chunks_exact(ROW) {
                let term = Term::of(row);
                if !term_sound(term, p, components, past) {
                    return false;
                }
                let here = image(&table[..below], term);
                match &before {
                    None => {
                        let component = degrees[usize::from(term.component) - 1];
                        if u64::from(own[v]) != degree(term.exponents) + u64::from(component) {
                            return false;
                        }
                        leads[v] = here;
                    }
                    Some(b) => {
                        if compare_images(code, b, &here) != Ordering::Greater {
                            return false;
                        }
                    }
                }
                before = Some(here);
            }
            start = end;
        }
        // the next module's table
        for (to, image) in table.iter_mut().zip(ranked(&leads[..count])) {
            *to = image;
        }
        below = count;
        degrees = own;
    }
    true
}
