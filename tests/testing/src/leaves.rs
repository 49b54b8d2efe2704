// SPDX-License-Identifier: MIT OR Apache-2.0
//! The proved leaves, through the static library.

extern "C" {
    fn leaves_descents(rows: *const u16, length: usize, n: usize, code: u16) -> usize;
    fn leaves_products(to: *mut u16, to_length: usize, rows: *const u16, length: usize, n: usize);
    fn leaves_found(
        sum: *const u16,
        sum_length: usize,
        r: usize,
        rows: *const u16,
        length: usize,
        n: usize,
    ) -> usize;
    fn leaves_lower(
        state: *const u16,
        state_length: usize,
        k: usize,
        rows: *const u16,
        length: usize,
        n: usize,
    ) -> usize;
    fn leaves_sort(
        to: *mut u16,
        to_length: usize,
        rows: *const u16,
        length: usize,
        n: usize,
        state: *const u16,
        state_length: usize,
        k: usize,
    ) -> usize;
}

// SAFETY, for each: the pointers and lengths are those of slices that live through the call

pub fn descents(rows: &[u16], n: usize, code: u16) -> usize {
    unsafe { leaves_descents(rows.as_ptr(), rows.len(), n, code) }
}

pub fn products(to: &mut [u16], rows: &[u16], n: usize) {
    unsafe { leaves_products(to.as_mut_ptr(), to.len(), rows.as_ptr(), rows.len(), n) }
}

pub fn found(sum: &[u16], r: usize, rows: &[u16], n: usize) -> usize {
    unsafe { leaves_found(sum.as_ptr(), sum.len(), r, rows.as_ptr(), rows.len(), n) }
}

pub fn lower(state: &[u16], k: usize, rows: &[u16], n: usize) -> usize {
    unsafe { leaves_lower(state.as_ptr(), state.len(), k, rows.as_ptr(), rows.len(), n) }
}

pub fn sort(to: &mut [u16], rows: &[u16], n: usize, state: &[u16], k: usize) -> usize {
    unsafe {
        leaves_sort(
            to.as_mut_ptr(),
            to.len(),
            rows.as_ptr(),
            rows.len(),
            n,
            state.as_ptr(),
            state.len(),
            k,
        )
    }
}
