// SPDX-License-Identifier: MIT OR Apache-2.0
//! The proved frames, through the static library.

extern "C" {
    fn frames_form(
        frame: *mut u16,
        frame_length: usize,
        limit: usize,
        region: *mut u16,
        region_length: usize,
        heads: *const u16,
        heads_length: usize,
        count: usize,
        code: u16,
        terms: *mut usize,
    ) -> u16;
}

/// Number and count; the frame's rows are in `frame`.
pub fn form(
    frame: &mut [u16],
    limit: usize,
    region: &mut [u16],
    heads: &[u16],
    count: usize,
    code: u16,
) -> (u16, usize) {
    let mut terms = usize::MAX;
    // SAFETY: the pointers and lengths are those of slices that live through the call
    let number = unsafe {
        frames_form(
            frame.as_mut_ptr(),
            frame.len(),
            limit,
            region.as_mut_ptr(),
            region.len(),
            heads.as_ptr(),
            heads.len(),
            count,
            code,
            &mut terms,
        )
    };
    (number, terms)
}
