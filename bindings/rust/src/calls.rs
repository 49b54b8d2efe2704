// SPDX-License-Identifier: MIT OR Apache-2.0
//! The calls themselves, over slices of any length. [`crate::Engine`] lends them buffers that are long enough, and a stack that the tree needs; the
//! tests and the bench of this repository lend others.

extern "C" {
    fn tagetessash_read(
        file: *const u8,
        file_bytes: usize,
        state: *mut u16,
        state_words: usize,
        work: *mut u16,
        work_words: usize,
        place: *mut usize,
    ) -> u16;
    fn tagetessash_lift(
        state: *mut u16,
        state_words: usize,
        work: *mut u16,
        work_words: usize,
        cache: *mut u16,
        cache_words: usize,
        level: usize,
        way: u16,
        pick: u16,
        place: *mut usize,
    ) -> u16;
    fn tagetessash_fetch(
        state: *const u16,
        state_words: usize,
        out: *mut u16,
        out_words: usize,
        level: usize,
        vector: usize,
        place: *mut usize,
    ) -> u16;
    fn tagetessash_divide(
        state: *const u16,
        state_words: usize,
        vector: *const u16,
        vector_words: usize,
        quotients: *mut u16,
        quotients_words: usize,
        remainder: *mut u16,
        remainder_words: usize,
        place: *mut usize,
    ) -> u16;
    fn tagetessash_sheet(
        file: *const u8,
        file_bytes: usize,
        state: *mut u16,
        state_words: usize,
        work: *mut u16,
        work_words: usize,
        out: *mut u8,
        out_bytes: usize,
        length: *mut usize,
    ) -> u16;
    fn tagetessash_betti(
        file: *const u8,
        file_bytes: usize,
        state: *mut u16,
        state_words: usize,
        work: *mut u16,
        work_words: usize,
        out: *mut u8,
        out_bytes: usize,
        length: *mut usize,
    ) -> u16;
    fn tagetessash_minimal(
        file: *const u8,
        file_bytes: usize,
        state: *mut u16,
        state_words: usize,
        work: *mut u16,
        work_words: usize,
        out: *mut u8,
        out_bytes: usize,
        length: *mut usize,
    ) -> u16;
    fn tagetessash_bidegrees(
        file: *const u8,
        file_bytes: usize,
        state: *mut u16,
        state_words: usize,
        work: *mut u16,
        work_words: usize,
        out: *mut u8,
        out_bytes: usize,
        length: *mut usize,
    ) -> u16;
    fn tagetessash_hilbert(
        file: *const u8,
        file_bytes: usize,
        state: *mut u16,
        state_words: usize,
        work: *mut u16,
        work_words: usize,
        out: *mut u8,
        out_bytes: usize,
        length: *mut usize,
    ) -> u16;
    fn tagetessash_member(
        input: *const u8,
        input_bytes: usize,
        state: *mut u16,
        state_words: usize,
        work: *mut u16,
        work_words: usize,
        out: *mut u8,
        out_bytes: usize,
        length: *mut usize,
    ) -> u16;
    fn tagetessash_completed(
        file: *const u8,
        file_bytes: usize,
        state: *mut u16,
        state_words: usize,
        work: *mut u16,
        work_words: usize,
        out: *mut u8,
        out_bytes: usize,
        length: *mut usize,
    ) -> u16;
    fn tagetessash_replay(
        input: *const u8,
        input_bytes: usize,
        state: *mut u16,
        state_words: usize,
        work: *mut u16,
        work_words: usize,
        out: *mut u8,
        out_bytes: usize,
        length: *mut usize,
    ) -> u16;
    fn tagetessash_version() -> u16;
    fn tagetessash_minor() -> u16;
}

/// The library's version.
pub fn version() -> u16 {
    // SAFETY: it takes nothing and reads nothing
    unsafe { tagetessash_version() }
}

/// What was added to that version.
pub fn minor() -> u16 {
    // SAFETY: it takes nothing and reads nothing
    unsafe { tagetessash_minor() }
}

/// Number and place.
pub fn read(file: &[u8], state: &mut [u16], work: &mut [u16]) -> (u16, usize) {
    let mut place = usize::MAX;
    // SAFETY: each pointer and length are those of a slice that lives through the call; the slices do not overlap
    let number = unsafe {
        tagetessash_read(
            file.as_ptr(),
            file.len(),
            state.as_mut_ptr(),
            state.len(),
            work.as_mut_ptr(),
            work.len(),
            &mut place,
        )
    };
    (number, place)
}

/// Number and place.
pub fn lift(
    state: &mut [u16],
    work: &mut [u16],
    cache: &mut [u16],
    level: usize,
    way: u16,
    pick: u16,
) -> (u16, usize) {
    let mut place = usize::MAX;
    // SAFETY: as above
    let number = unsafe {
        tagetessash_lift(
            state.as_mut_ptr(),
            state.len(),
            work.as_mut_ptr(),
            work.len(),
            cache.as_mut_ptr(),
            cache.len(),
            level,
            way,
            pick,
            &mut place,
        )
    };
    (number, place)
}

/// Number and place.
pub fn fetch(state: &[u16], out: &mut [u16], level: usize, vector: usize) -> (u16, usize) {
    let mut place = usize::MAX;
    // SAFETY: as above
    let number = unsafe {
        tagetessash_fetch(
            state.as_ptr(),
            state.len(),
            out.as_mut_ptr(),
            out.len(),
            level,
            vector,
            &mut place,
        )
    };
    (number, place)
}

/// Number and place.
pub fn divide(
    state: &[u16],
    vector: &[u16],
    quotients: &mut [u16],
    remainder: &mut [u16],
) -> (u16, usize) {
    let mut place = usize::MAX;
    // SAFETY: as above
    let number = unsafe {
        tagetessash_divide(
            state.as_ptr(),
            state.len(),
            vector.as_ptr(),
            vector.len(),
            quotients.as_mut_ptr(),
            quotients.len(),
            remainder.as_mut_ptr(),
            remainder.len(),
            &mut place,
        )
    };
    (number, place)
}

/// A call that prints what it finds in a file.
type Printing = unsafe extern "C" fn(
    *const u8,
    usize,
    *mut u16,
    usize,
    *mut u16,
    usize,
    *mut u8,
    usize,
    *mut usize,
) -> u16;

/// Number and how many bytes `out` has in front, by one of the calls above.
fn printed(
    call: Printing,
    file: &[u8],
    state: &mut [u16],
    work: &mut [u16],
    out: &mut [u8],
) -> (u16, usize) {
    let mut length = usize::MAX;
    // SAFETY: each pointer and length are those of a slice that lives through the call; the slices do not overlap
    let number = unsafe {
        call(
            file.as_ptr(),
            file.len(),
            state.as_mut_ptr(),
            state.len(),
            work.as_mut_ptr(),
            work.len(),
            out.as_mut_ptr(),
            out.len(),
            &mut length,
        )
    };
    (number, length)
}

/// Number and how many bytes `out` has in front.
pub fn sheet(file: &[u8], state: &mut [u16], work: &mut [u16], out: &mut [u8]) -> (u16, usize) {
    printed(tagetessash_sheet, file, state, work, out)
}

/// Number and how many bytes `out` has in front.
pub fn betti(file: &[u8], state: &mut [u16], work: &mut [u16], out: &mut [u8]) -> (u16, usize) {
    printed(tagetessash_betti, file, state, work, out)
}

/// Number and how many bytes `out` has in front.
pub fn minimal(file: &[u8], state: &mut [u16], work: &mut [u16], out: &mut [u8]) -> (u16, usize) {
    printed(tagetessash_minimal, file, state, work, out)
}

/// Number and how many bytes `out` has in front.
pub fn bidegrees(file: &[u8], state: &mut [u16], work: &mut [u16], out: &mut [u8]) -> (u16, usize) {
    printed(tagetessash_bidegrees, file, state, work, out)
}

/// Number and how many bytes `out` has in front.
pub fn hilbert(file: &[u8], state: &mut [u16], work: &mut [u16], out: &mut [u8]) -> (u16, usize) {
    printed(tagetessash_hilbert, file, state, work, out)
}

/// Number and how many bytes `out` has in front.
pub fn member(input: &[u8], state: &mut [u16], work: &mut [u16], out: &mut [u8]) -> (u16, usize) {
    printed(tagetessash_member, input, state, work, out)
}

/// Number and how many bytes `out` has in front.
pub fn completed(file: &[u8], state: &mut [u16], work: &mut [u16], out: &mut [u8]) -> (u16, usize) {
    printed(tagetessash_completed, file, state, work, out)
}

/// Number and how many bytes `out` has in front.
pub fn replay(input: &[u8], state: &mut [u16], work: &mut [u16], out: &mut [u8]) -> (u16, usize) {
    printed(tagetessash_replay, input, state, work, out)
}
