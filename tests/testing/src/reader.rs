// SPDX-License-Identifier: MIT OR Apache-2.0
//! The proved reader, through the static library.

extern "C" {
    fn reader_read(
        file: *const u8,
        file_length: usize,
        state: *mut u16,
        state_length: usize,
        place: *mut usize,
    ) -> u16;
}

/// Number and place; the state's words are read, not accepted.
pub fn read(file: &[u8], state: &mut [u16]) -> (u64, u64) {
    let mut place = usize::MAX;
    // SAFETY: the pointers and lengths are those of slices that live through the call
    let number = unsafe {
        reader_read(
            file.as_ptr(),
            file.len(),
            state.as_mut_ptr(),
            state.len(),
            &mut place,
        )
    };
    (u64::from(number), place as u64)
}
