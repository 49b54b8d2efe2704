// SPDX-License-Identifier: MIT OR Apache-2.0
//! The proved soundness test, through the static library.

extern "C" {
    fn soundness_number(state: *const u16, state_length: usize) -> u16;
}

/// 16 for a state that is too short, 11 for one that counts as no accepted basis, 0 for any other.
pub fn number(state: &[u16]) -> u16 {
    // SAFETY: the pointer and the length are those of a slice that lives through the call
    unsafe { soundness_number(state.as_ptr(), state.len()) }
}
