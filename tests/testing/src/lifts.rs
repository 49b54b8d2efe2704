// SPDX-License-Identifier: MIT OR Apache-2.0
//! Proved lifting of one level, through the static library.

extern "C" {
    fn lifts_level(
        out: *mut u16,
        out_length: usize,
        work: *mut u16,
        work_length: usize,
        cache: *mut u16,
        cache_length: usize,
        state: *const u16,
        state_length: usize,
        level: usize,
        way: u16,
        pick: u16,
        working: usize,
        vector: usize,
        tree: usize,
        room: usize,
        count: *mut usize,
        used: *mut usize,
    ) -> u16;
}

/// The slices that a call is lent.
pub struct Lent<'a> {
    pub out: &'a mut [u16],
    pub work: &'a mut [u16],
    pub cache: &'a mut [u16],
    pub state: &'a [u16],
}

/// What is asked for: the way is 0 division, 1 hybrid, 2 tree; the limits are in terms.
#[derive(Clone, Copy, Debug)]
pub struct Asked {
    pub level: usize,
    pub way: u16,
    pub pick: u16,
    pub working: usize,
    pub vector: usize,
    pub tree: usize,
    pub room: usize,
}

/// What is answered: the number, how many vectors there are, and how many terms they have together.
#[derive(Clone, Copy, Debug, PartialEq, Eq)]
pub struct Answer {
    pub number: u16,
    pub count: usize,
    pub used: usize,
}

/// The ends of the vectors stand in words 0 to 127 of `out`, the rows from word 128 on.
pub fn level(lent: Lent, asked: &Asked) -> Answer {
    let (mut count, mut used) = (usize::MAX, usize::MAX);
    // SAFETY: the pointers and lengths are those of slices that live through the call
    let number = unsafe {
        lifts_level(
            lent.out.as_mut_ptr(),
            lent.out.len(),
            lent.work.as_mut_ptr(),
            lent.work.len(),
            lent.cache.as_mut_ptr(),
            lent.cache.len(),
            lent.state.as_ptr(),
            lent.state.len(),
            asked.level,
            asked.way,
            asked.pick,
            asked.working,
            asked.vector,
            asked.tree,
            asked.room,
            &mut count,
            &mut used,
        )
    };
    Answer {
        number,
        count,
        used,
    }
}
