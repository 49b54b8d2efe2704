// SPDX-License-Identifier: MIT OR Apache-2.0
//! A public call that prints, in the test's own process: what it answers, and what stands in the buffers afterwards.

use crate::buffers::{all_zero, more, STATE, WORK};
use reference::random::Random;

/// A call of the library's Rust crate over file, state, work and out: number, and how many bytes out has in front.
pub type Prints = fn(&[u8], &mut [u16], &mut [u16], &mut [u8]) -> (u16, usize);

/// How much longer than it must be a buffer may be.
const MORE: usize = 64;
/// One call in so many finds other words everywhere in its buffers, the others in some places.
const ALL_OTHER: u64 = 256;

/// What may be changed in an answer besides the bytes that were printed, so that the comparison itself is tried.
#[derive(Clone, Copy, PartialEq, Eq)]
pub enum Left {
    /// the number
    Number,
    /// a byte behind what is printed
    Behind,
    /// a word of the state
    State,
    /// a word of the work area
    Work,
}

pub const LEFT: [(&str, Left); 4] = [
    ("number", Left::Number),
    ("behind", Left::Behind),
    ("state", Left::State),
    ("work", Left::Work),
];

/// The call, and the buffers that are lent to it.
pub struct Call {
    prints: Prints,
    /// the length of out that it needs
    bytes: usize,
    random: Random,
    calls: u64,
    state: Vec<u16>,
    work: Vec<u16>,
    out: Vec<u8>,
}

impl Call {
    /// The call, how long out must be, and a seed for what stands in the buffers before.
    pub fn new(prints: Prints, bytes: usize, seed: u64) -> Call {
        Call {
            prints,
            bytes,
            random: Random::new(seed),
            calls: 0,
            state: vec![0xaaaa; STATE + MORE],
            work: vec![0xaaaa; WORK + MORE],
            out: vec![0xaa; bytes + MORE],
        }
    }

    /// What is printed of this file; or what is wrong: the answer is not 0, or other words than zeros stand behind what is printed, in the state, in the work
    /// area.
    pub fn print(&mut self, file: &[u8], spoil: Option<Left>) -> Result<Vec<u8>, String> {
        let more = more(&mut self.random, MORE);
        let lengths = (STATE + more, WORK + more, self.bytes + more);
        self.other_words(lengths);
        let state = &mut self.state[..lengths.0];
        let work = &mut self.work[..lengths.1];
        let out = &mut self.out[..lengths.2];
        let (mut number, length) = (self.prints)(file, state, work, out);
        match spoil {
            Some(Left::Number) => number = 16,
            Some(Left::Behind) => out[lengths.2 - 1] ^= 1,
            Some(Left::State) => state[lengths.0 - 1] ^= 1,
            Some(Left::Work) => work[0] ^= 1,
            None => {}
        }
        if number != 0 || length > self.bytes {
            return Err(format!("the call answers {number} with {length} bytes"));
        }
        for (zeros, what) in [
            (all_zero(&out[length..]), "bytes behind what is printed"),
            (all_zero(state), "words in the state"),
            (all_zero(work), "words in the work area"),
        ] {
            if !zeros {
                return Err(format!("the call leaves {what}"));
            }
        }
        Ok(out[..length].to_vec())
    }

    /// What stood in the buffers before must not matter.
    fn other_words(&mut self, lengths: (usize, usize, usize)) {
        if self.calls.is_multiple_of(ALL_OTHER) {
            let bits = match self.calls.is_multiple_of(2 * ALL_OTHER) {
                true => u64::MAX,
                false => self.random.bits(),
            };
            self.state.fill(bits as u16);
            self.work.fill((bits >> 16) as u16);
            self.out.fill((bits >> 32) as u8);
        }
        for _ in 0..16 {
            let bits = self.random.bits();
            let at = self.random.below(lengths.0 as u64) as usize;
            self.state[at] = bits as u16;
            let at = self.random.below(lengths.1 as u64) as usize;
            self.work[at] = bits as u16;
            let at = self.random.below(lengths.2 as u64) as usize;
            self.out[at] = bits as u8;
        }
        self.calls += 1;
    }

    /// Whether it answers 16 with length 0 and changes nothing where a buffer is too short.
    pub fn refuses_short(&mut self, file: &[u8], state: usize, work: usize, out: usize) -> bool {
        assert!(state < STATE || work < WORK || out < self.bytes);
        self.state.fill(self.random.bits() as u16);
        self.work.fill(self.random.bits() as u16);
        self.out.fill(self.random.bits() as u8);
        let before = (self.state.clone(), self.work.clone(), self.out.clone());
        let answer = (self.prints)(
            file,
            &mut self.state[..state],
            &mut self.work[..work],
            &mut self.out[..out],
        );
        let same = before.0 == self.state && before.1 == self.work && before.2 == self.out;
        answer == (16, 0) && same
    }
}
