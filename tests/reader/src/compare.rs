// SPDX-License-Identifier: MIT OR Apache-2.0
//! One file through both readers: number, place and every word of the state.

use common::buffers::{all_zero, more, STATE};
use common::report::{shown, NUMBERS};
use common::states::{basis_of, write_basis};
use reference::random::Random;
use reference::reader::read_problem;
use reference::Limits;
use testing::reader as proved;

/// What `spoil` changes in one answer of the proved reader, so that the comparison itself is tried.
#[derive(Clone, Copy, PartialEq, Eq)]
pub enum Spoiled {
    Number,
    Place,
    Word,
}

pub const SPOILS: [(&str, Spoiled); 3] = [
    ("number", Spoiled::Number),
    ("place", Spoiled::Place),
    ("word", Spoiled::Word),
];

/// The buffers of both sides, and how many files met each number.
pub struct Compare {
    limits: Limits,
    random: Random,
    state: Vec<u16>,
    expected: Vec<u16>,
    /// files so far
    pub files: u64,
    /// files so far by number
    pub met: [u64; NUMBERS],
    /// the file at which to spoil an answer
    pub spoil: Option<(u64, Spoiled)>,
}

/// Words that a longer buffer may have behind the state.
const MORE: usize = 64;

impl Compare {
    pub fn new(seed: u64) -> Compare {
        Compare {
            limits: Limits::document_01(),
            random: Random::new(seed),
            state: vec![0xaaaa; STATE + MORE],
            expected: vec![0; STATE + MORE],
            files: 0,
            met: [0; NUMBERS],
            spoil: None,
        }
    }

    /// Reads the file both ways into a buffer of the state's length or a little more.
    pub fn file(&mut self, file: &[u8]) {
        let words = STATE + more(&mut self.random, MORE);
        // what stood in the buffer before must not matter
        for _ in 0..16 {
            let at = self.random.below(words as u64) as usize;
            self.state[at] = self.random.bits() as u16;
        }
        if self.files.is_multiple_of(1024) {
            self.state.fill(self.random.bits() as u16);
        }
        let mut answer = proved::read(file, &mut self.state[..words]);
        if let Some((at, what)) = self.spoil {
            if at == self.files {
                match what {
                    Spoiled::Number => answer.0 ^= 1,
                    Spoiled::Place => answer.1 += 1,
                    Spoiled::Word => self.state[words - 1] ^= 1,
                }
            }
        }
        let read = read_problem(&self.limits, file);
        let expected = match &read {
            Ok(_) => (0, 0),
            Err(refusal) => (refusal.number, refusal.place),
        };
        if answer != expected {
            self.differ(file, &format!("answered {answer:?}, expected {expected:?}"));
        }
        match read {
            Ok(problem) => {
                write_basis(basis_of(problem), &mut self.expected[..words]);
                if self.state[..words] != self.expected[..words] {
                    self.differ(file, "the state's words differ");
                }
            }
            Err(_) => {
                if !all_zero(&self.state[..words]) {
                    self.differ(file, "a refused file left words behind");
                }
            }
        }
        self.count(expected.0);
    }

    /// A buffer that is too short: 16, and no word changes.
    pub fn short_buffer(&mut self, file: &[u8], words: usize) {
        assert!(words < STATE);
        for word in &mut self.state[..words] {
            *word = self.random.bits() as u16;
        }
        let before = self.state[..words].to_vec();
        let answer = proved::read(file, &mut self.state[..words]);
        if answer != (16, 0) || self.state[..words] != before {
            self.differ(
                file,
                &format!("answered {answer:?} for a buffer of {words} words"),
            );
        }
        self.count(16);
    }

    fn count(&mut self, number: u64) {
        self.files += 1;
        self.met[number as usize] += 1;
    }

    fn differ(&self, file: &[u8], what: &str) -> ! {
        println!("file {} ({} bytes): {what}", self.files, file.len());
        println!("{}", shown(file, 2_000));
        std::process::exit(1);
    }
}
