// SPDX-License-Identifier: MIT OR Apache-2.0
//! One file through the proved call and the unrelated implementation: number, length, the sheet's bytes, and what stands in the buffers afterwards.

use common::buffers::SHEET;
use common::call::{Call, Left, LEFT};
use common::report::{differ, NUMBERS};
use reference::sheet::sheet;
use reference::Limits;
use tagetessash::calls;

/// What `spoil` changes in one answer of the call or of the program, so that the comparison itself is tried.
#[derive(Clone, Copy, PartialEq, Eq)]
pub enum Spoiled {
    Left(Left),
    Length,
    Byte,
    Program,
}

pub fn spoils() -> Vec<(&'static str, Spoiled)> {
    let left = LEFT.map(|(name, left)| (name, Spoiled::Left(left)));
    let others = [
        ("length", Spoiled::Length),
        ("byte", Spoiled::Byte),
        ("program", Spoiled::Program),
    ];
    left.into_iter().chain(others).collect()
}

/// The call, and how many files met each number.
pub struct Compare {
    limits: Limits,
    call: Call,
    /// files so far, and those that take too many products
    pub files: u64,
    pub left_out: u64,
    /// files so far by the number of their X line, 0 for a full listing
    pub met: [u64; NUMBERS],
    /// the longest sheet so far, and the most levels in one
    pub longest: usize,
    pub levels: usize,
    /// the file at which to spoil an answer
    pub spoil: Option<(u64, Spoiled)>,
}

impl Compare {
    pub fn new(seed: u64) -> Compare {
        Compare {
            limits: Limits::document_01(),
            call: Call::new(calls::sheet, SHEET, seed),
            files: 0,
            left_out: 0,
            met: [0; NUMBERS],
            longest: 0,
            levels: 0,
            spoil: None,
        }
    }

    /// The unrelated implementation's sheet, unless it takes more products than that.
    pub fn expected(&self, file: &[u8], budget: u64) -> Option<Vec<u8>> {
        sheet(&self.limits, file, Some(budget)).0
    }

    /// One file by both, unless it takes more products than that.
    pub fn file(&mut self, file: &[u8], budget: u64) {
        let Some(expected) = self.expected(file, budget) else {
            self.left_out += 1;
            return;
        };
        let spoil = self.spoil.filter(|(at, _)| *at == self.files);
        let spoil = spoil.map(|(_, what)| what);
        let left = match spoil {
            Some(Spoiled::Left(left)) => Some(left),
            _ => None,
        };
        let mut printed = match self.call.print(file, left) {
            Ok(printed) => printed,
            Err(wrong) => self.differ(file, &wrong, b"", b""),
        };
        match spoil {
            Some(Spoiled::Length) => printed.push(0),
            Some(Spoiled::Byte) => *printed.last_mut().expect("it prints something") ^= 1,
            _ => {}
        }
        if printed != expected {
            self.differ(file, "the sheets differ", &printed, &expected);
        }
        self.count(&expected);
    }

    /// A buffer that is too short: 16, and nothing changes.
    pub fn short_buffers(&mut self, file: &[u8], state: usize, work: usize, out: usize) {
        if !self.call.refuses_short(file, state, work, out) {
            let what = format!("not 16, or changed, for buffers of {state}, {work}, {out}");
            self.differ(file, &what, b"", b"");
        }
        self.files += 1;
        self.met[16] += 1;
    }

    /// By the number of its X line.
    fn count(&mut self, sheet: &[u8]) {
        let number = sheet
            .split(|byte| *byte == 10)
            .find_map(|line| line.strip_prefix(b"X,"))
            .map_or(0, |rest| {
                let number = rest.split(|byte| *byte == b',').next().expect("a number");
                std::str::from_utf8(number)
                    .expect("digits")
                    .parse()
                    .expect("a number")
            });
        let levels = sheet
            .split(|byte| *byte == 10)
            .filter(|line| line.starts_with(b"Z,"))
            .count();
        self.files += 1;
        self.met[number as usize] += 1;
        self.longest = self.longest.max(sheet.len());
        self.levels = self.levels.max(levels);
    }

    pub fn differ(&self, file: &[u8], what: &str, ours: &[u8], expected: &[u8]) -> ! {
        differ(self.files, file, what, ours, expected)
    }
}
