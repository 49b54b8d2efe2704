// SPDX-License-Identifier: MIT OR Apache-2.0
//! What prints: a public call, in the test's own process, and the program that people run, which makes this call and no other.

use crate::call::{Call, Left, LEFT};
use crate::program::{By, Program};
use crate::report::differ;
use reference::random::Random;

/// Of the files of which nothing else is said one in so many goes to the program too: a process costs more than all the rest.
const APART: u64 = 10;

/// What may be changed in the bytes that were printed.
#[derive(Clone, Copy, PartialEq, Eq)]
pub enum Bytes {
    /// the first one
    First,
    /// the last one
    Last,
    /// one in the middle
    Middle,
    /// a byte less
    Shorter,
    /// a byte more
    Longer,
    /// a line less
    Line,
}

impl Bytes {
    fn spoil(self, printed: &mut Vec<u8>) {
        let middle = printed.len() / 2;
        match self {
            Bytes::First => printed[0] ^= 1,
            Bytes::Last => *printed.last_mut().expect("it prints something") ^= 1,
            Bytes::Middle => printed[middle] ^= 1,
            Bytes::Shorter => _ = printed.pop(),
            Bytes::Longer => printed.push(10),
            Bytes::Line => {
                let first = printed.iter().position(|byte| *byte == 10);
                printed.drain(..=first.expect("a line"));
            }
        }
    }
}

/// What `spoil` changes in one of the two answers.
#[derive(Clone, Copy, PartialEq, Eq)]
pub enum Spoil {
    Call(Bytes),
    Left(Left),
    Program(Bytes),
}

/// All that can be spoiled of a printer, by name.
pub fn spoils() -> Vec<(&'static str, Spoil)> {
    let mut all = vec![
        ("first", Spoil::Call(Bytes::First)),
        ("last", Spoil::Call(Bytes::Last)),
        ("middle", Spoil::Call(Bytes::Middle)),
        ("shorter", Spoil::Call(Bytes::Shorter)),
        ("longer", Spoil::Call(Bytes::Longer)),
        ("line", Spoil::Call(Bytes::Line)),
        ("program first", Spoil::Program(Bytes::First)),
        ("program last", Spoil::Program(Bytes::Last)),
        ("program middle", Spoil::Program(Bytes::Middle)),
        ("program shorter", Spoil::Program(Bytes::Shorter)),
        ("program longer", Spoil::Program(Bytes::Longer)),
        ("program line", Spoil::Program(Bytes::Line)),
    ];
    all.extend(LEFT.map(|(name, left)| (name, Spoil::Left(left))));
    all
}

/// The two.
pub struct Printer {
    call: Call,
    program: Program,
    /// files so far, and those of them that went to the program too
    pub files: u64,
    pub runs: u64,
    random: Random,
    /// of APART files the one that goes to the program
    picked: u64,
    /// files of which nothing else was said
    unsaid: u64,
}

impl Printer {
    pub fn new(call: Call, program: Program) -> Printer {
        Printer {
            call,
            program,
            files: 0,
            runs: 0,
            random: Random::new(APART),
            picked: 0,
            unsaid: 0,
        }
    }

    /// What the call prints of this file. The program must print the same where it is said how it gets the file, and else of one file in APART.
    pub fn print(&mut self, file: &[u8], by: Option<By>, spoil: Option<Spoil>) -> Vec<u8> {
        let left = match spoil {
            Some(Spoil::Left(left)) => Some(left),
            _ => None,
        };
        let mut printed = match self.call.print(file, left) {
            Ok(printed) => printed,
            Err(wrong) => differ(self.files, file, &wrong, b"", b""),
        };
        if let Some(by) = by.or_else(|| self.picked().then_some(By::File)) {
            let mut other = self.program.run(file, by);
            if let Some(Spoil::Program(bytes)) = spoil {
                bytes.spoil(&mut other);
            }
            if other != printed {
                let what = "the program prints something else than the call";
                differ(self.files, file, what, &other, &printed);
            }
            self.runs += 1;
        }
        if let Some(Spoil::Call(bytes)) = spoil {
            bytes.spoil(&mut printed);
        }
        self.files += 1;
        printed
    }

    /// Whether this is the one of APART files: anywhere among them, since systematic files come in periods.
    fn picked(&mut self) -> bool {
        let at = self.unsaid % APART;
        if at == 0 {
            self.picked = self.random.below(APART);
        }
        self.unsaid += 1;
        at == self.picked
    }

    pub fn name(&self) -> String {
        self.program.name()
    }

    /// The program gets at least as many files as it should.
    pub fn enough(&self) {
        assert!(
            (self.runs + 1) * APART > self.files,
            "the program got {} of {} files",
            self.runs,
            self.files
        );
    }
}
