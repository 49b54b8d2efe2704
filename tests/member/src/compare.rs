// SPDX-License-Identifier: MIT OR Apache-2.0
//! One input through the call, the program and the unrelated implementation: the bytes of the lines. Beside them what they say, applied to the input's text.

use crate::apply::Divided;
use common::buffers::MEMBER;
use common::call::Call;
use common::printer::Printer;
use common::printing::{Files, Printing, Spoiled};
use common::program::{By, Program};
use reference::membership::membership;
use tagetessash::calls;

/// What `spoil` changes besides an answer.
#[derive(Clone, Copy, PartialEq, Eq)]
pub enum Own {
    /// a coefficient of what is applied
    Back,
}

pub const SPOILS: [(&str, Own); 1] = [("back", Own::Back)];

/// Call and program, and what the lines have.
pub struct Compare {
    pub printing: Printing<Own>,
    /// inputs that were divided: without a remainder and with one; those without V lines, and of several components
    pub members: u64,
    pub others: u64,
    pub nothing: u64,
    pub modules: u64,
    /// the most terms that quotients, a remainder and a vector had
    pub quotients: usize,
    pub remainder: usize,
    pub lines: usize,
    /// those whose lines give the vector back
    pub back: u64,
}

impl Files for Compare {
    fn take(&mut self, file: &[u8], budget: u64, by: Option<By>) {
        if let Some(expected) = self.printing.expected(file, budget) {
            self.held(file, &expected, by);
        }
    }
}

impl Compare {
    pub fn new(seed: u64, spoil: Option<Spoiled<Own>>) -> Compare {
        let call = Call::new(calls::member, MEMBER, seed);
        let printer = Printer::new(call, Program::new("member", "MEMBER"));
        Compare {
            printing: Printing::new(printer, membership, spoil),
            members: 0,
            others: 0,
            nothing: 0,
            modules: 0,
            quotients: 0,
            remainder: 0,
            lines: 0,
            back: 0,
        }
    }

    /// One input whose lines are known.
    pub fn expect(&mut self, input: &[u8], expected: &[u8], by: By) {
        self.held(input, expected, Some(by));
    }

    fn held(&mut self, input: &[u8], expected: &[u8], by: Option<By>) {
        if !self.printing.expect(input, expected, by) {
            return;
        }
        let divided = Divided::of(input);
        let mut printed = expected.to_vec();
        if self.printing.spoils(Own::Back) {
            // another coefficient: 1 for 2 or more, 2 for 1; of a vector without lines another answer
            let at = printed
                .iter()
                .position(|byte| *byte == b',')
                .expect("a field")
                + 1;
            printed[at] = if printed[at] == b'1' { b'2' } else { b'1' };
        }
        match divided.against(&printed) {
            Err(wrong) => self.printing.differ(input, wrong, &printed, expected),
            Ok((quotients, remainder)) => {
                self.back += 1;
                self.members += u64::from(remainder == 0);
                self.others += u64::from(remainder > 0);
                self.quotients = self.quotients.max(quotients);
                self.remainder = self.remainder.max(remainder);
            }
        }
        self.nothing += u64::from(divided.vector.is_empty());
        self.modules += u64::from(divided.components > 1);
        self.lines = self.lines.max(divided.vector.len());
    }
}
