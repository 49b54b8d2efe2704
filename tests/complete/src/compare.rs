// SPDX-License-Identifier: MIT OR Apache-2.0
//! One file through the call, the program and the unrelated implementation: the bytes. Beside them what a completed file promises.

use crate::module::{added_rightly, same_module};
use common::buffers::COMPLETED;
use common::call::Call;
use common::printer::Printer;
use common::printing::{Files, Printing, Spoiled};
use common::program::{By, Program};
use reference::completing::complete;
use reference::monomial::{Monomial, Term, UNIT};
use reference::reader::read_problem;
use reference::Limits;
use tagetessash::calls;

/// What `spoil` changes besides an answer.
#[derive(Clone, Copy, PartialEq, Eq)]
pub enum Own {
    /// an added element becomes 1 in the last component
    Other,
    /// the last element is left out
    Fewer,
    /// an added element is doubled
    Double,
    /// one is added twice
    Twice,
    /// a line before E
    Line,
    /// what is printed of a printed file
    Again,
}

pub const SPOILS: [(&str, Own); 6] = [
    ("other", Own::Other),
    ("fewer", Own::Fewer),
    ("double", Own::Double),
    ("twice", Own::Twice),
    ("given", Own::Line),
    ("again", Own::Again),
];

/// Of the completed files one in so many is completed again.
const AGAIN: u64 = 8;

/// Call and program, and what the files have.
pub struct Compare {
    pub printing: Printing<Own>,
    limits: Limits,
    /// files accepted at once, and those that got longer
    pub unchanged: u64,
    pub longer: u64,
    /// files that got longer by several elements, and in modules of several components
    pub by_several: u64,
    pub modules: u64,
    /// the most elements that were added to a file, all that were added, the most elements and T lines that a completed file has
    pub most: usize,
    pub added: u64,
    pub elements: usize,
    pub lines: usize,
    /// the most bytes that a completed file has
    pub bytes: usize,
    /// files whose module was shown to be the same, and those that were completed again
    pub shown: u64,
    pub again: u64,
}

impl Files for Compare {
    fn take(&mut self, file: &[u8], budget: u64, by: Option<By>) {
        if let Some(expected) = self.printing.expected(file, budget) {
            self.held(file, &expected, by);
        }
    }
}

/// A file without its last line.
fn before_end(file: &[u8]) -> &[u8] {
    let lines = &file[..file.len() - 1];
    let end = lines.iter().rposition(|byte| *byte == 10);
    &file[..end.expect("lines before E") + 1]
}

impl Compare {
    pub fn new(seed: u64, spoil: Option<Spoiled<Own>>) -> Compare {
        let call = Call::new(calls::completed, COMPLETED, seed);
        let printer = Printer::new(call, Program::new("complete", "COMPLETE"));
        Compare {
            printing: Printing::new(printer, complete, spoil),
            limits: Limits::document_01(),
            unchanged: 0,
            longer: 0,
            by_several: 0,
            modules: 0,
            most: 0,
            added: 0,
            elements: 0,
            lines: 0,
            bytes: 0,
            shown: 0,
            again: 0,
        }
    }

    /// One file of which it is known what is printed.
    pub fn expect(&mut self, file: &[u8], expected: &[u8], by: By) {
        self.held(file, expected, Some(by));
    }

    fn held(&mut self, file: &[u8], expected: &[u8], by: Option<By>) {
        if !self.printing.expect(file, expected, by) {
            return;
        }
        if expected == file {
            self.unchanged += 1;
            return;
        }
        self.longer += 1;
        let mut given = before_end(file).to_vec();
        if self.printing.spoils(Own::Line) {
            *given.last_mut().expect("a line") ^= 1;
        }
        if !expected.starts_with(&given) {
            self.wrong(file, "a line before E was changed", expected);
        }
        self.promises(file, expected);
        if self.longer.is_multiple_of(AGAIN) || self.printing.spoils(Own::Again) {
            let mut again = self.printing.print(expected);
            if self.printing.spoils(Own::Again) {
                again[0] ^= 1;
            }
            if again != expected {
                let what = "the completed file is not printed unchanged";
                self.printing.differ(expected, what, &again, expected);
            }
            self.again += 1;
        }
    }

    /// What was added, and the module.
    fn promises(&mut self, file: &[u8], printed: &[u8]) {
        let old = read_problem(&self.limits, file).expect("it was completed");
        let new = read_problem(&self.limits, printed).expect("it was printed as a problem file");
        if (new.parameters, &new.degrees, &new.weights)
            != (old.parameters, &old.degrees, &old.weights)
        {
            self.wrong(file, "R, D or G say something else", printed);
        }
        let mut elements = new.elements;
        let added = elements.len() - old.elements.len();
        let last = elements.last_mut().expect("elements");
        if self.printing.spoils(Own::Double) {
            last[0].coefficient = 2;
        }
        if self.printing.spoils(Own::Other) {
            let monomial = Monomial {
                component: old.parameters.s,
                exponents: UNIT,
            };
            *last = vec![Term {
                coefficient: 1,
                monomial,
            }];
        }
        if self.printing.spoils(Own::Twice) {
            let twice = last.clone();
            elements.push(twice);
        }
        if self.printing.spoils(Own::Fewer) {
            elements.pop();
        }
        // of these two the module itself is to be found wrong
        let module_alone = self.printing.spoils(Own::Other) || self.printing.spoils(Own::Fewer);
        if !module_alone {
            if let Err(what) = added_rightly(&old.elements, &elements) {
                self.wrong(file, what, printed);
            }
        }
        match same_module(&old, &elements) {
            Some(Err(what)) => self.wrong(file, what, printed),
            Some(Ok(())) => self.shown += 1,
            None => {}
        }
        self.by_several += u64::from(added > 1);
        self.modules += u64::from(old.parameters.s > 1);
        self.added += added as u64;
        self.most = self.most.max(added);
        self.elements = self.elements.max(elements.len());
        self.lines = self.lines.max(elements.iter().map(Vec::len).sum());
        self.bytes = self.bytes.max(printed.len());
    }

    fn wrong(&self, file: &[u8], what: &str, printed: &[u8]) -> ! {
        self.printing.differ(file, what, printed, printed)
    }
}
