// SPDX-License-Identifier: MIT OR Apache-2.0
//! One file through the call, the program and the unrelated implementation: the page's bytes.

use common::buffers::PAGE;
use common::call::Call;
use common::pages::{labels, totals, COLUMNS};
use common::printer::Printer;
use common::printing::{Files, Printing, Spoiled};
use common::program::{By, Program};
use reference::betti::page;
use tagetessash::calls;

/// Call and program, and what the pages have.
pub struct Compare {
    pub printing: Printing<()>,
    /// pages with a negative row, with an empty row in the middle
    pub negative: u64,
    pub gaps: u64,
    /// the last column in use, by column
    pub columns: [u64; COLUMNS],
    /// the longest page so far, in lines
    pub longest: usize,
}

impl Files for Compare {
    fn take(&mut self, file: &[u8], budget: u64, by: Option<By>) {
        if let Some(expected) = self.printing.expected(file, budget) {
            self.held(file, &expected, by);
        }
    }
}

impl Compare {
    pub fn new(seed: u64, spoil: Option<Spoiled<()>>) -> Compare {
        let call = Call::new(calls::betti, PAGE, seed);
        let printer = Printer::new(call, Program::new("betti_numbers", "BETTI"));
        Compare {
            printing: Printing::new(printer, page, spoil),
            negative: 0,
            gaps: 0,
            columns: [0; COLUMNS],
            longest: 0,
        }
    }

    /// One file whose page is known.
    pub fn expect(&mut self, file: &[u8], expected: &[u8], by: By) {
        self.held(file, expected, Some(by));
    }

    fn held(&mut self, file: &[u8], expected: &[u8], by: Option<By>) {
        if self.printing.expect(file, expected, by) {
            self.count(expected);
        }
    }

    fn count(&mut self, page: &[u8]) {
        let text = std::str::from_utf8(page).expect("text");
        let empty = |line: &str| line[6..].bytes().all(|byte| byte == b' ' || byte == b'-');
        let last = totals(page).iter().rposition(|total| *total > 0);
        self.columns[last.expect("column 0 is in use")] += 1;
        let labels = labels(page);
        self.negative += u64::from(labels[0].contains('-'));
        self.gaps += u64::from(text.lines().any(empty));
        self.longest = self.longest.max(labels.len());
    }
}
