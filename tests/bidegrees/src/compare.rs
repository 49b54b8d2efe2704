// SPDX-License-Identifier: MIT OR Apache-2.0
//! One file through the call, the program and the unrelated implementation: the bytes of the lines. Beside them the sheet and the Betti page, by call and by
//! program: with a G line they are what they are without it, and with every a at 1 the counts summed over b are the page's.

use common::buffers::{BIDEGREES, PAGE, SHEET};
use common::call::Call;
use common::pages::{by_degree, Numbers, COLUMNS};
use common::printer::Printer;
use common::printing::{Files, Printing, Spoiled};
use common::program::{By, Program};
use reference::betti::page;
use reference::bidegrees::bidegrees;
use reference::reader::{read_problem, Problem};
use reference::sheet::sheet;
use reference::Limits;
use tagetessash::calls;

/// What `spoil` changes besides an answer.
#[derive(Clone, Copy, PartialEq, Eq)]
pub enum Own {
    /// a count of a Betti page whose counts are summed
    Sum,
    /// a byte of a Betti page of a file with a G line
    Page,
    /// a byte of a sheet of a file with a G line
    Sheet,
    /// the same of what the programs print
    ProgramPage,
    ProgramSheet,
}

pub const SPOILS: [(&str, Own); 5] = [
    ("sum", Own::Sum),
    ("page", Own::Page),
    ("sheet", Own::Sheet),
    ("program page", Own::ProgramPage),
    ("program sheet", Own::ProgramSheet),
];

/// Calls and programs, and what the lines have.
pub struct Compare {
    limits: Limits,
    pub printing: Printing<Own>,
    pub betti: Printer,
    pub syzygies: Printer,
    /// files with a second sum above 0
    pub second: u64,
    /// the last column in use, by column
    pub columns: [u64; COLUMNS],
    /// the most lines so far, and the longest line
    pub most: usize,
    pub longest: usize,
    /// files whose counts were summed over b
    pub summed: u64,
    /// accepted files, by whether the page is refused with 17 and the lines with 25
    pub refused: [[u64; 2]; 2],
}

impl Files for Compare {
    /// And beside sheet and page.
    fn take(&mut self, file: &[u8], budget: u64, by: Option<By>) {
        if let Some(expected) = self.printing.expected(file, budget) {
            self.held(file, &expected, by);
            if let Ok(problem) = read_problem(&self.limits, file) {
                self.beside(file, &problem, &expected, budget);
            }
        }
    }
}

impl Compare {
    pub fn new(seed: u64, spoil: Option<Spoiled<Own>>) -> Compare {
        let lines = Call::new(calls::bidegrees, BIDEGREES, seed);
        let lines = Printer::new(lines, Program::new("bidegrees", "BIDEGREES"));
        let pages = Call::new(calls::betti, PAGE, seed);
        let sheets = Call::new(calls::sheet, SHEET, seed);
        Compare {
            limits: Limits::document_01(),
            printing: Printing::new(lines, bidegrees, spoil),
            betti: Printer::new(pages, Program::new("betti_numbers", "BETTI")),
            syzygies: Printer::new(sheets, Program::new("syzygies", "SYZYGIES")),
            second: 0,
            columns: [0; COLUMNS],
            most: 0,
            longest: 0,
            summed: 0,
            refused: [[0; 2]; 2],
        }
    }

    /// One file whose lines are known.
    pub fn expect(&mut self, file: &[u8], expected: &[u8], by: By) {
        self.held(file, expected, Some(by));
    }

    fn held(&mut self, file: &[u8], expected: &[u8], by: Option<By>) {
        if self.printing.expect(file, expected, by) {
            self.count(expected);
        }
    }

    /// A file that is read, beside the sheet and the Betti page.
    fn beside(&mut self, file: &[u8], problem: &Problem, lines: &[u8], budget: u64) {
        let ones = problem.weights.iter().all(|[a, _]| *a == 1);
        let sums = ones && lines.starts_with(b"B");
        let without = self.printing.without_line(file);
        if !sums && without.is_none() {
            return;
        }
        let Some(expected) = page(&self.limits, file, Some(budget)).0 else {
            return;
        };
        let spoil = self.printing.spoils_program(Own::ProgramPage);
        let mut printed = self.betti.print(file, None, spoil);
        if let Some(bare) = without {
            let two_degrees = usize::from(printed.starts_with(b"X,17,"));
            let two_bidegrees = usize::from(lines.starts_with(b"X,25,"));
            let other = |text: &[u8]| text.starts_with(b"X,");
            if (two_degrees == 1 || !other(&printed)) && (two_bidegrees == 1 || !other(lines)) {
                self.refused[two_degrees][two_bidegrees] += 1;
            }
            let plain = self.betti.print(&bare, None, None);
            if self.printing.spoils(Own::Page) {
                printed[0] ^= 1;
            }
            if printed != plain || printed != expected {
                let what = "the Betti page of the file with its G line differs";
                self.printing.differ(file, what, &printed, &plain);
            }
            // where 25 comes nothing was lifted yet
            if let Some(expected) = sheet(&self.limits, file, Some(budget)).0 {
                let spoil = self.printing.spoils_program(Own::ProgramSheet);
                let mut printed = self.syzygies.print(file, None, spoil);
                let plain = self.syzygies.print(&bare, None, None);
                if self.printing.spoils(Own::Sheet) {
                    *printed.last_mut().expect("it prints something") ^= 1;
                }
                if printed != plain || printed != expected {
                    let what = "the sheet of the file with its G line differs";
                    self.printing.differ(file, what, &printed, &plain);
                }
            }
            self.printing.without += 1;
        }
        if sums {
            let mut of_page = by_degree(&printed);
            if self.printing.spoils(Own::Sum) {
                *of_page.values_mut().next().expect("a count") += 1;
            }
            if of_page != over_b(lines) {
                let what = "the counts summed over b are not those of the Betti page";
                self.printing.differ(file, what, lines, &printed);
            }
            self.summed += 1;
        }
    }

    fn count(&mut self, printed: &[u8]) {
        let text = std::str::from_utf8(printed).expect("text");
        let lines: Vec<Vec<u64>> = text.lines().map(numbers).collect();
        let last = lines.last().expect("a line of column 0");
        self.columns[last[0] as usize] += 1;
        self.second += u64::from(lines.iter().any(|numbers| numbers[2] > 0));
        self.most = self.most.max(lines.len());
        let longest = text.lines().map(str::len).max();
        self.longest = self.longest.max(longest.expect("a line"));
    }
}

/// The numbers of a line.
fn numbers(line: &str) -> Vec<u64> {
    let words = line.split(',').skip(1);
    words.map(|n| n.parse().expect("a number")).collect()
}

/// The counts of the lines summed over b, by column and first sum.
fn over_b(lines: &[u8]) -> Numbers {
    let text = std::str::from_utf8(lines).expect("text");
    let mut sums = Numbers::new();
    for numbers in text.lines().map(numbers) {
        *sums.entry((numbers[0], numbers[1])).or_default() += numbers[3];
    }
    sums
}
