// SPDX-License-Identifier: MIT OR Apache-2.0
//! One file through the call, the program and the unrelated implementation: the bytes of the lines. Beside them the values as a count of monomials from the
//! file's text gives them, and what is printed of a file with a G line without it.

use crate::count::Leads;
use common::buffers::HILBERT;
use common::call::Call;
use common::printer::Printer;
use common::printing::{Files, Printing, Spoiled};
use common::program::{By, Program};
use reference::generate::pages::is_graded;
use reference::hilbert::hilbert;
use reference::reader::{read_problem, Problem};
use reference::Limits;
use std::collections::BTreeSet;
use tagetessash::calls;

/// What `spoil` changes besides an answer.
#[derive(Clone, Copy, PartialEq, Eq)]
pub enum Own {
    /// a value that is held to the count
    Counted,
    /// a byte of the lines of a file without its G line
    Without,
}

pub const SPOILS: [(&str, Own); 2] = [("counted", Own::Counted), ("without", Own::Without)];

/// So many power products are counted for a file, and for one in ten so many.
const COUNTED: usize = 12_000;
const MORE_COUNTED: usize = 80_000;

/// Call and program, and what the lines have.
pub struct Compare {
    pub printing: Printing<Own>,
    /// files with lines: by the number of variables, with an element of two degrees, with several components
    pub variables: [u64; 9],
    pub mixed: u64,
    pub modules: u64,
    /// those whose values are all 0, and whose last is not
    pub nothing: u64,
    pub to_the_end: u64,
    /// the different lines, and how long the longest is
    pub lines: BTreeSet<String>,
    pub longest: usize,
    /// files whose values were counted: all, with an element of two degrees, with several components and a D line, up to degree 32
    pub counted: u64,
    pub counted_mixed: u64,
    pub counted_modules: u64,
    pub counted_whole: u64,
}

impl Files for Compare {
    fn take(&mut self, file: &[u8], budget: u64, by: Option<By>) {
        if let Some(expected) = self.printing.expected(file, budget) {
            self.held(file, &expected, by);
        }
    }
}

impl Compare {
    pub fn new(seed: u64, spoil: Option<Spoiled<Own>>) -> Compare {
        let call = Call::new(calls::hilbert, HILBERT, seed);
        let printer = Printer::new(call, Program::new("hilbert", "HILBERT"));
        Compare {
            printing: Printing::new(printer, hilbert, spoil),
            variables: [0; 9],
            mixed: 0,
            modules: 0,
            nothing: 0,
            to_the_end: 0,
            lines: BTreeSet::new(),
            longest: 0,
            counted: 0,
            counted_mixed: 0,
            counted_modules: 0,
            counted_whole: 0,
        }
    }

    /// One file whose lines are known.
    pub fn expect(&mut self, file: &[u8], expected: &[u8], by: By) {
        self.held(file, expected, Some(by));
    }

    fn held(&mut self, file: &[u8], expected: &[u8], by: Option<By>) {
        let has_lines = self.printing.expect(file, expected, by);
        self.printing.without_weights(file, expected, Own::Without);
        if has_lines {
            let problem = read_problem(&Limits::document_01(), file).expect("it has lines");
            self.met(&problem, expected);
            self.count(file, &problem, expected);
        }
    }

    /// The values, up to a degree, against the monomials that no leading monomial divides.
    fn count(&mut self, file: &[u8], problem: &Problem, lines: &[u8]) {
        let most = match self.printing.files.is_multiple_of(10) {
            true => MORE_COUNTED,
            false => COUNTED,
        };
        let counts = Leads::of(file).standard_monomials(most);
        let mut expected: String = (0..)
            .zip(&counts)
            .map(|(d, count)| format!("H,{d},{count}\n"))
            .collect();
        if self.printing.spoils(Own::Counted) {
            expected = expected.replacen("H,0,", "H,0,1", 1);
        }
        let lines: Vec<u8> = lines
            .split_inclusive(|byte| *byte == 10)
            .take(counts.len())
            .flatten()
            .copied()
            .collect();
        if lines != expected.as_bytes() {
            let what =
                "the values are not the numbers of monomials that no leading monomial divides";
            self.printing
                .differ(file, what, &lines, expected.as_bytes());
        }
        let degrees = problem.degrees.iter().any(|degree| *degree > 0);
        self.counted += 1;
        self.counted_mixed += u64::from(!is_graded(problem));
        self.counted_modules += u64::from(problem.parameters.s > 1 && degrees);
        self.counted_whole += u64::from(counts.len() == 33);
    }

    fn met(&mut self, problem: &Problem, lines: &[u8]) {
        let text = std::str::from_utf8(lines).expect("text");
        self.variables[problem.parameters.n as usize] += 1;
        self.mixed += u64::from(!is_graded(problem));
        self.modules += u64::from(problem.parameters.s > 1);
        self.nothing += u64::from(text.lines().all(|line| line.ends_with(",0")));
        self.to_the_end += u64::from(!text.ends_with(",0\n"));
        self.lines.extend(text.lines().map(str::to_string));
        let longest = text.lines().map(str::len).max();
        self.longest = self.longest.max(longest.expect("a line"));
    }
}
