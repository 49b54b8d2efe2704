// SPDX-License-Identifier: MIT OR Apache-2.0
//! One input through the call, the program and the unrelated implementation: the bytes of the vector or of the refusal. Beside them the same vector as the tree
//! lifts it, which picks nothing.

use common::buffers::REPLAY;
use common::call::Call;
use common::printer::Printer;
use common::printing::{Files, Printing, Spoiled, LONG_BUDGET};
use common::program::{By, Program};
use reference::behind::split;
use reference::engine::State;
use reference::lifting::Way;
use reference::reader::read_problem;
use reference::replay::replay;
use reference::Limits;
use tagetessash::calls;

/// What `spoil` changes besides an answer.
#[derive(Clone, Copy, PartialEq, Eq)]
pub enum Own {
    /// a byte of the tree's vector
    Tree,
}

pub const SPOILS: [(&str, Own); 1] = [("tree", Own::Tree)];

/// Rows of the tree's cache: enough for every subtree.
const CACHE: u64 = 1_000_000;

/// Call and program, and what the logs have.
pub struct Compare {
    pub printing: Printing<Own>,
    /// logs that were taken, by level
    pub levels: [u64; 10],
    /// the most picks, and those of a log that has one or none
    pub picks: usize,
    pub short: u64,
    /// logs that were taken of a file with several components
    pub modules: u64,
    /// vectors that are the tree's
    pub trees: u64,
    /// the most terms of a vector
    pub terms: usize,
}

impl Files for Compare {
    fn take(&mut self, file: &[u8], budget: u64, by: Option<By>) {
        if let Some(expected) = self.printing.expected(file, budget) {
            self.held(file, &expected, by);
        }
    }
}

impl Compare {
    pub fn new(seed: u64, spoil: Option<Spoiled<Own>>) -> Compare {
        let call = Call::new(calls::replay, REPLAY, seed);
        let printer = Printer::new(call, Program::new("replay", "REPLAY"));
        Compare {
            printing: Printing::new(printer, replay, spoil),
            levels: [0; 10],
            picks: 0,
            short: 0,
            modules: 0,
            trees: 0,
            terms: 0,
        }
    }

    /// One input of which it is known what is printed.
    pub fn expect(&mut self, input: &[u8], expected: &[u8], by: By) {
        self.held(input, expected, Some(by));
    }

    fn held(&mut self, input: &[u8], expected: &[u8], by: Option<By>) {
        if !self.printing.expect(input, expected, by) {
            return;
        }
        let (file, log) = split(input);
        let log = std::str::from_utf8(log).expect("it was taken");
        let l_line = log.lines().next().expect("an L line");
        let numbers: Vec<usize> = l_line[2..]
            .split(',')
            .map(|number| number.parse().expect("a number"))
            .collect();
        let (level, vector) = (numbers[0], numbers[1]);
        let picks = log.lines().count() - 1;
        self.levels[level] += 1;
        self.picks = self.picks.max(picks);
        self.short += u64::from(picks < 2);
        self.terms = self
            .terms
            .max(expected.iter().filter(|byte| **byte == 10).count());
        let problem = read_problem(&Limits::document_01(), file).expect("it was read");
        self.modules += u64::from(problem.parameters.s > 1);
        let Some(mut lifted) = by_tree(file, level as u64, vector as u64) else {
            return;
        };
        if self.printing.spoils(Own::Tree) {
            let last = lifted.len() - 2;
            lifted[last] ^= 1;
        }
        if lifted != expected {
            let what = "the vector differs from the tree's";
            self.printing.differ(input, what, expected, &lifted);
        }
        self.trees += 1;
    }
}

/// The S lines of a vector whose level, and those below it, the tree lifts; `None` where a limit ends that.
fn by_tree(file: &[u8], level: u64, vector: u64) -> Option<Vec<u8>> {
    let limits = Limits::document_01();
    let mut state = State::new();
    state.read(&limits, file, Some(LONG_BUDGET)).answer()?;
    for k in 1..=level {
        let outcome = state.lift(&limits, k, Way::Tree, CACHE, Some(LONG_BUDGET));
        if outcome.answer()?.number != 0 {
            return None;
        }
    }
    let n = state.basis.as_ref()?.parameters.n as usize;
    let terms = &state.levels()[level as usize][vector as usize - 1];
    let lines = terms.iter().map(|term| {
        let numbers: Vec<String> = [level, vector, term.coefficient, term.monomial.component]
            .iter()
            .chain(&term.monomial.exponents[..n])
            .map(u64::to_string)
            .collect();
        format!("S,{}\n", numbers.join(","))
    });
    Some(lines.collect::<String>().into_bytes())
}
