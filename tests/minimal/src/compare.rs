// SPDX-License-Identifier: MIT OR Apache-2.0
//! One file through the call, the program and the unrelated implementation: the page's bytes. Beside them the Betti page, by call and by program: the same
//! labels, no number above the page's, and in each degree what ranks can take away; what is printed of the same module with more elements, and of a file
//! without its G line.

use common::buffers::PAGE;
use common::call::Call;
use common::pages::{by_degree, labels, totals, Numbers, COLUMNS};
use common::printer::Printer;
use common::printing::{Files, Printing, Spoiled};
use common::program::{By, Program};
use reference::generate::problems::problem_file;
use reference::generate::redundant::with_more;
use reference::minimal::minimal;
use reference::random::Random;
use reference::reader::{read_problem, Problem};
use reference::Limits;
use std::collections::BTreeSet;
use tagetessash::calls;

/// What `spoil` changes besides an answer.
#[derive(Clone, Copy, PartialEq, Eq)]
pub enum Own {
    /// a label of a Betti page
    Label,
    /// a number of a Betti page, one less than ours
    Above,
    /// a number of a Betti page, one more
    Rank,
    /// a number of the module with more elements
    More,
    /// the X line of a Betti page
    Refused,
    /// a byte of a Betti page, or of its X line, by the program
    ProgramPage,
    ProgramRefused,
    /// a byte of the page of a file without its G line
    Without,
}

pub const SPOILS: [(&str, Own); 8] = [
    ("label", Own::Label),
    ("above", Own::Above),
    ("rank", Own::Rank),
    ("more", Own::More),
    ("refused", Own::Refused),
    ("program page", Own::ProgramPage),
    ("program refused", Own::ProgramRefused),
    ("without", Own::Without),
];

/// Of the files that are refused one in so many also gets its Betti page printed, and of the others one in so many gets more elements.
const REFUSED_APART: u64 = 4;
const MORE_APART: u64 = 8;

/// Calls and programs, and what the pages have.
pub struct Compare {
    limits: Limits,
    random: Random,
    pub printing: Printing<Own>,
    pub betti: Printer,
    /// pages with a number below the Betti page's, and with none above zero
    pub less: u64,
    pub dashes: u64,
    /// pages where a matrix that enters this column has a rank
    pub entered: [u64; COLUMNS],
    /// pages with ranks in two columns, in three, in two degrees
    pub two_columns: u64,
    pub three_columns: u64,
    pub two_degrees: u64,
    /// the largest rank so far
    pub largest: u64,
    /// pages with ranks: modulo 2 or 3, of several components, of these with a rank that enters column 0
    pub small_primes: u64,
    pub modules: u64,
    pub generators: u64,
    /// the last column in use, by column, and the longest page, in lines
    pub columns: [u64; COLUMNS],
    pub longest: usize,
    /// pages of the same module with more elements
    pub more: u64,
    /// refused files whose Betti page is refused alike
    pub refused: u64,
}

impl Files for Compare {
    fn take(&mut self, file: &[u8], budget: u64, by: Option<By>) {
        if let Some(expected) = self.printing.expected(file, budget) {
            self.held(file, &expected, by);
        }
    }
}

impl Compare {
    pub fn new(seed: u64, spoil: Option<Spoiled<Own>>) -> Compare {
        let call = Call::new(calls::minimal, PAGE, seed);
        let printer = Printer::new(call, Program::new("minimal", "MINIMAL"));
        let pages = Call::new(calls::betti, PAGE, seed);
        Compare {
            limits: Limits::document_01(),
            random: Random::new(seed),
            printing: Printing::new(printer, minimal, spoil),
            betti: Printer::new(pages, Program::new("betti_numbers", "BETTI")),
            less: 0,
            dashes: 0,
            entered: [0; COLUMNS],
            two_columns: 0,
            three_columns: 0,
            two_degrees: 0,
            largest: 0,
            small_primes: 0,
            modules: 0,
            generators: 0,
            columns: [0; COLUMNS],
            longest: 0,
            more: 0,
            refused: 0,
        }
    }

    /// One file whose page is known.
    pub fn expect(&mut self, file: &[u8], expected: &[u8], by: By) {
        self.held(file, expected, Some(by));
    }

    fn held(&mut self, file: &[u8], expected: &[u8], by: Option<By>) {
        let has_page = self.printing.expect(file, expected, by);
        self.printing.without_weights(file, expected, Own::Without);
        if !has_page {
            self.as_refused(file, expected);
            return;
        }
        let problem = read_problem(&self.limits, file).expect("it has a page");
        let numbers = by_degree(expected);
        self.beside(file, &problem, expected, &numbers);
        if self.printing.files.is_multiple_of(MORE_APART) {
            self.with_more(problem, expected, &numbers);
        }
    }

    /// What is refused is what the Betti page refuses, alike.
    fn as_refused(&mut self, file: &[u8], printed: &[u8]) {
        if !self.printing.files.is_multiple_of(REFUSED_APART) {
            return;
        }
        let spoil = self.printing.spoils_program(Own::ProgramRefused);
        let mut page = self.betti.print(file, None, spoil);
        if self.printing.spoils(Own::Refused) {
            page[0] ^= 1;
        }
        if page != printed {
            let what = "the Betti page is not refused alike";
            self.printing.differ(file, what, printed, &page);
        }
        self.refused += 1;
    }

    /// "In the layout and the rows of the file's Betti page"; each number is the page's less the rank of the matrix that leaves the column, which is known from
    /// the column before, and less that of the one that enters it.
    fn beside(&mut self, file: &[u8], problem: &Problem, printed: &[u8], numbers: &Numbers) {
        let spoil = self.printing.spoils_program(Own::ProgramPage);
        let page = self.betti.print(file, None, spoil);
        if page.starts_with(b"X") {
            let what = "the Betti page is refused, the minimal numbers are not";
            self.printing.differ(file, what, printed, &page);
        }
        let mut of_page = labels(&page);
        if self.printing.spoils(Own::Label) {
            of_page.pop();
        }
        if labels(printed) != of_page {
            let what = "the labels are not those of the Betti page";
            self.printing.differ(file, what, printed, &page);
        }
        let mut counts = by_degree(&page);
        if self.printing.spoils(Own::Above) {
            for (place, number) in numbers {
                counts.insert(*place, number - 1);
            }
        }
        if self.printing.spoils(Own::Rank) {
            *counts.values_mut().next().expect("a component") += 1;
        }
        if let Err(what) = self.ranks(problem, &counts, numbers) {
            self.printing.differ(file, what, printed, &page);
        }
        let mut sums = [0; COLUMNS];
        for ((column, _), number) in numbers {
            sums[*column as usize] += number;
        }
        if totals(printed) != sums {
            let what = "the totals are not the sums of what is printed";
            self.printing.differ(file, what, printed, &page);
        }
        self.less += u64::from(counts != *numbers);
        self.dashes += u64::from(numbers.is_empty());
        let last = sums.iter().rposition(|sum| *sum > 0);
        self.columns[last.unwrap_or(0)] += 1;
        self.longest = self.longest.max(of_page.len());
    }

    /// The ranks, degree by degree, from column 0 on: none may be negative, and none enters the last column.
    fn ranks(
        &mut self,
        problem: &Problem,
        counts: &Numbers,
        numbers: &Numbers,
    ) -> Result<(), &'static str> {
        let at = |numbers: &Numbers, place| numbers.get(&place).copied().unwrap_or(0);
        if numbers
            .iter()
            .any(|(place, number)| *number > at(counts, *place))
        {
            return Err("a number is above the Betti page's");
        }
        let degrees: BTreeSet<u64> = counts.keys().map(|(_, degree)| *degree).collect();
        let (mut columns, mut with_ranks) = (BTreeSet::new(), 0);
        for degree in degrees {
            let mut rank = 0;
            let mut any = false;
            for column in 0..COLUMNS as u64 {
                let place = (column, degree);
                let left = at(counts, place) - at(numbers, place);
                let entering = left.checked_sub(rank);
                rank = entering.ok_or("less is taken away than the rank of what leaves")?;
                if rank > 0 {
                    columns.insert(column);
                    any = true;
                    self.largest = self.largest.max(rank);
                }
            }
            if rank > 0 {
                return Err("a matrix enters the last column");
            }
            with_ranks += u64::from(any);
        }
        for column in &columns {
            self.entered[*column as usize] += 1;
        }
        self.two_columns += u64::from(columns.len() >= 2);
        self.three_columns += u64::from(columns.len() >= 3);
        self.two_degrees += u64::from(with_ranks >= 2);
        if with_ranks > 0 {
            self.small_primes += u64::from(problem.parameters.p <= 3);
            self.modules += u64::from(problem.parameters.s > 1);
            self.generators += u64::from(columns.contains(&0) && problem.parameters.s > 1);
        }
        Ok(())
    }

    /// The same module with elements more, which are made of the others: the same numbers.
    fn with_more(&mut self, problem: Problem, printed: &[u8], numbers: &Numbers) {
        let other = problem_file(&with_more(&mut self.random, problem));
        let Some(expected) = minimal(&self.limits, &other, Some(60_000)).0 else {
            return;
        };
        let page = self.printing.print(&other);
        if page != expected {
            let what = "what is printed of the file with more elements differs";
            self.printing.differ(&other, what, &page, &expected);
        }
        // more elements may meet a limit
        if page.starts_with(b"X") {
            return;
        }
        let mut found = by_degree(&page);
        if self.printing.spoils(Own::More) {
            found.insert((9, 9_999), 1);
        }
        if found != *numbers {
            let what = "the numbers are not those of the same module with fewer elements";
            self.printing.differ(&other, what, &page, printed);
        }
        self.more += 1;
    }
}
