// SPDX-License-Identifier: MIT OR Apache-2.0
//! What the programs of requests print: the lines of a refusal, or what they make of all levels.

use crate::engine::{Basis, State};
use crate::lifting::{Usage, Way};
use crate::limits::Limits;
use crate::reader::read_problem;
use crate::sheet::{answered, refused};

/// What is printed of a file under limits and a budget (`None` when it is used up), and what it took.
pub type Printed = fn(&Limits, &[u8], Option<u64>) -> (Option<Vec<u8>>, Usage);

/// A program that reads and accepts a file and lifts "as for the sheet".
pub(crate) struct Program<Refuses, Prints> {
    /// the X line of an accepted file, if there is one: "tested after acceptance"
    pub refuses: Refuses,
    /// what is printed of all levels
    pub prints: Prints,
}

impl<Refuses, Prints> Program<Refuses, Prints>
where
    Refuses: Fn(&Basis) -> Option<String>,
    Prints: Fn(&Basis) -> String,
{
    /// The bytes for a file, or `None` when the budget of products (for the file together) is used
    /// up; and what the runs took.
    pub fn run(
        &self,
        limits: &Limits,
        file: &[u8],
        budget: Option<u64>,
    ) -> (Option<Vec<u8>>, Usage) {
        let mut usage = Usage::default();
        let printed = self.print(limits, file, budget, &mut usage);
        (printed.map(String::into_bytes), usage)
    }

    fn print(
        &self,
        limits: &Limits,
        file: &[u8],
        budget: Option<u64>,
        usage: &mut Usage,
    ) -> Option<String> {
        let mut printed = String::new();
        let mut state = State::new();
        let outcome = state.read(limits, file, budget);
        let answer = answered(outcome, usage)?;
        if answer.number != 0 {
            let n = read_problem(limits, file).map_or(0, |problem| problem.parameters.n as usize);
            refused(&answer, n, &mut printed);
            return Some(printed);
        }
        if let Some(line) = state.basis.as_ref().and_then(&self.refuses) {
            return Some(line);
        }
        // "Levels are lifted as for the sheet."
        for k in 1..=limits.levels {
            let left = budget.map(|budget| budget - usage.products);
            let outcome = state.lift(limits, k, Way::Hybrid(2), 0, left);
            let answer = answered(outcome, usage)?;
            if answer.number != 0 {
                // "A request's program prints nothing before the X line of a refusal."
                refused(&answer, 0, &mut printed);
                return Some(printed);
            }
            if state.levels()[k as usize].is_empty() {
                break;
            }
        }
        state.basis.as_ref().map(&self.prints)
    }
}
