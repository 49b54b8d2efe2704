// SPDX-License-Identifier: MIT OR Apache-2.0
//! The calls on lent buffers, as `docs/BUFFERS.md` lays them out.
//!
//! All buffers but the file hold 16-bit words. Offsets and lengths are functions of the limits;
//! with the limits of document 01 they are the numbers of that page.

use crate::bidegrees::bidegrees;
use crate::engine::{Answer, Basis, Outcome, State};
use crate::hilbert::{hilbert, HIGHEST_DEGREE};
use crate::lifting::Way;
use crate::limits::{Limits, LEAST_ROOM, MOST_DEGREE};
use crate::minimal::minimal;
use crate::monomial::{Exponents, Level, Monomial, Parameters, Term, Vector};
use crate::program::Printed;

/// "A term is a row of six words: the coefficient, the component, and its eight exponents in one
/// unsigned 64-bit number".
pub const ROW: usize = 6;

/// The word of a row that holds the coefficient.
const COEFFICIENT: usize = 0;

/// The word of a row that holds the component.
const COMPONENT: usize = 1;

/// The first of the four words of a row that hold the exponents' number.
const EXPONENTS: usize = 2;

/// Words before the first level's count.
const HEAD: usize = 5;

/// Where things stand in the state.
#[derive(Clone, Copy, Debug)]
pub struct Layout {
    levels: usize,
    ends: usize,
    rows: usize,
    components: usize,
}

impl Layout {
    /// The layout under these limits.
    pub fn new(limits: &Limits) -> Layout {
        Layout {
            levels: limits.levels as usize + 1,
            ends: limits.elements.max(limits.vectors) as usize,
            rows: limits.t_lines.max(limits.level_terms) as usize,
            components: limits.components as usize,
        }
    }

    /// The word that holds how many vectors level k has.
    pub fn count(&self, k: usize) -> usize {
        HEAD + (self.ends + 1) * k
    }

    /// The word that holds the end of the first vector of level k.
    pub fn first_end(&self, k: usize) -> usize {
        self.count(k) + 1
    }

    /// The first word of the rows of level k.
    pub fn first_row(&self, k: usize) -> usize {
        HEAD + (self.ends + 1) * self.levels + ROW * self.rows * k
    }

    /// The word that holds the degree of component 1.
    pub fn first_degree(&self) -> usize {
        self.first_row(self.levels)
    }

    /// The word that holds the degree that the first vector of level k carries.
    pub fn first_carried(&self, k: usize) -> usize {
        self.first_degree() + self.components + self.ends * k
    }

    /// The length of the state.
    pub fn words(&self) -> usize {
        self.first_carried(self.levels)
    }
}

/// The words a state needs.
pub fn state_words(limits: &Limits) -> usize {
    Layout::new(limits).words()
}

/// The words a work buffer needs for reading (no way) or for lifting by that way.
pub fn work_words(limits: &Limits, way: Option<Way>) -> usize {
    let rows = match way {
        Some(Way::Tree) => limits.tree,
        // "A buffer for fewer than 32 is refusal 16"
        Some(Way::Hybrid(_)) => LEAST_ROOM,
        _ => limits.working,
    };
    ROW * rows as usize
}

/// The words of a work buffer that is long enough and as long as is of use: "of more 3,072 are
/// used".
pub fn whole_work_words(limits: &Limits, way: Option<Way>) -> usize {
    let most = match way {
        Some(Way::Tree) => limits.tree,
        _ => limits.working,
    };
    work_words(limits, way).max(ROW * most as usize)
}

/// The limits of a lifting in a work buffer of so many words. "Hybrid's working value has room for
/// as many terms as there are whole rows in work, its words divided by six, up to 512 (request
/// A11)"; the vector keeps its limit, and the other ways have no such choice.
fn limits_within(limits: &Limits, way: Way, work_words: usize) -> Limits {
    let working = match way {
        Way::Hybrid(_) => limits.working.min((work_words / ROW) as u64),
        _ => limits.working,
    };
    Limits { working, ..*limits }
}

/// The words a buffer for a fetched vector needs.
pub fn out_words(limits: &Limits) -> usize {
    ROW * limits.vector as usize
}

/// Reads a file and accepts or refuses its basis. Gives the number and the place.
pub fn read_call(limits: &Limits, file: &[u8], state: &mut [u16], work: &mut [u16]) -> (u64, u64) {
    read_call_within(limits, file, state, work, None).expect("there is no budget")
}

/// As `read_call`, but gives up (`None`, no buffer changed) when the products are used up.
pub fn read_call_within(
    limits: &Limits,
    file: &[u8],
    state: &mut [u16],
    work: &mut [u16],
    budget: Option<u64>,
) -> Option<(u64, u64)> {
    // "Order 16 (before 1 too)"
    if state.len() < state_words(limits) || work.len() < work_words(limits, None) {
        return Some((16, 0));
    }
    let mut held = State::new();
    let answer = held.read(limits, file, budget).answer()?;
    write_state(limits, &held, state);
    work.fill(0);
    write_rows(&answer.vector, work);
    Some((answer.number, answer.place))
}

/// Lifts level k. Gives the number and the place.
pub fn lift_call(
    limits: &Limits,
    state: &mut [u16],
    level: u64,
    way: Way,
    work: &mut [u16],
    cache: &mut [u16],
) -> (u64, u64) {
    lift_call_within(limits, state, level, way, work, cache, None).expect("there is no budget")
}

/// As `lift_call`, but gives up (`None`, no buffer changed) when the products are used up.
pub fn lift_call_within(
    limits: &Limits,
    state: &mut [u16],
    level: u64,
    way: Way,
    work: &mut [u16],
    cache: &mut [u16],
    budget: Option<u64>,
) -> Option<(u64, u64)> {
    if state.len() < state_words(limits) || work.len() < work_words(limits, Some(way)) {
        return Some((16, 0));
    }
    let mut held = read_state(limits, state);
    // "The cache's length in terms is the number of whole rows in it, its words divided by six."
    let cache_terms = (cache.len() / ROW) as u64;
    let within = limits_within(limits, way, work.len());
    let outcome = held.lift(&within, level, way, cache_terms, budget);
    let Outcome::Answered(Answer { number, place, .. }) = outcome else {
        return None;
    };
    // "11, 12 and 16 change nothing in any buffer."
    if !matches!(number, 11 | 12) {
        write_state(limits, &held, state);
        // "zeros, in the whole of it"
        work.fill(0);
        cache.fill(0);
    }
    Some((number, place))
}

/// Fetches vector v of level k. Gives the number and the place.
pub fn fetch_call(
    limits: &Limits,
    state: &[u16],
    level: u64,
    vector: u64,
    out: &mut [u16],
) -> (u64, u64) {
    if state.len() < state_words(limits) || out.len() < out_words(limits) {
        return (16, 0);
    }
    let answer = read_state(limits, state).fetch(limits, level, vector);
    // "A refused fetch leaves out as it was"
    if answer.number == 0 {
        out.fill(0);
        write_rows(&answer.vector, out);
    }
    (answer.number, answer.place)
}

/// The bytes that the lines of bidegrees need: "128 lines of 23 bytes for each of eleven columns".
pub fn bidegrees_bytes(limits: &Limits) -> usize {
    let columns = limits.levels as usize + 2;
    23 * limits.elements.max(limits.vectors) as usize * columns
}

/// The bytes that the lines of the Hilbert function need: "an X line and 512 W lines, which are
/// longer than its own 33 lines".
pub fn hilbert_bytes(limits: &Limits) -> usize {
    // "A line has at most 17 bytes."
    let lines = 17 * (HIGHEST_DEGREE as usize + 1);
    refused_bytes(limits).max(lines)
}

/// The bytes of an X line and as many W lines as a value may have terms.
fn refused_bytes(limits: &Limits) -> usize {
    29 + 62 * limits.working as usize
}

/// The bytes that the minimal numbers need, as many as the Betti page: "20,666 rows and the totals,
/// 73 bytes each".
pub fn minimal_bytes(limits: &Limits) -> usize {
    // level 0 and each level above it add the exponents of one term
    let terms = limits.levels + 1;
    let highest = MOST_DEGREE + terms * limits.variables * limits.exponent;
    // rows −10 to 20,655
    let rows = terms + 1 + highest;
    refused_bytes(limits).max(73 * (rows as usize + 1))
}

/// A call that prints what a program makes of a file; state and work "are lent for the work alone".
pub struct PrintingCall {
    prints: Printed,
    /// the bytes that out needs
    bytes: fn(&Limits) -> usize,
}

/// Prints the lines of bidegrees.
pub const BIDEGREES_CALL: PrintingCall = PrintingCall {
    prints: bidegrees,
    bytes: bidegrees_bytes,
};

/// Prints the Hilbert function.
pub const HILBERT_CALL: PrintingCall = PrintingCall {
    prints: hilbert,
    bytes: hilbert_bytes,
};

/// Prints the minimal numbers.
pub const MINIMAL_CALL: PrintingCall = PrintingCall {
    prints: minimal,
    bytes: minimal_bytes,
};

impl PrintingCall {
    /// Gives the number and "instead of a place the length of what is printed".
    pub fn make(
        &self,
        limits: &Limits,
        file: &[u8],
        state: &mut [u16],
        work: &mut [u16],
        out: &mut [u8],
    ) -> (u64, u64) {
        self.make_within(limits, file, state, work, out, None)
            .expect("there is no budget")
    }

    /// As `make`, but gives up (`None`, no buffer changed) when the products are used up.
    pub fn make_within(
        &self,
        limits: &Limits,
        file: &[u8],
        state: &mut [u16],
        work: &mut [u16],
        out: &mut [u8],
        budget: Option<u64>,
    ) -> Option<(u64, u64)> {
        // "After 16 .. no buffer is changed, and the length is 0."
        let short = state.len() < state_words(limits)
            || work.len() < work_words(limits, None)
            || out.len() < (self.bytes)(limits);
        if short {
            return Some((16, 0));
        }
        let printed = (self.prints)(limits, file, budget).0?;
        // "out has the printed bytes, zeros after them to the end of the buffer, and state and work
        // are all zero"
        out.fill(0);
        out[..printed.len()].copy_from_slice(&printed);
        state.fill(0);
        work.fill(0);
        Some((0, printed.len() as u64))
    }
}

/// What the words of a state say. The counts and ends are tested as far as finding the rows
/// needs it; `engine::sound` tests the rest. The buffer has to have its length.
pub fn read_state(limits: &Limits, state: &[u16]) -> State {
    State {
        basis: read_basis(limits, state),
    }
}

fn read_basis(limits: &Limits, state: &[u16]) -> Option<Basis> {
    let layout = Layout::new(limits);
    // "how many levels are complete: 0 none (no accepted basis), 1 level 0 alone, .."
    let complete = usize::from(state[4]);
    if !(1..=layout.levels).contains(&complete) {
        return None;
    }
    let levels = (0..complete)
        .map(|k| read_level(&layout, state, k))
        .collect::<Option<Vec<Level>>>()?;
    // where there are more components than words for them the state is not sound
    let components = usize::from(state[3]).min(layout.components);
    let carried =
        (0..complete).map(|k| numbers(&state[layout.first_carried(k)..][..levels[k].len()]));
    Some(Basis {
        parameters: Parameters {
            p: u64::from(state[0]),
            n: u64::from(state[1]),
            order: u64::from(state[2]),
            s: u64::from(state[3]),
        },
        degrees: numbers(&state[layout.first_degree()..][..components]),
        carried: carried.collect(),
        levels,
    })
}

fn numbers(words: &[u16]) -> Vec<u64> {
    words.iter().map(|word| u64::from(*word)).collect()
}

fn read_level(layout: &Layout, state: &[u16], k: usize) -> Option<Level> {
    let count = usize::from(state[layout.count(k)]);
    if count > layout.ends {
        return None;
    }
    let ends = &state[layout.first_end(k)..][..count];
    let rows = &state[layout.first_row(k)..layout.first_row(k + 1)];
    let mut start = 0;
    let mut level = Level::new();
    for end in ends {
        let end = usize::from(*end);
        // "the ends ascend strictly from at least 1"
        if end <= start || end > layout.rows {
            return None;
        }
        level.push(read_rows(&rows[ROW * start..ROW * end]));
        start = end;
    }
    Some(level)
}

/// The terms in these rows.
pub fn read_rows(words: &[u16]) -> Vector {
    words
        .chunks_exact(ROW)
        .map(|row| Term {
            coefficient: u64::from(row[COEFFICIENT]),
            monomial: Monomial {
                component: u64::from(row[COMPONENT]),
                exponents: read_exponents(&row[EXPONENTS..]),
            },
        })
        .collect()
}

/// "Every four words are some eight exponents."
fn read_exponents(words: &[u16]) -> Exponents {
    // "the lowest 16 bits first"
    let number = words
        .iter()
        .rev()
        .fold(0, |number: u64, word| (number << 16) | u64::from(*word));
    // "a byte each, x1's in the top byte"
    number.to_be_bytes().map(u64::from)
}

/// Writes a state; all words that its counts do not name become zero.
pub fn write_state(limits: &Limits, held: &State, state: &mut [u16]) {
    state.fill(0);
    let Some(basis) = &held.basis else {
        return;
    };
    let layout = Layout::new(limits);
    let parameters = &basis.parameters;
    let head = [parameters.p, parameters.n, parameters.order, parameters.s];
    for (word, number) in state.iter_mut().zip(head) {
        *word = to_word(number);
    }
    state[4] = to_word(basis.levels.len() as u64);
    for (k, level) in basis.levels.iter().enumerate() {
        state[layout.count(k)] = to_word(level.len() as u64);
        let mut end = 0;
        for (v, vector) in level.iter().enumerate() {
            write_rows(vector, &mut state[layout.first_row(k) + ROW * end..]);
            end += vector.len();
            state[layout.first_end(k) + v] = to_word(end as u64);
        }
    }
    // "the degrees of components 1 to s .., zeros behind them"
    write_numbers(&basis.degrees, &mut state[layout.first_degree()..]);
    // "for each vector of level k the degree that it carries"
    for (k, carried) in basis.carried.iter().enumerate() {
        write_numbers(carried, &mut state[layout.first_carried(k)..]);
    }
}

fn write_numbers(numbers: &[u64], words: &mut [u16]) {
    for (word, number) in words.iter_mut().zip(numbers) {
        *word = to_word(*number);
    }
}

fn write_rows(vector: &[Term], words: &mut [u16]) {
    for (row, term) in words.chunks_exact_mut(ROW).zip(vector) {
        row[COEFFICIENT] = to_word(term.coefficient);
        row[COMPONENT] = to_word(term.monomial.component);
        write_exponents(&term.monomial.exponents, &mut row[EXPONENTS..]);
    }
}

fn write_exponents(exponents: &Exponents, words: &mut [u16]) {
    let bytes = exponents.map(|exponent| u8::try_from(exponent).expect("an exponent is a byte"));
    let number = u64::from_be_bytes(bytes);
    for (at, word) in words.iter_mut().enumerate() {
        *word = (number >> (16 * at)) as u16;
    }
}

fn to_word(number: u64) -> u16 {
    u16::try_from(number).expect("every number of a state is below 65,536")
}
