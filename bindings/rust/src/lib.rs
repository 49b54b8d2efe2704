// SPDX-License-Identifier: MIT OR Apache-2.0
//! Syzygies of a Gröbner basis over a small prime field, level upon level, by the proved engine.
//!
//! An [`Engine`] owns the buffers that the engine's calls are lent. [`Engine::read`] takes a problem file, which [`Problem`] writes from terms,
//! [`Engine::lift`] makes a level complete, [`Engine::vectors`] goes over its vectors, [`Engine::fetch`] gives one of them, [`Engine::divide`] divides a vector
//! by the elements and so tells whether it is in their module. [`sheet`] prints all levels of a file at once, [`betti`] the table of how many vectors of which
//! degree they have, [`minimal`] that of a minimal resolution, [`bidegrees`] how many of which bidegree, [`hilbert`] the Hilbert function; [`member`] says
//! whether a vector is in the module of a file's elements. [`completed`] makes a Gröbner basis of generators, as a file for all of these; [`replay`] gives the
//! vector of a run whose picks were recorded elsewhere.
//!
//! ```
//! let file = b"R,7,2,1,1\nT,1,1,1,1,0\nT,1,1,1,0,1\nT,2,1,1,0,2\nT,2,1,1,0,0\nE,4\n";
//! let mut engine = tagetessash::Engine::new();
//! engine.read(file)?;
//! engine.lift(1, tagetessash::Way::Division)?;
//! assert_eq!(engine.count(1), 1);
//! for vector in engine.vectors(1) {
//!     let front = vector.terms().next().expect("no vector is zero");
//!     assert_eq!(front.component, 2); // x1 times the second element stands in front
//! }
//! # Ok::<(), tagetessash::Refusal>(())
//! ```

#![warn(missing_docs, missing_debug_implementations)]

use layout::*;
use std::fmt;

#[doc(hidden)]
pub mod calls;
mod layout;
mod problem;
mod refusal;
#[cfg(test)]
mod tests;

pub use problem::Problem;
pub use refusal::Refusal;

/// The version of the library that this crate is for: `TAGETESSASH_VERSION` of the header. A library of another version is refused by a panic at the first
/// call.
pub const VERSION: u16 = 3;

/// What was added to this version that this crate knows of: `TAGETESSASH_MINOR` of the header.
pub const MINOR: u16 = 9;

/// What was added to its version that the library has. One with less than [`MINOR`] is not linked where it lacks a function that is called here.
pub fn library_minor() -> u16 {
    calls::minor()
}

/// The highest level.
pub const HIGHEST_LEVEL: usize = 9;
/// The terms of a working value for which the hybrid way may be given room at the least ([`Engine::lift_within`]): `TAGETESSASH_LEAST_TERMS` of the header.
pub const LEAST_TERMS: usize = 32;
/// The terms of a working value at the most, and of a vector above level 0: `TAGETESSASH_VECTOR_TERMS` of the header.
pub const WORKING_TERMS: usize = 512;
/// The length of the tree's cache in terms, unless [`Engine::with_cache`] says another.
pub const CACHE_TERMS: usize = 4_096;

/// `TAGETESSASH_TREE_STACK_BYTES` and room for the thread's own: more than a thread of Rust's has.
const TREE_STACK: usize = 8 << 20;

/// By which way a level is lifted. All give the same vectors wherever they are not refused; 13 to 15 may come by one and not by another.
#[derive(Clone, Copy, Debug, PartialEq, Eq, Hash)]
pub enum Way {
    /// the leading term of the working value at each step
    Division,
    /// terms of lower order are dropped as they arise, and a step picks any term
    Hybrid(Pick),
    /// subtrees, which are kept in the cache
    Tree,
}

/// Which term of the working value a step of the hybrid way picks.
#[derive(Clone, Copy, Debug, PartialEq, Eq, Hash)]
pub enum Pick {
    /// the greatest
    Greatest,
    /// the newest
    Newest,
    /// the oldest
    Oldest,
}

/// The order of monomials.
#[derive(Clone, Copy, Debug, PartialEq, Eq, Hash)]
pub enum Order {
    /// code 1
    Lexicographic,
    /// code 2: degree, then lexicographic
    DegreeLexicographic,
    /// code 3
    DegreeReverseLexicographic,
}

impl Order {
    /// The order's code in a problem file.
    pub fn code(&self) -> u16 {
        match self {
            Order::Lexicographic => 1,
            Order::DegreeLexicographic => 2,
            Order::DegreeReverseLexicographic => 3,
        }
    }

    fn of(code: u16) -> Option<Order> {
        match code {
            1 => Some(Order::Lexicographic),
            2 => Some(Order::DegreeLexicographic),
            3 => Some(Order::DegreeReverseLexicographic),
            _ => None,
        }
    }
}

/// A coefficient with its monomial.
#[derive(Clone, Copy, Debug, PartialEq, Eq, Hash)]
pub struct Term {
    /// 1 to p − 1
    pub coefficient: u16,
    /// Of level 0's module 1 to s, of a level above it the number of a vector of the level below.
    pub component: u16,
    /// x1's first; 0 past the last variable
    pub exponents: [u8; VARIABLES],
}

impl Term {
    /// A term whose exponents are given from x1's on.
    ///
    /// # Panics
    ///
    /// If there are more than eight exponents.
    pub fn new(coefficient: u16, component: u16, exponents: &[u8]) -> Term {
        let mut all = [0; VARIABLES];
        all[..exponents.len()].copy_from_slice(exponents);
        Term {
            coefficient,
            component,
            exponents: all,
        }
    }

    fn of(row: &[u16]) -> Term {
        Term {
            coefficient: row[COEFFICIENT_AT],
            component: row[COMPONENT_AT],
            exponents: exponents(row),
        }
    }

    fn row(&self) -> [u16; ROW_WORDS] {
        row(self.coefficient, self.component, self.exponents)
    }
}

/// A vector divided by the elements of level 0 ([`Engine::divide`]).
#[derive(Clone, Debug, PartialEq, Eq, Hash)]
pub struct Division {
    /// A term for each multiple of an element that was taken away, its component the element's number; descending in the induced order.
    pub quotients: Vec<Term>,
    /// What is left, the greatest term first; empty for a vector of the module.
    pub remainder: Vec<Term>,
}

impl Division {
    /// Whether the vector is in the module of the elements.
    pub fn is_member(&self) -> bool {
        self.remainder.is_empty()
    }
}

/// A vector of a level, or an element of level 0, where it stands in the state.
#[derive(Clone, Copy)]
pub struct Vector<'a> {
    rows: &'a [u16],
    degree: u16,
}

impl<'a> Vector<'a> {
    /// Its terms, the greatest first.
    pub fn terms(&self) -> impl ExactSizeIterator<Item = Term> + 'a {
        self.rows.chunks_exact(ROW_WORDS).map(Term::of)
    }

    /// The degree that it carries, that of its leading monomial's image in level 0's module: the sum of the monomial's exponents, plus the degree of its
    /// component (level 0; [`Engine::component_degrees`]) or of the vector of the level below that its component stands for.
    ///
    /// ```
    /// // xy e_1, x^2 e_1 + y e_2 and y^2 e_2, the components of degrees 0 and 1
    /// let file = b"R,7,2,3,2\nD,0,1\nT,1,1,1,1,1\nT,2,1,1,2,0\nT,2,1,2,0,1\nT,3,1,2,0,2\nE,4\n";
    /// let mut engine = tagetessash::Engine::new();
    /// engine.read(file)?;
    /// engine.lift(1, tagetessash::Way::Division)?;
    /// let degrees = |level| engine.vectors(level).map(|v| v.degree()).collect::<Vec<_>>();
    /// assert_eq!(engine.component_degrees(), [0, 1]);
    /// assert_eq!(degrees(0), [2, 2, 3]);
    /// assert_eq!(degrees(1), [3]);
    /// # Ok::<(), tagetessash::Refusal>(())
    /// ```
    pub fn degree(&self) -> u16 {
        self.degree
    }
}

impl fmt::Debug for Vector<'_> {
    fn fmt(&self, f: &mut fmt::Formatter) -> fmt::Result {
        f.debug_list().entries(self.terms()).finish()
    }
}

/// The state with the buffers that calls need. A new one has no basis.
#[derive(Clone)]
pub struct Engine {
    state: Vec<u16>,
    work: Vec<u16>,
    cache: Vec<u16>,
    out: Vec<u16>,
}

impl Default for Engine {
    fn default() -> Engine {
        Engine::new()
    }
}

impl Engine {
    /// An engine without a basis, its cache of [`CACHE_TERMS`].
    pub fn new() -> Engine {
        Engine::with_cache(CACHE_TERMS)
    }

    /// An engine whose cache has room for so many terms. That changes no vector, only the tree's time and whether 14 comes.
    ///
    /// # Panics
    ///
    /// If the library is of another version than this crate.
    pub fn with_cache(terms: usize) -> Engine {
        fitting();
        Engine {
            state: vec![0; STATE_WORDS],
            work: vec![0; WORK_WORDS],
            cache: vec![0; terms.saturating_mul(ROW_WORDS)],
            out: vec![0; OUT_WORDS],
        }
    }

    /// Reads a problem file and accepts its elements as level 0 if they are a Gröbner basis. What was there before is gone, refused or not.
    pub fn read(&mut self, file: &[u8]) -> Result<(), Refusal> {
        answer(calls::read(
            file,
            &mut self.state,
            &mut self.work[..WORK_WORDS],
        ))
    }

    /// Lifts a level, 1 to 9, over the complete level below it, and drops the levels above it. Refused by 13 to 15 it leaves no basis.
    ///
    /// The tree runs on a thread of its own, which has the stack that it may need.
    ///
    /// # Panics
    ///
    /// If the system has no thread to give.
    pub fn lift(&mut self, level: usize, way: Way) -> Result<(), Refusal> {
        let state = &mut self.state[..];
        let cache = &mut self.cache[..];
        answer(match way {
            Way::Division => {
                let work = &mut self.work[..WORK_WORDS];
                calls::lift(state, work, cache, level, 0, 0)
            }
            Way::Hybrid(pick) => return self.lift_within(level, pick, WORKING_TERMS),
            Way::Tree => {
                // the only call that needs so much
                self.work.resize(TREE_WORK_WORDS, 0);
                let work = &mut self.work[..];
                std::thread::scope(|scope| {
                    std::thread::Builder::new()
                        .stack_size(TREE_STACK)
                        .spawn_scoped(scope, || calls::lift(state, work, cache, level, 2, 0))
                        .expect("a thread for the tree")
                        .join()
                        .expect("the call returns")
                })
            }
        })
    }

    /// Lifts a level as [`Engine::lift`] does, by the hybrid way with room for so many terms of a working value: [`LEAST_TERMS`] to [`WORKING_TERMS`]. More
    /// are used up to [`WORKING_TERMS`], fewer are refused with [`Refusal::ShortBuffer`], which changes nothing. [`Refusal::TermLimit`] comes at the next term;
    /// a vector keeps its 512. Wherever it finishes the level is the same, and with more room it finishes too.
    ///
    /// ```
    /// use tagetessash::{Engine, Pick, Refusal, Way, LEAST_TERMS};
    /// let file = b"R,7,2,1,1\nT,1,1,1,1,0\nT,1,1,1,0,1\nT,2,1,1,0,2\nT,2,1,1,0,0\nE,4\n";
    /// let mut engine = Engine::new();
    /// engine.read(file)?;
    /// assert_eq!(engine.lift_within(1, Pick::Greatest, 31), Err(Refusal::ShortBuffer));
    /// engine.lift_within(1, Pick::Greatest, LEAST_TERMS)?;
    /// let narrow = engine.fetch(1, 1)?;
    /// engine.lift(1, Way::Hybrid(Pick::Greatest))?;
    /// assert_eq!(engine.fetch(1, 1)?, narrow);
    /// # Ok::<(), tagetessash::Refusal>(())
    /// ```
    pub fn lift_within(&mut self, level: usize, pick: Pick, terms: usize) -> Result<(), Refusal> {
        let words = terms.saturating_mul(ROW_WORDS).min(WORK_WORDS);
        let code = match pick {
            Pick::Greatest => 1,
            Pick::Newest => 2,
            Pick::Oldest => 3,
        };
        answer(calls::lift(
            &mut self.state,
            &mut self.work[..words],
            &mut self.cache,
            level,
            1,
            code,
        ))
    }

    /// Vector 1 to [`Engine::count`] of a complete level, 1 to 9, its greatest term first.
    pub fn fetch(&mut self, level: usize, vector: usize) -> Result<Vec<Term>, Refusal> {
        answer(calls::fetch(&self.state, &mut self.out, level, vector))?;
        Ok(terms(&self.out))
    }

    /// Divides a vector by the elements of level 0, its terms the greatest first; none is the zero vector. The levels above play no part, and nothing of the
    /// engine's state changes: so many vectors may be asked of one basis. The quotients applied to the elements plus the remainder give the vector back, and no
    /// term of the remainder is divisible by the leading monomial of an element. The vector is in the module exactly where the remainder is empty.
    ///
    /// ```
    /// use tagetessash::{Engine, Refusal, Term};
    /// let mut engine = Engine::new();
    /// engine.read(b"R,7,2,1,1\nT,1,1,1,1,0\nT,1,1,1,0,1\nT,2,1,1,0,2\nT,2,1,1,0,0\nE,4\n")?; // x + y, y^2 + 1
    /// let square = [Term::new(1, 1, &[2, 0]), Term::new(1, 1, &[0, 0])]; // x^2 + 1
    /// let division = engine.divide(&square)?;
    /// assert!(division.is_member());
    /// assert_eq!(division.quotients[0], Term::new(1, 1, &[1, 0])); // x times element 1 ..
    /// let x = engine.divide(&[Term::new(1, 1, &[1, 0])])?;
    /// assert_eq!(x.remainder, [Term::new(6, 1, &[0, 1])]); // -y is x's normal form
    /// assert_eq!(engine.divide(&[square[1], square[0]]), Err(Refusal::BadVector { term: 2 }));
    /// # Ok::<(), Refusal>(())
    /// ```
    pub fn divide(&self, vector: &[Term]) -> Result<Division, Refusal> {
        let rows: Vec<u16> = vector.iter().flat_map(Term::row).collect();
        let mut quotients = vec![0; OUT_WORDS];
        let mut remainder = vec![0; OUT_WORDS];
        answer(calls::divide(
            &self.state,
            &rows,
            &mut quotients,
            &mut remainder,
        ))?;
        Ok(Division {
            quotients: terms(&quotients),
            remainder: terms(&remainder),
        })
    }

    /// p of the file; 0 without a basis.
    pub fn prime(&self) -> u16 {
        self.state[PRIME_AT]
    }

    /// n of the file, how many variables there are; 0 without a basis.
    pub fn variables(&self) -> usize {
        usize::from(self.state[VARIABLES_AT])
    }

    /// The order of the file; none without a basis.
    pub fn order(&self) -> Option<Order> {
        Order::of(self.state[ORDER_AT])
    }

    /// s of the file, how many components level 0's module has; 0 without a basis.
    pub fn components(&self) -> usize {
        usize::from(self.state[COMPONENTS_AT])
    }

    /// The degrees of the components of level 0's module, the first one's first: those of the file's D line, zeros without one. Empty without a basis.
    pub fn component_degrees(&self) -> &[u16] {
        &self.state[DEGREES_AT..][..self.components()]
    }

    /// The vectors of a level, in number order; of level 0 the file's elements. None of a level that is not complete.
    pub fn vectors(&self, level: usize) -> impl ExactSizeIterator<Item = Vector<'_>> {
        let at = level.min(HIGHEST_LEVEL);
        let (rows, carried) = (&self.state[rows_at(at)..], &self.state[carried_at(at)..]);
        (0..self.count(level)).map(move |v| Vector {
            rows: &rows[ROW_WORDS * self.end(level, v)..ROW_WORDS * self.end(level, v + 1)],
            degree: carried[v],
        })
    }

    /// How many levels are complete: 0 without a basis, else levels 0 to this − 1.
    pub fn complete(&self) -> usize {
        usize::from(self.state[COMPLETE_AT])
    }

    /// How many vectors a level has, of level 0 how many elements; 0 for a level that is not complete.
    pub fn count(&self, level: usize) -> usize {
        if level < self.complete() {
            usize::from(self.state[count_at(level)])
        } else {
            0
        }
    }

    /// How many terms the vectors of a level have together.
    pub fn terms(&self, level: usize) -> usize {
        self.end(level, self.count(level))
    }

    /// How many terms the first so many vectors of a level have together.
    fn end(&self, level: usize, vectors: usize) -> usize {
        match vectors {
            0 => 0,
            _ => usize::from(self.state[count_at(level) + vectors]),
        }
    }

    /// If the last reading was refused with 9, the value where division stopped, its greatest term first: a combination of the elements whose leading
    /// monomial none of theirs divides. Else it is empty.
    pub fn stopped_at(&self) -> Vec<Term> {
        terms(&self.work)
    }
}

/// What it holds, not the words of its buffers.
impl fmt::Debug for Engine {
    fn fmt(&self, f: &mut fmt::Formatter) -> fmt::Result {
        let counts: Vec<usize> = (0..self.complete()).map(|k| self.count(k)).collect();
        f.debug_struct("Engine")
            .field("prime", &self.prime())
            .field("variables", &self.variables())
            .field("order", &self.order())
            .field("components", &self.components())
            .field("vectors by level", &counts)
            .field("cache terms", &(self.cache.len() / ROW_WORDS))
            .finish()
    }
}

fn fitting() {
    let version = calls::version();
    assert!(
        version == VERSION,
        "libtagetessash.a has version {version}, this crate is for version {VERSION}"
    );
}

/// The sheet of a problem file, the bytes that the program prints, for every file: a refused one has an X line. It lifts by the hybrid way with the
/// newest term, which on some files takes very long; [`Engine::lift`] by another way does not.
///
/// # Panics
///
/// If the library is of another version than this crate.
pub fn sheet(file: &[u8]) -> Vec<u8> {
    printed(calls::sheet, SHEET_BYTES, file)
}

/// The Betti page of a problem file, the bytes that the program prints, for every file: how many vectors of which degree each level has, levels lifted
/// as for [`sheet`]. A line has 72 bytes and byte 10: a label of 6, then columns 0 to 10 of 6 each, right-aligned, a dash for zero. Column 0 counts the
/// components, column 1 the elements, column k + 1 the vectors of level k. The row is the degree minus the column, and the last line has the totals.
///
/// A refused file has an X line instead, and nothing else but the W lines after `X,9`: [`Refusal::printed`] reads it. An accepted file where an element has
/// terms of two degrees has `X,17` ([`Refusal::TwoDegrees`]).
///
/// ```
/// let squares = b"R,7,2,3,1\nT,1,1,1,2,0\nT,2,1,1,1,1\nT,3,1,1,0,2\nE,3\n";
/// let page = tagetessash::betti(squares);
/// assert_eq!(tagetessash::Refusal::printed(&page), None);
/// assert_eq!(
///     String::from_utf8(page).expect("digits, dashes and blanks"),
///     "    0:     1     -     -     -     -     -     -     -     -     -     -\n".to_string()
///         + "    1:     -     3     2     -     -     -     -     -     -     -     -\n"
///         + " total     1     3     2     -     -     -     -     -     -     -     -\n"
/// );
/// ```
///
/// # Panics
///
/// If the library is of another version than this crate.
pub fn betti(file: &[u8]) -> Vec<u8> {
    printed(calls::betti, PAGE_BYTES, file)
}

/// The minimal Betti numbers of a problem file, the bytes that the program prints, for every file: a page with the lines, labels and rows of the file's
/// [`betti`], and for each count there what is left of it once generators that are not needed are left out. In each degree the constants between a column and
/// the next one are a matrix, a row for each generator of the next column, in it the coefficient of 1 times each generator of this one; its rank modulo p is
/// taken from both counts. The last line has the totals of what is left.
///
/// A refused file has what [`betti`] has, `X,17` ([`Refusal::TwoDegrees`]) too.
///
/// ```
/// // x, x, y: an element is there twice
/// let twice = b"R,7,2,1,1\nT,1,1,1,1,0\nT,2,1,1,1,0\nT,3,1,1,0,1\nE,3\n";
/// let page = tagetessash::minimal(twice);
/// assert_eq!(tagetessash::Refusal::printed(&page), None);
/// assert_eq!(
///     String::from_utf8(page).expect("digits, dashes and blanks"),
///     "   -1:     -     -     -     -     -     -     -     -     -     -     -\n".to_string()
///         + "    0:     1     2     1     -     -     -     -     -     -     -     -\n"
///         + " total     1     2     1     -     -     -     -     -     -     -     -\n"
/// );
/// ```
///
/// # Panics
///
/// If the library is of another version than this crate.
pub fn minimal(file: &[u8]) -> Vec<u8> {
    printed(calls::minimal, PAGE_BYTES, file)
}

/// The bidegrees of a problem file, the bytes that the program prints, for every file: a line `B,column,a,b,count` for each bidegree of some generator of a
/// column, by column, then a, then b, ascending. The columns are those of [`betti`], levels are lifted as for [`sheet`]. The bidegree of a term is two sums, of
/// the exponents times the weights a and times the weights b of the file's G line ([`Problem::weights`]), the degree of its component added to the first;
/// without a G line the weights are 1 and 0. A vector has that of its leading term's image in level 0's module.
///
/// A refused file has an X line instead, and nothing else but the W lines after `X,9`: [`Refusal::printed`] reads it. An accepted file where an element has
/// terms of two bidegrees has `X,25` ([`Refusal::TwoBidegrees`]).
///
/// ```
/// // x1 y1 and x2 y2, where x1 and x2 have bidegree (1, 0), y1 and y2 (0, 1)
/// let file = b"R,7,4,3,1\nG,1,0,1,0,0,1,0,1\nT,1,1,1,1,0,1,0\nT,2,1,1,0,1,0,1\nE,2\n";
/// let lines = tagetessash::bidegrees(file);
/// assert_eq!(tagetessash::Refusal::printed(&lines), None);
/// assert_eq!(lines, b"B,0,0,0,1\nB,1,1,1,2\nB,2,2,2,1\n");
/// ```
///
/// # Panics
///
/// If the library is of another version than this crate.
pub fn bidegrees(file: &[u8]) -> Vec<u8> {
    printed(calls::bidegrees, BIDEGREES_BYTES, file)
}

/// The Hilbert function of a problem file, the bytes that the program prints, for every file: a line `H,degree,value` for each degree 0 to 32. The value is
/// how many monomials of that degree, the degree of their component included, no leading monomial of an element divides: for a homogeneous file the dimension
/// of the quotient's part of that degree. It is found from the levels, lifted as for [`sheet`], as the alternating sum over the columns of [`betti`].
///
/// A refused file has an X line instead, and nothing else but the W lines after `X,9`: [`Refusal::printed`] reads it. An element may have terms of several
/// degrees.
///
/// ```
/// // the twisted cubic: 3 d + 1 in each degree d
/// let file = b"R,7,4,3,1\nT,1,1,1,0,0,2,0\nT,1,6,1,0,1,0,1\nT,2,1,1,0,1,1,0\nT,2,6,1,1,0,0,1\nT,3,1,1,0,2,0,0\nT,3,6,1,1,0,1,0\nE,6\n";
/// let lines = tagetessash::hilbert(file);
/// assert_eq!(tagetessash::Refusal::printed(&lines), None);
/// let expected: String = (0..=32).map(|d| format!("H,{d},{}\n", 3 * d + 1)).collect();
/// assert_eq!(lines, expected.as_bytes());
/// ```
///
/// # Panics
///
/// If the library is of another version than this crate.
pub fn hilbert(file: &[u8]) -> Vec<u8> {
    printed(calls::hilbert, HILBERT_BYTES, file)
}

/// Whether a vector is in the module of a file's elements, the bytes that the program prints, for every input: a problem file and, behind its E line, a line
/// `V,coefficient,component,e1,..,en` for each term of the vector, strictly descending. A line `C,coefficient,element,e1,..,en` for each term of the quotients
/// of its division by the elements, a line `W,coefficient,component,e1,..,en` for each of the remainder, then `M,1` or `M,0`.
///
/// A refused input has an X line instead, and nothing else but the W lines after `X,9`; `X,23` is the first line behind E that is no V line, out of range, not
/// descending, or the 513th.
///
/// ```
/// let input = b"R,7,2,1,1\nT,1,1,1,1,0\nT,1,1,1,0,1\nT,2,1,1,0,2\nT,2,1,1,0,0\nE,4\nV,1,1,2,0\nV,1,1,0,0\n";
/// assert_eq!(tagetessash::member(input), b"C,1,1,1,0\nC,6,1,0,1\nC,1,2,0,0\nM,1\n");
/// ```
///
/// # Panics
///
/// If the library is of another version than this crate.
pub fn member(input: &[u8]) -> Vec<u8> {
    printed(calls::member, MEMBER_BYTES, input)
}

/// A problem file completed to a Gröbner basis, the bytes that the program prints, for every file: as long as acceptance ends in 9, the value where division
/// stops, divided by its leading coefficient, is added as the last element. The lines before E stay as they are, and a file that is accepted at once comes back
/// unchanged. What comes back is a problem file of the same module, which [`Engine::read`] accepts.
///
/// A refused file has an X line instead, and nothing else: one that is not read, one that meets 13 to 15, and one to which a 65th element
/// ([`Refusal::TooManyElements`]), more than 65,536 bytes ([`Refusal::FileTooLong`]) or a 2,049th T line ([`Refusal::TooManyTerms`]) would have to be added.
///
/// ```
/// // x², x y + y²: y³ is added
/// let file = b"R,7,2,1,1\nT,1,1,1,2,0\nT,2,1,1,1,1\nT,2,1,1,0,2\nE,3\n";
/// let basis = tagetessash::completed(file);
/// assert_eq!(tagetessash::Refusal::printed(&basis), None);
/// assert_eq!(basis, b"R,7,2,1,1\nT,1,1,1,2,0\nT,2,1,1,1,1\nT,2,1,1,0,2\nT,3,1,1,0,3\nE,4\n");
/// tagetessash::Engine::new().read(&basis)?;
/// # Ok::<(), tagetessash::Refusal>(())
/// ```
///
/// # Panics
///
/// If the library is of another version than this crate.
pub fn completed(file: &[u8]) -> Vec<u8> {
    printed(calls::completed, COMPLETED_BYTES, file)
}

/// The vector of a frame term by a run whose picks were recorded elsewhere, the bytes that the program prints, for every input: a problem file and, behind its
/// E line, a line `L,level,vector` and for each pick a line `P,e1,..,en,component`, up to 4,096. A line `S,level,vector,coefficient,component,e1,..,en` for
/// each term of the vector, which is the engine's own, whoever wrote the log.
///
/// A refused input has an X line instead, and nothing else but the W lines after `X,9`: `X,12` where the L line names no vector, `X,21` at the first line
/// behind E that is no L line, or no P line, or the 4,097th of these, `X,22` where a pick is no term of the working value or the lines end before that is zero.
///
/// ```
/// let input = b"R,7,2,1,1\nT,1,1,1,1,0\nT,1,1,1,0,1\nT,2,1,1,0,2\nT,2,1,1,0,0\nE,4\nL,1,1\nP,1,2,1\nP,1,0,1\nP,0,3,1\n";
/// assert_eq!(tagetessash::replay(input), b"S,1,1,1,2,1,0\nS,1,1,6,1,0,2\nS,1,1,6,1,0,0\nS,1,1,1,2,0,1\n");
/// ```
///
/// # Panics
///
/// If the library is of another version than this crate.
pub fn replay(input: &[u8]) -> Vec<u8> {
    printed(calls::replay, REPLAY_BYTES, input)
}

/// A call that prints what it finds in a file, over slices: number and how many bytes it wrote.
type Printing = fn(&[u8], &mut [u16], &mut [u16], &mut [u8]) -> (u16, usize);

/// What such a call prints, which has this room at the most.
fn printed(call: Printing, room: usize, file: &[u8]) -> Vec<u8> {
    fitting();
    let mut out = vec![0; room];
    let (_, length) = call(
        file,
        &mut vec![0; STATE_WORDS],
        &mut vec![0; WORK_WORDS],
        &mut out,
    );
    out.truncate(length);
    out
}

fn answer((number, place): (u16, usize)) -> Result<(), Refusal> {
    match number {
        0 => Ok(()),
        _ => Err(Refusal::new(number, place)),
    }
}

/// The rows in front of the zeros.
fn terms(words: &[u16]) -> Vec<Term> {
    words
        .chunks_exact(ROW_WORDS)
        .take_while(|row| row[COEFFICIENT_AT] != 0)
        .map(Term::of)
        .collect()
}
