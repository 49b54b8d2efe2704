// SPDX-License-Identifier: MIT OR Apache-2.0
//! Refusals.

use std::fmt;

/// Why a call gave nothing, or a sheet or a page was cut off, and where.
#[derive(Clone, Copy, Debug, PartialEq, Eq, Hash)]
#[non_exhaustive]
pub enum Refusal {
    /// 1: the file has more than 65,536 bytes
    FileTooLong,
    /// 1: the line has the wrong shape, is missing, or stands where it must not
    BadLine {
        /// the file's line, from 1
        line: usize,
    },
    /// 2: p is not a prime from 2 to 65,535
    BadPrime {
        /// the file's line, from 1
        line: usize,
    },
    /// 3: the number of variables, the order code or the number of components is out of range
    BadRing {
        /// the file's line, from 1
        line: usize,
    },
    /// 4: a coefficient, component or exponent is out of range
    BadTerm {
        /// the file's line, from 1
        line: usize,
    },
    /// 5: an element number is out of sequence or above 64
    BadElement {
        /// the file's line, from 1
        line: usize,
    },
    /// 6: a term is not below the one before it in its element
    NotDescending {
        /// the file's line, from 1
        line: usize,
    },
    /// 7: the count of T lines is 0 or wrong
    BadCount {
        /// the file's line, from 1
        line: usize,
    },
    /// 8: a 2,049th T line
    TooManyTerms {
        /// the file's line, from 1
        line: usize,
    },
    /// 9: the elements are no Gröbner basis; [`crate::Engine::stopped_at`] has the value that shows it
    NoBasis {
        /// the number of the frame term whose division stops
        frame_term: usize,
    },
    /// 11: there is no accepted basis, or the level that is needed is not complete
    NoLevel,
    /// 12: there is no such level or vector
    BadNumber,
    /// 13: a product has an exponent above 255
    ExponentLimit {
        /// the level that was being lifted; 0 while the basis was being accepted or a vector divided
        level: usize,
    },
    /// 14: a working value, a vector, quotients, a remainder or the tree's work area is full
    TermLimit {
        /// the level that was being lifted; 0 while the basis was being accepted or a vector divided
        level: usize,
    },
    /// 15: a level has too many frame terms or too many terms
    LevelLimit {
        /// the level that was being lifted; 0 while the basis was being accepted
        level: usize,
    },
    /// 16: a buffer is too short
    ShortBuffer,
    /// 17: an element has terms of two degrees. No call gives it; it is printed by [`crate::betti`] and [`crate::minimal`] instead of a page.
    TwoDegrees {
        /// the first such element, from 1
        element: usize,
    },
    /// 18: a component's degree is above 255
    BadDegree {
        /// the file's line, from 1
        line: usize,
    },
    /// 19: a completed file would have more than 64 elements. No call gives it; it is printed by [`crate::completed`] instead of a file.
    TooManyElements {
        /// the element that would be added, 65
        element: usize,
    },
    /// 20: level 9 is not empty. No call gives it; [`crate::minimal`] would print it instead of a page, and does for no file, since level n + 1 is empty.
    NotEnded {
        /// the level
        level: usize,
    },
    /// 21: a line of a log has the wrong shape, is missing or is the 4,097th of its picks. No call gives it; it is printed by [`crate::replay`].
    BadLog {
        /// the input's line, from 1
        line: usize,
    },
    /// 22: a pick of a log is no term of the working value, or the log ends before that is zero or goes on after it. No call gives it; it is printed by
    /// [`crate::replay`].
    NotTaken {
        /// the input's line, from 1
        line: usize,
    },
    /// 23: a term of the vector to be divided is out of range, not below the one before it, or the 513th; in the lines of [`crate::member`] a line behind E is
    /// no such term
    BadVector {
        /// the term, from 1; in the lines of [`crate::member`] the input's line
        term: usize,
    },
    /// 24: a variable's weight is above 15
    BadWeight {
        /// the file's line, from 1
        line: usize,
    },
    /// 25: an element has terms of two bidegrees. No call gives it; it is printed by [`crate::bidegrees`] instead of lines.
    TwoBidegrees {
        /// the first such element, from 1
        element: usize,
    },
    /// a number that this version does not know
    Other {
        /// the number
        number: u16,
        /// its place
        place: usize,
    },
}

use Refusal::*;

impl Refusal {
    /// That of the X line of a sheet, of a Betti page, of minimal numbers, of bidegrees, of a Hilbert function, of a division, of a replayed log or instead of
    /// a completed file; none where there is no such line. The place of 12, which is a line of a log there, is not kept.
    pub fn printed(lines: &[u8]) -> Option<Refusal> {
        let line = lines
            .split(|byte| *byte == b'\n')
            .find_map(|line| line.strip_prefix(b"X,"))?;
        let (number, place) = std::str::from_utf8(line).ok()?.split_once(',')?;
        Some(Refusal::new(number.parse().ok()?, place.parse().ok()?))
    }

    /// From the number, not 0, and the place that a call gives.
    pub(crate) fn new(number: u16, place: usize) -> Refusal {
        match number {
            1 if place == 0 => FileTooLong,
            1 => BadLine { line: place },
            2 => BadPrime { line: place },
            3 => BadRing { line: place },
            4 => BadTerm { line: place },
            5 => BadElement { line: place },
            6 => NotDescending { line: place },
            7 => BadCount { line: place },
            8 => TooManyTerms { line: place },
            9 => NoBasis { frame_term: place },
            11 => NoLevel,
            12 => BadNumber,
            13 => ExponentLimit { level: place },
            14 => TermLimit { level: place },
            15 => LevelLimit { level: place },
            16 => ShortBuffer,
            17 => TwoDegrees { element: place },
            18 => BadDegree { line: place },
            19 => TooManyElements { element: place },
            20 => NotEnded { level: place },
            21 => BadLog { line: place },
            22 => NotTaken { line: place },
            23 => BadVector { term: place },
            24 => BadWeight { line: place },
            25 => TwoBidegrees { element: place },
            _ => Other { number, place },
        }
    }

    /// Document 01's number: 1 to 9 or 11 to 16, or a request's: 17 to 20, 23, 24 or 25.
    pub fn number(&self) -> u16 {
        match self {
            FileTooLong | BadLine { .. } => 1,
            BadPrime { .. } => 2,
            BadRing { .. } => 3,
            BadTerm { .. } => 4,
            BadElement { .. } => 5,
            NotDescending { .. } => 6,
            BadCount { .. } => 7,
            TooManyTerms { .. } => 8,
            NoBasis { .. } => 9,
            NoLevel => 11,
            BadNumber => 12,
            ExponentLimit { .. } => 13,
            TermLimit { .. } => 14,
            LevelLimit { .. } => 15,
            ShortBuffer => 16,
            TwoDegrees { .. } => 17,
            BadDegree { .. } => 18,
            TooManyElements { .. } => 19,
            NotEnded { .. } => 20,
            BadLog { .. } => 21,
            NotTaken { .. } => 22,
            BadVector { .. } => 23,
            BadWeight { .. } => 24,
            TwoBidegrees { .. } => 25,
            Other { number, .. } => *number,
        }
    }

    /// For 1 to 8, 18 and 24 the file's line, for 9 the number of a frame term, for 13 to 15 and 20 the level (0 while a basis is being accepted), for
    /// 17, 19 and 25 the element, for 23 the term (or the line), else 0.
    pub fn place(&self) -> usize {
        match *self {
            BadLine { line } | BadPrime { line } | BadRing { line } | BadTerm { line } => line,
            BadElement { line }
            | NotDescending { line }
            | BadCount { line }
            | TooManyTerms { line }
            | BadDegree { line }
            | BadWeight { line }
            | BadLog { line }
            | NotTaken { line } => line,
            NoBasis { frame_term } => frame_term,
            BadVector { term } => term,
            TwoDegrees { element } | TwoBidegrees { element } | TooManyElements { element } => {
                element
            }
            ExponentLimit { level }
            | TermLimit { level }
            | LevelLimit { level }
            | NotEnded { level } => level,
            Other { place, .. } => place,
            FileTooLong | NoLevel | BadNumber | ShortBuffer => 0,
        }
    }

    /// What the number means.
    pub fn meaning(&self) -> &'static str {
        match self.number() {
            1 => "a line has the wrong shape or stands in the wrong place, or the file is too long",
            2 => "p is not a prime from 2 to 65,535",
            3 => "the number of variables, the order code or the number of components is out of range",
            4 => "a coefficient, component or exponent is out of range",
            5 => "an element number is out of sequence or above 64",
            6 => "a term is not below the one before it in its element",
            7 => "the count of T lines is 0 or wrong",
            8 => "there are more than 2,048 T lines",
            9 => "the elements are no Groebner basis",
            11 => "there is no accepted basis, or the level that is needed is not complete",
            12 => "there is no such level, vector, way or pick code",
            13 => "a product has an exponent above 255",
            14 => "a working value, a vector or the tree's work area is full",
            15 => "a level has too many frame terms or too many terms",
            16 => "a buffer is too short",
            17 => "an element has terms of two degrees",
            18 => "a component's degree is above 255",
            19 => "a completed file would have more than 64 elements",
            20 => "level 9 is not empty",
            21 => "a line of the log has the wrong shape, is missing or is one pick too many",
            22 => "a pick is no term of the working value, or the log ends before that is zero or goes on after it",
            23 => "a term of the vector is out of range, not below the one before it, or the 513th",
            24 => "a variable's weight is above 15",
            25 => "an element has terms of two bidegrees",
            _ => "no number of a call",
        }
    }

    /// What the place counts, for refusals that have one.
    pub fn place_name(&self) -> Option<&'static str> {
        match self.number() {
            1..=8 | 18 | 21 | 22 | 24 => Some("line"),
            9 => Some("frame term"),
            13..=15 | 20 => Some("level"),
            17 | 19 | 25 => Some("element"),
            23 => Some("term"),
            _ => None,
        }
    }
}

impl fmt::Display for Refusal {
    fn fmt(&self, f: &mut fmt::Formatter) -> fmt::Result {
        write!(f, "refused {}", self.number())?;
        if let Some(name) = self.place_name() {
            write!(f, " at {name} {}", self.place())?;
        }
        write!(f, ": {}", self.meaning())
    }
}

impl std::error::Error for Refusal {}
