// SPDX-License-Identifier: MIT OR Apache-2.0
//! Input with lines behind the problem file's E, as some requests allow.

use crate::limits::Limits;
use crate::reader::fields;

/// The problem file and what stands behind it: "Lines that a request allows after E are no part of
/// the file's length, which then ends with the first line beginning with E." Without such a line all
/// of the input is the file.
pub fn split(input: &[u8]) -> (&[u8], &[u8]) {
    let mut end = 0;
    for line in input.split_inclusive(|byte| *byte == 10) {
        end += line.len();
        if line[0] == b'E' {
            break;
        }
    }
    input.split_at(end)
}

/// A line behind E.
pub(crate) struct Line {
    /// its number in the whole input
    pub number: u64,
    /// its letter and numbers; `None` if its fields have a wrong form or byte 10 is missing
    pub fields: Option<(u8, Vec<u64>)>,
}

impl Line {
    /// The numbers of a line with this letter and so many of them.
    pub fn numbers(&self, letter: u8, count: u64) -> Option<&[u64]> {
        let (own, numbers) = self.fields.as_ref()?;
        (*own == letter && numbers.len() as u64 == count).then_some(numbers.as_slice())
    }
}

/// The lines behind the file, in turn.
pub(crate) struct LinesBehind<'a> {
    limits: &'a Limits,
    rest: &'a [u8],
    /// the number that the next line has or, where there is none, would have
    pub next_number: u64,
}

impl<'a> LinesBehind<'a> {
    pub fn new(limits: &'a Limits, input: &'a [u8]) -> LinesBehind<'a> {
        let (file, rest) = split(input);
        let lines = file.iter().filter(|byte| **byte == 10).count();
        LinesBehind {
            limits,
            rest,
            next_number: lines as u64 + 1,
        }
    }
}

impl Iterator for LinesBehind<'_> {
    type Item = Line;

    fn next(&mut self) -> Option<Line> {
        let line = self.rest.split_inclusive(|byte| *byte == 10).next()?;
        self.rest = &self.rest[line.len()..];
        let number = self.next_number;
        self.next_number += 1;
        // "Each line ends in byte 10"
        let fields = line
            .strip_suffix(b"\n")
            .and_then(|line| fields(self.limits, line));
        Some(Line { number, fields })
    }
}

/// How many bytes of an input can matter where at most so many lines with at most so many numbers
/// each are allowed behind the file, for each kind of line: with all of them as long as they can be
/// one byte more is either behind the last line that is allowed or in a line that is too long.
pub fn bytes_that_matter(limits: &Limits, kinds: &[(u64, u64)]) -> usize {
    let digits = limits.field.to_string().len() as u64;
    let longest = |numbers: u64| 1 + numbers * (1 + digits) + 1;
    let lines = kinds.iter().map(|(lines, own)| lines * longest(*own));
    (limits.file + lines.sum::<u64>() + 1) as usize
}
