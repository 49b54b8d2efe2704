// SPDX-License-Identifier: MIT OR Apache-2.0
//! What prints against the unrelated implementation, file by file: the bytes, what the files met, and how something is spoiled so that the comparison itself is
//! tried.

use crate::printer::{self, Bytes, Printer, Spoil};
use crate::program::By;
use crate::report::{counts, differ, NUMBERS};
use reference::generate::weight_lines::without_weight_lines;
use reference::reader::read_problem;
use reference::{Limits, Printed};
use std::collections::BTreeSet;

/// Products that a generated file may take; one that takes more is left out.
pub const BUDGET: u64 = 20_000;
/// The same for files at the limits.
pub const LONG_BUDGET: u64 = 300_000;
/// The same for the files of examples/.
pub const EXAMPLE_BUDGET: u64 = 10_000_000;

/// Of the files that are read with a G line one in so many is also printed without it.
pub const APART: u64 = 4;

/// A test that takes one file after the other.
pub trait Files {
    /// One file by the call and the unrelated implementation, unless it takes more products than that; by the program too, where it is said how it gets the
    /// file, and else some.
    fn take(&mut self, file: &[u8], budget: u64, by: Option<By>);

    fn file_by(&mut self, file: &[u8], budget: u64, by: By) {
        self.take(file, budget, Some(by));
    }

    fn file(&mut self, file: &[u8], budget: u64) {
        self.take(file, budget, None);
    }
}

/// What `spoil` changes: an answer, or something of the test's own.
#[derive(Clone, Copy, PartialEq, Eq)]
pub enum Spoiled<Own> {
    Printed(Spoil),
    Own(Own),
}

/// All that can be spoiled, by name.
pub fn spoils<Own: Copy>(own: &[(&'static str, Own)]) -> Vec<(&'static str, Spoiled<Own>)> {
    let printed = printer::spoils().into_iter();
    let printed = printed.map(|(name, spoil)| (name, Spoiled::Printed(spoil)));
    let own = own.iter().map(|(name, own)| (*name, Spoiled::Own(*own)));
    printed.chain(own).collect()
}

/// Call and program, and what the files met.
pub struct Printing<Own> {
    limits: Limits,
    pub printer: Printer,
    expected: Printed,
    /// files so far, and those that take too many products
    pub files: u64,
    pub left_out: u64,
    /// files so far by the number of their X line, 0 where there is none
    pub met: [u64; NUMBERS],
    /// number and place of each X line
    places: BTreeSet<(u64, u64)>,
    /// files that are not refused: with a D line, with a G line, with both
    pub with_degrees: u64,
    pub with_weights: u64,
    pub with_both: u64,
    /// files that are read with a G line, and those that were printed without it
    read: u64,
    pub without: u64,
    /// the file from which on to spoil something
    spoil: Option<(u64, Spoiled<Own>)>,
}

impl<Own: Copy + PartialEq> Printing<Own> {
    /// Call and program, what the unrelated implementation prints, and what to spoil.
    pub fn new(printer: Printer, expected: Printed, spoil: Option<Spoiled<Own>>) -> Printing<Own> {
        Printing {
            limits: Limits::document_01(),
            printer,
            expected,
            files: 0,
            left_out: 0,
            met: [0; NUMBERS],
            places: BTreeSet::new(),
            with_degrees: 0,
            with_weights: 0,
            with_both: 0,
            read: 0,
            without: 0,
            spoil: spoil.map(|what| (70, what)),
        }
    }

    /// What the unrelated implementation prints, unless the file takes more products than that.
    pub fn expected(&mut self, file: &[u8], budget: u64) -> Option<Vec<u8>> {
        let expected = (self.expected)(&self.limits, file, Some(budget)).0;
        self.left_out += u64::from(expected.is_none());
        expected
    }

    /// One file of which it is known what is printed; says whether it is not refused.
    pub fn expect(&mut self, file: &[u8], expected: &[u8], by: Option<By>) -> bool {
        let spoil = match self.spoil.filter(|(from, _)| self.files >= *from) {
            Some((_, Spoiled::Printed(spoil))) => Some(spoil),
            _ => None,
        };
        let ours = self.printer.print(file, by, spoil);
        if ours != expected {
            self.differ(file, "what is printed differs", &ours, expected);
        }
        self.count(file, expected)
    }

    /// What is printed of a file that counts nowhere.
    pub fn print(&mut self, file: &[u8]) -> Vec<u8> {
        self.printer.print(file, None, None)
    }

    /// Whether to spoil this now.
    pub fn spoils(&self, own: Own) -> bool {
        let due = self.spoil.filter(|(from, _)| self.files >= *from);
        due.is_some_and(|(_, what)| what == Spoiled::Own(own))
    }

    /// What to spoil now of what another program prints.
    pub fn spoils_program(&self, own: Own) -> Option<Spoil> {
        let first = Spoil::Program(Bytes::First);
        self.spoils(own).then_some(first)
    }

    fn count(&mut self, file: &[u8], printed: &[u8]) -> bool {
        self.files += 1;
        if let Some((number, place)) = refusal(printed) {
            self.met[number as usize] += 1;
            self.places.insert((number, place));
            return false;
        }
        self.met[0] += 1;
        let has = |start: &[u8]| file.windows(3).any(|bytes| bytes == start);
        let (degrees, weights) = (has(b"\nD,"), has(b"\nG,"));
        self.with_degrees += u64::from(degrees);
        self.with_weights += u64::from(weights);
        self.with_both += u64::from(degrees && weights);
        true
    }

    /// Of a file that is read with a G line, one in some: the file without the line.
    pub fn without_line(&mut self, file: &[u8]) -> Option<Vec<u8>> {
        let bare = without_weight_lines(file);
        // one that the line makes too long is not read
        if bare.len() == file.len() || read_problem(&self.limits, file).is_err() {
            return None;
        }
        self.read += 1;
        self.read.is_multiple_of(APART).then_some(bare)
    }

    /// Of such a file the same bytes are printed without the line.
    pub fn without_weights(&mut self, file: &[u8], printed: &[u8], own: Own) {
        let Some(bare) = self.without_line(file) else {
            return;
        };
        let mut plain = self.print(&bare);
        if self.spoils(own) {
            plain[0] ^= 1;
        }
        if plain != printed {
            let what =
                "what is printed of the file differs from what is printed without its G line";
            self.differ(file, what, printed, &plain);
        }
        self.without += 1;
    }

    /// The places that this number had.
    pub fn places(&self, number: u64) -> BTreeSet<u64> {
        let of_number = self.places.iter().filter(|(other, _)| *other == number);
        of_number.map(|(_, place)| *place).collect()
    }

    /// 13 to 15 by number and level.
    pub fn stops(&self) -> BTreeSet<(u64, u64)> {
        let stops = self.places.iter().copied();
        stops
            .filter(|(number, _)| (13..=15).contains(number))
            .collect()
    }

    /// What every test tells first.
    pub fn report(&self, name: &str, systematic: u64, seed: u64) {
        println!(
            "{name}: {} files agree byte for byte by the call ({systematic} systematic, {} left out that take more products, seed {seed}); \
             {} of {} calls also by the program {}",
            self.files,
            self.left_out,
            self.printer.runs,
            self.printer.files,
            self.printer.name()
        );
        println!("  {}", counts(&self.met).join(", "));
    }

    /// A run in which something hardly comes tests too little: what every file can meet, these numbers besides, and none of those.
    pub fn enough(&self, besides: &[usize], never: &[usize]) {
        self.printer.enough();
        let always = [0, 1, 2, 3, 4, 5, 6, 7, 8, 9, 13, 14, 15, 18, 24];
        for number in always.iter().chain(besides) {
            assert!(self.met[*number] >= 10, "number {number} came too seldom");
        }
        for number in never {
            assert_eq!(self.met[*number], 0, "{number} came");
        }
        for stop in [
            (13, 0),
            (13, 1),
            (14, 0),
            (14, 2),
            (14, 3),
            (15, 0),
            (15, 1),
            (15, 2),
        ] {
            assert!(self.places.contains(&stop), "{stop:?} did not come");
        }
    }

    /// Tells what differs, and ends the test.
    pub fn differ(&self, file: &[u8], what: &str, ours: &[u8], expected: &[u8]) -> ! {
        differ(self.files, file, what, ours, expected)
    }
}

/// Number and place of the X line that is printed first, if it is one.
fn refusal(printed: &[u8]) -> Option<(u64, u64)> {
    let text = std::str::from_utf8(printed).expect("text");
    let line = text.lines().next().expect("a line").strip_prefix("X,")?;
    let (number, place) = line.split_once(',').expect("number and place");
    Some((
        number.parse().expect("a number"),
        place.parse().expect("a place"),
    ))
}
