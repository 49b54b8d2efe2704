// SPDX-License-Identifier: MIT OR Apache-2.0
//! The public calls against the unrelated implementation: lists of calls on lent buffers; number, place and every word after each call.
//!
//!     test-calls [CALLS [SEED]]                                  at least so many calls (1,000,000 without it)
//!     test-calls primes [FILES [SEED]]                           so many files over 65,521, 65,519 and 32,771 (50,000), every level and vector of each
//!     test-calls spoil number|place|state|work|cache|out|quotients|remainder|printed|page    spoils one answer: the run must find it and exit with 1

mod compare;
mod divided;
mod proved;

use common::arguments::{asked, words};
use common::buffers::{
    self, row, BIDEGREES, DEGREES, HILBERT, LEAST_WORK, OUT, PAGE, ROW, STATE, WORK,
};
use common::deep::{deep, on_small_stack, DEEPEST};
use common::examples::examples;
use common::files::{
    basis_or_set, damage_some, long_tails, many_monomials, random_size, with_some_weights, WRITTEN,
};
use common::report::counts;
use common::states::{
    alter, basis_of, degree_is_free, degree_words, leading_variable, random_basis as random_state,
    write_basis, Size,
};
use compare::{Call, Compare, Lent, Spoiled, Step, CACHE, KINDS, MORE, SPOILS, WHOLE};
use divided::{rows_of, sound_basis};
use reference::buffers::read_state;
use reference::engine::{Basis, State};
use reference::generate::bigraded::{bidegree_file, bigraded_file};
use reference::generate::degree_lines::{
    components_of, spoiled_degree_lines, with_degrees, without_degree_lines,
};
use reference::generate::files::{edited_file, limit_file};
use reference::generate::low::{hilbert_file, low_file};
use reference::generate::problems::{problem_file, random_basis, random_degrees, Size as FileSize};
use reference::generate::redundant::{minimal_file, redundant_file};
use reference::generate::rooms::{roomy_problem, twins};
use reference::generate::states::{carry, with_other_degrees};
use reference::generate::vectors::{member, non_member, random_vector};
use reference::generate::weight_lines::{
    random_weights, spoiled_weight_lines, variables_of, with_weights, without_weight_lines,
};
use reference::lifting::Way;
use reference::random::Random;
use reference::reader::{read_problem, Problem};
use reference::Limits;

const CALLS: u64 = 1_000_000;
const SEED: u64 = 20_250_401;
const FILES: u64 = 50_000;
/// Products that a call may take; one that takes more is left out.
const BUDGET: u64 = 6_000;
const LONG_BUDGET: u64 = 100_000;

/// x², y³ and z in component 1, x and y in component 2, none in component 3: three levels.
const MODULE: &str = "R,7,3,1,3\nD,3,0,200\nT,1,1,1,2,0,0\nT,2,1,1,0,3,0\nT,3,1,1,0,0,1\nT,4,1,2,1,0,0\nT,4,1,1,0,0,1\nT,5,1,2,0,1,0\nE,6\n";

struct Lists {
    compare: Compare,
    random: Random,
    limits: Limits,
    files: Vec<Vec<u8>>,
    /// files at the limits and of the field, which take longer
    long_files: Vec<Vec<u8>>,
    lists: u64,
    altered: u64,
    /// lists made again with all room
    again: u64,
}

impl Lists {
    fn new(seed: u64, spoil: Option<(u64, Spoiled)>) -> Lists {
        let mut random = Random::new(seed);
        let mut compare = Compare::new(seed);
        compare.spoil = spoil;
        let files = (0..if spoil.is_some() { 100 } else { 4_000 })
            .map(|_| {
                match random.below(20) {
                    0 | 1 => return bigraded_file(&mut random),
                    2 => return low_file(&mut random),
                    3 => return redundant_file(&mut random),
                    4..=6 => return problem_file(&roomy_problem(&mut random)),
                    _ => {}
                }
                let size = random_size(&mut random, 6);
                let mut file = problem_file(&basis_or_set(&mut random, &size));
                with_some_weights(&mut random, &mut file);
                file
            })
            .collect();
        let mut long_files: Vec<Vec<u8>> = (0..200).map(|_| limit_file(&mut random)).collect();
        long_files.extend((0..60).map(|_| problem_file(&many_monomials(&mut random))));
        long_files.extend((0..4).map(|_| {
            let tail = random.between(165, 185) as usize;
            problem_file(&long_tails(&mut random, tail))
        }));
        long_files.push(problem_file(&deep(DEEPEST + 1)));
        long_files.extend((0..60).map(|_| problem_file(&roomy_problem(&mut random))));
        long_files.extend((505..=514).map(|terms| problem_file(&twins(&mut random, terms))));
        long_files.extend(
            examples()
                .into_iter()
                .filter(|(name, _)| name != "katsura4_lp")
                .map(|(_, file)| file),
        );
        Lists {
            compare,
            random,
            limits: Limits::document_01(),
            files,
            long_files,
            lists: 0,
            altered: 0,
            again: 0,
        }
    }

    /// One list of calls, on what the list before it left or on other words.
    fn list(&mut self) {
        self.lists += 1;
        let altered = self.random.chance(35);
        self.altered += u64::from(altered);
        match self.random.below(100) {
            0..=3 => self.compare.both(|buffers| buffers.state.fill(0)),
            4..=6 => {
                let word = self.random.bits() as u16;
                self.compare.both(|buffers| buffers.state.fill(word));
            }
            7..=40 if altered => self.write_state(),
            _ => {}
        }
        let before = self.random.chance(25).then(|| {
            self.compare.record = Some(Vec::new());
            self.compare.theirs.state.clone()
        });
        let mut undo = Vec::new();
        for _ in 0..self.random.between(2, 24) {
            if altered && self.random.chance(30) {
                undo = self.alter();
                let state = &self.compare.theirs.state;
                let words = undo.iter().map(|(at, _)| (*at, state[*at])).collect();
                self.note(words);
            }
            if self.random.chance(15) {
                self.divide();
            }
            let number = self.call();
            // most alterations make the state unsound; back to what it was
            if number == Some(11) && self.random.chance(80) {
                undo.reverse();
                for (at, word) in &undo {
                    self.compare.both(|buffers| buffers.state[*at] = *word);
                }
                self.note(std::mem::take(&mut undo));
            }
            if number != Some(11) {
                undo.clear();
            }
        }
        let steps = self.compare.record.take();
        if let (Some(before), Some(steps)) = (before, steps) {
            self.again(&before, &steps);
        }
    }

    /// Words that were written into the state, for a list that is recorded.
    fn note(&mut self, words: Vec<(usize, u16)>) {
        if let Some(steps) = &mut self.compare.record {
            steps.push(Step::Words(words));
        }
    }

    /// A list in which some lifting by hybrid finished with less room, once more with room for 512 there (request A11): every call answers the same, each of
    /// these leaves the same state, and the list ends in the same one.
    fn again(&mut self, before: &[u16], steps: &[Step]) {
        let narrow = |step: &Step| matches!(step, Step::Made(made) if made.narrow.is_some());
        if !steps.iter().any(narrow) {
            return;
        }
        self.again += 1;
        let end = self.compare.ours.state.clone();
        self.compare
            .both(|buffers| buffers.state.copy_from_slice(before));
        for step in steps {
            let made = match step {
                Step::Words(words) => {
                    for (at, word) in words {
                        self.compare.both(|buffers| buffers.state[*at] = *word);
                    }
                    continue;
                }
                Step::Made(made) => made,
            };
            let work = match made.narrow {
                Some(_) => WORK,
                None => made.lent.work,
            };
            let lent = Lent { work, ..made.lent };
            let number = self.compare.call(&made.call(), &lent, made.budget);
            assert_eq!(number, Some(made.number), "with room for 512");
            if let Some(state) = &made.narrow {
                assert!(*state == self.compare.ours.state, "with room for 512");
            }
        }
        assert!(end == self.compare.ours.state, "with room for 512");
    }

    /// A state that no call made: any sound one, or a file's basis without acceptance, or one whose values have 509 to 515 terms.
    fn write_state(&mut self) {
        let basis = if self.random.chance(10) {
            let terms = self.random.between(508, 514);
            basis_of(twins(&mut self.random, terms))
        } else if self.random.chance(20) {
            let file = self.random.pick(&self.long_files);
            match read_problem(&self.limits, file) {
                Err(_) => return,
                Ok(problem) => basis_of(problem),
            }
        } else {
            let size = Size {
                levels: self.random.between(1, 4),
                vectors: 4,
                terms: 4,
                exponent: 3,
            };
            random_state(&mut self.random, &size)
        };
        self.compare
            .both(|buffers| write_basis(basis.clone(), &mut buffers.state));
    }

    /// Alters words of the state in both sets of buffers; gives what stood there.
    fn alter(&mut self) -> Vec<(usize, u16)> {
        let held = read_state(&self.limits, &self.compare.ours.state);
        let state = &mut self.compare.ours.state;
        let before = match held.basis {
            Some(basis) if self.random.chance(40) => raise(&mut self.random, &basis, state),
            Some(basis) => alter(&mut self.random, &basis, state),
            None => {
                let at = self.random.below(STATE as u64) as usize;
                let word = std::mem::replace(&mut state[at], self.random.bits() as u16);
                vec![(at, word)]
            }
        };
        for (at, _) in &before {
            self.compare.theirs.state[*at] = self.compare.ours.state[*at];
        }
        before
    }

    /// How many levels are complete, by the word that says so, and how many vectors a level has.
    fn complete(&self) -> u64 {
        u64::from(self.compare.ours.state[buffers::COMPLETE]).min(10)
    }

    fn vectors(&self, level: u64) -> u64 {
        u64::from(self.compare.ours.state[buffers::count(level.min(9) as usize)])
    }

    fn call(&mut self) -> Option<u64> {
        let complete = self.complete();
        if complete == 0 && self.random.chance(80) {
            return self.read();
        }
        match self.random.below(100) {
            0..=11 => self.read(),
            12..=49 => {
                let level = complete.clamp(1, 9);
                self.lift(level)
            }
            50..=61 => {
                let level = self.random.between(1, complete.clamp(1, 9));
                self.lift(level)
            }
            62..=91 => {
                let level = self.random.between(1, (complete.max(2) - 1).min(9));
                if (complete < 2 || self.vectors(level) == 0) && self.random.chance(90) {
                    return self.lift(complete.clamp(1, 9));
                }
                let count = self.vectors(level).max(1);
                let vector = match self.random.below(10) {
                    0 => *self.random.pick(&[0, count + 1, 129, u64::MAX]),
                    1 => count,
                    _ => self.random.between(1, count),
                };
                self.fetch(level, vector)
            }
            92 | 93 => self.printing(),
            // levels that are not there
            _ => {
                let level =
                    *self
                        .random
                        .pick(&[0, 10, 11, 65_537, u64::MAX, complete + 1, complete + 2]);
                if self.random.chance(50) {
                    self.lift(level)
                } else {
                    self.fetch(level, 1)
                }
            }
        }
    }

    /// A vector over what the state holds: mostly one that is divided, in the module or not, at times with a bad row, too many rows or half of one.
    fn divide(&mut self) {
        let held = sound_basis(&self.limits, &self.compare.ours.state);
        let random = &mut self.random;
        let mut vector = match held {
            Some(basis) => {
                let elements = basis.levels[0].clone();
                let problem = Problem::new(basis.parameters, elements);
                let terms = match random.below(10) {
                    0..=3 => member(random, &problem),
                    4 | 5 => {
                        let own = member(random, &problem);
                        non_member(random, &problem, &own).unwrap_or(own)
                    }
                    6 => Vec::new(),
                    _ => random_vector(random, &problem),
                };
                rows_of(&terms)
            }
            None => (0..random.below(40))
                .map(|_| random.bits() as u16)
                .collect(),
        };
        match random.below(20) {
            // any word another one
            0 | 1 if !vector.is_empty() => {
                let at = random.below(vector.len() as u64) as usize;
                vector[at] = match random.below(4) {
                    0 => 0,
                    1 => vector[at].wrapping_add(1),
                    2 => vector[at] ^ 256,
                    _ => random.bits() as u16,
                };
            }
            // a row twice, two exchanged, a row of zeros
            2 if vector.len() >= ROW => {
                let at = ROW * random.below((vector.len() / ROW) as u64) as usize;
                let row = vector[at..at + ROW].to_vec();
                vector.splice(at..at, row);
            }
            3 if vector.len() >= 2 * ROW => vector.rotate_left(ROW),
            4 => vector.extend([0; ROW]),
            // words behind the last whole row
            5 | 6 => {
                let more = random.between(1, ROW as u64 - 1);
                vector.extend((0..more).map(|_| random.bits() as u16));
            }
            // as many rows as there may be, and one more: x1^1 x2^255 and so on downwards, where the ring has two variables
            7 if random.chance(20) => {
                let rows = random.between(510, 515) as usize;
                vector = (0..rows)
                    .flat_map(|i| {
                        row(
                            1,
                            1,
                            [2 - (i / 256) as u8, 255 - (i % 256) as u8, 0, 0, 0, 0, 0, 0],
                        )
                    })
                    .collect();
            }
            _ => {}
        }
        let lent = [self.length(STATE), self.length(OUT), self.length(OUT)];
        self.compare.divide(&vector, lent, BUDGET);
    }

    /// A length: mostly the one that is needed, at times longer or too short.
    fn length(&mut self, needed: usize) -> usize {
        match self.random.below(200) {
            0 | 1 => needed - 1,
            2 => self.random.below(needed as u64) as usize,
            3..=30 => needed + self.random.below(MORE as u64 + 1) as usize,
            _ => needed,
        }
    }

    /// The length of work for hybrid: rows for 0 to 600 terms, near 32 and near 512 more often, and up to five words more.
    fn hybrid_work(&mut self) -> usize {
        let random = &mut self.random;
        let terms = match random.below(20) {
            0..=7 => random.between(30, 40),
            8..=11 => random.between(505, 520),
            12..=16 => random.between(0, 600),
            _ => 512,
        };
        ROW * terms as usize + random.below(ROW as u64) as usize
    }

    fn lent(&mut self, work: usize, cache: usize) -> Lent {
        Lent {
            state: self.length(STATE),
            work: self.length(work),
            cache,
            out: self.length(OUT),
            printed: self.length(BIDEGREES),
            page: PAGE,
        }
    }

    /// Any file, and what it may take.
    fn file(&mut self) -> (Vec<u8>, u64) {
        let (mut file, budget) = match self.random.below(200) {
            0..=7 => (self.random.pick(&self.long_files).clone(), LONG_BUDGET),
            8..=27 => (edited_file(&mut self.random), BUDGET),
            _ => (self.random.pick(&self.files).clone(), BUDGET),
        };
        if self.random.chance(20) {
            damage_some(&mut self.random, &mut file);
        }
        (file, budget)
    }

    fn read(&mut self) -> Option<u64> {
        let (file, budget) = self.file();
        let lent = self.lent(WORK, 0);
        self.compare.call(&Call::Read(&file), &lent, budget)
    }

    /// The state is lent for the work alone: nothing is held afterwards.
    fn printing(&mut self) -> Option<u64> {
        // of a page every byte is compared: they are few
        let kind = match self.random.below(24) {
            0 | 1 => 2,
            kind => kind % 2,
        };
        let (file, budget) = match (self.random.chance(60), kind) {
            (true, 0) => (bidegree_file(&mut self.random), BUDGET),
            (true, 1) => (hilbert_file(&mut self.random), BUDGET),
            (true, _) => (minimal_file(&mut self.random), BUDGET),
            (false, _) => self.file(),
        };
        let (call, room) = match kind {
            0 => (Call::Bidegrees(&file), BIDEGREES),
            1 => (Call::Hilbert(&file), HILBERT),
            _ => (Call::Minimal(&file), PAGE),
        };
        let lent = self.lent(WORK, 0);
        let lent = with_room(&call, self.length(room), lent);
        self.compare.call(&call, &lent, budget)
    }

    fn lift(&mut self, level: u64) -> Option<u64> {
        let random = &mut self.random;
        let way = match random.below(60) {
            0 => *random.pick(&[3, 4, 256, 65_535]),
            1..=15 => 0,
            16..=35 => 1,
            _ => 2,
        };
        // the pick code counts for the hybrid way alone
        let pick = if way == 1 && random.chance(95) {
            random.between(1, 3) as u16
        } else {
            *random.pick(&[0, 1, 3, 4, 65_535])
        };
        let cache = match random.below(40) {
            0 => CACHE,
            1..=3 => CACHE / 2,
            _ => ROW * *random.pick(&[0, 0, 1, 2, 3, 5, 7, 12, 20, 60]),
        };
        let cache = cache + random.below(ROW as u64) as usize;
        let mut lent = self.lent(buffers::work(way), cache);
        match way {
            0 | 2 => {}
            1 => lent.work = self.hybrid_work(),
            // no page says whether a way that there is not needs what hybrid does or more
            _ if lent.work < WORK => lent.work = LEAST_WORK - 1,
            _ => {}
        }
        let call = Call::Lift {
            level: level as usize,
            way,
            pick,
        };
        let budget = if self.random.chance(10) {
            LONG_BUDGET
        } else {
            BUDGET
        };
        self.compare.call(&call, &lent, budget)
    }

    fn fetch(&mut self, level: u64, vector: u64) -> Option<u64> {
        let lent = self.lent(WORK, 0);
        let call = Call::Fetch {
            level: level as usize,
            vector: vector as usize,
        };
        self.compare.call(&call, &lent, BUDGET)
    }

    /// Lifts a level and fetches its vectors; says whether there are any.
    fn lift_and_fetch(&mut self, level: usize, way: u16, pick: u16, lent: &Lent) -> bool {
        let call = Call::Lift { level, way, pick };
        if self.compare.call(&call, lent, LONG_BUDGET) != Some(0) {
            return false;
        }
        let vectors = self.vectors(level as u64) as usize;
        for vector in 1..=vectors {
            let call = Call::Fetch { level, vector };
            self.compare.call(&call, &WHOLE, LONG_BUDGET);
        }
        vectors > 0
    }

    /// The files of the field, and one too deep for the tree, level after level by each way, and every vector fetched.
    fn whole_examples(&mut self) {
        let mut files: Vec<Vec<u8>> = examples().into_iter().map(|(_, file)| file).collect();
        files.push(problem_file(&deep(DEEPEST + 1)));
        for file in files {
            for (way, pick) in [(0, 0), (1, 1), (1, 2), (1, 3), (2, 0)] {
                self.compare.call(&Call::Read(&file), &WHOLE, LONG_BUDGET);
                for level in 1..=9 {
                    if !self.lift_and_fetch(level, way, pick, &WHOLE) {
                        break;
                    }
                }
            }
        }
    }
}

/// Less room (request A11): the files of the field and bases of which much is known, accepted or not, level after level by each pick code, with all the room
/// that a run takes, one term less, the least and the most; and one file, x + y^33 + .. + y and y, with room for each number of terms up to 600.
fn less_room(lists: &mut Lists) {
    let mut files: Vec<Vec<u8>> = examples().into_iter().map(|(_, file)| file).collect();
    files.extend((0..120).map(|_| problem_file(&roomy_problem(&mut lists.random))));
    files.extend((509..=513).map(|terms| problem_file(&twins(&mut lists.random, terms))));
    for file in files {
        let Ok(problem) = read_problem(&lists.limits, &file) else {
            continue;
        };
        let mut basis = basis_of(problem);
        for level in 1..=9 {
            let Some(lifted) = each_room(lists, &basis, level) else {
                break;
            };
            basis = lifted;
        }
    }
    let powers: String = (1..=33).rev().map(|d| format!("T,1,1,1,0,{d}\n")).collect();
    let file = format!("R,7,2,1,1\nT,1,1,1,1,0\n{powers}T,2,1,1,0,1\nE,35\n");
    for (terms, pick) in (0..=600).flat_map(|terms| [(terms, 1), (terms, 2), (terms, 3)]) {
        let read = Call::Read(file.as_bytes());
        assert_eq!(lists.compare.call(&read, &WHOLE, BUDGET), Some(0));
        let more = lists.random.below(ROW as u64) as usize;
        let expected = match terms {
            0..=31 => 16,
            32 => 14,
            _ => 0,
        };
        let number = lift_in(lists, 1, pick, ROW * terms + more);
        assert_eq!(number, Some(expected), "room for {terms}");
    }
}

/// A level by each pick code and in several rooms; gives the basis with it, if it has vectors and some run finished.
fn each_room(lists: &mut Lists, basis: &Basis, level: usize) -> Option<Basis> {
    let before = State {
        basis: Some(basis.clone()),
    };
    let mut next = None;
    for pick in 1..=3 {
        let mut after = before.clone();
        let way = Way::Hybrid(pick);
        let outcome = after.lift(&lists.limits, level as u64, way, 0, Some(LONG_BUDGET));
        let Some(answer) = outcome.answer() else {
            continue;
        };
        let taken = answer.usage.working as usize;
        let mut rooms = vec![31, 32, taken.saturating_sub(1), taken, taken + 1, 511, 512];
        rooms.extend([513, 600, lists.random.between(32, 511) as usize]);
        rooms.retain(|terms| *terms >= 31);
        for terms in rooms {
            lists
                .compare
                .both(|buffers| write_basis(basis.clone(), &mut buffers.state[..STATE]));
            let more = lists.random.below(ROW as u64) as usize;
            let expected = match terms {
                0..=31 => 16,
                _ if terms < taken => 14,
                _ => answer.number,
            };
            let number = lift_in(lists, level, pick as u16, ROW * terms + more);
            assert_eq!(number, Some(expected), "room for {terms}, {taken} taken");
        }
        next = after
            .basis
            .filter(|basis| !basis.levels[level].is_empty())
            .or(next);
    }
    next
}

/// Lifts by hybrid with a work buffer of so many words.
fn lift_in(lists: &mut Lists, level: usize, pick: u16, work: usize) -> Option<u64> {
    let call = Call::Lift {
        level,
        way: 1,
        pick,
    };
    let cache = lists.random.below(100) as usize;
    let lent = Lent {
        work,
        cache,
        ..WHOLE
    };
    lists.compare.call(&call, &lent, LONG_BUDGET)
}

/// So many bytes for what this call prints.
fn with_room(call: &Call, room: usize, lent: Lent) -> Lent {
    match call {
        Call::Minimal(_) => Lent { page: room, ..lent },
        _ => Lent {
            printed: room,
            ..lent
        },
    }
}

/// D lines (request A5): every way to spoil one and right ones, over the files that are written out and some others.
fn degree_lines(lists: &mut Lists) {
    let mut files: Vec<Vec<u8>> = WRITTEN.map(|file| file.as_bytes().to_vec()).to_vec();
    files.extend((0..20).map(|_| {
        let size = random_size(&mut lists.random, 6);
        problem_file(&basis_or_set(&mut lists.random, &size))
    }));
    for file in files {
        let bare = without_degree_lines(&file);
        let lines = bare.iter().filter(|byte| **byte == 10).count();
        let degrees = random_degrees(&mut lists.random, components_of(&bare));
        for spoiled in spoiled_degree_lines(lines, &degrees) {
            let file = spoiled.file(&bare);
            lists.compare.call(&Call::Read(&file), &WHOLE, LONG_BUDGET);
        }
        // with and without the line: the same vectors, and what they carry
        let other: Vec<u64> = degrees.iter().map(|degree| 255 - degree).collect();
        for file in [
            bare.clone(),
            with_degrees(&bare, &degrees),
            with_degrees(&bare, &other),
        ] {
            if lists.compare.call(&Call::Read(&file), &WHOLE, LONG_BUDGET) != Some(0) {
                continue;
            }
            for level in 1..=9 {
                let (way, pick) = *lists.random.pick(&[(0, 0), (1, 1), (1, 2), (1, 3), (2, 0)]);
                if !lists.lift_and_fetch(level, way, pick, &WHOLE) {
                    break;
                }
            }
        }
    }
}

/// G lines (request A14): every way to spoil one, and right ones: the state is that of the file without the line; what is printed besides.
fn weight_lines(lists: &mut Lists) {
    let mut files: Vec<Vec<u8>> = WRITTEN.map(|file| file.as_bytes().to_vec()).to_vec();
    files.extend((0..20).map(|_| bigraded_file(&mut lists.random)));
    for file in files {
        let bare = without_weight_lines(&file);
        let lines = bare.iter().filter(|byte| **byte == 10).count();
        let has_degrees = bare.windows(3).any(|bytes| bytes == b"\nD,");
        let degrees = random_degrees(&mut lists.random, components_of(&bare));
        let weights = random_weights(&mut lists.random, variables_of(&bare));
        for spoiled in spoiled_weight_lines(lines, has_degrees, &weights, &degrees) {
            let file = spoiled.file(&bare);
            lists.compare.call(&Call::Read(&file), &WHOLE, LONG_BUDGET);
        }
        let mut held = Vec::new();
        for file in [&bare, &with_weights(&bare, &weights), &file] {
            for call in [
                Call::Bidegrees(file),
                Call::Hilbert(file),
                Call::Minimal(file),
            ] {
                lists.compare.call(&call, &WHOLE, LONG_BUDGET);
            }
            let number = lists.compare.call(&Call::Read(file), &WHOLE, LONG_BUDGET);
            held.push((number, lists.compare.ours.state[..STATE].to_vec()));
        }
        // no state holds weights
        assert!(held.iter().all(|one| *one == held[0]));
        for (call, room) in [
            (Call::Bidegrees(&file), BIDEGREES),
            (Call::Hilbert(&file), HILBERT),
            (Call::Minimal(&file), PAGE),
        ] {
            for (state, work, room) in [
                (STATE - 1, WORK, room),
                (STATE, WORK - 1, room),
                (STATE, WORK, room - 1),
                (0, 0, 0),
            ] {
                let lent = Lent {
                    state,
                    work,
                    ..WHOLE
                };
                let lent = with_room(&call, room, lent);
                let number = lists.compare.call(&call, &lent, LONG_BUDGET);
                assert_eq!(number, Some(16));
            }
        }
    }
}

/// Every word of a state that holds a degree or has room for one, changed: 11 for each call where it is a degree of a component that an element leads with
/// or one that a vector of a complete level carries, and nothing else than before where it is none. Gives how many were changed.
fn altered_degrees(lists: &mut Lists) -> u64 {
    let mut changed = 0;
    for case in 0..8 {
        let mut levels = 0;
        let file = match case {
            0 => MODULE.as_bytes().to_vec(),
            // sixteen components
            1 => WRITTEN[12].as_bytes().to_vec(),
            _ => {
                let problem = random_basis(&mut lists.random, &FileSize::small());
                let bare = problem_file(&problem);
                let degrees = problem.degrees.iter();
                let degrees: Vec<u64> = degrees
                    .map(|_| *lists.random.pick(&[0, 1, 3, 254, 255]))
                    .collect();
                with_degrees(&bare, &degrees)
            }
        };
        if lists.compare.call(&Call::Read(&file), &WHOLE, LONG_BUDGET) != Some(0) {
            continue;
        }
        let highest = if case == 0 {
            4
        } else {
            lists.random.between(1, 5)
        };
        for level in 1..=highest as usize {
            let before = lists.compare.theirs.state.clone();
            if !lists.lift_and_fetch(level, 2, 0, &WHOLE) {
                // refused or left out: back to the levels below it
                if lists.complete() != level as u64 + 1 {
                    lists
                        .compare
                        .both(|buffers| buffers.state.copy_from_slice(&before));
                }
                break;
            }
            levels = level;
        }
        changed += altered_degrees_of(lists, levels.max(1));
        changed += changed_together(lists, levels.max(1));
    }
    changed
}

/// Each degree word of the state that is held changed by itself, and lifting and fetching of this level.
fn altered_degrees_of(lists: &mut Lists, level: usize) -> u64 {
    let good = lists.compare.theirs.state.clone();
    let held = read_state(&lists.limits, &good).basis.expect("a basis");
    let named = degree_words(&held);
    let calls = [
        Call::Fetch { level, vector: 1 },
        Call::Lift {
            level,
            way: 1,
            pick: 2,
        },
    ];
    let as_it_is = calls.map(|call| {
        let number = lists.compare.call(&call, &WHOLE, LONG_BUDGET);
        lists
            .compare
            .both(|buffers| buffers.state.copy_from_slice(&good));
        number
    });
    let mut changed = 0;
    for at in DEGREES..STATE {
        // a word that is none in one way, each of the others in all
        let ways: &[u16] = if named.contains(&at) {
            &[1, u16::MAX, 256, 1 << 15]
        } else {
            &[1]
        };
        for by in ways {
            let word = good[at].wrapping_add(*by);
            let free = degree_is_free(&held, at, word);
            // of the words that are none some
            if !named.contains(&at) && lists.random.chance(60) {
                continue;
            }
            for (call, number) in calls.iter().zip(as_it_is) {
                lists.compare.both(|buffers| buffers.state[at] = word);
                let found = lists.compare.call(call, &WHOLE, LONG_BUDGET);
                let expected = if free { number } else { Some(11) };
                assert_eq!(found, expected, "word {at} from {} to {word}", good[at]);
                lists
                    .compare
                    .both(|buffers| buffers.state.copy_from_slice(&good));
            }
            changed += 1;
        }
    }
    changed
}

/// All degrees changed together: another sound state, used as it stands; and one of them left behind is 11.
fn changed_together(lists: &mut Lists, level: usize) -> u64 {
    let good = lists.compare.theirs.state.clone();
    let held = read_state(&lists.limits, &good).basis.expect("a basis");
    let mut changed = 0;
    for _ in 0..20 {
        let other = with_other_degrees(&mut lists.random, &held);
        lists.compare.both(|buffers| {
            // behind the state may stand anything
            write_basis(other.clone(), &mut buffers.state[..STATE]);
        });
        let words = lists.compare.theirs.state.clone();
        let at = *lists.random.pick(&degree_words(&held));
        for (behind, call) in [
            (false, Call::Fetch { level, vector: 1 }),
            (true, Call::Fetch { level, vector: 1 }),
            (
                true,
                Call::Lift {
                    level,
                    way: 2,
                    pick: 0,
                },
            ),
            (
                false,
                Call::Lift {
                    level,
                    way: 0,
                    pick: 0,
                },
            ),
        ] {
            if behind {
                lists.compare.both(|buffers| buffers.state[at] = good[at]);
            }
            let found = lists.compare.call(&call, &WHOLE, LONG_BUDGET);
            let free = words[at] == good[at] || degree_is_free(&other, at, good[at]);
            if behind && !free {
                assert_eq!(found, Some(11), "word {at} left behind");
            }
            if !behind && matches!(call, Call::Lift { .. }) {
                assert_ne!(found, Some(11), "other degrees are used as they stand");
            }
            lists
                .compare
                .both(|buffers| buffers.state.copy_from_slice(&words));
            changed += 1;
        }
    }
    lists
        .compare
        .both(|buffers| buffers.state.copy_from_slice(&good));
    changed
}

/// Files over the primes of request A4: read, every level lifted by one of the ways, every vector fetched. Gives how many were read with a coefficient above
/// 32,767.
fn large_primes(lists: &mut Lists, files: u64) -> u64 {
    let mut large = 0;
    for _ in 0..files {
        let random = &mut lists.random;
        let size = random_size(random, 6).over_large_primes();
        let problem = basis_or_set(random, &size);
        let mut terms = problem.elements.iter().flatten();
        let high = terms.any(|term| term.coefficient > 32_767);
        let file = problem_file(&problem);
        if lists.compare.call(&Call::Read(&file), &WHOLE, LONG_BUDGET) != Some(0) {
            continue;
        }
        large += u64::from(high);
        for level in 1..=9 {
            let random = &mut lists.random;
            let (way, pick) = *random.pick(&[(0, 0), (1, 1), (1, 2), (1, 3), (2, 0)]);
            let lent = Lent {
                cache: ROW * *random.pick(&[0, 1, 3, 7, 20, 60, 1_000]),
                ..WHOLE
            };
            if !lists.lift_and_fetch(level, way, pick, &lent) {
                break;
            }
        }
    }
    large
}

/// The tree as deep as its work area allows, and one deeper.
fn deepest() {
    let whole = Lent {
        cache: ROW * 20_000,
        ..WHOLE
    };
    let mut compare = Compare::new(1);
    compare.both(|buffers| buffers.cache.resize(whole.cache, 1));
    for (depth, number) in [(DEEPEST, 0), (DEEPEST + 1, 14)] {
        let file = problem_file(&deep(depth));
        let read = compare.call(&Call::Read(&file), &whole, LONG_BUDGET);
        assert_eq!(read, Some(0));
        let call = Call::Lift {
            level: 1,
            way: 2,
            pick: 0,
        };
        assert_eq!(compare.call(&call, &whole, LONG_BUDGET), Some(number));
    }
}

/// The highest level times a power of a variable, so that products pass 255; what its vectors carry follows.
fn raise(random: &mut Random, basis: &Basis, state: &mut [u16]) -> Vec<(usize, u16)> {
    let k = basis.levels.len() - 1;
    let used: usize = basis.levels[k].iter().map(Vec::len).sum();
    let x = leading_variable(random, &basis.levels[k], basis.parameters.n);
    let (word, one) = buffers::exponent_at(x);
    let words = (0..used).map(|row| buffers::rows(k) + ROW * row + word);
    let exponents = words.clone().map(|at| (state[at] / one) as u8);
    let by = (255 - exponents.max().unwrap_or(0)).saturating_sub(random.below(3) as u8);
    let mut before: Vec<(usize, u16)> = words
        .map(|at| {
            let old = state[at];
            state[at] = old + u16::from(by) * one;
            (at, old)
        })
        .collect();
    before.extend(carry(&Limits::document_01(), state));
    before
}

fn main() {
    match words().split_first() {
        Some((first, rest)) if first == "primes" => {
            let (files, seed, _) = asked::<()>(rest, "files", (FILES, SEED), &[]);
            primes(files, seed);
        }
        _ => {
            let (wanted, seed, spoil) = asked(&words(), "calls", (CALLS, SEED), &SPOILS);
            calls(wanted, seed, spoil);
        }
    }
}

fn primes(files: u64, seed: u64) {
    let mut lists = Lists::new(seed, None);
    let large = large_primes(&mut lists, files);
    println!(
        "calls: {files} files over 65,521, 65,519 and 32,771, {large} of them read with a coefficient above 32,767: \
         {} calls agree in number, place and every word ({} left out; seed {seed})",
        lists.compare.calls, lists.compare.left_out
    );
}

fn calls(wanted: u64, seed: u64, spoil: Option<Spoiled>) {
    let mut lists = Lists::new(seed, spoil.map(|what| (700, what)));
    let mut degrees = 0;
    if spoil.is_none() {
        lists.whole_examples();
        degree_lines(&mut lists);
        weight_lines(&mut lists);
        degrees = altered_degrees(&mut lists);
        less_room(&mut lists);
    }
    let systematic = lists.compare.calls;
    while lists.compare.calls < wanted {
        lists.list();
    }
    let compare = &lists.compare;
    println!(
        "calls: {} calls agree in number, place and every word \
         ({systematic} on the files of the field, with D and G lines, with {degrees} degrees altered and with less room, then {} lists, {} of them with \
         altered states; {} calls left out; seed {seed})",
        compare.calls, lists.lists, lists.altered, compare.left_out
    );
    for (kind, met) in KINDS.iter().zip(&compare.met) {
        println!("  {kind}: {}", counts(met).join(", "));
    }
    let [bidegrees, hilbert, minimal] = compare.lines;
    println!(
        "  {bidegrees} calls printed lines of bidegrees, {hilbert} of the Hilbert function, {minimal} a page of minimal numbers"
    );
    let [members, others] = compare.divided;
    println!("  divisions that finished: {members} without a remainder, {others} with one");
    let rooms = &compare.rooms;
    println!(
        "  by hybrid with room for fewer than 512: 16: {}, 14 by the room: {}, 14 with 512 too: {}, finished: {}, 13 or 15: {}; in a buffer for more: \
         finished: {}, 14: {}; {} lists in which a call finished with less room end the same with 512",
        rooms.short, rooms.by_room, rooms.anyway, rooms.finished, rooms.stopped, rooms.longer, rooms.full, lists.again
    );
    let stack = on_small_stack(deepest);
    println!("  the tree at depth {DEEPEST} agrees, {stack}");
    if wanted < CALLS / 4 {
        return;
    }
    // a run in which a number hardly comes tests too little
    let lifts: &[usize] = &[0, 11, 12, 13, 14, 15, 16];
    let expected: [&[usize]; KINDS.len()] = [
        &[0, 1, 2, 3, 4, 5, 6, 7, 8, 9, 13, 14, 15, 16, 18, 24],
        lifts,
        lifts,
        lifts,
        &[11, 12, 16],
        &[0, 11, 12, 16],
        &[0, 16],
        &[0, 16],
        &[0, 16],
        &[0, 11, 13, 14, 16, 23],
    ];
    for ((kind, met), numbers) in KINDS.iter().zip(&compare.met).zip(expected) {
        for number in numbers {
            assert!(met[*number] > 0, "{number} did not come by {kind}");
        }
    }
    assert!(bidegrees >= 1_000 && hilbert >= 1_000 && minimal >= 200);
    assert!(members >= 10_000 && others >= 10_000);
    assert!(rooms.short >= 2_000 && rooms.by_room >= 800 && rooms.anyway >= 50);
    assert!(rooms.finished >= 10_000 && rooms.stopped >= 20 && lists.again >= 1_000);
    assert!(rooms.longer >= 5_000 && rooms.full >= 50);
}
