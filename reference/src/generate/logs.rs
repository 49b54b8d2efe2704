// SPDX-License-Identifier: MIT OR Apache-2.0
//! Problem files with recorded picks behind them (request A9): logs that are taken, logs at the limits,
//! and logs damaged in every way.

use crate::behind::split;
use crate::engine::State;
use crate::generate::files::damage;
use crate::generate::pages::large_product;
use crate::generate::problems::{problem_file, random_set, Size};
use crate::generate::rooms::{braided, roomy_problem, twins};
use crate::generate::slow::slow_problem;
use crate::generate::vectors::{any_problem, BAD_FIELDS, ENDS, OTHER_LINES};
use crate::generate::weight_lines::with_random_weights;
use crate::lifting::{Lifter, Stop, WorkingValue};
use crate::limits::Limits;
use crate::monomial::{Level, Monomial, Parameters, Term};
use crate::random::Random;
use crate::replay::MOST_PICKS;
use crate::steps::lifted_by_tree;

/// Products that acceptance, the levels below and a log may take.
const PRODUCTS: u64 = 60_000;

/// Any input: mostly a log that is taken, else one for each refusal.
pub fn log_input(random: &mut Random) -> Vec<u8> {
    match random.below(100) {
        0..=44 => recorded_input(random),
        45..=74 => {
            let mut input = recorded_input(random);
            for _ in 0..random.between(1, 2) {
                damage_log(random, &mut input);
            }
            input
        }
        75..=79 => {
            // a level or vector that there is not, or another one
            let mut input = recorded_input(random);
            let (level, vector) = (random_level(random), random.below(8));
            set_fields(&mut input, &[level, vector]);
            input
        }
        80..=85 => refused_input(random),
        86..=88 => long_input(random),
        89..=92 => {
            let problem = random_set(random, &Size::small());
            let mut input = problem_file(&problem);
            input.extend(b"L,1,1\n");
            input
        }
        _ => {
            let mut input = recorded_input(random);
            for _ in 0..random.between(1, 3) {
                damage(random, &mut input);
            }
            input
        }
    }
}

fn random_level(random: &mut Random) -> u64 {
    match random.chance(70) {
        true => random.between(1, 4),
        false => *random.pick(&[0, 5, 8, 9, 10, 11, 65_535]),
    }
}

/// A Gröbner basis and a log of one of its vectors that is taken.
pub fn recorded_input(random: &mut Random) -> Vec<u8> {
    loop {
        let problem = match random.below(10) {
            0 => roomy_problem(random),
            _ => any_problem(random),
        };
        let mut file = problem_file(&problem);
        let Some(basis) = lifted_by_tree(&Limits::document_01(), &file, PRODUCTS) else {
            continue;
        };
        // the last level is empty, unless there are nine
        let most = (basis.levels.len() as u64).saturating_sub(2).max(1);
        if most == 1 && random.chance(50) {
            continue;
        }
        let level = random.between(1, most);
        if random.chance(20) {
            file = with_random_weights(random, &file);
        }
        let below = &basis.levels[..level as usize];
        let log = Log::of(random, &basis.parameters, below, PRODUCTS);
        if let Some(log) = log.filter(|log| log.whole) {
            return log.input(file, &basis.parameters, level);
        }
    }
}

/// A log of a random vector of this level over a file; `None` if the level has none, or if it takes too
/// many products.
pub fn recorded_at(random: &mut Random, file: &[u8], level: u64) -> Option<Vec<u8>> {
    let basis = lifted_by_tree(&Limits::document_01(), file, 50 * PRODUCTS)?;
    let below = basis.levels.get(..level as usize)?;
    let log = Log::of(random, &basis.parameters, below, 50 * PRODUCTS)?;
    log.whole
        .then(|| log.input(file.to_vec(), &basis.parameters, level))
}

/// A recorded run of one frame term.
struct Log {
    vector: u64,
    picks: Vec<Monomial>,
    /// whether it came to zero
    whole: bool,
}

impl Log {
    /// A random frame term over these levels by random picks; `None` if there is no frame or if more
    /// than so many products would be formed.
    fn of(
        random: &mut Random,
        parameters: &Parameters,
        below: &[Level],
        products: u64,
    ) -> Option<Log> {
        let limits = Limits::document_01();
        let mut lifter = Lifter::new(&limits, parameters, below, Some(products));
        let frame = lifter.frame().ok()?;
        if frame.is_empty() {
            return None;
        }
        let vector = random.between(1, frame.len() as u64);
        let mut picks = Vec::new();
        let policy = random.below(6);
        let run = lifter.hybrid(&frame[vector as usize - 1], |working| {
            let picked = pick(random, policy, working)?;
            picks.push(picked.monomial);
            Some(picked)
        });
        (run != Err(Stop::GaveUp)).then_some(Log {
            vector,
            picks,
            whole: run.is_ok(),
        })
    }

    fn input(&self, mut file: Vec<u8>, parameters: &Parameters, level: u64) -> Vec<u8> {
        file.extend(format!("L,{level},{}\n", self.vector).into_bytes());
        for pick in &self.picks {
            file.extend(pick_line(parameters, pick).into_bytes());
        }
        file
    }
}

/// By one of the pick codes, by any term, or by all of these in turn.
fn pick(random: &mut Random, policy: u64, working: &WorkingValue) -> Option<Term> {
    if working.is_empty() {
        return None;
    }
    match policy {
        0 => working.greatest(),
        1 => working.newest(),
        2 => working.oldest(),
        3 | 4 => working.at(random.below(working.len() as u64) as usize),
        _ => {
            let policy = random.below(4);
            pick(random, policy, working)
        }
    }
}

/// `P,e1,..,en,component` and byte 10.
pub fn pick_line(parameters: &Parameters, monomial: &Monomial) -> String {
    let exponents = monomial.exponents[..parameters.n as usize].iter();
    let exponents: String = exponents.map(|e| format!(",{e}")).collect();
    format!("P{exponents},{}\n", monomial.component)
}

/// A log that meets 13 or 14, or might: picks up to there.
fn refused_input(random: &mut Random) -> Vec<u8> {
    let kind = random.below(3);
    for _ in 0..200 {
        let problem = match kind {
            0 => large_product(random),
            1 => {
                let terms = random.between(508, 511);
                twins(random, terms)
            }
            _ => {
                let (a, b) = (random.between(6, 14), random.between(30, 60));
                braided(random, a, b)
            }
        };
        let file = problem_file(&problem);
        let mut state = State::new();
        let read = state.read(&Limits::document_01(), &file, Some(PRODUCTS));
        let accepted = read.answer().is_some_and(|answer| answer.number == 0);
        let Some(basis) = state.basis.filter(|_| accepted) else {
            continue;
        };
        let log = Log::of(random, &basis.parameters, &basis.levels, PRODUCTS);
        if let Some(log) = log.filter(|log| !log.whole || random.chance(10)) {
            return log.input(file, &basis.parameters, 1);
        }
    }
    recorded_input(random)
}

/// A log of about 4,096 picks, or one that is longer than that.
fn long_input(random: &mut Random) -> Vec<u8> {
    let wanted = *random.pick(&[4_095, 4_096, 4_096, 4_097, 4_100]);
    loop {
        let problem = slow_problem(random);
        if let Some(input) = log_of_length(&problem_file(&problem), wanted) {
            return input;
        }
    }
}

/// A log of the file's first vector that has exactly so many picks, if one is found: the newest term
/// for a while, then the greatest, which comes to an end soon.
pub fn log_of_length(file: &[u8], wanted: u64) -> Option<Vec<u8>> {
    let limits = Limits::document_01();
    let mut state = State::new();
    let answer = state.read(&limits, file, Some(PRODUCTS)).answer()?;
    let basis = state.basis.filter(|_| answer.number == 0)?;
    let mut lifter = Lifter::new(&limits, &basis.parameters, &basis.levels, None);
    let frame = lifter.frame().ok()?;
    let term = frame.first()?;
    for newest in (wanted.saturating_sub(300)..=wanted).rev() {
        let mut picks = Vec::new();
        let run = lifter.hybrid(term, |working| {
            let picked = match picks.len() as u64 {
                before if before < newest => working.newest()?,
                before if before > wanted => return None,
                _ => working.greatest()?,
            };
            picks.push(picked.monomial);
            Some(picked)
        });
        if run.is_ok() && picks.len() as u64 == wanted {
            let log = Log {
                vector: 1,
                picks,
                whole: true,
            };
            return Some(log.input(file.to_vec(), &basis.parameters, 1));
        }
        if (picks.len() as u64) < newest {
            // it ends before
            return None;
        }
    }
    None
}

/// Sets the numbers of the L line.
fn set_fields(input: &mut Vec<u8>, numbers: &[u64]) {
    let (file, rest) = split(input);
    let end = rest.iter().position(|byte| *byte == 10).unwrap_or(0);
    let fields: String = numbers.iter().map(|number| format!(",{number}")).collect();
    let l_line = format!("L{fields}").into_bytes();
    *input = [file, l_line.as_slice(), &rest[end..]].concat();
}

/// The input with something wrong, at times with something that is right, behind the file's E line.
pub fn damage_log(random: &mut Random, input: &mut Vec<u8>) {
    let (file, rest) = split(input);
    let mut lines: Vec<Vec<u8>> = rest
        .split_inclusive(|byte| *byte == 10)
        .map(<[u8]>::to_vec)
        .collect();
    if lines.is_empty() {
        lines.push(b"L,1,1\n".to_vec());
    }
    damage_lines(random, &mut lines);
    let mut damaged = file.to_vec();
    damaged.extend(lines.concat());
    *input = damaged;
}

fn damage_lines(random: &mut Random, lines: &mut Vec<Vec<u8>>) {
    let count = lines.len() as u64;
    // the L line at times, else one of the others, the last ones at times
    let at = match random.below(6) {
        0 | 1 => 0,
        2 => count - 1,
        _ => random.below(count),
    } as usize;
    let place = random.below(lines[at].len() as u64) as usize;
    let other = random.below(count) as usize;
    match random.below(22) {
        0..=2 => {
            let text = String::from_utf8_lossy(&lines[at]).into_owned();
            let mut fields: Vec<String> = text
                .trim_end_matches('\n')
                .split(',')
                .map(str::to_string)
                .collect();
            let field = random.below(fields.len() as u64) as usize;
            fields[field] = random.pick(&BAD_FIELDS).to_string();
            lines[at] = (fields.join(",") + "\n").into_bytes();
        }
        3..=6 => {
            // another number, which keeps the shape
            let text = String::from_utf8_lossy(&lines[at]).into_owned();
            let mut fields: Vec<String> = text
                .trim_end_matches('\n')
                .split(',')
                .map(str::to_string)
                .collect();
            let field = random.below(fields.len() as u64) as usize;
            if field > 0 {
                let number = *random.pick(&[0, 1, 2, 3, 9, 10, 255, 256, 65_535]);
                fields[field] = number.to_string();
            } else {
                let letter = random.pick(&["L", "P", "p", "l", "V", "T", "E", "PP", "", "P "]);
                fields[0] = letter.to_string();
            }
            lines[at] = (fields.join(",") + "\n").into_bytes();
        }
        7 => {
            let comma = lines[at].iter().rposition(|byte| *byte == b',');
            lines[at].truncate(comma.unwrap_or(0));
            lines[at].push(10);
        }
        8 => {
            lines[at].pop();
            lines[at].extend(*random.pick(&[b",0\n", b",1\n", b",\n\n", b" 1\n"]));
        }
        9 | 10 => lines.swap(at, other),
        11 => {
            let line = lines[other].clone();
            lines.insert(at, line);
        }
        12 => {
            lines.remove(at);
        }
        13 => {
            lines.truncate(at);
        }
        14 => {
            let line = random.pick(&OTHER_LINES).to_vec();
            lines.insert(other, line);
        }
        15 => {
            // byte 10 is missing
            let end = lines.len() - 1;
            lines[end].pop();
        }
        16 => {
            let bytes = random.pick(&ENDS).to_vec();
            lines.push(bytes);
        }
        17 => {
            for line in lines.iter_mut() {
                line.pop();
                line.extend(b"\r\n");
            }
        }
        18 => {
            // a pick more
            let line = lines[other].clone();
            lines.push(line);
        }
        19 => {
            let length = *random.pick(&[13, 14, 15, 55, 56, 57, 300_000]);
            let byte = *random.pick(b"P,1 \r\0");
            lines.insert(at, vec![byte; length]);
        }
        20 => lines[at][place] ^= 1 << random.below(8),
        _ => {
            // more lines than are allowed
            let line = lines[other].clone();
            lines.extend(vec![line; MOST_PICKS as usize + 1]);
        }
    }
}
