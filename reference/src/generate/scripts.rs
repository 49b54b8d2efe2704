// SPDX-License-Identifier: MIT OR Apache-2.0
//! Lists of calls, also with limits close to what a run needs.

use crate::buffers::{out_words, whole_work_words, work_words, ROW};
use crate::engine::State;
use crate::generate::degree_lines::spoil_degree_line;
use crate::generate::files::{damage, plain_file};
use crate::generate::problems::Size;
use crate::generate::weight_lines::{damage_weights, with_random_weights};
use crate::lifting::{Usage, Way};
use crate::limits::Limits;
use crate::random::Random;
use crate::reader::read_problem;
use crate::script::{make_call, Call, Run, Script};

/// How long and how deep a list of calls may be.
#[derive(Clone, Copy, Debug)]
pub struct Reach {
    /// the size of the files that are read
    pub size: Size,
    /// calls in the list, at most
    pub calls: u64,
    /// the highest level that is lifted
    pub levels: u64,
    /// products of all calls together
    pub products: u64,
    /// files, of a hundred, that have a G line or are damaged by one; without any, files are made
    /// as they were before request A14
    pub weights: u64,
}

impl Reach {
    /// Small enough for a slow checker.
    pub fn tiny() -> Reach {
        Reach {
            size: Size::tiny(),
            calls: 8,
            levels: 3,
            products: 300,
            weights: 0,
        }
    }

    /// For runs of the program.
    pub fn small() -> Reach {
        Reach {
            size: Size::small(),
            calls: 14,
            levels: 9,
            products: 20_000,
            weights: 0,
        }
    }

    /// With G lines in half of the files.
    pub fn weighted(self) -> Reach {
        Reach {
            weights: 50,
            ..self
        }
    }
}

/// A random list of calls under the limits of document 01, and its run.
pub fn random_script(random: &mut Random, reach: &Reach) -> (Script, Run) {
    loop {
        let script = Script {
            limits: Limits::document_01(),
            calls: random_calls(random, reach),
        };
        if let Some(run) = script.run(Some(reach.products)) {
            return (script, run);
        }
    }
}

/// Makes calls one by one, each with regard to what the state then holds.
fn random_calls(random: &mut Random, reach: &Reach) -> Vec<Call> {
    let limits = Limits::document_01();
    let mut state = State::new();
    let mut calls = Vec::new();
    let count = random.between(2, reach.calls);
    for _ in 0..4 * count {
        if calls.len() as u64 == count {
            break;
        }
        let call = random_call(random, reach, &state, calls.is_empty());
        let mut after = state.clone();
        if make_call(&limits, &mut after, &call, Some(reach.products))
            .answer()
            .is_some()
        {
            state = after;
            calls.push(call);
        }
    }
    calls
}

fn random_call(random: &mut Random, reach: &Reach, state: &State, first: bool) -> Call {
    let levels = state.levels();
    let next = levels.len().max(1) as u64;
    if levels.is_empty() && random.chance(if first { 92 } else { 60 }) {
        return random_read(random, reach, 8);
    }
    match random.below(100) {
        0..=5 => random_read(random, reach, 30),
        6..=54 => random_lift(random, next.min(reach.levels)),
        55..=64 => {
            let level = random.between(1, next.min(reach.levels));
            random_lift(random, level)
        }
        65..=89 => {
            let level = random.between(1, (next - 1).max(1));
            let count = levels.get(level as usize).map_or(0, Vec::len) as u64;
            Call::Fetch {
                level,
                vector: if random.chance(85) {
                    random.between(1, count.max(1))
                } else {
                    *random.pick(&[0, count, count + 1])
                },
            }
        }
        _ => wrong_call(random, next),
    }
}

fn random_read(random: &mut Random, reach: &Reach, damaged: u64) -> Call {
    let mut good = plain_file(random, &reach.size);
    let weighted = reach.weights > 0 && random.chance(reach.weights);
    if weighted {
        good = with_random_weights(random, &good);
    }
    let mut file = good.clone();
    if weighted && random.chance(2 * damaged) {
        damage_weights(random, &mut file);
    } else if random.chance(damaged) {
        damage(random, &mut file);
    } else if random.chance(3) {
        spoil_degree_line(random, &mut file);
    }
    let lines = file.split(|byte| *byte == 10);
    if lines.filter(|line| line.starts_with(b"T")).count() as u64 > reach.size.t_lines {
        file = good;
    }
    if random.chance(1) {
        file.clear();
    }
    Call::Read { file }
}

fn random_lift(random: &mut Random, level: u64) -> Call {
    let (way, cache) = random_way(random);
    Call::Lift { level, way, cache }
}

/// One of the ways, with a cache for the tree.
pub fn random_way(random: &mut Random) -> (Way, u64) {
    match random.below(6) {
        0 => (Way::Division, 0),
        1..=3 => (Way::Hybrid(random.between(1, 3)), 0),
        _ => {
            let caches = [0, 0, 1, 2, 3, 4, 5, 6, 7, 9, 12, 20, 60, 1000];
            (Way::Tree, *random.pick(&caches))
        }
    }
}

/// A call with a wrong argument, or too early.
fn wrong_call(random: &mut Random, next: u64) -> Call {
    let level = *random.pick(&[0, 10, 11, 65_535, next + 1, next + 2]);
    let (way, cache) = random_way(random);
    match random.below(4) {
        0 => Call::Lift { level, way, cache },
        1 => Call::Lift {
            level: random.between(0, next),
            way: Way::Hybrid(*random.pick(&[0, 4, 5, 65_535])),
            cache: 0,
        },
        2 => Call::Fetch { level, vector: 1 },
        _ => Call::Fetch {
            level: random.between(0, next),
            vector: *random.pick(&[0, 50, 128, 129, 65_535]),
        },
    }
}

/// What a run takes of a limit.
struct Need {
    name: &'static str,
    /// with this the first file is read
    reading: u64,
    /// with this the whole run is as it was
    whole: u64,
}

/// The same calls under limits of which some are close to what the run takes: those that a
/// refusal of this number asks, or any.
pub fn with_small_limits(
    random: &mut Random,
    script: &Script,
    run: &Run,
    number: Option<u64>,
) -> Script {
    let mut needs = needs_of(script, run);
    needs.retain(|need| match number {
        Some(13) => need.name == "exponent",
        Some(14) => ["working", "vector", "tree"].contains(&need.name),
        Some(15) => ["vectors", "level_terms"].contains(&need.name),
        _ => true,
    });
    let mut limits = script.limits;
    for _ in 0..random.between(1, 2) {
        // a limit that the liftings need more of than the reading is worth more
        let Need {
            name,
            reading,
            whole,
        } = loop {
            let need = random.pick(&needs);
            if need.reading < need.whole || random.chance(15) {
                break need;
            }
        };
        let value = match random.below(20) {
            0..=8 if reading < whole => random.between(*reading, whole - 1),
            0..=11 => whole.saturating_sub(1),
            12..=14 => *whole,
            15 => whole + 1,
            16..=17 => reading.saturating_sub(1),
            _ => random.between(0, *whole),
        };
        limits
            .set(name, value.min(limits.get(name).unwrap_or(0)))
            .expect("no limit grows");
    }
    Script {
        limits,
        calls: script.calls.clone(),
    }
}

fn needs_of(script: &Script, run: &Run) -> Vec<Need> {
    let mut reads = Usage::default();
    let mut lifts = Usage::default();
    let mut level = 0;
    for (call, answer) in script.calls.iter().zip(&run.answers) {
        match call {
            Call::Read { .. } => reads = reads.and(&answer.usage),
            Call::Lift { level: k, .. } if answer.number == 0 => {
                lifts = lifts.and(&answer.usage);
                level = level.max(*k);
            }
            _ => {}
        }
    }
    let all = reads.and(&lifts);
    let file = script.calls.iter().find_map(|call| match call {
        Call::Read { file } => Some(file.as_slice()),
        _ => None,
    });
    let file = file.unwrap_or(&[]);
    let mut needs = Vec::new();
    let mut need = |name, reading, whole| {
        needs.push(Need {
            name,
            reading,
            whole,
        })
    };
    need("exponent", reads.exponent, all.exponent);
    need("vectors", reads.frame, all.frame);
    need("level_terms", 0, lifts.level_terms);
    need("level_terms", 0, lifts.level_terms);
    need("working", reads.working, all.working);
    need("vector", reads.vector, all.vector);
    need("tree", 0, lifts.tree);
    need("tree", 0, lifts.tree);
    need("levels", 1, level);
    need("file", file.len() as u64, file.len() as u64);
    if let Ok(problem) = read_problem(&script.limits, file) {
        let parameters = &problem.parameters;
        let terms = || problem.elements.iter().flatten();
        let t_lines = terms().count() as u64;
        let exponent = terms()
            .flat_map(|term| term.monomial.exponents)
            .max()
            .unwrap_or(0);
        need("exponent", exponent, reads.exponent);
        need("exponent", exponent, reads.exponent);
        need("t_lines", t_lines, t_lines);
        need(
            "elements",
            problem.elements.len() as u64,
            problem.elements.len() as u64,
        );
        need("components", parameters.s, parameters.s);
        need("variables", parameters.n, parameters.n);
        need("prime_bound", parameters.p, parameters.p);
        need("field", parameters.p, parameters.p);
    }
    needs
}

/// The lengths, in words, of the buffers that a caller lends.
#[derive(Clone, Copy, Debug, PartialEq, Eq)]
pub struct Lent {
    /// the state
    pub state: usize,
    /// the work buffer
    pub work: usize,
    /// the cache
    pub cache: usize,
    /// the buffer for a fetched vector
    pub out: usize,
}

/// Lengths for a call: mostly as long as they have to be or longer, at times too short; a work
/// buffer for the hybrid way has all room that is of use, or less. The state keeps its length.
pub fn random_lengths(random: &mut Random, limits: &Limits, call: &Call, state: usize) -> Lent {
    let (work, cache) = match call {
        Call::Lift { way, cache, .. } => {
            let (least, whole) = (
                work_words(limits, Some(*way)),
                whole_work_words(limits, Some(*way)),
            );
            let work = match random.below(3) {
                0 => least,
                1 => random.between(least as u64, whole as u64) as usize,
                _ => whole,
            };
            (work, ROW * *cache as usize)
        }
        _ => (work_words(limits, None), 0),
    };
    let mut length = |needed: usize| match random.below(20) {
        0 => needed.saturating_sub(1),
        1 => random.below(needed as u64 + 1) as usize,
        2..=5 => needed + random.below(30) as usize,
        _ => needed,
    };
    Lent {
        state,
        work: length(work),
        out: length(out_words(limits)),
        cache: cache + random.below(ROW as u64) as usize,
    }
}
