// SPDX-License-Identifier: MIT OR Apache-2.0
//! Reading with acceptance and all levels, by each way, on the files of examples/: the public calls beside plain Rust that does the same, and beside other
//! systems where they are installed. Both go in turns in one process; a time is the shortest. One argument: how long each cell may take, in milliseconds; a
//! second one: the name of one file.

mod others;
mod plain;

use bench_common::timing::{medians, shortest_while};
use common::buffers::{count, work, OUT, ROW, STATE, TREE_WORK, WORK};
use common::examples::examples;
use reference::buffers::write_state;
use reference::engine::State;
use reference::lifting::Way as ReferenceWay;
use reference::monomial::Monomial;
use reference::reader::{read_problem, Problem};
use reference::Limits;
use std::hint::black_box;
use std::time::{Duration, Instant};
use tagetessash::calls as proved;

/// A way by its name, the public call's codes, the cache in terms, and plain Rust's form.
struct Way {
    name: &'static str,
    code: u16,
    pick: u16,
    cache: usize,
}

const WAYS: [Way; 5] = [
    Way {
        name: "division",
        code: 0,
        pick: 0,
        cache: 0,
    },
    Way {
        name: "hybrid 1",
        code: 1,
        pick: 1,
        cache: 0,
    },
    Way {
        name: "hybrid 2",
        code: 1,
        pick: 2,
        cache: 0,
    },
    Way {
        name: "tree",
        code: 2,
        pick: 0,
        cache: 0,
    },
    Way {
        name: "tree 4,096",
        code: 2,
        pick: 0,
        cache: 4_096,
    },
];

/// Products above which a way is left out of the table.
const PRODUCTS: u64 = 3_000_000;

impl Way {
    fn plain(&self) -> plain::Way {
        match self.code {
            0 => plain::Way::Division,
            1 => plain::Way::Hybrid(self.pick),
            _ => plain::Way::Tree(self.cache),
        }
    }

    fn reference(&self) -> ReferenceWay {
        match self.code {
            0 => ReferenceWay::Division,
            1 => ReferenceWay::Hybrid(u64::from(self.pick)),
            _ => ReferenceWay::Tree,
        }
    }
}

struct Buffers {
    state: Vec<u16>,
    work: Vec<u16>,
    cache: Vec<u16>,
    out: Vec<u16>,
}

/// Each call with buffers of the length that it needs; its number.
impl Buffers {
    fn read(&mut self, file: &[u8]) -> u16 {
        proved::read(file, &mut self.state, &mut self.work[..WORK]).0
    }

    fn lift(&mut self, way: &Way, level: usize) -> u16 {
        let work = &mut self.work[..work(way.code)];
        let cache = &mut self.cache[..ROW * way.cache];
        proved::lift(&mut self.state, work, cache, level, way.code, way.pick).0
    }

    fn fetch(&mut self, level: usize, vector: usize) -> u16 {
        proved::fetch(&self.state, &mut self.out, level, vector).0
    }
}

/// Reads and lifts until a level is empty, or level 9.
fn proved_run(file: &[u8], way: &Way, buffers: &mut Buffers) {
    assert_eq!(buffers.read(file), 0);
    for level in 1..=9 {
        assert_eq!(buffers.lift(way, level), 0);
        if buffers.state[count(level)] == 0 {
            break;
        }
    }
}

fn plain_run(file: &[u8], way: &Way) -> plain::Engine {
    let mut engine = plain::Engine::read(file).expect("the file is accepted");
    for _ in 1..=9 {
        if engine.lift(way.plain()).expect("the level is lifted") == 0 {
            break;
        }
    }
    engine
}

enum Run {
    Ended(State),
    Refused,
    TooLong,
}

/// The unrelated implementation's levels.
fn reference_run(file: &[u8], way: &Way) -> Run {
    let limits = Limits::document_01();
    let mut held = State::new();
    match held.read(&limits, file, Some(PRODUCTS)).answer() {
        None => return Run::TooLong,
        Some(answer) if answer.number > 0 => return Run::Refused,
        Some(_) => {}
    }
    for level in 1..=9 {
        let outcome = held.lift(
            &limits,
            level,
            way.reference(),
            way.cache as u64,
            Some(PRODUCTS),
        );
        match outcome.answer() {
            None => return Run::TooLong,
            Some(answer) if answer.number > 0 => return Run::Refused,
            Some(_) => {}
        }
        if held.levels()[level as usize].is_empty() {
            break;
        }
    }
    Run::Ended(held)
}

/// All three have the same levels.
fn agree(file: &[u8], way: &Way, held: &State, buffers: &mut Buffers) {
    proved_run(file, way, buffers);
    let mut expected = vec![0; buffers.state.len()];
    write_state(&Limits::document_01(), held, &mut expected);
    assert!(buffers.state == expected, "the public calls differ");
    let levels = plain_run(file, way).levels;
    assert_eq!(levels.len(), held.levels().len());
    for (ours, theirs) in levels.iter().flatten().zip(held.levels().iter().flatten()) {
        assert_eq!(ours.len(), theirs.len());
        for (a, b) in ours.iter().zip(theirs) {
            assert!(
                u64::from(a.coefficient) == b.coefficient
                    && u64::from(a.monomial.component) == b.monomial.component
                    && a.monomial.exponents.map(u64::from) == b.monomial.exponents,
                "plain Rust differs"
            );
        }
    }
}

/// Both in turns, at least 5 times and for this long.
fn both(file: &[u8], way: &Way, buffers: &mut Buffers, cell: Duration) -> [f64; 2] {
    let start = Instant::now();
    shortest_while(
        |done| done < 5 || start.elapsed() < cell,
        buffers,
        [
            &mut |buffers| proved_run(black_box(file), way, buffers),
            &mut |_| {
                black_box(plain_run(black_box(file), way));
            },
        ],
    )
}

fn homogeneous(problem: &Problem) -> bool {
    problem.elements.iter().all(|element| {
        let degree = |m: &Monomial| {
            m.exponents.iter().sum::<u64>() + problem.degrees[m.component as usize - 1]
        };
        let first = degree(&element[0].monomial);
        element.iter().all(|term| degree(&term.monomial) == first)
    })
}

fn cell(time: Option<f64>) -> String {
    match time {
        None => "–".to_string(),
        Some(time) if time < 100.0 => format!("{time:.1}"),
        Some(time) => format!("{time:.0}"),
    }
}

/// What one call costs on the smallest problem.
fn single_calls(file: &[u8], buffers: &mut Buffers) {
    let mut time = |call: &dyn Fn(&mut Buffers) -> u16| {
        let [time] = medians(
            2_000,
            buffers,
            [&mut |buffers| assert_eq!(call(buffers), 0)],
        );
        format!("{time:.1}")
    };
    let read = time(&|buffers| buffers.read(black_box(file)));
    println!("koszul3: reading {read} µs");
    for way in &WAYS {
        // lifting a complete level again drops the levels above it
        let lifts = [1, 2, 3].map(|level| time(&|buffers| buffers.lift(way, level)));
        println!("  {}: levels 1 to 3 {} µs", way.name, lifts.join(", "));
    }
    let fetch = time(&|buffers| buffers.fetch(1, 2));
    println!("  fetching a vector {fetch} µs");
}

fn main() {
    let milliseconds = std::env::args()
        .nth(1)
        .map_or(100, |n| n.parse().expect("milliseconds"));
    let long = Duration::from_millis(milliseconds);
    let only = std::env::args().nth(2);
    let limits = Limits::document_01();
    let mut buffers = Buffers {
        state: vec![0; STATE],
        work: vec![0; TREE_WORK],
        cache: vec![0; ROW * 4_096],
        out: vec![0; OUT],
    };
    println!("Microseconds: public calls / plain Rust = ratio.");
    let names: Vec<&str> = WAYS.iter().map(|way| way.name).collect();
    println!("| File | {} | sres | M2 |", names.join(" | "));
    println!("|---|{}---|---|", "---|".repeat(WAYS.len()));
    let mut sums = [[0.0; 2]; WAYS.len()];
    let mut other_sums = [[0.0; 2]; 2];
    for (name, file) in examples() {
        if only.as_ref().is_some_and(|only| *only != name) {
            continue;
        }
        let Ok(problem) = read_problem(&limits, &file) else {
            continue;
        };
        let runs: Vec<Run> = WAYS.iter().map(|way| reference_run(&file, way)).collect();
        if runs.iter().any(|run| matches!(run, Run::Refused)) {
            continue;
        }
        let whole = runs.iter().all(|run| matches!(run, Run::Ended(_)));
        let mut cells = Vec::new();
        let mut by_hybrid = 0.0;
        for (i, (way, run)) in WAYS.iter().zip(&runs).enumerate() {
            let Run::Ended(held) = run else {
                cells.push(cell(None));
                continue;
            };
            agree(&file, way, held, &mut buffers);
            let [ours, theirs] = both(&file, way, &mut buffers, long);
            if i == 1 {
                by_hybrid = ours;
            }
            // sums are over the files that have every cell
            if whole {
                sums[i][0] += ours;
                sums[i][1] += theirs;
            }
            cells.push(format!(
                "{} / {} = {:.2}",
                cell(Some(ours)),
                cell(Some(theirs)),
                ours / theirs
            ));
        }
        let times = others::times(&problem, homogeneous(&problem));
        for (i, time) in [times.sres, times.m2].into_iter().enumerate() {
            if let Some(time) = time {
                other_sums[i][0] += by_hybrid;
                other_sums[i][1] += time;
            }
            cells.push(cell(time));
        }
        println!("| {name} | {} |", cells.join(" | "));
    }
    let cells: Vec<String> = sums
        .iter()
        .map(|[ours, theirs]| format!("{ours:.0} / {theirs:.0} = {:.2}", ours / theirs))
        .collect();
    println!(
        "| sum of the files with every way | {} | | |",
        cells.join(" | ")
    );
    for (name, [ours, theirs]) in ["sres", "M2"].iter().zip(other_sums) {
        if theirs > 0.0 {
            println!(
                "hybrid 1 beside {name}, on the files that it does: {ours:.0} / {theirs:.0} = {:.2}",
                ours / theirs
            );
        }
    }
    let koszul = examples().into_iter().find(|(name, _)| name == "koszul3");
    single_calls(&koszul.expect("koszul3 is there").1, &mut buffers);
}
