// SPDX-License-Identifier: MIT OR Apache-2.0
//! Proved lifting of a level against the unrelated implementation: number, count and every word, by all three ways, with document 01's limits and with
//! smaller ones.
//!
//!     test-lifts [BASES [SEED]]                     at least so many bases (16,000 without it)
//!     test-lifts spoil number|count|used|end|row    spoils one answer: the run must find it and exit with 1

mod boundaries;
mod compare;
mod tables;

use boundaries::Boundaries;
use common::arguments::{asked, words};
use common::buffers::{work, COMPLETE, LEAST_WORK, PRIME, STATE};
use common::deep::{deep, on_small_stack, DEEPEST};
use common::examples::examples;
use common::files::many_monomials;
use common::states::{basis_of, leading_variable, random_basis as random_state, Size as StateSize};
use compare::{Compare, Lifted, NUMBERS, OUT, SPOILS, WAYS};
use reference::engine::Basis;
use reference::generate::files::limit_file;
use reference::generate::problems::{random_basis, Size};
use reference::lifting::{Usage, Way};
use reference::monomial::Level;
use reference::random::Random;
use reference::reader::{read_problem, Problem};
use reference::Limits;
use testing::lifts::Asked;

const BASES: u64 = 16_000;
const SEED: u64 = 20_250_301;
/// Levels that are lifted at the boundaries between table and run, at least.
const LEVELS: u64 = 100_000;
/// Products that a lifting of a made basis may take; one that takes more is left out.
const BUDGET: u64 = 4_000;
/// The same for the example files: by pick code 2, and by any other way.
const EXAMPLE_BUDGET: u64 = 10_000_000;
const OTHER_EXAMPLE_BUDGET: u64 = 1_000_000;
/// Division, hybrid by each pick code, the tree with caches of these lengths in terms; the last is longer than what a run within the budget needs.
fn ways(budget: u64) -> Vec<(Way, u64)> {
    let longest = if budget == EXAMPLE_BUDGET {
        100_000
    } else {
        6_000
    };
    let mut ways = vec![(Way::Division, 0)];
    ways.extend((1..=3).map(|code| (Way::Hybrid(code), 0)));
    ways.extend([0, 1, 7, 60, 1_000, longest].map(|terms| (Way::Tree, terms)));
    ways
}

/// The limits that a lifting by this way can meet, its own first, each with what the run took.
fn needs(way: Way, usage: &Usage) -> [(&'static str, u64); 3] {
    let own = match way {
        Way::Tree => ("tree", usage.tree),
        _ => ("working", usage.working),
    };
    [
        own,
        ("vector", usage.vector),
        ("level_terms", usage.level_terms),
    ]
}

/// The least number of a limit: a vector has room for its frame term.
fn least(limit: &str) -> u64 {
    u64::from(limit == "vector")
}

fn within(budget: u64, way: Way) -> u64 {
    if budget == EXAMPLE_BUDGET && way != Way::Hybrid(2) {
        OTHER_EXAMPLE_BUDGET
    } else {
        budget
    }
}

struct Bases {
    compare: Compare,
    random: Random,
    limits: Limits,
    bases: u64,
    states: u64,
    deepest: usize,
}

impl Bases {
    /// Level after level over a basis, by every way; with small limits, and with exponents so large that products pass 255.
    fn lift_all(&mut self, problem: Problem, most: usize, budget: u64) {
        self.bases += 1;
        let mut basis = basis_of(problem);
        for k in 1..=most {
            let Some(level) = self.lift_level(&basis, k, budget) else {
                break;
            };
            let last = level.is_empty();
            basis.levels.push(level);
            self.deepest = self.deepest.max(k);
            if last {
                break;
            }
        }
        // a level below the highest complete one
        if basis.levels.len() > 2 && self.random.chance(10) {
            self.compare.hold(&basis);
            let k = self.random.between(1, basis.levels.len() as u64 - 1) as usize;
            for (way, cache) in ways(budget) {
                let (limits, budget) = (self.limits, within(budget, way));
                self.compare.level(&basis, k, way, cache, &limits, budget);
            }
        }
    }

    /// Level k by every way; gives the level, if division lifts it.
    fn lift_level(&mut self, basis: &Basis, k: usize, budget: u64) -> Option<Level> {
        self.compare.hold(basis);
        let mut lifted = None;
        let mut frame = 0;
        let swept = self.random.chance(2);
        for (way, cache) in ways(budget) {
            let limits = self.limits;
            let budget = within(budget, way);
            let (level, usage) = self.compare.level(basis, k, way, cache, &limits, budget);
            frame = usage.frame;
            // an empty frame: no limit counts
            if frame == 0 {
                return match level {
                    Lifted::Level(level) => Some(level),
                    _ => unreachable!("an empty frame is lifted"),
                };
            }
            if matches!(level, Lifted::LeftOut) {
                continue;
            }
            if swept && usage.products < 300 {
                self.every_limit(basis, k, way, cache, &usage, budget);
            } else if self.random.chance(40) {
                self.small_limits(basis, k, way, cache, &usage, budget);
            }
            if let (Way::Division, Lifted::Level(level)) = (way, level) {
                lifted = Some(level);
            }
        }
        if frame > 0 && self.random.chance(40) {
            self.large_exponents(basis, k, budget);
        }
        lifted
    }

    /// One limit, at times two, close to what the run takes.
    fn small_limits(
        &mut self,
        basis: &Basis,
        k: usize,
        way: Way,
        cache: u64,
        usage: &Usage,
        budget: u64,
    ) {
        let mut limits = self.limits;
        for _ in 0..self.random.between(1, 2) {
            let [own, vector, level] = needs(way, usage);
            let (name, need) = *self.random.pick(&[own, own, vector, level]);
            let value = match self.random.below(6) {
                0 => need,
                1 | 2 => need.saturating_sub(1),
                3 => need / 2,
                _ => self.random.below(need.max(1)),
            };
            let most = self.limits.get(name).expect("a limit of that name");
            limits
                .set(name, value.clamp(least(name), most))
                .expect("no limit grows");
        }
        self.compare.level(basis, k, way, cache, &limits, budget);
    }

    /// Each limit at every number up to what the run takes, so that a refusal comes at every place of it.
    fn every_limit(
        &mut self,
        basis: &Basis,
        k: usize,
        way: Way,
        cache: u64,
        usage: &Usage,
        budget: u64,
    ) {
        for (name, need) in needs(way, usage) {
            let most = self.limits.get(name).expect("a limit of that name");
            for value in least(name)..=need.min(most).min(40) {
                let mut limits = self.limits;
                limits.set(name, value).expect("no limit grows");
                self.compare.level(basis, k, way, cache, &limits, budget);
            }
        }
    }

    /// Level k − 1 times a power of a variable: the frame and the vectors stay, and products pass 255 here or there.
    fn large_exponents(&mut self, basis: &Basis, k: usize, budget: u64) {
        let x = leading_variable(&mut self.random, &basis.levels[k - 1], basis.parameters.n);
        let mut raised = basis.clone();
        raised.levels.truncate(k);
        let terms = || basis.levels[k - 1].iter().flatten();
        let most = terms().map(|term| term.monomial.exponents[x]).max();
        let by = 255 - most.unwrap_or(0);
        let by = by - self.random.pick(&[0, 0, 0, 1, 2, 3]).min(&by);
        for term in raised.levels[k - 1].iter_mut().flatten() {
            term.monomial.exponents[x] += by;
        }
        self.compare.hold(&raised);
        let limits = self.limits;
        for (way, cache) in ways(budget) {
            if way != Way::Tree || self.random.chance(30) {
                let budget = within(budget, way);
                self.compare.level(&raised, k, way, cache, &limits, budget);
            }
        }
    }

    /// A sound state that lifting did not make: terms without a reducer, reducers that are no syzygies.
    fn any_state(&mut self) {
        let size = *self.random.pick(&[
            StateSize {
                levels: 2,
                vectors: 4,
                terms: 4,
                exponent: 2,
            },
            StateSize {
                levels: 4,
                vectors: 6,
                terms: 5,
                exponent: 3,
            },
            StateSize {
                levels: 10,
                vectors: 5,
                terms: 3,
                exponent: 2,
            },
        ]);
        self.states += 1;
        let mut basis = random_state(&mut self.random, &size);
        // a tenth level is complete, none comes above it
        let k = basis.levels.len().min(9);
        if self.random.chance(50) {
            basis.levels.truncate(k);
        }
        self.lift_level(&basis, k, BUDGET);
    }

    /// Monomials whose frame has about 128 terms or more.
    fn many_monomials(&mut self) {
        let problem = many_monomials(&mut self.random);
        self.lift_all(problem, 2, BUDGET);
    }

    fn next(&mut self) {
        match self.random.below(1_000) {
            0..=3 => self.many_monomials(),
            4..=6 => {
                let file = limit_file(&mut self.random);
                if let Ok(problem) = read_problem(&self.limits, &file) {
                    self.lift_all(problem, 2, 20_000);
                }
            }
            7..=14 => {
                let problem = random_basis(&mut self.random, &Size::medium());
                self.lift_all(problem, 3, BUDGET);
            }
            15..=214 => self.any_state(),
            215..=464 => {
                let problem = random_basis(&mut self.random, &Size::small());
                self.lift_all(problem, 9, BUDGET);
            }
            _ => {
                let problem = random_basis(&mut self.random, &Size::tiny());
                self.lift_all(problem, 9, BUDGET);
            }
        }
    }
}

/// 16, 11 and 12, in this order.
fn refusals(bases: &mut Bases) {
    let problem = random_basis(&mut bases.random, &Size::small());
    bases.compare.hold(&basis_of(problem));
    let full = Asked {
        level: 1,
        way: 0,
        pick: 0,
        working: 512,
        vector: 512,
        tree: 4_096,
        room: 2_048,
    };
    let lengths = |way: u16| [OUT, work(way), 0, STATE];
    for way in 0..=2 {
        let wrong = Asked {
            way,
            level: 10,
            ..full
        };
        // of hybrid's work area fewer rows may be lent (A11)
        let least = [OUT, if way == 1 { LEAST_WORK } else { work(way) }, 0, STATE];
        for short in [0, 1, 3] {
            for length in [0, least[short] - 1] {
                let mut lengths = lengths(way);
                lengths[short] = length;
                // 16 before 12
                bases.compare.refused(lengths, &wrong, 16);
            }
        }
        for asked in [
            Asked {
                working: 513,
                ..full
            },
            Asked {
                vector: 513,
                ..full
            },
            Asked {
                tree: 4_097,
                ..full
            },
            Asked {
                room: 2_049,
                ..full
            },
            Asked { vector: 0, ..full },
            Asked {
                working: usize::MAX,
                ..full
            },
            Asked {
                room: usize::MAX,
                ..full
            },
        ] {
            bases
                .compare
                .refused(lengths(way), &Asked { way, ..asked }, 16);
        }
        for level in [0, 10, 65_537, usize::MAX] {
            bases
                .compare
                .refused(lengths(way), &Asked { way, level, ..full }, 12);
        }
        // level 1 is not complete
        for level in 2..=9 {
            bases
                .compare
                .refused(lengths(way), &Asked { way, level, ..full }, 11);
        }
    }
    for pick in [0, 4, 65_535] {
        let wrong = Asked {
            way: 1,
            pick,
            ..full
        };
        bases.compare.refused(lengths(1), &wrong, 12);
        let early = Asked { level: 2, ..wrong };
        bases.compare.refused(lengths(1), &early, 11);
    }
    for way in [3, 4, 65_535] {
        bases
            .compare
            .refused(lengths(2), &Asked { way, ..full }, 12);
    }
    // no sound state: p is no prime, or no level is complete
    for (at, word) in [(PRIME, 1), (COMPLETE, 0)] {
        let state = bases.compare.state_mut();
        let before = std::mem::replace(&mut state[at], word);
        for level in [0, 1, 10] {
            for way in 0..=3 {
                bases
                    .compare
                    .refused(lengths(2), &Asked { level, way, ..full }, 11);
            }
        }
        bases.compare.state_mut()[at] = before;
    }
}

/// As deep as the work area allows, and one deeper.
fn deepest() {
    let limits = Limits::document_01();
    let mut compare = Compare::new(1);
    for (depth, caches) in [
        (DEEPEST, &[20_000][..]),
        (DEEPEST + 1, &[0, 1, 7, 20_000][..]),
    ] {
        let basis = basis_of(deep(depth));
        compare.hold(&basis);
        for cache in caches {
            let (lifted, usage) = compare.level(&basis, 1, Way::Tree, *cache, &limits, 1_000_000);
            // every subtree that is not finished holds one term, so the area is full at the greatest depth
            assert_eq!(usage.tree, DEEPEST);
            assert_eq!(matches!(lifted, Lifted::Level(_)), depth == DEEPEST);
        }
    }
}

fn main() {
    let (wanted, seed, spoil) = asked(&words(), "bases", (BASES, SEED), &SPOILS);
    let mut bases = Bases {
        compare: Compare::new(seed),
        random: Random::new(seed),
        limits: Limits::document_01(),
        bases: 0,
        states: 0,
        deepest: 0,
    };
    bases.compare.spoil = spoil.map(|what| (16, what));
    refusals(&mut bases);
    while bases.bases < wanted {
        bases.next();
    }
    let made = bases.compare.calls;
    let left_out = bases.compare.left_out;
    for (name, file) in examples() {
        let before = bases.compare.left_out;
        if let Ok(problem) = read_problem(&bases.limits, &file) {
            bases.lift_all(problem, 9, EXAMPLE_BUDGET);
        }
        if bases.compare.left_out > before {
            println!(
                "  {name}: {} liftings left out",
                bases.compare.left_out - before
            );
        }
    }
    let before = bases.compare.calls;
    let mut boundaries = Boundaries::new(&mut bases.compare, seed);
    boundaries.drive(LEVELS * wanted / BASES);
    let met = boundaries.met;
    let compare = &bases.compare;
    println!(
        "lifts: {} bases and {} other sound states, {} levels lifted by both agree \
         ({made} of made bases, where {left_out} liftings were left out; {} terms; levels up to {}; seed {seed})",
        bases.bases, bases.states, compare.calls, compare.terms, bases.deepest
    );
    for (way, met) in WAYS.iter().zip(&compare.met) {
        let counts: Vec<String> = NUMBERS
            .iter()
            .zip(met)
            .map(|(number, count)| format!("{number}: {count}"))
            .collect();
        println!("  {way}: {}", counts.join(", "));
    }
    println!(
        "  {} of them at the boundaries between table and run",
        compare.calls - before
    );
    met.tell();
    let [working, vector, tree] = compare.full;
    let [frame, terms] = compare.over;
    println!(
        "  14 by a small limit alone: working value {working}, vector {vector}, tree's area {tree}; \
         15 by frame terms {frame}, by a level's terms {terms}"
    );
    let stack = on_small_stack(deepest);
    println!("  the tree at depth {DEEPEST} agrees, {stack}");
    if wanted < BASES / 10 {
        return;
    }
    met.enough(20);
    // a run in which a number hardly comes tests too little
    for (way, met) in WAYS.iter().zip(&compare.met) {
        for (number, count) in NUMBERS.iter().zip(met) {
            assert!(*count >= 20, "{number} came too seldom by {way}");
        }
    }
    assert!(compare
        .full
        .iter()
        .chain(&compare.over)
        .all(|count| *count >= 20));
}
