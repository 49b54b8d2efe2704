// SPDX-License-Identifier: MIT OR Apache-2.0
//! One level lifted by both: number, count and every word of the result.

use common::buffers::{self, more, ROW, STATE, TERMS, TREE_WORK, VECTORS};
use common::states::{row_is, write_basis};
use reference::engine::Basis;
use reference::lifting::{lift_level, Stop, Usage, Way};
use reference::monomial::Level;
use reference::random::Random;
use reference::Limits;
use testing::lifts::{self as proved, Asked, Lent};

/// Words that hold the ends.
const ENDS: usize = VECTORS;
/// All that a level can take: the ends, its rows, and room for one vector more.
pub const OUT: usize = ENDS + ROW * (TERMS + 512);
/// Words that a longer slice may have.
const MORE: usize = 24;

/// What `spoil` changes in one answer of the proved lifting, so that the comparison itself is tried.
#[derive(Clone, Copy, PartialEq, Eq)]
pub enum Spoiled {
    Number,
    Count,
    Used,
    End,
    Row,
}

pub const SPOILS: [(&str, Spoiled); 5] = [
    ("number", Spoiled::Number),
    ("count", Spoiled::Count),
    ("used", Spoiled::Used),
    ("end", Spoiled::End),
    ("row", Spoiled::Row),
];

/// What a call has as its result.
pub enum Lifted {
    Level(Level),
    Refused,
    /// not asked, since it takes more products than the budget
    LeftOut,
}

/// The slices of the proved side, and how often each number came.
pub struct Compare {
    state: Vec<u16>,
    out: Vec<u16>,
    work: Vec<u16>,
    cache: Vec<u16>,
    random: Random,
    pub spoil: Option<(u64, Spoiled)>,
    pub calls: u64,
    pub left_out: u64,
    pub terms: u64,
    /// by way (division, hybrid 1 to 3, tree), then number (0, 13, 14, 15)
    pub met: [[u64; 4]; 5],
    /// 14 where one limit alone is small: working value, vector, tree's area
    pub full: [u64; 3],
    /// 15 by frame terms, by the level's terms
    pub over: [u64; 2],
    /// by level: how often 0, 13, 14, 15 came
    pub levels: [[u64; 4]; 10],
}

pub const WAYS: [&str; 5] = ["division", "hybrid 1", "hybrid 2", "hybrid 3", "tree"];
pub const NUMBERS: [u64; 4] = [0, 13, 14, 15];

impl Compare {
    pub fn new(seed: u64) -> Compare {
        Compare {
            state: vec![0; STATE + MORE],
            out: vec![0; OUT + MORE],
            work: vec![0x5555; TREE_WORK + MORE],
            cache: Vec::new(),
            random: Random::new(seed),
            spoil: None,
            calls: 0,
            left_out: 0,
            terms: 0,
            met: [[0; 4]; 5],
            full: [0; 3],
            over: [0; 2],
            levels: [[0; 4]; 10],
        }
    }

    /// Puts a state into the words that are lent from now on.
    pub fn hold(&mut self, basis: &Basis) {
        write_basis(basis.clone(), &mut self.state);
    }

    pub fn state_mut(&mut self) -> &mut [u16] {
        &mut self.state
    }

    /// Lifts level k over the state that is held both ways, under these limits.
    pub fn level(
        &mut self,
        basis: &Basis,
        k: usize,
        way: Way,
        cache_terms: u64,
        limits: &Limits,
        budget: u64,
    ) -> (Lifted, Usage) {
        self.level_in(basis, k, way, cache_terms, limits, None, budget)
    }

    /// The same; by hybrid in a work area with room for so many terms (A11).
    #[allow(clippy::too_many_arguments)]
    pub fn level_in(
        &mut self,
        basis: &Basis,
        k: usize,
        way: Way,
        cache_terms: u64,
        limits: &Limits,
        room: Option<usize>,
        budget: u64,
    ) -> (Lifted, Usage) {
        let working = limits.working;
        let limits = &Limits {
            working: room.map_or(working, |room| working.min(room as u64)),
            ..*limits
        };
        let (expected, usage) = lift_level(
            limits,
            &basis.parameters,
            &basis.levels[..k],
            way,
            cache_terms,
            Some(budget),
        );
        if expected == Err(Stop::GaveUp) {
            self.left_out += 1;
            return (Lifted::LeftOut, usage);
        }
        let words = ROW * cache_terms as usize + self.random.below(ROW as u64) as usize;
        if self.cache.len() < words {
            self.cache.resize(words, 0xaaaa);
        }
        let code = match way {
            Way::Division => 0,
            Way::Hybrid(_) => 1,
            Way::Tree => 2,
        };
        let (out, state) = (self.longer(OUT), self.longer(STATE));
        let work = match room {
            Some(room) => ROW * room + self.random.below(ROW as u64) as usize,
            None => self.longer(buffers::work(code)),
        };
        let pick = match way {
            Way::Hybrid(pick) => pick as u16,
            // the pick code counts for the hybrid way alone
            _ => self.random.below(5) as u16,
        };
        let asked = Asked {
            level: k,
            way: code,
            pick,
            working: working as usize,
            vector: limits.vector as usize,
            tree: limits.tree as usize,
            room: limits.level_terms as usize,
        };
        // what stood in the slice before must not matter
        self.out.fill(self.calls as u16 | 0x8000);
        let mut answer = proved::level(
            Lent {
                out: &mut self.out[..out],
                work: &mut self.work[..work],
                cache: &mut self.cache[..words],
                state: &self.state[..state],
            },
            &asked,
        );
        // the first call from there on that has a term
        let at = self.spoil.filter(|(at, _)| *at <= self.calls);
        if let Some((_, what)) = at.filter(|_| answer.number == 0 && answer.used > 0) {
            self.spoil = None;
            match what {
                Spoiled::Number => answer.number = 14,
                Spoiled::Count => answer.count += 1,
                Spoiled::Used => answer.used -= 1,
                Spoiled::End => self.out[answer.count - 1] ^= 1,
                Spoiled::Row => self.out[ENDS + ROW * answer.used - 1] ^= 1,
            }
        }
        self.calls += 1;
        let number = match &expected {
            Ok(_) => 0,
            Err(Stop::Refused(number)) => *number,
            Err(_) => unreachable!("lifting drops a leading term without a reducer"),
        };
        self.count(k, way, number, limits, &usage);
        let agrees = u64::from(answer.number) == number
            && expected.as_ref().map_or(true, |level| {
                (answer.count, answer.used) == (level.len(), level.iter().map(Vec::len).sum())
                    && self.holds(level)
            });
        if !agrees {
            println!(
                "call {}, level {k}, {way:?}, cache of {cache_terms} terms, {asked:?}:\n\
                 proved lifting answers {answer:?}, the unrelated implementation {number}",
                self.calls
            );
            println!("{basis:?}");
            if let Ok(level) = &expected {
                println!("expected: {level:?}");
            }
            std::process::exit(1);
        }
        match expected {
            Ok(level) => {
                self.terms += answer.used as u64;
                (Lifted::Level(level), usage)
            }
            Err(_) => (Lifted::Refused, usage),
        }
    }

    /// The length itself three times out of four, else a little more.
    fn longer(&mut self, length: usize) -> usize {
        length + more(&mut self.random, MORE)
    }

    /// Whether `out` holds these vectors.
    fn holds(&self, level: &Level) -> bool {
        let mut end = 0;
        let mut rows = self.out[ENDS..].chunks_exact(ROW);
        level.iter().zip(&self.out).all(|(vector, word)| {
            end += vector.len();
            end == usize::from(*word)
                && vector
                    .iter()
                    .zip(rows.by_ref().take(vector.len()))
                    .all(|(term, row)| row_is(row, term))
        })
    }

    fn count(&mut self, k: usize, way: Way, number: u64, limits: &Limits, usage: &Usage) {
        let way = match way {
            Way::Division => 0,
            Way::Hybrid(code) => code as usize,
            Way::Tree => 4,
        };
        let at = NUMBERS
            .iter()
            .position(|met| *met == number)
            .expect("0, 13, 14 or 15");
        self.met[way][at] += 1;
        self.levels[k][at] += 1;
        let most = Limits::document_01();
        let small = [
            limits.working < most.working,
            limits.vector < most.vector,
            limits.tree < most.tree,
        ];
        if number == 14 && small.iter().filter(|small| **small).count() == 1 {
            for (full, small) in self.full.iter_mut().zip(small) {
                *full += u64::from(small);
            }
        }
        if number == 15 {
            self.over[usize::from(usage.frame <= most.vectors)] += 1;
        }
    }

    /// A call that is refused before any lifting: only its number counts.
    pub fn refused(&mut self, lengths: [usize; 4], asked: &Asked, number: u16) {
        let [out, work, cache, state] = lengths;
        self.cache.resize(self.cache.len().max(cache), 0);
        let answer = proved::level(
            Lent {
                out: &mut self.out[..out],
                work: &mut self.work[..work],
                cache: &mut self.cache[..cache],
                state: &self.state[..state],
            },
            asked,
        );
        assert_eq!(answer.number, number, "lengths {lengths:?}, {asked:?}");
    }
}
