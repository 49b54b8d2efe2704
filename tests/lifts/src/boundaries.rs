// SPDX-License-Identifier: MIT OR Apache-2.0
//! Levels at the boundaries between table and run: nodes, edges and exponents at their bounds and one more, rooms of 32 to 512 terms, batches that end, sums of
//! lower order that are not zero, altered states. `tables` says which boundary each meets.

use crate::compare::{Compare, Lifted, OUT};
use crate::tables::{
    comes_last, greatest_exponent, most_nodes, raised, Boundary, Met, Table, FEW_NODES, FEW_ROWS,
    LEAST_ROOM, MOST_NODES, MOST_ROOM, NODE_EDGES, WRAPPING,
};
use common::buffers::{work, STATE};
use common::states::{alter, basis_of, random_basis as random_state, Size as StateSize};
use reference::buffers::read_state;
use reference::engine::{sound, Basis};
use reference::generate::problems::{element_of, random_basis, random_set, Size};
use reference::lifting::Way;
use reference::monomial::{Exponents, Level, Monomial, Parameters, Term};
use reference::random::Random;
use reference::reader::Problem;
use reference::Limits;
use testing::lifts::Asked;

/// Products that a lifting may take; one that takes more is left out.
const BUDGET: u64 = 3_000;
const LONG_BUDGET: u64 = 40_000;
const WAYS: [Way; 4] = [
    Way::Division,
    Way::Hybrid(1),
    Way::Hybrid(2),
    Way::Hybrid(3),
];
const PRIMES: [u64; 6] = [2, 3, 7, 101, 32_003, 65_521];

fn drops(way: Way) -> bool {
    way != Way::Division
}

/// A Gröbner basis whose level 1 has a table of a size that its numbers tell. In the variables x > y > z > w > v, with W = w^250·v^9:
///
///     y^d + tail,  x·W + y^a + z·y^b       one frame term: chains from y^(a + d) and z·y^(b + d) down
///     w^k·e_2,  z·w^(k − 1)·e_2, ..        k frame terms with one node and one edge each
struct Chains {
    tail: Vec<u64>,
    lengths: [u64; 2],
    singles: u64,
    singles_first: bool,
}

impl Chains {
    fn basis(&self, random: &mut Random) -> Basis {
        let parameters = Parameters {
            p: *random.pick(&PRIMES),
            n: 5,
            order: random.between(1, 3),
            s: 2,
        };
        let mut term = |component, exponents: [u64; 5]| {
            let mut all: Exponents = [0; 8];
            all[..5].copy_from_slice(&exponents);
            Term {
                coefficient: random.between(1, parameters.p - 1),
                monomial: Monomial {
                    component,
                    exponents: all,
                },
            }
        };
        let degree = self.tail.iter().max().expect("a tail") + 1;
        let [a, b] = self.lengths;
        let mut first: Vec<Term> = self
            .tail
            .iter()
            .map(|t| term(1, [0, *t, 0, 0, 0]))
            .collect();
        first.push(term(1, [0, degree, 0, 0, 0]));
        let second = vec![
            term(1, [1, 0, 0, 250, 9]),
            term(1, [0, a, 0, 0, 0]),
            term(1, [0, b, 1, 0, 0]),
        ];
        let mut blocks = [
            vec![first, second],
            (0..=self.singles)
                .map(|i| vec![term(2, [0, 0, i, self.singles - i, 0])])
                .collect(),
        ];
        if self.singles_first {
            blocks.reverse();
        }
        let elements = blocks.concat();
        let elements = elements.iter().map(|terms| element_of(&parameters, terms));
        basis_of(Problem::new(parameters, elements.collect()))
    }

    fn sizes(&self, random: &mut Random, drops: bool) -> Option<(usize, usize)> {
        let basis = self.basis(random);
        let table = Table::new(&basis.levels, drops);
        table.sizes(table.frame.len())
    }
}

pub struct Boundaries<'a> {
    compare: &'a mut Compare,
    random: Random,
    limits: Limits,
    pub met: Met,
}

impl Boundaries<'_> {
    pub fn new(compare: &mut Compare, seed: u64) -> Boundaries<'_> {
        Boundaries {
            compare,
            random: Random::new(seed),
            limits: Limits::document_01(),
            met: Met::new(),
        }
    }

    /// At least so many levels: so many for each room, chains among the others.
    pub fn drive(&mut self, levels: u64) {
        let each = levels / (MOST_ROOM - LEAST_ROOM + 1) as u64 + 1;
        for room in LEAST_ROOM..=MOST_ROOM {
            let next = self.compare.calls + each;
            self.room(room);
            if room % 8 == 0 {
                self.nodes_at_the_bound(MOST_NODES);
                self.nodes_at_the_bound(FEW_NODES);
            }
            if room % 16 == 0 {
                self.edges_at_the_bound();
                self.slots_wrap();
            }
            while self.compare.calls < next {
                match self.random.below(10) {
                    0..=4 => self.lifted(),
                    5..=7 => self.unaccepted(),
                    _ => self.altered(),
                }
            }
        }
    }

    /// Level k of what is held by this way, at a bound on nodes that is put anywhere.
    fn level(
        &mut self,
        basis: &Basis,
        k: usize,
        way: Way,
        table: &Table,
        limits: &Limits,
        room: Option<usize>,
    ) -> Lifted {
        let (most, by) = most_nodes(limits, room);
        self.met.of(drops(way));
        let working = room.map_or(limits.working, |room| limits.working.min(room as u64));
        let rows: usize = basis.levels[k - 1].iter().map(Vec::len).sum();
        let served = if working as usize > FEW_NODES
            && rows <= FEW_ROWS
            && table.small(most.min(FEW_NODES), &mut self.met)
        {
            vec![true; table.frame.len()]
        } else {
            table.batches(most, by, &mut self.met)
        };
        if way == Way::Division && table.leaves_lower_order(basis, k, &served) {
            self.met.count(Boundary::Unsettled);
        }
        let budget = if most < MOST_NODES {
            BUDGET
        } else {
            LONG_BUDGET
        };
        self.compare
            .level_in(basis, k, way, 0, limits, room, budget)
            .0
    }

    /// A bound that the nodes of one frame term, or of the first ones together, just keep or just pass.
    fn small_bound(&mut self, table: &Table, way: Way) -> (Limits, Option<usize>) {
        let v = self.random.below(table.frame.len() as u64) as usize;
        let nodes = match self.random.below(4) {
            0 => table.frame[v].nodes(),
            _ => table
                .sizes(v + 1)
                .map_or(table.frame[v].nodes(), |(nodes, _)| nodes),
        };
        let most = nodes - self.random.below(2).min(nodes as u64) as usize;
        let mut limits = self.limits;
        if most >= MOST_NODES {
            return (limits, None);
        }
        match self.random.below(3) {
            0 if drops(way) && most >= LEAST_ROOM => return (limits, Some(most)),
            0 | 1 => limits.working = most as u64,
            _ => limits.vector = most as u64 + 1,
        }
        (limits, None)
    }

    /// Level k by every way at small bounds; and raised, so that products come to 255 or 256.
    fn every_way(&mut self, basis: &Basis, k: usize) {
        self.compare.hold(basis);
        let tables = self.tables(&basis.levels[..k]);
        if tables[0].frame.is_empty() || tables[0].frame.len() as u64 > self.limits.vectors {
            return;
        }
        for way in WAYS {
            let table = &tables[usize::from(drops(way))];
            for _ in 0..self.random.between(2, 6) {
                let (limits, room) = self.small_bound(table, way);
                self.level(basis, k, way, table, &limits, room);
            }
        }
        if self.random.chance(25) {
            self.raised(basis, k, &tables);
        }
    }

    /// By division, by hybrid.
    fn tables(&self, levels: &[Level]) -> [Table; 2] {
        [false, true].map(|drops| Table::new(levels, drops))
    }

    fn raised(&mut self, basis: &Basis, k: usize, tables: &[Table; 2]) {
        let limits = self.limits;
        let x = self.random.below(basis.parameters.n) as usize;
        for (drops, table) in [false, true].into_iter().zip(tables) {
            let by = greatest_exponent(table, x).map(|most| 255 + self.random.below(2) - most);
            let Some(raised) = by.and_then(|by| raised(basis, k, x, by)) else {
                continue;
            };
            self.compare.hold(&raised);
            let table = Table::new(&raised.levels, drops);
            for way in WAYS.into_iter().filter(|way| self::drops(*way) == drops) {
                self.level(&raised, k, way, &table, &limits, None);
            }
        }
    }

    /// Level upon level of a Gröbner basis.
    fn lifted(&mut self) {
        let size = if self.random.chance(70) {
            Size::tiny()
        } else {
            Size::small()
        };
        let mut basis = basis_of(random_basis(&mut self.random, &size));
        for k in 1..=4 {
            self.every_way(&basis, k);
            let Some(level) = self.next_level(&basis, k) else {
                return;
            };
            basis.levels.push(level);
        }
    }

    fn next_level(&mut self, basis: &Basis, k: usize) -> Option<Level> {
        self.compare.hold(basis);
        let limits = self.limits;
        match self
            .compare
            .level(basis, k, Way::Division, 0, &limits, BUDGET)
            .0
        {
            Lifted::Level(level) if !level.is_empty() => Some(level),
            _ => None,
        }
    }

    /// A state that nobody accepted: elements that are no Gröbner basis, or levels of any vectors.
    fn unaccepted(&mut self) {
        let basis = if self.random.chance(50) {
            let size = if self.random.chance(70) {
                Size::tiny()
            } else {
                Size::small()
            };
            basis_of(random_set(&mut self.random, &size))
        } else {
            let size = StateSize {
                levels: 4,
                vectors: 6,
                terms: 5,
                exponent: 3,
            };
            random_state(&mut self.random, &size)
        };
        self.every_way(&basis, basis.levels.len());
    }

    /// Words of a lifted state altered.
    fn altered(&mut self) {
        let mut basis = basis_of(random_basis(&mut self.random, &Size::tiny()));
        for k in 1..=self.random.below(3) as usize {
            let Some(level) = self.next_level(&basis, k) else {
                break;
            };
            basis.levels.push(level);
        }
        for _ in 0..3 {
            self.compare.hold(&basis);
            for _ in 0..self.random.between(1, 2) {
                alter(
                    &mut self.random,
                    &basis,
                    &mut self.compare.state_mut()[..STATE],
                );
            }
            let held = read_state(&self.limits, &self.compare.state_mut()[..STATE]).basis;
            match held.filter(|held| sound(&self.limits, held)) {
                Some(held) => self.altered_sound(&held),
                None => self.altered_unsound(),
            }
        }
    }

    fn altered_sound(&mut self, held: &Basis) {
        let k = self.random.between(1, held.levels.len().min(9) as u64) as usize;
        let tables = self.tables(&held.levels[..k]);
        if tables[0].frame.is_empty() || tables[0].frame.len() as u64 > self.limits.vectors {
            return;
        }
        for way in WAYS {
            let table = &tables[usize::from(drops(way))];
            let (limits, room) = self.small_bound(table, way);
            self.level(held, k, way, table, &limits, room);
            self.met.count(Boundary::AlteredSound);
        }
    }

    fn altered_unsound(&mut self) {
        for way in 0..=1 {
            let asked = Asked {
                level: 1,
                way,
                pick: self.random.between(1, 3) as u16,
                working: 512,
                vector: 512,
                tree: 4_096,
                room: 2_048,
            };
            self.compare.refused([OUT, work(way), 0, STATE], &asked, 11);
            self.met.of(way == 1).count(Boundary::AlteredUnsound);
        }
    }

    /// By hybrid in a room for so many terms: as many nodes, and one more.
    fn room(&mut self, room: usize) {
        let limits = self.limits;
        for more in 0..2 {
            let Some((basis, table)) = self.with_nodes(room.min(MOST_NODES) + more, true) else {
                continue;
            };
            self.compare.hold(&basis);
            for way in &WAYS[1..] {
                self.level(&basis, 1, *way, &table, &limits, Some(room));
            }
        }
    }

    fn nodes_at_the_bound(&mut self, most: usize) {
        let limits = self.limits;
        for way in WAYS {
            for more in 0..2 {
                if let Some((basis, table)) = self.with_nodes(most + more, drops(way)) {
                    self.compare.hold(&basis);
                    self.level(&basis, 1, way, &table, &limits, None);
                }
            }
        }
    }

    /// Chains with exactly so many nodes together.
    fn with_nodes(&mut self, nodes: usize, drops: bool) -> Option<(Basis, Table)> {
        for _ in 0..20 {
            // two chains of at most some 240 nodes, and about eight nodes more
            let nodes = nodes as u64;
            let least = nodes.saturating_sub(488);
            let singles = self.random.between(least, 60.min(nodes - 10));
            let rest = nodes - singles - 8;
            let b = self.random.between(rest.saturating_sub(240), rest.min(240));
            let mut chains = Chains {
                tail: vec![0],
                lengths: [rest - b, b],
                singles,
                singles_first: self.random.chance(50),
            };
            let mut random = self.random.clone();
            let (counted, _) = chains.sizes(&mut random, drops)?;
            let a = chains.lengths[0] + nodes;
            chains.lengths[0] = a.checked_sub(counted as u64).filter(|a| *a <= 254)?;
            let basis = chains.basis(&mut self.random);
            let table = Table::new(&basis.levels, drops);
            if table
                .sizes(table.frame.len())
                .map(|(counted, _)| counted as u64)
                == Some(nodes)
            {
                return Some((basis, table));
            }
        }
        None
    }

    /// Two monomials in each of sixteen components, whose least common multiple is looked for in the last slots.
    fn slots_wrap(&mut self) {
        let parameters = Parameters {
            p: *self.random.pick(&PRIMES),
            n: 8,
            order: self.random.between(1, 3),
            s: 16,
        };
        let mut elements = Vec::new();
        for component in 1..=parameters.s {
            let mut common = Monomial {
                component,
                exponents: [0; 8],
            };
            while !comes_last(&common) {
                common.exponents = [0; 8].map(|_: u64| self.random.between(1, 200));
            }
            for x in 0..2 {
                let mut monomial = common;
                monomial.exponents[x] -= 1;
                elements.push(vec![Term {
                    coefficient: self.random.between(1, parameters.p - 1),
                    monomial,
                }]);
            }
        }
        let basis = basis_of(Problem::new(parameters, elements));
        let tables = self.tables(&basis.levels);
        let limits = self.limits;
        self.compare.hold(&basis);
        for way in WAYS {
            let table = &tables[usize::from(drops(way))];
            self.level(&basis, 1, way, table, &limits, None);
            if table.sizes(table.frame.len()) == Some((16, 16)) && 16 >= WRAPPING {
                self.met.count(Boundary::SlotsWrap);
            }
        }
    }

    fn edges_at_the_bound(&mut self) {
        let limits = self.limits;
        for way in [Way::Division, Way::Hybrid(1)] {
            for more in 0..2 {
                let edges = MOST_NODES * NODE_EDGES + more;
                if let Some((basis, table)) = self.with_edges(edges, drops(way)) {
                    self.compare.hold(&basis);
                    self.level(&basis, 1, way, &table, &limits, None);
                }
            }
        }
    }

    /// Chains with exactly so many edges together, and nodes within the bound.
    fn with_edges(&mut self, edges: usize, drops: bool) -> Option<(Basis, Table)> {
        // so many terms that chains of at most some 250 nodes have enough
        let least = (edges / 250).max(12) as u64;
        for _ in 0..20 {
            let degree = self.random.between(least, least + 15);
            let mut tail: Vec<u64> = (0..degree).collect();
            self.random.shuffle(&mut tail);
            tail.truncate(degree as usize - self.random.below(4) as usize);
            let mut chains = Chains {
                lengths: [degree, self.random.below(180)],
                tail,
                singles: 0,
                singles_first: self.random.chance(50),
            };
            let random = self.random.clone();
            let count = |chains: &Chains| chains.sizes(&mut random.clone(), drops);
            // a node more of the other chain is a tail more of edges, but for the first; then singles up to the number
            let mut left = None;
            for _ in 0..3 {
                left = count(&chains).and_then(|(_, counted)| edges.checked_sub(counted));
                let more = left.map_or(0, |left| left / chains.tail.len()) as u64;
                if more == 0 {
                    break;
                }
                chains.lengths[0] = (chains.lengths[0] + more).min(255 - degree);
            }
            chains.singles = match left {
                Some(singles) if singles <= 60 => singles as u64,
                _ => continue,
            };
            let basis = chains.basis(&mut self.random);
            let table = Table::new(&basis.levels, drops);
            match table.sizes(table.frame.len()) {
                Some((nodes, counted)) if nodes <= MOST_NODES && counted == edges => {
                    return Some((basis, table))
                }
                _ => {}
            }
        }
        None
    }
}
