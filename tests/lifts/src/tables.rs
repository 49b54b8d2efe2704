// SPDX-License-Identifier: MIT OR Apache-2.0
//! The table of a level, counted apart from the engine: the monomials that its frame terms reach ("nodes"), each expanded once by the reducer rule, and the
//! products that lead to them ("edges"). So the test knows on which side of each boundary between table and run a lifting is, and how often each was met.

use reference::engine::Basis;
use reference::frame::{frame, Reducers, NUMBERING};
use reference::lifting::{Lifter, Missing, Stop};
use reference::monomial::{multiply, Exponents, Level, Monomial, Term};
use reference::Limits;
use std::cell::OnceCell;
use std::collections::HashMap;
use std::hash::{BuildHasherDefault, Hasher};

/// The engine's bounds on one table; tests/run-lifts holds them to its sources.
pub const MOST_NODES: usize = 511;
/// Small tables, for a level of few rows and for little room.
pub const FEW_NODES: usize = 128;
pub const FEW_ROWS: usize = 80;
/// Edges for each node that there is room for.
pub const NODE_EDGES: usize = 32;
const MOST_EXPONENT: u64 = 255;
/// Beyond these no exact number is needed: one more than the bound is told, and what is far beyond.
const NODES_COUNTED: usize = MOST_NODES + 2;

/// A monomial that is reached: what its reducer's products lead to, and the greatest exponent among them.
struct Node {
    edges: Vec<usize>,
    exponent: u64,
}

/// What one frame term reaches by itself.
pub struct Reached {
    own: usize,
    nodes: Vec<usize>,
    /// the greatest exponent of a product, by variable
    pub exponents: Exponents,
    /// more nodes than are counted
    beyond: bool,
}

impl Reached {
    pub fn nodes(&self) -> usize {
        self.nodes.len()
    }

    fn exponent(&self) -> u64 {
        *self.exponents.iter().max().expect("eight exponents")
    }
}

pub struct Table {
    edges_of: Vec<usize>,
    pub frame: Vec<Reached>,
    terms: Vec<Monomial>,
    /// which frame terms leave lower order by division, once that was asked
    unsettled: OnceCell<Vec<bool>>,
}

/// A hash of a few numbers: tables are made by the thousand.
#[derive(Default)]
struct Quick(u64);

impl Hasher for Quick {
    fn write(&mut self, bytes: &[u8]) {
        for byte in bytes {
            self.write_u64(u64::from(*byte));
        }
    }

    fn write_u64(&mut self, number: u64) {
        self.0 = (self.0.rotate_left(7) ^ number).wrapping_mul(0x9e37_79b9_7f4a_7c15);
    }

    fn finish(&self) -> u64 {
        self.0 ^ (self.0 >> 32)
    }
}

struct Growing<'a> {
    elements: &'a Level,
    reducers: Reducers,
    drops: bool,
    numbers: HashMap<Monomial, usize, BuildHasherDefault<Quick>>,
    monomials: Vec<Monomial>,
    nodes: Vec<Option<Node>>,
    exponents: Vec<Exponents>,
}

impl Growing<'_> {
    /// The products of a monomial and some terms: nodes by number, and the greatest exponents. What has no reducer is left out where such are dropped.
    fn products(&mut self, factor: &Exponents, terms: &[Term]) -> (Vec<usize>, Exponents) {
        let mut edges = Vec::new();
        let mut most: Exponents = [0; 8];
        for term in terms {
            let exponents = multiply(factor, &term.monomial.exponents);
            most = std::array::from_fn(|x| most[x].max(exponents[x]));
            let product = Monomial {
                component: term.monomial.component,
                exponents,
            };
            if self.drops && self.reducers.reducer(&product).is_none() {
                continue;
            }
            let next = self.monomials.len();
            let number = *self.numbers.entry(product).or_insert(next);
            if number == next {
                self.monomials.push(product);
                self.nodes.push(None);
                self.exponents.push([0; 8]);
            }
            edges.push(number);
        }
        (edges, most)
    }

    fn expand(&mut self, number: usize) {
        if self.nodes[number].is_some() {
            return;
        }
        let (mut edges, mut most) = (Vec::new(), [0; 8]);
        if let Some(reducer) = self.reducers.reducer(&self.monomials[number]) {
            let elements = self.elements;
            let tail = &elements[reducer.number as usize - 1][1..];
            (edges, most) = self.products(&reducer.quotient, tail);
        }
        self.exponents[number] = most;
        let exponent = *most.iter().max().expect("eight exponents");
        self.nodes[number] = Some(Node { edges, exponent });
    }

    /// All that is reached from here. Past the limit on exponents nothing is expanded: there the run decides.
    fn reach(&mut self, frame_term: &Monomial) -> Reached {
        let elements = self.elements;
        let element = &elements[frame_term.component as usize - 1];
        let (roots, mut exponents) = self.products(&frame_term.exponents, element);
        let own = roots.len();
        let mut seen = vec![false; self.monomials.len()];
        let mut nodes: Vec<usize> = Vec::new();
        let meet = |nodes: &mut Vec<usize>, seen: &mut Vec<bool>, number: usize| {
            seen.resize(seen.len().max(number + 1), false);
            if !std::mem::replace(&mut seen[number], true) {
                nodes.push(number);
            }
        };
        for root in roots {
            meet(&mut nodes, &mut seen, root);
        }
        let mut at = 0;
        let mut over = exponents.iter().any(|e| *e > MOST_EXPONENT);
        while at < nodes.len() && nodes.len() < NODES_COUNTED && !over {
            let number = nodes[at];
            self.expand(number);
            let most = self.exponents[number];
            exponents = std::array::from_fn(|x| exponents[x].max(most[x]));
            let node = self.nodes[number].as_ref().expect("it is expanded");
            over = node.exponent > MOST_EXPONENT;
            for next in &node.edges {
                meet(&mut nodes, &mut seen, *next);
            }
            at += 1;
        }
        Reached {
            own,
            beyond: at < nodes.len() && !over,
            nodes,
            exponents,
        }
    }
}

/// The slot in which the engine looks for a node first.
fn first_slot(monomial: &Monomial) -> u64 {
    let packed = u64::from_be_bytes(monomial.exponents.map(|e| e as u8));
    (packed ^ (monomial.component * 977)) % LAST_PRIME
}

/// The largest prime up to the number of slots.
const LAST_PRIME: u64 = 2_039;
const SLOTS: u64 = 2_048;
/// So many nodes with the last slot as their first are more than there are slots from it on.
pub const WRAPPING: u64 = SLOTS - LAST_PRIME + 2;

/// Whether a node is looked for from the last slot on that is the first of any.
pub fn comes_last(monomial: &Monomial) -> bool {
    first_slot(monomial) == LAST_PRIME - 1
}

/// Which limit gives the bound on nodes.
#[derive(Clone, Copy, Debug, PartialEq, Eq)]
pub enum By {
    Table,
    Working,
    Room,
    Vector,
}

const BYS: [By; 4] = [By::Table, By::Working, By::Room, By::Vector];

/// How many nodes a table may have under these limits, and by which of them.
pub fn most_nodes(limits: &Limits, room: Option<usize>) -> (usize, By) {
    let (working, vector) = (limits.working as usize, limits.vector as usize - 1);
    match room {
        Some(room) if room <= vector.min(MOST_NODES) => (room, By::Room),
        _ if working < vector && working < MOST_NODES => (working, By::Working),
        _ if vector < MOST_NODES => (vector, By::Vector),
        _ => (MOST_NODES, By::Table),
    }
}

impl Table {
    /// The table of level k, the number of these levels, where lower order is dropped (hybrid) or not (division).
    pub fn new(levels: &[Level], drops: bool) -> Table {
        let elements = levels.last().expect("level 0");
        let mut growing = Growing {
            elements,
            reducers: Reducers::new(elements),
            drops,
            numbers: HashMap::default(),
            monomials: Vec::new(),
            nodes: Vec::new(),
            exponents: Vec::new(),
        };
        let terms = frame(elements, NUMBERING);
        let frame = terms.iter().map(|term| growing.reach(term)).collect();
        let edges = |node: &Option<Node>| node.as_ref().map_or(0, |node| node.edges.len());
        Table {
            edges_of: growing.nodes.iter().map(edges).collect(),
            frame,
            terms,
            unsettled: OnceCell::new(),
        }
    }

    /// Nodes and edges of the first frame terms together, with no bound on them; none where one of them can have no table.
    pub fn sizes(&self, count: usize) -> Option<(usize, usize)> {
        let mut batch = Batch::new(self);
        for reached in &self.frame[..count] {
            if reached.beyond || reached.exponent() > MOST_EXPONENT {
                return None;
            }
            let (nodes, edges) = batch.with(reached);
            batch.take(reached, nodes, edges);
        }
        Some((batch.nodes, batch.edges))
    }

    /// Whether a small table takes all frame terms; counts what is met.
    pub fn small(&self, most: usize, met: &mut Met) -> bool {
        let Some((nodes, edges)) = self.sizes(self.frame.len()) else {
            return false;
        };
        let (few, light) = (nodes <= most, edges <= most * NODE_EDGES);
        if light && (nodes == most || nodes == most + 1) {
            met.count(Boundary::SmallNodes(few));
        }
        few && light
    }

    /// Goes through the batches under a bound on nodes, and counts what is met on the way; which frame terms have a table.
    pub fn batches(&self, most: usize, by: By, met: &mut Met) -> Vec<bool> {
        let mut served = vec![false; self.frame.len()];
        let (mut i, mut batches, mut alone) = (0, 0, false);
        while i < self.frame.len() {
            let mut batch = Batch::new(self);
            let mut v = i;
            while v < self.frame.len() {
                let reached = &self.frame[v];
                let (nodes, edges) = batch.with(reached);
                if !met.reached(reached, nodes, edges, most, by) {
                    break;
                }
                batch.take(reached, nodes, edges);
                served[v] = true;
                v += 1;
            }
            if v == i {
                met.count(Boundary::Alone);
                alone = true;
                i += 1;
                continue;
            }
            batches += 1;
            if v < self.frame.len() {
                met.count(Boundary::BatchEnds);
            }
            if alone {
                met.count(Boundary::BatchBehindARun);
            }
            if batches == 3 {
                met.count(Boundary::ThirdBatch);
            }
            alone = false;
            i = v;
        }
        served
    }

    /// Whether one of these frame terms of level k leaves a sum of lower order that is not zero, by division of it.
    pub fn leaves_lower_order(&self, basis: &Basis, k: usize, served: &[bool]) -> bool {
        let unsettled = self.unsettled.get_or_init(|| {
            let limits = Limits::document_01();
            let mut lifter = Lifter::new(&limits, &basis.parameters, &basis.levels[..k], None);
            let mut stops = |term| {
                matches!(
                    lifter.divide(term, Missing::Refuse),
                    Err(Stop::NoReducer(_))
                )
            };
            self.terms.iter().map(|term| stops(term)).collect()
        });
        served
            .iter()
            .zip(unsettled)
            .any(|(served, unsettled)| *served && *unsettled)
    }
}

/// A table while it grows.
struct Batch<'a> {
    table: &'a Table,
    held: Vec<bool>,
    nodes: usize,
    edges: usize,
}

impl Batch<'_> {
    fn new(table: &Table) -> Batch<'_> {
        Batch {
            table,
            held: vec![false; table.edges_of.len()],
            nodes: 0,
            edges: 0,
        }
    }

    /// How many nodes and edges there would be with this frame term.
    fn with(&self, reached: &Reached) -> (usize, usize) {
        let new = || reached.nodes.iter().filter(|node| !self.held[**node]);
        let edges: usize = new().map(|node| self.table.edges_of[*node]).sum();
        (self.nodes + new().count(), self.edges + reached.own + edges)
    }

    fn take(&mut self, reached: &Reached, nodes: usize, edges: usize) {
        for node in &reached.nodes {
            self.held[*node] = true;
        }
        (self.nodes, self.edges) = (nodes, edges);
    }
}

/// A boundary between table and run, on one of its sides.
#[derive(Clone, Copy, Debug, PartialEq, Eq)]
pub enum Boundary {
    /// as many nodes as there may be; one more; by what they are bounded
    Nodes(By),
    NodeMore(By),
    Edges,
    EdgeMore,
    /// as many as a small table has room for: true; one more, so that a large one is taken: false
    SmallNodes(bool),
    Exponent255,
    Exponent256,
    /// the table is full in the middle of a level, and the next one begins; the third of a level
    BatchEnds,
    ThirdBatch,
    /// a frame term that no table can take, and one that has a table again behind it
    Alone,
    BatchBehindARun,
    /// a sum of lower order is not zero, of a frame term that has a table
    Unsettled,
    /// nodes that are looked for from one of the last slots on, more than there are behind it
    SlotsWrap,
    /// a word of the state altered: still sound, or not
    AlteredSound,
    AlteredUnsound,
}

/// How often each boundary was met: by division, by hybrid.
pub struct Met {
    drops: bool,
    counts: Vec<(Boundary, [u64; 2])>,
    /// by room, 32 to 512: as many nodes as it has terms, one more
    pub rooms: Vec<[u64; 2]>,
}

pub const LEAST_ROOM: usize = 32;
pub const MOST_ROOM: usize = 512;

impl Met {
    pub fn new() -> Met {
        use Boundary::*;
        let mut all = Vec::new();
        for by in BYS {
            all.extend([Nodes(by), NodeMore(by)]);
        }
        all.extend([Edges, EdgeMore, Exponent255, Exponent256]);
        all.extend([true, false].map(SmallNodes));
        all.extend([BatchEnds, ThirdBatch, Alone, BatchBehindARun]);
        all.extend([Unsettled, SlotsWrap, AlteredSound, AlteredUnsound]);
        Met {
            drops: false,
            counts: all.into_iter().map(|boundary| (boundary, [0; 2])).collect(),
            rooms: vec![[0; 2]; MOST_ROOM + 1],
        }
    }

    /// What is counted from now on is of hybrid, which drops lower order, or of division.
    pub fn of(&mut self, drops: bool) -> &mut Met {
        self.drops = drops;
        self
    }

    pub fn count(&mut self, boundary: Boundary) {
        let at = |(own, _): &&mut (Boundary, [u64; 2])| *own == boundary;
        let (_, counts) = self.counts.iter_mut().find(at).expect("it is in the list");
        counts[usize::from(self.drops)] += 1;
    }

    /// Whether a frame term fits a table that would have so many nodes and edges with it.
    fn reached(
        &mut self,
        reached: &Reached,
        nodes: usize,
        edges: usize,
        most: usize,
        by: By,
    ) -> bool {
        if reached.beyond {
            return false;
        }
        let exponent = reached.exponent();
        if exponent > MOST_EXPONENT {
            if exponent == MOST_EXPONENT + 1 {
                self.count(Boundary::Exponent256);
            }
            return false;
        }
        let most_edges = most * NODE_EDGES;
        let (few, light) = (nodes <= most, edges <= most_edges);
        if nodes == most + 1 && light {
            self.count(Boundary::NodeMore(by));
            self.room(most, by, 1);
        }
        if edges == most_edges + 1 && few {
            self.count(Boundary::EdgeMore);
        }
        if few && light {
            if nodes == most {
                self.count(Boundary::Nodes(by));
                self.room(most, by, 0);
            }
            if edges == most_edges {
                self.count(Boundary::Edges);
            }
            if exponent == MOST_EXPONENT {
                self.count(Boundary::Exponent255);
            }
        }
        few && light
    }

    fn room(&mut self, most: usize, by: By, side: usize) {
        if by == By::Room && self.drops {
            self.rooms[most][side] += 1;
        }
    }

    /// Whether this boundary can be met by division at all: rooms are hybrid's.
    fn of_hybrid_alone(boundary: Boundary) -> bool {
        use Boundary::*;
        matches!(boundary, Nodes(By::Room) | NodeMore(By::Room))
    }

    /// And by hybrid: it drops lower order.
    fn of_division_alone(boundary: Boundary) -> bool {
        boundary == Boundary::Unsettled
    }

    /// A run in which a boundary is hardly met tests too little.
    pub fn enough(&self, least: u64) {
        for (boundary, [division, hybrid]) in &self.counts {
            let by_division = Met::of_hybrid_alone(*boundary) || *division >= least;
            let by_hybrid = Met::of_division_alone(*boundary) || *hybrid >= least;
            assert!(
                by_division && by_hybrid,
                "{boundary:?} was met too seldom: {division}, {hybrid}"
            );
        }
        // with room for 512 terms the table's own bound is smaller
        for (room, [full, more]) in self
            .rooms
            .iter()
            .enumerate()
            .take(MOST_NODES + 1)
            .skip(LEAST_ROOM)
        {
            assert!(
                *full > 0 && *more > 0,
                "room for {room} terms: {full}, {more}"
            );
        }
    }

    pub fn tell(&self) {
        let told: Vec<String> = self
            .counts
            .iter()
            .map(|(boundary, [division, hybrid])| format!("{boundary:?} {division} {hybrid}"))
            .collect();
        println!(
            "  boundaries of tables (by division, by hybrid): {}",
            told.join(", ")
        );
    }
}

/// The greatest exponent of this variable in products of the frame terms, where each can have a table.
pub fn greatest_exponent(table: &Table, x: usize) -> Option<u64> {
    let fits = |reached: &&Reached| !reached.beyond && reached.exponent() <= MOST_EXPONENT;
    table
        .frame
        .iter()
        .all(|reached| fits(&reached))
        .then(|| table.frame.iter().map(|reached| reached.exponents[x]).max())
        .flatten()
}

/// The elements or vectors of the highest level times a power of a variable, if that stays in range.
pub fn raised(basis: &Basis, k: usize, x: usize, by: u64) -> Option<Basis> {
    let mut raised = basis.clone();
    raised.levels.truncate(k);
    for term in raised.levels[k - 1].iter_mut().flatten() {
        term.monomial.exponents[x] += by;
        if term.monomial.exponents[x] > MOST_EXPONENT {
            return None;
        }
    }
    Some(raised)
}
