// SPDX-License-Identifier: MIT OR Apache-2.0
//! Lifting the frame of a level by the three ways, and acceptance.

use crate::field::Field;
use crate::frame::{frame, Reducer, Reducers, NUMBERING};
use crate::limits::Limits;
use crate::monomial::{
    leading_coefficient, multiply, Exponents, Level, Monomial, Parameters, Term, Vector,
};
use crate::order::{Key, Modules};
use std::collections::btree_map::Entry;
use std::collections::BTreeMap;

/// One of the three ways to lift.
#[derive(Clone, Copy, Debug, PartialEq, Eq)]
pub enum Way {
    /// by the leading term, none dropped
    Division,
    /// with its pick code, which may be wrong
    Hybrid(u64),
    /// by subtrees and a cache
    Tree,
}

/// "the picked term is, by pick code, 1 the greatest, 2 the newest, 3 the oldest."
#[derive(Clone, Copy, Debug, PartialEq, Eq)]
pub enum Pick {
    /// pick code 1
    Greatest,
    /// pick code 2
    Newest,
    /// pick code 3
    Oldest,
}

impl Pick {
    /// The pick that a code means, 1 to 3.
    pub fn from_code(code: u64) -> Option<Pick> {
        match code {
            1 => Some(Pick::Greatest),
            2 => Some(Pick::Newest),
            3 => Some(Pick::Oldest),
            _ => None,
        }
    }
}

/// Why a lifting did not come to its end.
#[derive(Clone, Debug, PartialEq, Eq)]
pub enum Stop {
    /// a refusal's number, 13 to 15
    Refused(u64),
    /// refusal 9 with the value where division stopped, descending
    NoReducer(Vector),
    /// the budget of products is used up; this is no refusal
    GaveUp,
}

/// What a run took: how many products, and how far it came toward each limit.
#[derive(Clone, Copy, Debug, Default, PartialEq, Eq)]
pub struct Usage {
    /// Products formed: one for each term of m·f_i and of each reducer's multiple. The one that
    /// cancels the picked term is formed; the one that would cancel a subtree's term is not.
    pub products: u64,
    /// the greatest exponent of a product
    pub exponent: u64,
    /// the most terms in a working value
    pub working: u64,
    /// the most terms in an unfinished or finished vector
    pub vector: u64,
    /// the most terms counted in the tree's work area
    pub tree: u64,
    /// the frame terms of the level
    pub frame: u64,
    /// the terms of the level's finished vectors together
    pub level_terms: u64,
}

impl Usage {
    /// The usage of two runs, one after the other.
    pub fn and(&self, other: &Usage) -> Usage {
        Usage {
            products: self.products + other.products,
            exponent: self.exponent.max(other.exponent),
            working: self.working.max(other.working),
            vector: self.vector.max(other.vector),
            tree: self.tree.max(other.tree),
            frame: self.frame.max(other.frame),
            level_terms: self.level_terms.max(other.level_terms),
        }
    }
}

/// A count of stored terms under a limit.
#[derive(Clone, Copy, Debug)]
struct Room {
    used: u64,
    limit: u64,
    most: u64,
}

impl Room {
    fn new(limit: u64) -> Room {
        Room {
            used: 0,
            limit,
            most: 0,
        }
    }

    /// 14: "a 513th term would be stored .. or a 4,097th in the unfinished subtrees together".
    fn store(&mut self) -> Result<(), Stop> {
        if self.used >= self.limit {
            return Err(Stop::Refused(14));
        }
        self.used += 1;
        self.most = self.most.max(self.used);
        Ok(())
    }

    fn release(&mut self, terms: usize) {
        self.used -= terms as u64;
    }
}

/// Terms kept by the order of their module, greatest last.
pub type Sum = BTreeMap<Key, Term>;

/// Adds a term to a sum; equal monomials combine and a zero sum leaves at once.
fn add_term(
    field: &Field,
    sum: &mut Sum,
    key: Key,
    term: Term,
    room: &mut Room,
) -> Result<(), Stop> {
    match sum.entry(key) {
        Entry::Vacant(place) => {
            room.store()?;
            place.insert(term);
        }
        Entry::Occupied(mut held) => {
            let coefficient = field.add(held.get().coefficient, term.coefficient);
            if coefficient == 0 {
                held.remove();
                room.release(1);
            } else {
                held.get_mut().coefficient = coefficient;
            }
        }
    }
    Ok(())
}

/// The terms of a sum, greatest first.
pub fn descending(sum: &Sum) -> Vector {
    sum.values().rev().copied().collect()
}

/// The working value of division and of the hybrid way: a list of terms, oldest first, of which
/// the greatest is known too.
#[derive(Debug)]
pub struct WorkingValue {
    terms: BTreeMap<Key, (Term, u64)>,
    ages: BTreeMap<u64, Key>,
    next_age: u64,
    room: Room,
}

impl WorkingValue {
    fn new(limit: u64) -> WorkingValue {
        WorkingValue {
            terms: BTreeMap::new(),
            ages: BTreeMap::new(),
            next_age: 0,
            room: Room::new(limit),
        }
    }

    /// "equal monomials combine in place, a zero sum leaves, else the term goes last."
    fn add(&mut self, field: &Field, key: Key, term: Term) -> Result<(), Stop> {
        match self.terms.entry(key) {
            Entry::Vacant(place) => {
                self.room.store()?;
                place.insert((term, self.next_age));
                self.ages.insert(self.next_age, key);
                self.next_age += 1;
            }
            Entry::Occupied(mut held) => {
                let coefficient = field.add(held.get().0.coefficient, term.coefficient);
                if coefficient == 0 {
                    let (_, age) = held.remove();
                    self.ages.remove(&age);
                    self.room.release(1);
                } else {
                    held.get_mut().0.coefficient = coefficient;
                }
            }
        }
        Ok(())
    }

    /// Takes the greatest term out.
    fn drop_greatest(&mut self) {
        if let Some((_, (_, age))) = self.terms.pop_last() {
            self.ages.remove(&age);
            self.room.release(1);
        }
    }

    /// How many terms it has.
    pub fn len(&self) -> usize {
        self.terms.len()
    }

    /// Whether it is zero.
    pub fn is_empty(&self) -> bool {
        self.terms.is_empty()
    }

    /// The leading term.
    pub fn greatest(&self) -> Option<Term> {
        self.terms.last_key_value().map(|(_, (term, _))| *term)
    }

    /// The last term of the list.
    pub fn newest(&self) -> Option<Term> {
        self.ages.last_key_value().map(|(_, key)| self.terms[key].0)
    }

    /// The first term of the list.
    pub fn oldest(&self) -> Option<Term> {
        self.ages
            .first_key_value()
            .map(|(_, key)| self.terms[key].0)
    }

    /// The term at a place of the list, the oldest at 0.
    pub fn at(&self, place: usize) -> Option<Term> {
        self.ages.values().nth(place).map(|key| self.terms[key].0)
    }

    /// The term with this monomial.
    pub fn find(&self, monomial: &Monomial) -> Option<Term> {
        let mut terms = self.terms.values().map(|(term, _)| *term);
        terms.find(|term| term.monomial == *monomial)
    }

    /// The term that a pick code picks.
    pub fn pick(&self, pick: Pick) -> Option<Term> {
        match pick {
            Pick::Greatest => self.greatest(),
            Pick::Newest => self.newest(),
            Pick::Oldest => self.oldest(),
        }
    }

    fn descending(&self) -> Vector {
        self.terms.values().rev().map(|(term, _)| *term).collect()
    }
}

/// A vector while it grows.
struct GrowingVector {
    sum: Sum,
    room: Room,
}

/// Which products enter a working value.
#[derive(Clone, Copy, PartialEq, Eq)]
enum Keep {
    /// division: "none dropped"
    All,
    /// hybrid: "lower order terms are dropped as they arise"
    Reducible,
}

/// What division does with a leading term that has no reducer.
#[derive(Clone, Copy, Debug, PartialEq, Eq)]
pub enum Missing {
    /// while accepting: refusal 9
    Refuse,
    /// "in any other altered state, division while lifting drops a leading term without a reducer"
    Drop,
}

/// Lifts frame terms of level k over `levels[k - 1]`, where k is the number of levels given.
pub struct Lifter<'a> {
    limits: &'a Limits,
    field: Field,
    modules: Modules<'a>,
    k: usize,
    elements: &'a [Vector],
    reducers: Reducers,
    budget: Option<u64>,
    /// what the run took so far
    pub usage: Usage,
}

impl<'a> Lifter<'a> {
    /// `below` are levels 0 to k − 1, at least level 0. With a budget the lifter gives up instead
    /// of forming one product more.
    pub fn new(
        limits: &'a Limits,
        parameters: &Parameters,
        below: &'a [Level],
        budget: Option<u64>,
    ) -> Lifter<'a> {
        let k = below.len();
        let elements = &below[k - 1];
        Lifter {
            limits,
            field: Field::new(parameters.p),
            modules: Modules::new(parameters.file_order(), below),
            k,
            elements,
            reducers: Reducers::new(elements),
            budget,
            usage: Usage::default(),
        }
    }

    /// Forms the frame of the level. 15: "a 129th frame term, before any division or lifting".
    pub fn frame(&mut self) -> Result<Vec<Monomial>, Stop> {
        let terms = frame(self.elements, NUMBERING);
        self.usage.frame = terms.len() as u64;
        if self.usage.frame > self.limits.vectors {
            return Err(Stop::Refused(15));
        }
        Ok(terms)
    }

    /// Lifts all frame terms in number order.
    pub fn lift_level(&mut self, way: Way, cache_terms: u64) -> Result<Level, Stop> {
        let mut tree = Tree::new(self.limits.tree, cache_terms);
        let mut level = Level::new();
        for term in self.frame()? {
            let vector = match way {
                Way::Division => self.divide(&term, Missing::Drop)?,
                Way::Hybrid(code) => {
                    let pick = Pick::from_code(code).expect("12 comes before lifting");
                    self.hybrid(&term, |working| working.pick(pick))?
                }
                Way::Tree => self.tree(&term, &mut tree)?,
            };
            self.finish(&mut level, vector)?;
        }
        Ok(level)
    }

    /// 15: "a 2,049th term of a level above 0, when a finished vector is added".
    fn finish(&mut self, level: &mut Level, vector: Vector) -> Result<(), Stop> {
        self.usage.level_terms += vector.len() as u64;
        if self.usage.level_terms > self.limits.level_terms {
            return Err(Stop::Refused(15));
        }
        level.push(vector);
        Ok(())
    }

    /// Division: "take the leading term of the working value, subtract the multiple of its
    /// reducer, record that multiple; stop at zero. A step records before its products, and
    /// products are added and counted, as in the hybrid way, none dropped."
    pub fn divide(&mut self, frame_term: &Monomial, missing: Missing) -> Result<Vector, Stop> {
        let mut vector = self.start(frame_term)?;
        let mut working = WorkingValue::new(self.limits.working);
        self.add_frame_products(&mut working, frame_term, Keep::All)?;
        while let Some(leading) = working.greatest() {
            match self.reducers.reducer(&leading.monomial) {
                Some(reducer) => {
                    self.step(&mut working, &mut vector, &leading, &reducer, Keep::All)?
                }
                None if missing == Missing::Drop => working.drop_greatest(),
                None => return Err(Stop::NoReducer(working.descending())),
            }
        }
        Ok(descending(&vector.sum))
    }

    /// Division of any vector by the elements (request A12): "divides by the lowest-index rule, moving
    /// a leading term that has no reducer to the remainder". The quotient terms and the remainder,
    /// both descending. A step records before its products, as in all division.
    pub fn divide_vector(&mut self, vector: &[Term]) -> Result<(Vector, Vector), Stop> {
        let mut quotients = GrowingVector {
            sum: Sum::new(),
            room: Room::new(self.limits.vector),
        };
        let mut remainder = Vector::new();
        let mut remainder_room = Room::new(self.limits.working);
        let mut working = WorkingValue::new(self.limits.working);
        for term in vector {
            let key = self.modules.key(self.k - 1, &term.monomial);
            working.add(&self.field, key, *term)?;
        }
        self.usage.working = self.usage.working.max(working.room.most);
        while let Some(leading) = working.greatest() {
            let Some(reducer) = self.reducers.reducer(&leading.monomial) else {
                remainder_room.store()?;
                remainder.push(leading);
                working.drop_greatest();
                continue;
            };
            let turned = self.turned_multiple(leading.coefficient, &reducer);
            let recorded = Monomial {
                component: reducer.number,
                exponents: reducer.quotient,
            };
            // the multiple itself: what is subtracted adds up to the vector
            self.record(&mut quotients, self.field.negate(turned), recorded)?;
            let (factor, number) = (&reducer.quotient, reducer.number);
            self.add_products(&mut working, turned, factor, number, Keep::All)?;
        }
        Ok((descending(&quotients.sum), remainder))
    }

    /// Hybrid: "lower order terms are dropped as they arise"; `pick` picks the term of each step.
    pub fn hybrid(
        &mut self,
        frame_term: &Monomial,
        mut pick: impl FnMut(&WorkingValue) -> Option<Term>,
    ) -> Result<Vector, Stop> {
        let mut vector = self.start(frame_term)?;
        let mut working = WorkingValue::new(self.limits.working);
        self.add_frame_products(&mut working, frame_term, Keep::Reducible)?;
        while let Some(picked) = pick(&working) {
            let reducer = self
                .reducers
                .reducer(&picked.monomial)
                .expect("only terms with a reducer are kept");
            self.step(
                &mut working,
                &mut vector,
                &picked,
                &reducer,
                Keep::Reducible,
            )?;
        }
        Ok(descending(&vector.sum))
    }

    /// "In all three ways the vector starts as the frame term m·e_i".
    fn start(&mut self, frame_term: &Monomial) -> Result<GrowingVector, Stop> {
        let mut vector = GrowingVector {
            sum: Sum::new(),
            room: Room::new(self.limits.vector),
        };
        self.record(&mut vector, 1, *frame_term)?;
        Ok(vector)
    }

    /// "and the first products are those of m·f_i."
    fn add_frame_products(
        &mut self,
        working: &mut WorkingValue,
        frame_term: &Monomial,
        keep: Keep,
    ) -> Result<(), Stop> {
        let (m, i) = (&frame_term.exponents, frame_term.component);
        self.add_products(working, 1, m, i, keep)
    }

    /// "A step first records its multiple, sign turned, in the vector"; then its products are
    /// added, the first of which cancels the picked term.
    fn step(
        &mut self,
        working: &mut WorkingValue,
        vector: &mut GrowingVector,
        picked: &Term,
        reducer: &Reducer,
        keep: Keep,
    ) -> Result<(), Stop> {
        let coefficient = self.turned_multiple(picked.coefficient, reducer);
        let recorded = Monomial {
            component: reducer.number,
            exponents: reducer.quotient,
        };
        self.record(vector, coefficient, recorded)?;
        self.add_products(
            working,
            coefficient,
            &reducer.quotient,
            reducer.number,
            keep,
        )
    }

    /// The coefficient of −q, where q·f_j leads with the term of this coefficient.
    fn turned_multiple(&self, coefficient: u64, reducer: &Reducer) -> u64 {
        let leading = leading_coefficient(self.element(reducer.number));
        self.field.negate(self.field.divide(coefficient, leading))
    }

    fn element(&self, number: u64) -> &'a Vector {
        &self.elements[number as usize - 1]
    }

    /// Adds a term to the vector, "equal monomials combining there too".
    fn record(
        &mut self,
        vector: &mut GrowingVector,
        coefficient: u64,
        monomial: Monomial,
    ) -> Result<(), Stop> {
        let key = self.modules.key(self.k, &monomial);
        let term = Term {
            coefficient,
            monomial,
        };
        add_term(&self.field, &mut vector.sum, key, term, &mut vector.room)?;
        self.usage.vector = self.usage.vector.max(vector.room.most);
        Ok(())
    }

    /// "Products are added one by one in the reducer's term order".
    fn add_products(
        &mut self,
        working: &mut WorkingValue,
        coefficient: u64,
        factor: &Exponents,
        number: u64,
        keep: Keep,
    ) -> Result<(), Stop> {
        for term in self.element(number) {
            let product = self.product(coefficient, factor, term)?;
            let kept = keep == Keep::All || self.reducers.reducer(&product.monomial).is_some();
            if kept {
                let key = self.modules.key(self.k - 1, &product.monomial);
                working.add(&self.field, key, product)?;
                self.usage.working = self.usage.working.max(working.room.most);
            }
        }
        Ok(())
    }

    /// 13: "a product has an exponent above 255, even if it would be dropped".
    fn product(&mut self, coefficient: u64, factor: &Exponents, term: &Term) -> Result<Term, Stop> {
        if self
            .budget
            .is_some_and(|budget| self.usage.products >= budget)
        {
            return Err(Stop::GaveUp);
        }
        self.usage.products += 1;
        let exponents = multiply(factor, &term.monomial.exponents);
        let greatest = exponents.iter().copied().max().unwrap_or(0);
        self.usage.exponent = self.usage.exponent.max(greatest);
        if greatest > self.limits.exponent {
            return Err(Stop::Refused(13));
        }
        Ok(Term {
            coefficient: self.field.multiply(coefficient, term.coefficient),
            monomial: Monomial {
                component: term.monomial.component,
                exponents,
            },
        })
    }

    /// Tree: "the lifting of a term calls the lifting of each product, which calls the lifting of
    /// its own terms." The sum of the frame term is the vector.
    pub fn tree(&mut self, frame_term: &Monomial, tree: &mut Tree) -> Result<Vector, Stop> {
        let mut vector = self.start(frame_term)?;
        for term in self.element(frame_term.component) {
            let product = self.product(1, &frame_term.exponents, term)?;
            self.lift_product(&product, tree, &mut vector)?;
        }
        Ok(descending(&vector.sum))
    }

    /// Lifts one product of the frame term and adds the result to the vector. The subtrees that
    /// are unfinished stand in a list, each the parent of the one after it.
    fn lift_product(
        &mut self,
        product: &Term,
        tree: &mut Tree,
        vector: &mut GrowingVector,
    ) -> Result<(), Stop> {
        let mut unfinished: Vec<Subtree> = Vec::new();
        self.meet(product, tree, &mut unfinished, vector)?;
        while let Some(subtree) = unfinished.last_mut() {
            let reducer = self.element(subtree.reducer.number);
            if let Some(term) = reducer.get(subtree.next) {
                // "the others are taken and lifted one by one in the reducer's term order"
                subtree.next += 1;
                let (coefficient, factor) = (subtree.coefficient, subtree.reducer.quotient);
                let product = self.product(coefficient, &factor, term)?;
                self.meet(&product, tree, &mut unfinished, vector)?;
            } else if let Some(finished) = unfinished.pop() {
                self.hand_on(finished, tree, &mut unfinished, vector)?;
            }
        }
        Ok(())
    }

    /// Meets a product: one of lower order adds nothing, one in the cache is added from there,
    /// and for any other a subtree begins.
    fn meet(
        &mut self,
        product: &Term,
        tree: &mut Tree,
        unfinished: &mut Vec<Subtree>,
        vector: &mut GrowingVector,
    ) -> Result<(), Stop> {
        let Some(reducer) = self.reducers.reducer(&product.monomial) else {
            return Ok(());
        };
        if let Some(part) = tree.cache.get(&product.monomial) {
            let by = product.coefficient;
            return add_part(
                &self.field,
                part,
                by,
                unfinished,
                vector,
                &mut tree.area,
                &mut self.usage,
            );
        }
        let subtree = self.begin(product, reducer, tree)?;
        unfinished.push(subtree);
        Ok(())
    }

    /// "A subtree's sum starts with its reducer's multiple, sign turned; the first product
    /// cancels the subtree's term" and so need not be formed. The subtree is lifted with
    /// coefficient 1.
    fn begin(
        &mut self,
        product: &Term,
        reducer: Reducer,
        tree: &mut Tree,
    ) -> Result<Subtree, Stop> {
        let coefficient = self.turned_multiple(1, &reducer);
        let monomial = Monomial {
            component: reducer.number,
            exponents: reducer.quotient,
        };
        let key = self.modules.key(self.k, &monomial);
        let first = Term {
            coefficient,
            monomial,
        };
        let mut sum = Sum::new();
        add_term(&self.field, &mut sum, key, first, &mut tree.area)?;
        self.usage.tree = self.usage.tree.max(tree.area.most);
        Ok(Subtree {
            monomial: product.monomial,
            wanted: product.coefficient,
            reducer,
            coefficient,
            next: 1,
            sum,
        })
    }

    /// "each subtree that finishes is put into [the cache] whole if it still fits, taking one term
    /// more than it has"; then its parent adds it. "a finished one that is not in the cache counts
    /// until its parent has added it whole; a part of the cache counts nothing".
    fn hand_on(
        &mut self,
        finished: Subtree,
        tree: &mut Tree,
        unfinished: &mut [Subtree],
        vector: &mut GrowingVector,
    ) -> Result<(), Stop> {
        let Subtree {
            monomial,
            wanted,
            sum,
            ..
        } = finished;
        let terms = sum.len();
        let taken = terms as u64 + 1;
        let fits = tree.cache_used + taken <= tree.cache_length;
        if fits {
            tree.cache_used += taken;
            tree.area.release(terms);
        }
        let (area, usage) = (&mut tree.area, &mut self.usage);
        add_part(&self.field, &sum, wanted, unfinished, vector, area, usage)?;
        if fits {
            tree.cache.insert(monomial, sum);
        } else {
            tree.area.release(terms);
        }
        Ok(())
    }
}

/// "a result is added to its parent's sum greatest term first." The parent is the unfinished
/// subtree that stands last, or the vector; "the frame term's own sum is the vector and counts
/// only there."
fn add_part(
    field: &Field,
    part: &Sum,
    by: u64,
    unfinished: &mut [Subtree],
    vector: &mut GrowingVector,
    area: &mut Room,
    usage: &mut Usage,
) -> Result<(), Stop> {
    let (sum, room) = match unfinished.last_mut() {
        Some(parent) => (&mut parent.sum, &mut *area),
        None => (&mut vector.sum, &mut vector.room),
    };
    let mut added = Ok(());
    for (key, term) in part.iter().rev() {
        let scaled = Term {
            coefficient: field.multiply(by, term.coefficient),
            monomial: term.monomial,
        };
        added = add_term(field, sum, *key, scaled, room);
        if added.is_err() {
            break;
        }
    }
    usage.vector = usage.vector.max(vector.room.most);
    usage.tree = usage.tree.max(area.most);
    added
}

/// An unfinished subtree.
struct Subtree {
    /// the monomial it lifts
    monomial: Monomial,
    /// the coefficient by which its parent takes the result
    wanted: u64,
    reducer: Reducer,
    /// the coefficient of −q
    coefficient: u64,
    /// the place of the reducer's next term
    next: usize,
    sum: Sum,
}

/// The cache of a lifting call, and the count of its work area.
pub struct Tree {
    /// "Subtrees are cached by monomial with coefficient 1."
    cache: BTreeMap<Monomial, Sum>,
    cache_used: u64,
    cache_length: u64,
    area: Room,
}

impl Tree {
    /// "The cache starts empty at each lifting call".
    pub fn new(area: u64, cache_terms: u64) -> Tree {
        Tree {
            cache: BTreeMap::new(),
            cache_used: 0,
            cache_length: cache_terms,
            area: Room::new(area),
        }
    }
}

/// How acceptance ends without accepting.
#[derive(Clone, Debug, PartialEq, Eq)]
pub struct NotAccepted {
    /// why it stopped
    pub stop: Stop,
    /// the number of the frame term at which it stopped, 0 if before the first
    pub frame_number: u64,
}

/// "Accepted: division of every level 1 frame term, in number order, its vector counted for 14
/// though not kept, reaches zero."
pub fn accept(
    limits: &Limits,
    parameters: &Parameters,
    elements: &Level,
    budget: Option<u64>,
) -> (Result<(), NotAccepted>, Usage) {
    let below = std::slice::from_ref(elements);
    let mut lifter = Lifter::new(limits, parameters, below, budget);
    let result = accept_all(&mut lifter);
    (result, lifter.usage)
}

fn accept_all(lifter: &mut Lifter) -> Result<(), NotAccepted> {
    let not_accepted = |frame_number| move |stop| NotAccepted { stop, frame_number };
    let terms = lifter.frame().map_err(not_accepted(0))?;
    for (number, term) in (1..).zip(&terms) {
        lifter
            .divide(term, Missing::Refuse)
            .map_err(not_accepted(number))?;
    }
    Ok(())
}

/// Forms the frame of level k over levels 0 to k − 1 and lifts all its terms.
pub fn lift_level(
    limits: &Limits,
    parameters: &Parameters,
    below: &[Level],
    way: Way,
    cache_terms: u64,
    budget: Option<u64>,
) -> (Result<Level, Stop>, Usage) {
    let mut lifter = Lifter::new(limits, parameters, below, budget);
    let result = lifter.lift_level(way, cache_terms);
    (result, lifter.usage)
}
