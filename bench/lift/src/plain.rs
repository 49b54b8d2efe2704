// SPDX-License-Identifier: MIT OR Apache-2.0
//! Plain Rust that does the same: reads a file, accepts its basis, and lifts level after level by each way, with the same limits and the same refusals 1 to 9,
//! 13 to 15, 18 and 24. It lends no buffers and zeroes none: levels are vectors of vectors of terms.

use std::cmp::Ordering;
use std::collections::HashMap;

pub type Exponents = [u16; 8];

#[derive(Clone, Copy, PartialEq, Eq, Hash)]
pub struct Monomial {
    pub component: u16,
    pub exponents: Exponents,
}

#[derive(Clone, Copy, PartialEq, Eq)]
pub struct Term {
    pub coefficient: u16,
    pub monomial: Monomial,
}

pub type Vector = Vec<Term>;
pub type Level = Vec<Vector>;

/// The number of a refusal.
type Refused = u16;

#[derive(Clone, Copy, PartialEq, Eq)]
pub enum Way {
    Division,
    /// with its pick code
    Hybrid(u16),
    /// with the cache's length in terms
    Tree(usize),
}

#[derive(Clone, Copy)]
enum Order {
    Lexicographic,
    Degree,
    DegreeReverse,
}

/// Degree (where the order looks at it), the exponents in the order's sequence, the rank: keys compare as their monomials do, number by number.
type Key = [u16; 10];

impl Order {
    fn key(self, image: &Exponents, rank: u16) -> Key {
        let mut key = [0; 10];
        match self {
            Order::Lexicographic => key[1..9].copy_from_slice(image),
            Order::Degree => {
                key[0] = image.iter().sum();
                key[1..9].copy_from_slice(image);
            }
            Order::DegreeReverse => {
                key[0] = image.iter().sum();
                for x in 0..8 {
                    key[1 + x] = u16::MAX - image[7 - x];
                }
            }
        }
        key[9] = rank;
        key
    }
}

fn times(a: &Exponents, b: &Exponents) -> Exponents {
    std::array::from_fn(|x| a[x] + b[x])
}

#[inline]
fn divides(a: &Exponents, b: &Exponents) -> bool {
    a.iter().zip(b).all(|(a, b)| a <= b)
}

fn over(a: &Exponents, b: &Exponents) -> Exponents {
    std::array::from_fn(|x| a[x] - b[x])
}

/// A free module: for each component its image on level 0, and which is greater where images tie.
struct Module {
    order: Order,
    components: Vec<(Exponents, u16)>,
}

impl Module {
    fn ground(order: Order, components: u16) -> Module {
        Module {
            order,
            components: (1..=components).map(|c| ([0; 8], c)).collect(),
        }
    }

    /// The module with one component for each of these elements.
    fn above(&self, elements: &[Vector]) -> Module {
        let mut components: Vec<(Exponents, u16)> = elements
            .iter()
            .map(|element| {
                let lead = &element[0].monomial;
                let (image, rank) = &self.components[usize::from(lead.component) - 1];
                (times(&lead.exponents, image), *rank)
            })
            .collect();
        let mut sequence: Vec<usize> = (0..components.len()).collect();
        sequence.sort_by_key(|i| components[*i].1);
        for (rank, i) in (1..).zip(sequence) {
            components[i].1 = rank;
        }
        Module {
            order: self.order,
            components,
        }
    }

    fn key(&self, monomial: &Monomial) -> Key {
        let (image, rank) = &self.components[usize::from(monomial.component) - 1];
        self.order.key(&times(&monomial.exponents, image), *rank)
    }

    fn compare(&self, a: &Monomial, b: &Monomial) -> Ordering {
        self.key(a).cmp(&self.key(b))
    }
}

/// A term with its key, so that a key is made once.
#[derive(Clone, Copy)]
struct Keyed {
    key: Key,
    term: Term,
}

/// The numbers modulo a prime.
#[derive(Clone, Copy)]
struct Field {
    p: u32,
}

impl Field {
    fn add(self, a: u16, b: u16) -> u16 {
        let sum = u32::from(a) + u32::from(b);
        (if sum >= self.p { sum - self.p } else { sum }) as u16
    }

    fn multiply(self, a: u16, b: u16) -> u16 {
        (u32::from(a) * u32::from(b) % self.p) as u16
    }

    fn negate(self, a: u16) -> u16 {
        (if a == 0 { 0 } else { self.p - u32::from(a) }) as u16
    }

    fn inverse(self, a: u16) -> u16 {
        let (mut power, mut base, mut exponent) = (1, a, self.p - 2);
        while exponent > 0 {
            if exponent % 2 == 1 {
                power = self.multiply(power, base);
            }
            base = self.multiply(base, base);
            exponent /= 2;
        }
        power
    }
}

/// Terms of a module, ascending.
struct Sum<'a> {
    module: &'a Module,
    field: Field,
    limit: usize,
    terms: Vec<Keyed>,
}

impl<'a> Sum<'a> {
    fn new(module: &'a Module, field: Field, limit: usize) -> Sum<'a> {
        Sum {
            module,
            field,
            limit,
            terms: Vec::new(),
        }
    }

    fn add(&mut self, term: Term) -> Result<(), Refused> {
        let key = self.module.key(&term.monomial);
        match self.terms.binary_search_by(|held| held.key.cmp(&key)) {
            Err(_) if self.terms.len() == self.limit => return Err(14),
            Err(place) => self.terms.insert(place, Keyed { key, term }),
            Ok(place) => {
                let held = &mut self.terms[place].term.coefficient;
                *held = self.field.add(*held, term.coefficient);
                if *held == 0 {
                    self.terms.remove(place);
                }
            }
        }
        Ok(())
    }

    fn descending(self) -> Vector {
        self.terms.iter().rev().map(|held| held.term).collect()
    }
}

/// What lifting a level reads.
struct Stage<'a> {
    field: Field,
    elements: &'a [Vector],
    /// the inverse of each leading coefficient
    inverses: Vec<u16>,
    /// by component: number and exponents of the leading monomials
    leads: Vec<Vec<(u16, Exponents)>>,
    below: Module,
    own: Module,
}

const LEVEL_TERMS: usize = 2_048;
const VECTORS: usize = 128;
const WORKING: usize = 512;
const AREA: usize = 4_096;

impl<'a> Stage<'a> {
    fn new(field: Field, below: Module, elements: &'a [Vector]) -> Stage<'a> {
        let mut leads = vec![Vec::new(); below.components.len()];
        for (number, element) in (1..).zip(elements) {
            let lead = &element[0].monomial;
            leads[usize::from(lead.component) - 1].push((number, lead.exponents));
        }
        Stage {
            field,
            elements,
            inverses: elements
                .iter()
                .map(|element| field.inverse(element[0].coefficient))
                .collect(),
            leads,
            own: below.above(elements),
            below,
        }
    }

    fn frame(&self) -> Result<Vec<Monomial>, Refused> {
        let mut frame: Vec<Monomial> = Vec::new();
        let mut generators: Vec<Exponents> = Vec::new();
        for (number, element) in (1..).zip(self.elements) {
            let lead = &element[0].monomial;
            generators.clear();
            generators.extend(
                self.leads[usize::from(lead.component) - 1]
                    .iter()
                    .take_while(|(other, _)| *other < number)
                    .map(|(_, other)| {
                        std::array::from_fn(|x| other[x].saturating_sub(lead.exponents[x]))
                    }),
            );
            // frame terms of a component are numbered lexicographically, whatever the order
            generators.sort_unstable();
            let first = frame.len();
            for generator in &generators {
                let needless = frame[first..]
                    .iter()
                    .any(|kept| divides(&kept.exponents, generator));
                if !needless {
                    frame.push(Monomial {
                        component: number,
                        exponents: *generator,
                    });
                }
            }
        }
        if frame.len() > VECTORS {
            return Err(15);
        }
        Ok(frame)
    }

    /// The lowest number of an element whose leading monomial divides, and the quotient.
    #[inline]
    fn reducer(&self, monomial: &Monomial) -> Option<Monomial> {
        self.leads[usize::from(monomial.component) - 1]
            .iter()
            .find(|(_, lead)| divides(lead, &monomial.exponents))
            .map(|(number, lead)| Monomial {
                component: *number,
                exponents: over(&monomial.exponents, lead),
            })
    }

    fn product(&self, coefficient: u16, factor: &Exponents, term: &Term) -> Result<Term, Refused> {
        let exponents = times(factor, &term.monomial.exponents);
        if exponents.iter().any(|e| *e > 255) {
            return Err(13);
        }
        Ok(Term {
            coefficient: self.field.multiply(coefficient, term.coefficient),
            monomial: Monomial {
                component: term.monomial.component,
                exponents,
            },
        })
    }

    fn element(&self, number: u16) -> &'a Vector {
        &self.elements[usize::from(number) - 1]
    }

    /// The multiple of a reducer that takes a term with this coefficient away.
    fn turned(&self, coefficient: u16, multiple: Monomial) -> Term {
        let inverse = self.inverses[usize::from(multiple.component) - 1];
        Term {
            coefficient: self.field.negate(self.field.multiply(coefficient, inverse)),
            monomial: multiple,
        }
    }

    fn start(&self, frame_term: &Monomial) -> Result<(Sum<'_>, Term), Refused> {
        let mut vector = Sum::new(&self.own, self.field, WORKING);
        let first = Term {
            coefficient: 1,
            monomial: *frame_term,
        };
        vector.add(first)?;
        Ok((vector, first))
    }

    /// Division, and hybrid by the greatest term: the working value is kept ascending. With `refuse` a leading term without a reducer is 9.
    fn by_greatest(
        &self,
        frame_term: &Monomial,
        hybrid: bool,
        refuse: bool,
    ) -> Result<Vector, Refused> {
        let (mut vector, mut multiple) = self.start(frame_term)?;
        let mut working = Sum::new(&self.below, self.field, WORKING);
        loop {
            for term in self.element(multiple.monomial.component) {
                let product =
                    self.product(multiple.coefficient, &multiple.monomial.exponents, term)?;
                if !hybrid || self.reducer(&product.monomial).is_some() {
                    working.add(product)?;
                }
            }
            multiple = loop {
                let Some(Keyed { term, .. }) = working.terms.last() else {
                    return Ok(vector.descending());
                };
                match self.reducer(&term.monomial) {
                    Some(found) => break self.turned(term.coefficient, found),
                    None if refuse => return Err(9),
                    None => working.terms.pop(),
                };
            };
            vector.add(multiple)?;
        }
    }

    /// Hybrid by the newest or the oldest term: the working value is kept in the order of arrival.
    fn by_age(&self, frame_term: &Monomial, newest: bool) -> Result<Vector, Refused> {
        let (mut vector, mut multiple) = self.start(frame_term)?;
        let mut working: Vector = Vec::new();
        loop {
            for term in self.element(multiple.monomial.component) {
                let product =
                    self.product(multiple.coefficient, &multiple.monomial.exponents, term)?;
                if self.reducer(&product.monomial).is_none() {
                    continue;
                }
                match working
                    .iter()
                    .position(|held| held.monomial == product.monomial)
                {
                    None if working.len() == WORKING => return Err(14),
                    None => working.push(product),
                    Some(place) => {
                        let held = &mut working[place].coefficient;
                        *held = self.field.add(*held, product.coefficient);
                        if *held == 0 {
                            working.remove(place);
                        }
                    }
                }
            }
            let picked = if newest {
                working.last()
            } else {
                working.first()
            };
            let Some(picked) = picked else {
                return Ok(vector.descending());
            };
            let found = self
                .reducer(&picked.monomial)
                .expect("only terms with a reducer are kept");
            multiple = self.turned(picked.coefficient, found);
            vector.add(multiple)?;
        }
    }

    fn by_tree(&self, frame_term: &Monomial, tree: &mut Tree) -> Result<Vector, Refused> {
        let mut vector = vec![self.keyed(Term {
            coefficient: 1,
            monomial: *frame_term,
        })];
        for term in self.element(frame_term.component) {
            let product = self.product(1, &frame_term.exponents, term)?;
            if let Some(part) = self.subtree(&product.monomial, tree)? {
                let (terms, _) = tree.terms(&part);
                let mut used = vector.len();
                self.merge(&mut vector, terms, product.coefficient, &mut used, WORKING)?;
                tree.release(part);
            }
        }
        Ok(vector.iter().map(|held| held.term).collect())
    }

    fn keyed(&self, term: Term) -> Keyed {
        Keyed {
            key: self.own.key(&term.monomial),
            term,
        }
    }

    /// The lifting of a monomial with coefficient 1; none if it is of lower order.
    fn subtree(&self, monomial: &Monomial, tree: &mut Tree) -> Result<Option<Part>, Refused> {
        let Some(found) = self.reducer(monomial) else {
            return Ok(None);
        };
        if let Some(place) = tree.places.get(monomial) {
            return Ok(Some(Part::Cached(*place)));
        }
        if tree.used == AREA {
            return Err(14);
        }
        tree.used += 1;
        let first = self.turned(1, found);
        let mut sum = vec![self.keyed(first)];
        for term in &self.element(found.component)[1..] {
            let product = self.product(first.coefficient, &found.exponents, term)?;
            if let Some(part) = self.subtree(&product.monomial, tree)? {
                let (terms, used) = tree.terms(&part);
                let mut now = used;
                self.merge(&mut sum, terms, product.coefficient, &mut now, AREA)?;
                tree.used = now;
                tree.release(part);
            }
        }
        Ok(Some(tree.finished(monomial, sum)))
    }

    /// Adds a multiple of a descending part to a descending sum, greatest term first. `used` counts what is stored under the limit.
    fn merge(
        &self,
        sum: &mut Vec<Keyed>,
        part: &[Keyed],
        by: u16,
        used: &mut usize,
        limit: usize,
    ) -> Result<(), Refused> {
        let mut merged = Vec::with_capacity(sum.len() + part.len());
        let mut held = sum.iter().peekable();
        for own in part {
            let mut scaled = *own;
            scaled.term.coefficient = self.field.multiply(by, own.term.coefficient);
            while let Some(greater) = held.next_if(|other| other.key > own.key) {
                merged.push(*greater);
            }
            if let Some(equal) = held.next_if(|other| other.key == own.key) {
                let sum = self
                    .field
                    .add(equal.term.coefficient, scaled.term.coefficient);
                if sum == 0 {
                    *used -= 1;
                } else {
                    scaled.term.coefficient = sum;
                    merged.push(scaled);
                }
            } else if *used == limit {
                return Err(14);
            } else {
                *used += 1;
                merged.push(scaled);
            }
        }
        merged.extend(held);
        *sum = merged;
        Ok(())
    }

    fn lift(&self, way: Way) -> Result<Level, Refused> {
        let mut tree = Tree::new(match way {
            Way::Tree(length) => length,
            _ => 0,
        });
        let mut level = Level::new();
        let mut terms = 0;
        for frame_term in self.frame()? {
            let vector = match way {
                Way::Division => self.by_greatest(&frame_term, false, false)?,
                Way::Hybrid(1) => self.by_greatest(&frame_term, true, false)?,
                Way::Hybrid(code) => self.by_age(&frame_term, code == 2)?,
                Way::Tree(_) => self.by_tree(&frame_term, &mut tree)?,
            };
            terms += vector.len();
            if terms > LEVEL_TERMS {
                return Err(15);
            }
            level.push(vector);
        }
        Ok(level)
    }

    fn accept(&self) -> Result<(), Refused> {
        for frame_term in self.frame()? {
            self.by_greatest(&frame_term, false, true)?;
        }
        Ok(())
    }
}

/// Where a finished subtree stands.
enum Part {
    Cached(usize),
    Own(Vec<Keyed>),
}

struct Tree {
    places: HashMap<Monomial, usize>,
    cached: Vec<Vec<Keyed>>,
    cache_used: usize,
    cache_length: usize,
    /// terms of unfinished subtrees, and of finished ones that are not in the cache
    used: usize,
}

impl Tree {
    fn new(cache_length: usize) -> Tree {
        Tree {
            places: HashMap::new(),
            cached: Vec::new(),
            cache_used: 0,
            cache_length,
            used: 0,
        }
    }

    fn terms<'a>(&'a self, part: &'a Part) -> (&'a [Keyed], usize) {
        let terms = match part {
            Part::Cached(place) => &self.cached[*place],
            Part::Own(terms) => terms,
        };
        (terms, self.used)
    }

    fn finished(&mut self, monomial: &Monomial, sum: Vec<Keyed>) -> Part {
        if self.cache_used + sum.len() + 1 > self.cache_length {
            return Part::Own(sum);
        }
        self.cache_used += sum.len() + 1;
        self.used -= sum.len();
        let place = self.cached.len();
        self.places.insert(*monomial, place);
        self.cached.push(sum);
        Part::Cached(place)
    }

    fn release(&mut self, part: Part) {
        if let Part::Own(terms) = part {
            self.used -= terms.len();
        }
    }
}

/// An accepted basis and the levels over it.
pub struct Engine {
    field: Field,
    order: Order,
    components: u16,
    pub levels: Vec<Level>,
}

impl Engine {
    /// Reads a file and accepts its basis.
    pub fn read(file: &[u8]) -> Result<Engine, Refused> {
        let engine = read_problem(file)?;
        engine.stage(1).accept()?;
        Ok(engine)
    }

    /// What lifting level k reads.
    fn stage(&self, k: usize) -> Stage<'_> {
        let mut module = Module::ground(self.order, self.components);
        for level in &self.levels[..k - 1] {
            module = module.above(level);
        }
        Stage::new(self.field, module, &self.levels[k - 1])
    }

    /// Lifts the next level; gives how many vectors it has.
    pub fn lift(&mut self, way: Way) -> Result<usize, Refused> {
        let level = self.stage(self.levels.len()).lift(way)?;
        let count = level.len();
        self.levels.push(level);
        Ok(count)
    }
}

fn read_problem(file: &[u8]) -> Result<Engine, Refused> {
    if file.len() > 65_536 {
        return Err(1);
    }
    let mut lines = file.split_inclusive(|byte| *byte == b'\n');
    let mut fields = Vec::with_capacity(11);
    let letter = fields_of(lines.next(), &mut fields)?;
    let (b'R', &[p, n, order, s]) = (letter, &fields[..]) else {
        return Err(1);
    };
    if p < 2
        || (2..p)
            .take_while(|d| u32::from(*d) * u32::from(*d) <= u32::from(p))
            .any(|d| p % d == 0)
    {
        return Err(2);
    }
    let order = match order {
        1 => Order::Lexicographic,
        2 => Order::Degree,
        3 => Order::DegreeReverse,
        _ => return Err(3),
    };
    if !(1..=8).contains(&n) || !(1..=16).contains(&s) {
        return Err(3);
    }
    let module = Module::ground(order, s);
    let mut elements: Level = Vec::new();
    let mut t_lines = 0;
    let (mut degrees, mut weights) = (false, false);
    loop {
        match fields_of(lines.next(), &mut fields)? {
            // D, then G, each once; degrees of components and weights of variables take part in nothing that is lifted
            b'D' if t_lines == 0 && !degrees && !weights && fields.len() == usize::from(s) => {
                if fields.iter().any(|degree| *degree > 255) {
                    return Err(18);
                }
                degrees = true;
            }
            b'G' if t_lines == 0 && !weights && fields.len() == 2 * usize::from(n) => {
                if fields.iter().any(|weight| *weight > 15) {
                    return Err(24);
                }
                weights = true;
            }
            b'T' => {
                if fields.len() != 3 + usize::from(n) {
                    return Err(1);
                }
                t_lines += 1;
                if t_lines > 2_048 {
                    return Err(8);
                }
                let element = usize::from(fields[0]);
                let next = element == elements.len() + 1;
                if element == 0 || element > 64 || !(next || element == elements.len()) {
                    return Err(5);
                }
                let mut exponents = [0; 8];
                exponents[..usize::from(n)].copy_from_slice(&fields[3..]);
                let in_range = (1..p).contains(&fields[1])
                    && (1..=s).contains(&fields[2])
                    && exponents.iter().all(|e| *e <= 255);
                if !in_range {
                    return Err(4);
                }
                let term = Term {
                    coefficient: fields[1],
                    monomial: Monomial {
                        component: fields[2],
                        exponents,
                    },
                };
                if next {
                    elements.push(vec![term]);
                    continue;
                }
                let own = &mut elements[element - 1];
                let before = &own[own.len() - 1].monomial;
                if module.compare(&term.monomial, before) != Ordering::Less {
                    return Err(6);
                }
                own.push(term);
            }
            b'E' => {
                let &[count] = &fields[..] else {
                    return Err(1);
                };
                if count == 0 || count != t_lines {
                    return Err(7);
                }
                if lines.next().is_some() {
                    return Err(1);
                }
                return Ok(Engine {
                    field: Field { p: u32::from(p) },
                    order,
                    components: s,
                    levels: vec![elements],
                });
            }
            _ => return Err(1),
        }
    }
}

/// The letter of a line; the numbers after it go into `fields`.
fn fields_of(line: Option<&[u8]>, fields: &mut Vec<u16>) -> Result<u8, Refused> {
    let Some([line @ .., b'\n']) = line else {
        return Err(1);
    };
    fields.clear();
    let mut parts = line.split(|byte| *byte == b',');
    let Some(&[letter]) = parts.next() else {
        return Err(1);
    };
    for part in parts {
        if part.is_empty() || part.len() > 5 || (part.len() > 1 && part[0] == b'0') {
            return Err(1);
        }
        let mut value: u32 = 0;
        for byte in part {
            if !byte.is_ascii_digit() {
                return Err(1);
            }
            value = 10 * value + u32::from(byte - b'0');
        }
        fields.push(u16::try_from(value).map_err(|_| 1_u16)?);
    }
    Ok(letter)
}
