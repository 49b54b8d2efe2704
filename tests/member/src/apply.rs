// SPDX-License-Identifier: MIT OR Apache-2.0
//! What was printed of a division against the input's text: arithmetic of this file's own, on terms as they stand in lines.

use std::collections::BTreeMap;

/// Component and exponents.
type Monomial = (u64, Vec<u64>);

/// Terms that are not zero.
type Sum = BTreeMap<Monomial, u64>;

/// The elements and the vector of an input, or quotients and remainder of what was printed: a letter and its numbers.
fn lines(text: &[u8]) -> impl Iterator<Item = (&str, Vec<u64>)> {
    let text = std::str::from_utf8(text).expect("it was read, or printed");
    text.lines().map(|line| {
        let (letter, numbers) = line.split_once(',').expect("fields");
        let numbers = numbers
            .split(',')
            .map(|field| field.parse().expect("a number"));
        (letter, numbers.collect())
    })
}

fn add(sum: &mut Sum, p: u64, coefficient: u64, monomial: Monomial) {
    let entry = sum.entry(monomial).or_insert(0);
    *entry = (*entry + coefficient) % p;
}

/// An input that was divided.
pub struct Divided {
    p: u64,
    pub components: u64,
    elements: Vec<Vec<(u64, Monomial)>>,
    pub vector: Vec<(u64, Monomial)>,
}

impl Divided {
    pub fn of(input: &[u8]) -> Divided {
        let mut all = lines(input);
        let (_, head) = all.next().expect("R");
        let mut divided = Divided {
            p: head[0],
            components: head[3],
            elements: Vec::new(),
            vector: Vec::new(),
        };
        for (letter, numbers) in all {
            match letter {
                "T" => {
                    let element = numbers[0] as usize;
                    divided.elements.resize(element, Vec::new());
                    let term = (numbers[1], (numbers[2], numbers[3..].to_vec()));
                    divided.elements[element - 1].push(term);
                }
                "V" => {
                    let term = (numbers[0], (numbers[1], numbers[2..].to_vec()));
                    divided.vector.push(term);
                }
                _ => {}
            }
        }
        divided
    }

    fn divides(&self, monomial: &Monomial) -> bool {
        self.elements.iter().any(|element| {
            let (component, exponents) = &element[0].1;
            *component == monomial.0 && exponents.iter().zip(&monomial.1).all(|(a, b)| a <= b)
        })
    }

    /// Quotients applied to the elements plus the remainder are the vector, no leading monomial divides a term of the remainder, and M says whether there is
    /// one: what is wrong, or how many terms the quotients and the remainder have.
    pub fn against(&self, printed: &[u8]) -> Result<(usize, usize), &'static str> {
        let mut sum = Sum::new();
        let (mut quotients, mut remainder) = (0, 0);
        let mut said = None;
        for (letter, numbers) in lines(printed) {
            if said.is_some() {
                return Err("something stands behind the M line");
            }
            match letter {
                "C" => {
                    if remainder > 0 {
                        return Err("a C line stands behind a W line");
                    }
                    quotients += 1;
                    let (c, element, by) = (numbers[0], numbers[1] as usize, &numbers[2..]);
                    for (coefficient, (component, exponents)) in &self.elements[element - 1] {
                        let product = exponents.iter().zip(by).map(|(a, b)| a + b).collect();
                        add(&mut sum, self.p, c * coefficient, (*component, product));
                    }
                }
                "W" => {
                    remainder += 1;
                    let monomial = (numbers[1], numbers[2..].to_vec());
                    if self.divides(&monomial) {
                        return Err("a term of the remainder has a reducer");
                    }
                    add(&mut sum, self.p, numbers[0], monomial);
                }
                "M" => said = Some(numbers[0]),
                _ => return Err("a line of another letter"),
            }
        }
        if said != Some(u64::from(remainder == 0)) {
            return Err("M does not tell whether there is a remainder");
        }
        for (coefficient, monomial) in &self.vector {
            add(&mut sum, self.p, self.p - coefficient, monomial.clone());
        }
        if sum.values().any(|coefficient| *coefficient != 0) {
            return Err("quotients applied to the elements plus the remainder are another vector");
        }
        Ok((quotients, remainder))
    }
}
