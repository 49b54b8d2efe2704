// SPDX-License-Identifier: MIT OR Apache-2.0
//! The monomials that no leading monomial divides, counted one by one from the text of a file that is a Gröbner basis: no reader, no order, no resolution. The
//! first T line of an element has its leading monomial.

/// What the count needs of a file: how many variables, the degree of each component, and component and exponents of each leading monomial.
pub struct Leads {
    pub variables: usize,
    pub degrees: Vec<usize>,
    pub monomials: Vec<(usize, Vec<usize>)>,
}

impl Leads {
    pub fn of(file: &[u8]) -> Leads {
        let text = std::str::from_utf8(file).expect("a file that is read");
        let mut leads = Leads {
            variables: 0,
            degrees: Vec::new(),
            monomials: Vec::new(),
        };
        let mut element = 0;
        for line in text.lines() {
            let numbers: Vec<usize> = line.split(',').skip(1).flat_map(str::parse).collect();
            match line.as_bytes()[0] {
                b'R' => {
                    leads.variables = numbers[1];
                    leads.degrees = vec![0; numbers[3]];
                }
                b'D' => leads.degrees = numbers,
                b'T' if numbers[0] != element => {
                    element = numbers[0];
                    leads.monomials.push((numbers[2], numbers[3..].to_vec()));
                }
                _ => {}
            }
        }
        leads
    }

    /// The numbers for degrees 0 to at most 32, as many of them as need no more than so many power products.
    pub fn standard_monomials(&self, most: usize) -> Vec<u64> {
        let mut left = 0;
        while left < 32 && power_products(self.variables, left + 1) <= most {
            left += 1;
        }
        // a component's own degree is left out of what is counted for it
        let least = self.degrees.iter().min().expect("a component");
        let highest = (left + least).min(32);
        let mut counts = vec![0; highest + 1];
        self.each_up_to(left, |exponents| {
            let own: usize = exponents.iter().sum();
            for (component, degree) in (1..).zip(&self.degrees) {
                if own + degree <= highest && !self.divides_some(component, exponents) {
                    counts[own + degree] += 1;
                }
            }
        });
        counts
    }

    fn divides_some(&self, component: usize, exponents: &[usize]) -> bool {
        self.monomials.iter().any(|(of, lead)| {
            let mut pairs = lead.iter().zip(exponents);
            *of == component && pairs.all(|(a, b)| a <= b)
        })
    }

    /// All power products of at most this degree.
    fn each_up_to(&self, degree: usize, mut each: impl FnMut(&[usize])) {
        let mut exponents = vec![0; self.variables];
        loop {
            each(&exponents);
            // the first exponent that can be raised, those before it back to 0
            let mut at = 0;
            loop {
                if at == self.variables {
                    return;
                }
                exponents[at] += 1;
                if exponents.iter().sum::<usize>() <= degree {
                    break;
                }
                exponents[at] = 0;
                at += 1;
            }
        }
    }
}

/// How many power products of at most this degree there are: one factor for each variable, so that it stays whole.
fn power_products(variables: usize, degree: usize) -> usize {
    (1..=variables).fold(1, |count, x| count * (degree + x) / x)
}

#[cfg(test)]
mod tests {
    use super::{power_products, Leads};

    #[test]
    fn each_once() {
        for variables in 1..=4 {
            for degree in 0..=5 {
                let leads = Leads {
                    variables,
                    degrees: vec![0],
                    monomials: Vec::new(),
                };
                let mut seen = std::collections::BTreeSet::new();
                leads.each_up_to(degree, |exponents| {
                    assert!(seen.insert(exponents.to_vec()));
                });
                assert_eq!(seen.len(), power_products(variables, degree));
            }
        }
    }

    /// x², xy, y² with tails, in the second of two components of degrees 2 and 1
    #[test]
    fn by_hand() {
        let file = "R,7,2,1,2\nD,2,1\nG,1,0,0,1\nT,1,1,2,2,0\nT,1,1,2,0,1\nT,2,1,2,1,1\nT,3,1,2,0,2\nE,4\n";
        let counts = Leads::of(file.as_bytes()).standard_monomials(10);
        // up to degree 3 in two variables there are ten
        assert_eq!(counts, [0, 1, 2 + 1, 2, 3]);
    }
}
