// SPDX-License-Identifier: MIT OR Apache-2.0
//! The file's order, and the induced order of each level.

use crate::monomial::{degree, leading_monomial, multiply, Exponents, Level, Monomial, VARIABLES};
use std::cmp::Ordering;

/// "The order code is 1 for lexicographic, 2 for degree then lexicographic, 3 for degree reverse
/// lexicographic. In all three x1 is the greatest variable."
#[derive(Clone, Copy, Debug, PartialEq, Eq)]
pub enum Order {
    /// order code 1
    Lexicographic,
    /// order code 2
    DegreeLexicographic,
    /// order code 3
    DegreeReverseLexicographic,
}

impl Order {
    /// The order that a code means, 1 to 3.
    pub fn from_code(code: u64) -> Option<Order> {
        match code {
            1 => Some(Order::Lexicographic),
            2 => Some(Order::DegreeLexicographic),
            3 => Some(Order::DegreeReverseLexicographic),
            _ => None,
        }
    }

    /// Compares two power products.
    pub fn compare(&self, a: &Exponents, b: &Exponents) -> Ordering {
        match self {
            Order::Lexicographic => a.cmp(b),
            Order::DegreeLexicographic => degree(a).cmp(&degree(b)).then_with(|| a.cmp(b)),
            // "In code 3 higher total degree is greater; at equal degree, the last differing
            // exponent decides and the smaller one there is greater."
            Order::DegreeReverseLexicographic => degree(a)
                .cmp(&degree(b))
                .then_with(|| b.iter().rev().cmp(a.iter().rev())),
        }
    }

    /// A list of numbers whose first difference decides as `compare` does.
    fn rank(&self, a: &Exponents) -> [i64; VARIABLES + 1] {
        let mut rank = [0; VARIABLES + 1];
        match self {
            Order::Lexicographic => {
                for x in 0..VARIABLES {
                    rank[x] = a[x] as i64;
                }
            }
            Order::DegreeLexicographic => {
                rank[0] = degree(a) as i64;
                for x in 0..VARIABLES {
                    rank[1 + x] = a[x] as i64;
                }
            }
            Order::DegreeReverseLexicographic => {
                rank[0] = degree(a) as i64;
                for x in 0..VARIABLES {
                    rank[1 + x] = -(a[VARIABLES - 1 - x] as i64);
                }
            }
        }
        rank
    }
}

/// How many modules there are: that of level 0 and those of levels 1 to 9.
const MODULES: usize = 10;

/// A stand-in for a monomial in ordered maps. Keys of one module compare as its monomials do:
/// first the rank of the image on level 0, then its component there, then the index on each
/// level upward.
#[derive(Clone, Copy, Debug, PartialEq, Eq, PartialOrd, Ord)]
pub struct Key {
    rank: [i64; VARIABLES + 1],
    path: [u64; MODULES],
}

/// The modules of a state, one above the other. Module 0 is level 0's free module; module k has
/// one component for each element of `levels[k - 1]`.
#[derive(Clone, Copy, Debug)]
pub struct Modules<'a> {
    /// the file's order
    pub order: Order,
    /// the levels that the modules stand on
    pub levels: &'a [Level],
}

impl<'a> Modules<'a> {
    /// The modules over these levels.
    pub fn new(order: Order, levels: &'a [Level]) -> Modules<'a> {
        Modules { order, levels }
    }

    /// Compares two monomials of module k.
    pub fn compare(&self, k: usize, a: &Monomial, b: &Monomial) -> Ordering {
        let monomials = if k == 0 {
            // "On level 0's free module monomials are compared first; at a tie the larger
            // component is greater."
            self.order.compare(&a.exponents, &b.exponents)
        } else {
            // "m·e_i is above m'·e_j if the leading monomial of m·f_i is above that of m'·f_j,
            // or they are equal and i > j."
            self.compare(k - 1, &self.image(k, a), &self.image(k, b))
        };
        monomials.then(a.component.cmp(&b.component))
    }

    /// The leading monomial of m·f_i, for the monomial m·e_i of module k, k at least 1.
    pub fn image(&self, k: usize, a: &Monomial) -> Monomial {
        let leading = leading_monomial(&self.levels[k - 1][a.component as usize - 1]);
        Monomial {
            component: leading.component,
            exponents: multiply(&a.exponents, &leading.exponents),
        }
    }

    /// The image of a monomial of module k on level 0.
    pub fn image_below_all(&self, k: usize, a: &Monomial) -> Monomial {
        match k {
            0 => *a,
            _ => self.image_below_all(k - 1, &self.image(k, a)),
        }
    }

    /// The key of a monomial of module k: that of its image, and its component after it.
    pub fn key(&self, k: usize, a: &Monomial) -> Key {
        let mut key = if k == 0 {
            Key {
                rank: self.order.rank(&a.exponents),
                path: [0; MODULES],
            }
        } else {
            self.key(k - 1, &self.image(k, a))
        };
        key.path[k] = a.component;
        key
    }
}
