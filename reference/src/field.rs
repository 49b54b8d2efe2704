// SPDX-License-Identifier: MIT OR Apache-2.0
//! "A coefficient is 1 to p − 1; sum and product are the remainders modulo p."

/// Whether `p` is a prime number.
pub fn is_prime(p: u64) -> bool {
    p >= 2
        && (2..)
            .take_while(|d| d * d <= p)
            .all(|d| !p.is_multiple_of(d))
}

/// The numbers modulo a prime.
#[derive(Clone, Copy, Debug)]
pub struct Field {
    p: u64,
}

impl Field {
    /// The field of `p` elements; `p` has to be a prime below 2^32.
    pub fn new(p: u64) -> Field {
        Field { p }
    }

    /// The sum.
    pub fn add(&self, a: u64, b: u64) -> u64 {
        (a + b) % self.p
    }

    /// The product.
    pub fn multiply(&self, a: u64, b: u64) -> u64 {
        a * b % self.p
    }

    /// The number that gives zero with `a`.
    pub fn negate(&self, a: u64) -> u64 {
        (self.p - a) % self.p
    }

    /// The inverse of a non-zero number: its power p − 2.
    pub fn inverse(&self, a: u64) -> u64 {
        self.power(a, self.p - 2)
    }

    /// `a` times the inverse of `b`, which is not zero.
    pub fn divide(&self, a: u64, b: u64) -> u64 {
        self.multiply(a, self.inverse(b))
    }

    fn power(&self, a: u64, exponent: u64) -> u64 {
        if exponent == 0 {
            return 1 % self.p;
        }
        let half = self.power(self.multiply(a, a), exponent / 2);
        if exponent % 2 == 1 {
            self.multiply(a, half)
        } else {
            half
        }
    }
}
