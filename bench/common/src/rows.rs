// SPDX-License-Identifier: MIT OR Apache-2.0
//! Numbers and rows, the same in every run.

use common::buffers::{row, ROW};

/// A source of numbers, from a seed on: a linear congruence modulo 2^64, of which the upper half is used.
pub struct Numbers(pub u64);

impl Numbers {
    pub fn below(&mut self, bound: u64) -> u64 {
        self.0 = self
            .0
            .wrapping_mul(6_364_136_223_846_793_005)
            .wrapping_add(1_442_695_040_888_963_407);
        (self.0 >> 33) % bound
    }

    /// A row of eight variables with exponents up to a bound.
    pub fn row(&mut self, coefficient: u16, component: u16, most: u64) -> [u16; ROW] {
        let exponents = std::array::from_fn(|_| self.below(most + 1) as u8);
        row(coefficient, component, exponents)
    }
}
