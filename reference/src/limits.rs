// SPDX-License-Identifier: MIT OR Apache-2.0
//! The limits of document 01, as numbers that a test may make smaller.

/// Every limit of document 01. All rules ask this struct, so that a test can meet refusals 5, 8
/// and 13 to 15 with small files.
///
/// Two limits are part of the shape of the data and may be lowered but not raised: a monomial
/// has eight exponents, and levels run to 9. In a buffer an exponent is a byte: its limit may be
/// above 255 only where there are no buffers.
#[derive(Clone, Copy, Debug, PartialEq, Eq)]
pub struct Limits {
    /// "The upper end for p becomes 65,535" (request A4)
    pub prime_bound: u64,
    /// "n variables, 1 to 8"
    pub variables: u64,
    /// "s components, 1 to 16"
    pub components: u64,
    /// "r elements, 1 to 64"
    pub elements: u64,
    /// "exponent 0 to 255"
    pub exponent: u64,
    /// "2,048 T lines"
    pub t_lines: u64,
    /// "file 65,536 bytes"
    pub file: u64,
    /// "A field after the letter is a number from 0 to 65,535"
    pub field: u64,
    /// "128 vectors .. in a level above 0"
    pub vectors: u64,
    /// "2,048 terms in a level above 0"
    pub level_terms: u64,
    /// "levels 1 to 9"
    pub levels: u64,
    /// "512 terms in a working value"; the hybrid way may be lent a work buffer for fewer (request
    /// A11)
    pub working: u64,
    /// "512 terms .. in a vector above level 0"
    pub vector: u64,
    /// "4,096 terms in the tree's work area"
    pub tree: u64,
}

/// "A line `D,d1,..,ds`, each 0 to 255" (request A5). It is no limit that a test can make smaller.
pub const MOST_DEGREE: u64 = 255;

/// "A line `G,a1,b1,..,an,bn`, weights 0 to 15" (request A14). Nor is this.
pub const MOST_WEIGHT: u64 = 15;

/// "A buffer for fewer than 32 is refusal 16" (request A11). Nor is this.
pub const LEAST_ROOM: u64 = 32;

/// The names of the limits, in the order of the struct.
pub const LIMIT_NAMES: [&str; 14] = [
    "prime_bound",
    "variables",
    "components",
    "elements",
    "exponent",
    "t_lines",
    "file",
    "field",
    "vectors",
    "level_terms",
    "levels",
    "working",
    "vector",
    "tree",
];

impl Limits {
    /// The limits as document 01 and the requests that have landed state them.
    pub fn document_01() -> Limits {
        Limits {
            prime_bound: 65_535,
            variables: 8,
            components: 16,
            elements: 64,
            exponent: 255,
            t_lines: 2_048,
            file: 65_536,
            field: 65_535,
            vectors: 128,
            level_terms: 2_048,
            levels: 9,
            working: 512,
            vector: 512,
            tree: 4_096,
        }
    }

    /// The limit of that name.
    pub fn get(&self, name: &str) -> Option<u64> {
        let mut copy = *self;
        copy.slot(name).map(|slot| *slot)
    }

    /// Sets the limit of that name. Numbers that the data's shape or their place in a buffer
    /// cannot hold are turned down with a sentence that says so.
    pub fn set(&mut self, name: &str, value: u64) -> Result<(), String> {
        let most = match name {
            "variables" => 8,
            "levels" => 9,
            "exponent" => 255,
            "prime_bound" | "components" | "elements" | "field" | "vectors" | "t_lines"
            | "level_terms" => 65_535,
            _ => 1 << 32,
        };
        let slot = self
            .slot(name)
            .ok_or_else(|| format!("no limit is called {name}"))?;
        if value > most {
            return Err(format!("the limit {name} can be at most {most}"));
        }
        *slot = value;
        Ok(())
    }

    fn slot(&mut self, name: &str) -> Option<&mut u64> {
        Some(match name {
            "prime_bound" => &mut self.prime_bound,
            "variables" => &mut self.variables,
            "components" => &mut self.components,
            "elements" => &mut self.elements,
            "exponent" => &mut self.exponent,
            "t_lines" => &mut self.t_lines,
            "file" => &mut self.file,
            "field" => &mut self.field,
            "vectors" => &mut self.vectors,
            "level_terms" => &mut self.level_terms,
            "levels" => &mut self.levels,
            "working" => &mut self.working,
            "vector" => &mut self.vector,
            "tree" => &mut self.tree,
            _ => return None,
        })
    }
}
