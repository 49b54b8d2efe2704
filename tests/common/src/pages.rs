// SPDX-License-Identifier: MIT OR Apache-2.0
//! A page in the layout of the Betti page: its labels and its numbers.

use std::collections::BTreeMap;

/// Numbers that are not zero, by column and degree.
pub type Numbers = BTreeMap<(u64, u64), u64>;

/// The columns of a page.
pub const COLUMNS: usize = 11;

/// The labels of the lines, the last one's too.
pub fn labels(page: &[u8]) -> Vec<&str> {
    text(page).lines().map(|line| &line[..6]).collect()
}

/// The numbers of the rows, by column and degree, which is the row plus the column.
pub fn by_degree(page: &[u8]) -> Numbers {
    let mut numbers = Numbers::new();
    for line in text(page).lines() {
        let words: Vec<&str> = line.split_whitespace().collect();
        let Some(row) = words[0].strip_suffix(':') else {
            continue;
        };
        let row: i64 = row.parse().expect("a row");
        for (column, count) in (0_i64..).zip(&words[1..]) {
            if *count != "-" {
                let degree = u64::try_from(row + column).expect("a degree");
                numbers.insert((column as u64, degree), count.parse().expect("a count"));
            }
        }
    }
    numbers
}

/// The numbers of the last line, by column.
pub fn totals(page: &[u8]) -> [u64; COLUMNS] {
    let last = text(page).lines().last().expect("a last line");
    let mut words = last.split_whitespace();
    assert_eq!(words.next(), Some("total"));
    std::array::from_fn(|_| match words.next() {
        Some("-") => 0,
        word => word.expect("a total").parse().expect("a number"),
    })
}

fn text(page: &[u8]) -> &str {
    std::str::from_utf8(page).expect("text")
}
