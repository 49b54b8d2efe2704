// SPDX-License-Identifier: MIT OR Apache-2.0
//! How a test tells what it met, and what differs.

/// One more than the largest number of a refusal.
pub const NUMBERS: usize = 26;

/// The numbers that came, each with how often.
pub fn counts(met: &[u64]) -> Vec<String> {
    met.iter()
        .enumerate()
        .filter(|(_, count)| **count > 0)
        .map(|(number, count)| format!("{number}: {count}"))
        .collect()
}

/// The first bytes, at most so many, as text.
pub fn shown(bytes: &[u8], most: usize) -> String {
    bytes[..bytes.len().min(most)].escape_ascii().to_string()
}

/// Tells what differs at the file of this number, and ends the test.
pub fn differ(number: u64, file: &[u8], what: &str, ours: &[u8], expected: &[u8]) -> ! {
    let at = ours
        .iter()
        .zip(expected)
        .take_while(|(a, b)| a == b)
        .count();
    println!("file {number} ({} bytes): {what}", file.len());
    println!("file: {}", shown(file, 1_000));
    println!("the same up to byte {at}; from there on");
    println!("printed: {}", shown(&ours[at..], 1_000));
    println!("expected: {}", shown(&expected[at..], 1_000));
    std::process::exit(1);
}
