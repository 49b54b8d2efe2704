// SPDX-License-Identifier: MIT OR Apache-2.0
//! All tests of the unrelated implementation, as one program: compiled and linked once.

mod bases;
mod betti;
mod bidegrees;
mod buffers;
mod call_lists;
mod common;
mod completing;
mod damaged;
mod degrees;
mod examples;
mod hilbert;
mod instances;
mod literal;
mod membership;
mod minimal;
mod program;
mod refusals;
mod replay;
mod rooms;
mod steps;

use std::collections::BTreeSet;
use std::path::Path;

/// Cargo no longer finds the files by itself: one that is not named above would not be run, and neither would a test among the sources.
#[test]
fn every_file_is_part_of_this_program() {
    let own = include_str!("main.rs");
    let named: BTreeSet<String> = own
        .lines()
        .filter_map(|line| line.strip_prefix("mod ")?.strip_suffix(';'))
        .map(str::to_string)
        .collect();
    let reference = Path::new(env!("CARGO_MANIFEST_DIR"));
    let there: BTreeSet<String> = std::fs::read_dir(reference.join("tests"))
        .expect("this folder")
        .map(|entry| entry.expect("an entry").path())
        .filter_map(|path| Some(path.file_stem()?.to_str()?.to_string()))
        .filter(|name| name != "main")
        .collect();
    assert_eq!(named, there);
    let mut folders = vec![reference.join("src")];
    while let Some(folder) = folders.pop() {
        for entry in std::fs::read_dir(folder).expect("a folder of sources") {
            let path = entry.expect("an entry").path();
            if path.is_dir() {
                folders.push(path);
            } else {
                let text = std::fs::read_to_string(&path).expect("a source");
                assert!(!text.contains("#[test]"), "{path:?} has a test");
            }
        }
    }
}
