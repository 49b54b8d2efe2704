// SPDX-License-Identifier: MIT OR Apache-2.0
//! Prints the Betti page of a problem file. Prints what bindings/c/betti.c prints.
//!
//!     betti FILE
//!
//! `page` says how it ends.

mod page;

fn main() -> std::process::ExitCode {
    page::main("betti", tagetessash::betti)
}
