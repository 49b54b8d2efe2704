// SPDX-License-Identifier: MIT OR Apache-2.0
//! Prints the minimal Betti numbers of a problem file. Prints what bindings/c/minimal.c prints.
//!
//!     minimal FILE
//!
//! `page` says how it ends.

mod page;

fn main() -> std::process::ExitCode {
    page::main("minimal", tagetessash::minimal)
}
