// SPDX-License-Identifier: MIT OR Apache-2.0
//! Prints the Hilbert function of a problem file. Prints what bindings/c/hilbert.c prints.
//!
//!     hilbert FILE
//!
//! `page` says how it ends.

mod page;

fn main() -> std::process::ExitCode {
    page::main("hilbert", tagetessash::hilbert)
}
