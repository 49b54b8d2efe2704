// SPDX-License-Identifier: MIT OR Apache-2.0
//! Prints a problem file completed to a Gröbner basis. Prints what bindings/c/complete.c prints.
//!
//!     complete FILE
//!
//! `page` says how it ends.

mod page;

fn main() -> std::process::ExitCode {
    page::main("complete", tagetessash::completed)
}
