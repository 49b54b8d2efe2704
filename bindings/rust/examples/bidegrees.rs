// SPDX-License-Identifier: MIT OR Apache-2.0
//! Prints the bidegrees of a problem file. Prints what bindings/c/bidegrees.c prints.
//!
//!     bidegrees FILE
//!
//! `page` says how it ends.

mod page;

fn main() -> std::process::ExitCode {
    page::main("bidegrees", tagetessash::bidegrees)
}
