// SPDX-License-Identifier: MIT OR Apache-2.0
//! What several of the tests and benches use.
//!
//! - [`arguments`]: what a test is asked for on its command line.
//! - [`buffers`]: lengths and places in the lent buffers, by name.
//! - [`program`]: a program that people run, as a process. [`call`]: a public call that prints, in the test's own. [`printer`]: the two together.
//! - [`printing`]: these against the unrelated implementation, file by file. [`series`]: the files that each of these tests takes.
//! - [`pages`]: the numbers of a page in the layout of the Betti page.
//! - [`report`]: how a test tells what it met, and what differs.
//! - [`files`]: problem files, and every way to damage one.
//! - [`states`]: sound states, and every way to alter one.
//! - [`examples`]: the files of `examples/`.
//! - [`deep`]: bases over which the tree goes down as deep as its work area allows.

pub mod arguments;
pub mod buffers;
pub mod call;
pub mod deep;
pub mod examples;
pub mod files;
pub mod pages;
pub mod printer;
pub mod printing;
pub mod program;
pub mod report;
pub mod series;
pub mod states;
