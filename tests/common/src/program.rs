// SPDX-License-Identifier: MIT OR Apache-2.0
//! A program that people run, as a process: a file on its standard input, what it writes on its standard output.

use std::io::{Read, Write};
use std::path::{Path, PathBuf};
use std::process::{Command, Stdio};

/// How the program gets its file.
#[derive(Clone, Copy)]
pub enum By {
    /// as standard input itself
    File,
    /// through a pipe, in parts of that many bytes
    Pipe(usize),
}

/// The program, and the file that stands for its standard input.
pub struct Program {
    words: Vec<String>,
    input: PathBuf,
}

impl Program {
    /// The program of this name under `target/bin`, or what this environment variable says: a program and words before it reads.
    pub fn new(name: &str, variable: &str) -> Program {
        let folder = Path::new(env!("CARGO_MANIFEST_DIR")).join("../../target/bin");
        let words = match std::env::var(variable) {
            Ok(said) => said.split_whitespace().map(str::to_string).collect(),
            Err(_) => vec![folder.join(name).to_string_lossy().into_owned()],
        };
        assert!(!words.is_empty(), "{variable} is empty");
        // in memory, where there is such a folder
        let folder = Some(PathBuf::from("/dev/shm")).filter(|folder| folder.is_dir());
        let folder = folder.unwrap_or_else(std::env::temp_dir);
        let input = folder.join(format!("test-{name}-{}", std::process::id()));
        Program { words, input }
    }

    pub fn name(&self) -> String {
        self.words.join(" ")
    }

    /// What the program writes for this file.
    pub fn run(&self, file: &[u8], by: By) -> Vec<u8> {
        let mut command = Command::new(&self.words[0]);
        command.args(&self.words[1..]).stdout(Stdio::piped());
        match by {
            By::File => {
                std::fs::write(&self.input, file).expect("a temporary file");
                let opened = std::fs::File::open(&self.input).expect("the temporary file");
                // it is open: nothing is left behind, however the test ends
                std::fs::remove_file(&self.input).expect("the temporary file");
                command.stdin(Stdio::from(opened));
            }
            By::Pipe(_) => {
                command.stdin(Stdio::piped());
            }
        }
        let mut child = command
            .spawn()
            .unwrap_or_else(|error| panic!("{}: {error}", self.words[0]));
        let mut printed = Vec::new();
        std::thread::scope(|scope| {
            if let By::Pipe(part) = by {
                let mut stdin = child.stdin.take().expect("a pipe");
                scope.spawn(move || {
                    for bytes in file.chunks(part) {
                        // it does not read a file that is too long to its end
                        if stdin.write_all(bytes).is_err() {
                            break;
                        }
                    }
                });
            }
            let mut stdout = child.stdout.take().expect("a pipe");
            stdout.read_to_end(&mut printed).expect("its output");
        });
        let status = child.wait().expect("it ends");
        assert!(status.success(), "the program ended with {status}");
        printed
    }
}
