// SPDX-License-Identifier: MIT OR Apache-2.0
//! The program's commands.

use std::io::Write;
use std::path::PathBuf;
use std::process::{Command, Output, Stdio};

fn run(arguments: &[&str], input: &[u8]) -> Output {
    let mut child = Command::new(env!("CARGO_BIN_EXE_reference"))
        .args(arguments)
        .stdin(Stdio::piped())
        .stdout(Stdio::piped())
        .stderr(Stdio::piped())
        .spawn()
        .expect("the program starts");
    // the program may end before it has read all
    let _ = child.stdin.take().expect("an input").write_all(input);
    child.wait_with_output().expect("the program ends")
}

fn printed(arguments: &[&str], input: &[u8]) -> String {
    let output = run(arguments, input);
    assert!(output.status.success());
    String::from_utf8(output.stdout).expect("text")
}

const PROBLEM: &[u8] = b"R,7,2,1,1\nT,1,1,1,1,0\nT,1,1,1,0,1\nT,2,1,1,0,2\nT,2,1,1,0,0\nE,4\n";

const SHEET: &str = "S,1,1,1,2,1,0\nS,1,1,6,1,0,2\nS,1,1,6,1,0,0\nS,1,1,1,2,0,1\nZ,1,1\nZ,2,0\n";

fn directory(name: &str) -> PathBuf {
    let directory = PathBuf::from(env!("CARGO_TARGET_TMPDIR")).join(name);
    // what an earlier run left
    let _ = std::fs::remove_dir_all(&directory);
    directory
}

#[test]
fn sheets() {
    assert_eq!(printed(&["sheet"], PROBLEM), SHEET);
    let directory = directory("sheets");
    std::fs::create_dir_all(&directory).expect("a directory");
    let file = directory.join("problem");
    std::fs::write(&file, PROBLEM).expect("a file");
    let name = file.to_str().expect("a name");
    assert_eq!(printed(&["sheet", name], b""), SHEET);
    assert_eq!(printed(&["sheet", name, "--budget", "16"], b""), SHEET);
    assert_eq!(printed(&["sheet"], b""), "X,1,1\n");
    let output = run(&["sheet", "--budget", "15"], PROBLEM);
    assert_eq!(output.status.code(), Some(3));
    assert!(output.stdout.is_empty());
}

#[test]
fn betti_pages() {
    let problem = b"R,7,2,1,1\nT,1,1,1,2,0\nT,2,1,1,1,1\nT,3,1,1,0,2\nE,3\n";
    let dashes = "     -".repeat(8);
    let page = format!(
        "    0:     1     -     -{dashes}\n    1:     -     3     2{dashes}\n total     1     3     2{dashes}\n"
    );
    assert_eq!(printed(&["betti"], problem), page);
    let directory = directory("betti");
    std::fs::create_dir_all(&directory).expect("a directory");
    let file = directory.join("problem");
    std::fs::write(&file, problem).expect("a file");
    let name = file.to_str().expect("a name");
    assert_eq!(printed(&["betti", name], b""), page);
    assert_eq!(printed(&["betti", name, "--budget", "8"], b""), page);
    assert_eq!(printed(&["betti"], b""), "X,1,1\n");
    assert_eq!(printed(&["betti"], PROBLEM), "X,17,2\n");
    let output = run(&["betti", "--budget", "7"], problem);
    assert_eq!(output.status.code(), Some(3));
    assert!(output.stdout.is_empty());
    assert_eq!(run(&["betti", name, name], b"").status.code(), Some(2));
    let missing = run(&["betti", "no such file"], b"");
    assert_eq!(missing.status.code(), Some(2));
}

#[test]
fn bidegree_lines() {
    let problem = b"R,7,4,3,1\nG,1,0,1,0,0,1,0,1\nT,1,1,1,1,0,1,0\nT,2,1,1,0,1,0,1\nE,2\n";
    let lines = "B,0,0,0,1\nB,1,1,1,2\nB,2,2,2,1\n";
    assert_eq!(printed(&["bidegrees"], problem), lines);
    let directory = directory("bidegrees");
    std::fs::create_dir_all(&directory).expect("a directory");
    let file = directory.join("problem");
    std::fs::write(&file, problem).expect("a file");
    let name = file.to_str().expect("a name");
    assert_eq!(printed(&["bidegrees", name], b""), lines);
    assert_eq!(printed(&["bidegrees"], b""), "X,1,1\n");
    assert_eq!(printed(&["bidegrees"], PROBLEM), "X,25,2\n");
    assert_eq!(printed(&["sheet"], problem).lines().count(), 4);
    let output = run(&["bidegrees", "--budget", "0"], problem);
    assert_eq!(output.status.code(), Some(3));
    assert!(output.stdout.is_empty());
    assert_eq!(run(&["bidegrees", name, name], b"").status.code(), Some(2));
    let missing = run(&["bidegrees", "no such file"], b"");
    assert_eq!(missing.status.code(), Some(2));
}

#[test]
fn hilbert_lines() {
    let zeros: String = (2..=32).map(|d| format!("H,{d},0\n")).collect();
    let lines = format!("H,0,1\nH,1,1\n{zeros}");
    assert_eq!(printed(&["hilbert"], PROBLEM), lines);
    let directory = directory("hilbert");
    std::fs::create_dir_all(&directory).expect("a directory");
    let file = directory.join("problem");
    std::fs::write(&file, PROBLEM).expect("a file");
    let name = file.to_str().expect("a name");
    assert_eq!(printed(&["hilbert", name], b""), lines);
    assert_eq!(printed(&["hilbert", name, "--budget", "16"], b""), lines);
    assert_eq!(printed(&["hilbert"], b""), "X,1,1\n");
    let output = run(&["hilbert", "--budget", "15"], PROBLEM);
    assert_eq!(output.status.code(), Some(3));
    assert!(output.stdout.is_empty());
    assert_eq!(run(&["hilbert", name, name], b"").status.code(), Some(2));
    let missing = run(&["hilbert", "no such file"], b"");
    assert_eq!(missing.status.code(), Some(2));
}

#[test]
fn minimal_page() {
    let problem = b"R,7,2,1,1\nT,1,1,1,1,0\nT,2,1,1,1,0\nT,3,1,1,0,1\nE,3\n";
    let dashes = "     -".repeat(8);
    let page = format!(
        "   -1:     -     -     -{dashes}\n    0:     1     2     1{dashes}\n \
         total     1     2     1{dashes}\n"
    );
    assert_eq!(printed(&["minimal"], problem), page);
    let directory = directory("minimal");
    std::fs::create_dir_all(&directory).expect("a directory");
    let file = directory.join("problem");
    std::fs::write(&file, problem).expect("a file");
    let name = file.to_str().expect("a name");
    assert_eq!(printed(&["minimal", name], b""), page);
    assert_eq!(printed(&["minimal", name, "--budget", "8"], b""), page);
    assert_eq!(printed(&["minimal"], b""), "X,1,1\n");
    assert_eq!(printed(&["minimal"], PROBLEM), "X,17,2\n");
    let output = run(&["minimal", "--budget", "7"], problem);
    assert_eq!(output.status.code(), Some(3));
    assert!(output.stdout.is_empty());
    assert_eq!(run(&["minimal", name, name], b"").status.code(), Some(2));
    let missing = run(&["minimal", "no such file"], b"");
    assert_eq!(missing.status.code(), Some(2));
}

#[test]
fn completed_files() {
    let given = "R,7,2,1,1\nT,1,1,1,2,0\nT,2,1,1,1,1\nT,2,1,1,0,2\n";
    let problem = format!("{given}E,3\n");
    let completed = format!("{given}T,3,1,1,0,3\nE,4\n");
    assert_eq!(printed(&["complete"], problem.as_bytes()), completed);
    assert_eq!(printed(&["complete"], completed.as_bytes()), completed);
    assert_eq!(printed(&["complete"], b""), "X,1,1\n");
    let output = run(&["complete", "--budget", "3"], problem.as_bytes());
    assert_eq!(output.status.code(), Some(3));
    assert!(output.stdout.is_empty());
    assert_eq!(run(&["complete", "a", "b"], b"").status.code(), Some(2));
}

#[test]
fn membership() {
    let input = [PROBLEM, b"V,1,1,1,0\nV,2,1,0,1\n"].concat();
    let lines = "C,1,1,0,0\nW,1,1,0,1\nM,0\n";
    assert_eq!(printed(&["membership"], &input), lines);
    assert_eq!(printed(&["membership"], PROBLEM), "M,1\n");
    let directory = directory("membership");
    std::fs::create_dir_all(&directory).expect("a directory");
    let file = directory.join("input");
    std::fs::write(&file, &input).expect("a file");
    let name = file.to_str().expect("a name");
    assert_eq!(printed(&["membership", name], b""), lines);
    assert_eq!(printed(&["membership"], b""), "X,1,1\n");
    assert_eq!(
        printed(&["membership"], &[PROBLEM, b"\n"].concat()),
        "X,23,7\n"
    );
    let output = run(&["membership", "--budget", "0"], &input);
    assert_eq!(output.status.code(), Some(3));
    assert!(output.stdout.is_empty());
    assert_eq!(run(&["membership", name, name], b"").status.code(), Some(2));
}

#[test]
fn replayed_logs() {
    let log = b"L,1,1\nP,1,0,1\nP,1,2,1\nP,0,3,1\n";
    let input = [PROBLEM, log].concat();
    let vector = SHEET.split_once("Z").map_or("", |(vector, _)| vector);
    assert_eq!(printed(&["replay"], &input), vector);
    let directory = directory("replay");
    std::fs::create_dir_all(&directory).expect("a directory");
    let file = directory.join("input");
    std::fs::write(&file, &input).expect("a file");
    let name = file.to_str().expect("a name");
    assert_eq!(printed(&["replay", name], b""), vector);
    assert_eq!(printed(&["replay"], b""), "X,1,1\n");
    assert_eq!(printed(&["replay"], PROBLEM), "X,21,7\n");
    assert_eq!(printed(&["replay"], &input[..input.len() - 8]), "X,22,10\n");
    let output = run(&["replay", "--budget", "0"], &input);
    assert_eq!(output.status.code(), Some(3));
    assert!(output.stdout.is_empty());
    assert_eq!(run(&["replay", name, name], b"").status.code(), Some(2));
}

#[test]
fn steps() {
    let counted = "3 steps; no pick can be refused\n";
    assert_eq!(printed(&["steps"], PROBLEM), counted);
    assert_eq!(printed(&["steps", "--budget", "3"], PROBLEM), counted);
    let stopped = "more than 2 steps, counting stopped; no pick can be refused\n";
    assert_eq!(printed(&["steps", "--budget", "2"], PROBLEM), stopped);
    assert_eq!(printed(&["tree-sheet"], PROBLEM), SHEET);
    assert_eq!(printed(&["tree-sheet"], b""), "X,1,1\n");
    assert_eq!(run(&["steps"], b"").status.code(), Some(2));
}

#[test]
fn calls() {
    let text = "limits levels=1\nread -\nlift 1 division\nfetch 10 1\n";
    let expected = "1 1 -\n11 0 -\n11 0 -\nlevels 0\nreckoned 0\ndegrees 0\n";
    assert_eq!(printed(&["calls"], text.as_bytes()), expected);
    assert_eq!(run(&["calls"], b"red -\n").status.code(), Some(2));
}

#[test]
fn generated_cases_agree_with_the_program() {
    let directory = directory("generated");
    let name = directory.to_str().expect("a name");
    for kind in [
        "small",
        "bases",
        "damaged",
        "limits",
        "weighted",
        "calls",
        "weighted-calls",
        "graded",
        "mixed",
        "stopped",
        "pages",
        "bigraded",
        "bimixed",
        "bistopped",
        "bidegrees",
        "low",
        "hilbert",
        "redundant",
        "minimal",
        "slow",
        "divided",
        "vectors",
        "incomplete",
        "generators",
        "recorded",
        "logs",
    ] {
        assert_eq!(printed(&["generate", kind, "5", "8", name], b""), "");
        let (command, input, output) = match kind {
            "calls" | "weighted-calls" => ("calls", "calls", "answers"),
            "graded" | "mixed" | "stopped" | "pages" => ("betti", "in", "page"),
            "bigraded" | "bimixed" | "bistopped" | "bidegrees" => ("bidegrees", "in", "lines"),
            "low" | "hilbert" => ("hilbert", "in", "lines"),
            "redundant" | "minimal" => ("minimal", "in", "page"),
            "incomplete" | "generators" => ("complete", "in", "completed"),
            "recorded" | "logs" => ("replay", "in", "lines"),
            "divided" | "vectors" => ("membership", "in", "lines"),
            "slow" => ("tree-sheet", "in", "out"),
            _ => ("sheet", "in", "out"),
        };
        for case in 1..=8 {
            let read = |ending: &str| {
                let file = directory.join(format!("{kind}-5-{case}.{ending}"));
                std::fs::read(file).expect("a generated file")
            };
            let again = printed(&[command], &read(input));
            assert_eq!(again.as_bytes(), read(output), "{kind} {case}");
        }
    }
    assert_eq!(
        run(&["generate", "odd", "1", "1", name], b"").status.code(),
        Some(2)
    );
}

#[test]
fn help() {
    let help = printed(&["help"], b"");
    for word in [
        "sheet",
        "betti",
        "bidegrees",
        "hilbert",
        "minimal",
        "redundant",
        "complete",
        "generators",
        "membership",
        "vectors",
        "replay",
        "logs",
        "tree-sheet",
        "steps",
        "slow",
        "calls",
        "generate",
        "pages",
        "weighted",
        "levels",
        "reckoned",
        "degrees",
        "--budget",
    ] {
        assert!(help.contains(word));
    }
    assert_eq!(run(&["no such"], b"").status.code(), Some(2));
}
