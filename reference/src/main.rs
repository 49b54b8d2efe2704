// SPDX-License-Identifier: MIT OR Apache-2.0
//! The program `reference`; `reference help` tells its commands.

#![forbid(unsafe_code)]

use reference::betti::page;
use reference::bidegrees::bidegrees;
use reference::completing::complete;
use reference::generate::cases::{
    bidegree_case, calls_case, file_case, generator_case, hilbert_case, log_case, minimal_case,
    page_case, slow_case, vector_case, BIDEGREE_KINDS, FILE_KINDS, GENERATOR_KINDS, HILBERT_KINDS,
    LOG_KINDS, MINIMAL_KINDS, PAGE_KINDS, SLOW_KIND, VECTOR_KINDS,
};
use reference::generate::scripts::Reach;
use reference::hilbert::hilbert;
use reference::lifting::Usage;
use reference::membership::{self, membership};
use reference::minimal::minimal;
use reference::replay::{self, replay};
use reference::script::Script;
use reference::sheet::{sheet, tree_sheet};
use reference::steps::{count_steps, lifted_by_tree, no_pick_is_refused, Steps};
use reference::{Limits, Printed};
use std::io::{Read, Write};
use std::path::Path;
use std::process::ExitCode;

const HELP: &str = "\
reference: a plain implementation of document 01

reference sheet [FILE] [--budget N]
    Prints the sheet for the problem file FILE (or standard input). With a budget it gives up,
    with exit code 3 and nothing printed, when more than N products would be formed.

reference betti [FILE] [--budget N]
    Prints the Betti page for the problem file FILE (or standard input), and gives up as above.

reference bidegrees [FILE] [--budget N]
    Prints how many generators of which bidegree each column of the Betti page has, likewise.

reference hilbert [FILE] [--budget N]
    Prints for each degree 0 to 32 how many monomials no leading monomial divides, by the
    alternating sum over the columns of the Betti page, likewise.

reference minimal [FILE] [--budget N]
    Prints the minimal Betti numbers as a page in the layout and the rows of the Betti page,
    likewise.

reference complete [FILE] [--budget N]
    Prints the problem file FILE (or standard input) with elements added, each the value that
    refusal 9 shows, made monic, until it is accepted; likewise.

reference membership [FILE] [--budget N]
    Reads a problem file with lines V,coefficient,component,e1,..,en behind its E, a term of a
    vector each, and prints the quotient terms (C), the remainder (W) and whether the vector is
    in the module (M,1 or M,0), likewise.

reference replay [FILE] [--budget N]
    Reads a problem file with a line L,level,vector and lines P,e1,..,en,component behind its E,
    the term picked at each step, and prints the vector in S lines, likewise.

reference tree-sheet [FILE] [--budget N]
    Prints the sheet as the tree with a large cache makes it, likewise: the same wherever neither
    13 nor 14 comes while lifting, and quick where pick code 2 takes very many steps.

reference steps [FILE] [--budget N]
    Prints how many steps (picks) the sheet takes, all levels together, counted up to N; and
    whether so few monomials are in reach that 13 and 14 cannot come, whatever is picked.

reference calls [--budget N]
    Reads a list of calls from standard input, one in a line:
        limits name=value ..    (optional, first) limits other than document 01's
        read HEXBYTES           a file's bytes, two hexadecimal digits each; `read -`: no bytes
        lift K division
        lift K hybrid P         P is the pick code
        lift K tree C           C is the cache's length in terms
        fetch K V
    Prints for each call `number place vector`, where the number is 0 if the call succeeded and
    the vector is the fetched one or the value that 9 leaves: terms c:component:e1.e2...e8 joined
    by `;`, or `-` if there is none. Then come three lines:
        levels N LEVEL ..       the N levels held at the end, level 0 first
        reckoned N LEVEL ..     the levels by the plain reckoning of the list
        degrees N DEGREES ..    the components' degrees, then those that each level held carries
    A LEVEL is its vectors joined by `/`, DEGREES are joined by `.`; either is `-` if there is
    none. Without a basis N is 0 and nothing follows it.
    With a budget it gives up, with exit code 3 and nothing printed, when the calls together
    would form more than N products, or when a level's reckoning takes more than 100 N steps.
    Limits: prime_bound variables components elements exponent t_lines file field vectors
    level_terms levels working vector tree.

reference generate KIND SEED COUNT DIR
    Writes COUNT cases to the directory DIR, which is made if it is missing; the same seed gives
    the same cases.
    small, bases, damaged, limits, weighted: problem files KIND-SEED-NUMBER.in with the sheets
        .out; those of weighted have G lines, right and wrong, the others none
    graded, mixed, stopped, pages: problem files KIND-SEED-NUMBER.in with the Betti pages .page:
        homogeneous ones; with an element of two degrees; refused while levels are lifted, or
        almost; all of these, plain, damaged and edited files
    bigraded, bimixed, bistopped, bidegrees: problem files KIND-SEED-NUMBER.in with their lines
        .lines: bihomogeneous ones; with an element of two bidegrees; refused while levels are
        lifted, or almost; all of these, plain, damaged and edited files
    low, hilbert: problem files KIND-SEED-NUMBER.in with their Hilbert functions .lines: with
        generators of degrees up to 32 and a little above, homogeneous or not; these and all
        files above
    redundant, minimal: problem files KIND-SEED-NUMBER.in with their minimal Betti numbers .page:
        homogeneous ones from whose resolutions much can be left out; these and all files above
    incomplete, generators: problem files KIND-SEED-NUMBER.in and the completed ones .completed:
        those to which something is added; these and all that can be wrong
    divided, vectors: problem files with V lines behind them KIND-SEED-NUMBER.in and what is
        printed of them .lines: those that are divided; these and all that can be wrong
    recorded, logs: problem files with L and P lines behind them KIND-SEED-NUMBER.in and what is
        printed of them .lines: logs that are taken; these and all that can be wrong
    slow: problem files slow-SEED-NUMBER.in that are accepted and take at least 100,000 steps by
        pick code 2, with the sheets .out as the tree makes them
    calls, weighted-calls: lists of calls KIND-SEED-NUMBER.calls with what they print, .answers;
        in those of weighted-calls half of the files have G lines

reference help
    Prints this.
";

/// The kinds of lists of calls.
const CALLS_KINDS: [&str; 2] = ["calls", "weighted-calls"];

/// Exit code for a budget used up.
const GAVE_UP: u8 = 3;

fn main() -> ExitCode {
    let arguments: Vec<String> = std::env::args().skip(1).collect();
    let words: Vec<&str> = arguments.iter().map(String::as_str).collect();
    match run(&words) {
        Ok(code) => code,
        Err(mistake) => {
            eprintln!("reference: {mistake}");
            ExitCode::from(2)
        }
    }
}

fn run(words: &[&str]) -> Result<ExitCode, String> {
    let (words, budget) = split_budget(words)?;
    match words.as_slice() {
        ["sheet", file @ ..] if file.len() < 2 => print_of(sheet, file, budget),
        ["betti", file @ ..] if file.len() < 2 => print_of(page, file, budget),
        ["bidegrees", file @ ..] if file.len() < 2 => print_of(bidegrees, file, budget),
        ["hilbert", file @ ..] if file.len() < 2 => print_of(hilbert, file, budget),
        ["minimal", file @ ..] if file.len() < 2 => print_of(minimal, file, budget),
        ["complete", file @ ..] if file.len() < 2 => print_of(complete, file, budget),
        ["membership", file @ ..] if file.len() < 2 => print_of(cut_membership, file, budget),
        ["replay", file @ ..] if file.len() < 2 => print_of(cut_replay, file, budget),
        ["tree-sheet", file @ ..] if file.len() < 2 => print_of(tree_sheet, file, budget),
        ["steps", file @ ..] if file.len() < 2 => print_steps(file, budget),
        ["calls"] => print_calls(&read_input()?, budget),
        ["generate", kind, seed, count, directory] => {
            let number = |word: &str| {
                word.parse::<u64>()
                    .map_err(|_| format!("{word} is not a number"))
            };
            generate(kind, number(seed)?, number(count)?, Path::new(directory))
        }
        ["help"] | ["--help"] | ["-h"] | [] => print(HELP.as_bytes()),
        _ => Err("no such command; `reference help` tells the commands".to_string()),
    }
}

/// Takes `--budget N` out of the words.
fn split_budget<'a>(words: &[&'a str]) -> Result<(Vec<&'a str>, Option<u64>), String> {
    let mut rest = Vec::new();
    let mut budget = None;
    let mut words = words.iter();
    while let Some(word) = words.next() {
        if *word == "--budget" {
            let number = words.next().and_then(|word| word.parse().ok());
            budget = Some(number.ok_or("--budget takes a number")?);
        } else {
            rest.push(*word);
        }
    }
    Ok((rest, budget))
}

fn read_input() -> Result<Vec<u8>, String> {
    let mut bytes = Vec::new();
    std::io::stdin()
        .read_to_end(&mut bytes)
        .map_err(|error| error.to_string())?;
    Ok(bytes)
}

fn print(bytes: &[u8]) -> Result<ExitCode, String> {
    let mut out = std::io::stdout().lock();
    out.write_all(bytes)
        .and_then(|()| out.flush())
        .map_err(|error| error.to_string())?;
    Ok(ExitCode::SUCCESS)
}

fn gave_up() -> Result<ExitCode, String> {
    eprintln!("reference: gave up, the budget is used up");
    Ok(ExitCode::from(GAVE_UP))
}

/// What is printed of the part of an input that can matter.
fn cut_membership(limits: &Limits, input: &[u8], budget: Option<u64>) -> (Option<Vec<u8>>, Usage) {
    membership(limits, membership::cut(limits, input), budget)
}

/// Likewise.
fn cut_replay(limits: &Limits, input: &[u8], budget: Option<u64>) -> (Option<Vec<u8>>, Usage) {
    replay(limits, replay::cut(limits, input), budget)
}

/// The bytes of the file named, or of standard input.
fn file_or_input(file: &[&str]) -> Result<Vec<u8>, String> {
    match file {
        [name, ..] => std::fs::read(name).map_err(|error| format!("{name}: {error}")),
        [] => read_input(),
    }
}

/// How many steps the sheet takes, counted up to the budget.
fn print_steps(file: &[&str], budget: Option<u64>) -> Result<ExitCode, String> {
    let limits = Limits::document_01();
    let file = file_or_input(file)?;
    let basis = lifted_by_tree(&limits, &file, u64::MAX).ok_or("the file is refused")?;
    let steps = match count_steps(&limits, &basis, budget.unwrap_or(u64::MAX)) {
        Ok(Steps::Exactly(steps)) => format!("{steps} steps"),
        Ok(Steps::MoreThan(cap)) => format!("more than {cap} steps, counting stopped"),
        Err(number) => format!("refused with {number}"),
    };
    let refused = match no_pick_is_refused(&limits, &basis) {
        true => "no pick can be refused",
        false => "some picks might be refused",
    };
    print(format!("{steps}; {refused}\n").as_bytes())
}

/// Prints that of the file named, or of standard input.
fn print_of(what: Printed, file: &[&str], budget: Option<u64>) -> Result<ExitCode, String> {
    let file = file_or_input(file)?;
    match what(&Limits::document_01(), &file, budget) {
        (Some(printed), _) => print(&printed),
        (None, _) => gave_up(),
    }
}

fn print_calls(input: &[u8], budget: Option<u64>) -> Result<ExitCode, String> {
    let text = std::str::from_utf8(input).map_err(|error| error.to_string())?;
    match Script::parse(text)?.run(budget) {
        Some(run) => print(run.text().as_bytes()),
        None => gave_up(),
    }
}

fn generate(kind: &str, seed: u64, count: u64, directory: &Path) -> Result<ExitCode, String> {
    let kinds = [
        &CALLS_KINDS[..],
        &FILE_KINDS,
        &PAGE_KINDS,
        &BIDEGREE_KINDS,
        &HILBERT_KINDS,
        &MINIMAL_KINDS,
        &GENERATOR_KINDS,
        &VECTOR_KINDS,
        &LOG_KINDS,
        &[SLOW_KIND],
    ];
    if !kinds.concat().contains(&kind) {
        return Err(format!(
            "{kind} is no kind; `reference help` tells the kinds"
        ));
    }
    std::fs::create_dir_all(directory)
        .map_err(|error| format!("{}: {error}", directory.display()))?;
    for case in 1..=count {
        let (parts, name) = (
            case_parts(kind, seed, case),
            format!("{kind}-{seed}-{case}"),
        );
        for (ending, bytes) in parts {
            let path = directory.join(format!("{name}.{ending}"));
            std::fs::write(&path, bytes).map_err(|error| format!("{}: {error}", path.display()))?;
        }
    }
    Ok(ExitCode::SUCCESS)
}

/// The two files of a case, with the endings of their names.
fn case_parts(kind: &str, seed: u64, case: u64) -> Vec<(&'static str, Vec<u8>)> {
    if CALLS_KINDS.contains(&kind) {
        let reach = match kind {
            "calls" => Reach::tiny(),
            _ => Reach::tiny().weighted(),
        };
        let (script, run) = calls_case(seed, case, &reach);
        return vec![
            ("calls", script.text().into_bytes()),
            ("answers", run.text().into_bytes()),
        ];
    }
    if kind == SLOW_KIND {
        let (file, sheet) = slow_case(seed, case);
        return vec![("in", file), ("out", sheet)];
    }
    let page = page_case(kind, seed, case).or_else(|| minimal_case(kind, seed, case));
    if let Some((file, page)) = page {
        return vec![("in", file), ("page", page)];
    }
    if let Some((file, completed)) = generator_case(kind, seed, case) {
        return vec![("in", file), ("completed", completed)];
    }
    if let Some((file, lines)) = bidegree_case(kind, seed, case) {
        return vec![("in", file), ("lines", lines)];
    }
    let lines = hilbert_case(kind, seed, case)
        .or_else(|| vector_case(kind, seed, case))
        .or_else(|| log_case(kind, seed, case));
    if let Some((file, lines)) = lines {
        return vec![("in", file), ("lines", lines)];
    }
    file_case(kind, seed, case)
        .map(|case| vec![("in", case.file), ("out", case.sheet)])
        .unwrap_or_default()
}
