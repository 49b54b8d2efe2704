// SPDX-License-Identifier: MIT OR Apache-2.0
//! Resolves a problem file by all three ways, or by one: how many vectors and terms each level has, the vectors and degrees if asked, and whether the ways
//! agree. Prints what bindings/c/resolve.c prints.
//!
//!     resolve [-v] [-d] [-w WAY] [-c TERMS] [-r TERMS] FILE
//!
//!     -v          prints the vectors too, as the sheet does, after the first way that lifts a level
//!     -d          prints the degrees too, of the components and of each level's vectors in their sequence
//!     -w WAY      division, greatest, newest, oldest (hybrid by that term) or tree; without it division, greatest and tree
//!     -c TERMS    the tree's cache has so many terms, 4,096 without it
//!     -r TERMS    hybrid's work area has room for so many terms, 32 or more, 512 without it
//!
//! Exits with 0 if the basis is accepted and the ways agree as far as they go (one way alone must go to the end), with 1 if the file is refused or they do
//! not agree, with 2 if it is used wrongly.

use std::io::{stdout, BufWriter, Result, Write};
use std::process::ExitCode;
use tagetessash::{Engine, Pick, Refusal, Term, Way, CACHE_TERMS, HIGHEST_LEVEL, WORKING_TERMS};

/// A way's name on the command line, what is printed for it, and whether it is taken when none is named.
const WAYS: [(&str, &str, Way, bool); 5] = [
    ("division", "division", Way::Division, true),
    (
        "greatest",
        "hybrid, greatest term first",
        Way::Hybrid(Pick::Greatest),
        true,
    ),
    (
        "newest",
        "hybrid, newest term first",
        Way::Hybrid(Pick::Newest),
        false,
    ),
    (
        "oldest",
        "hybrid, oldest term first",
        Way::Hybrid(Pick::Oldest),
        false,
    ),
    ("tree", "tree with a cache", Way::Tree, true),
];

struct Asked {
    file: String,
    vectors: bool,
    degrees: bool,
    way: Option<String>,
    cache: usize,
    room: usize,
}

fn asked() -> Option<Asked> {
    let (mut file, mut vectors, mut degrees) = (None, false, false);
    let (mut way, mut cache, mut room) = (None, CACHE_TERMS, WORKING_TERMS);
    let mut arguments = std::env::args().skip(1);
    while let Some(word) = arguments.next() {
        match word.as_str() {
            "-v" => vectors = true,
            "-d" => degrees = true,
            "-w" => {
                way = Some(
                    arguments
                        .next()
                        .filter(|name| WAYS.iter().any(|way| way.0 == name))?,
                )
            }
            "-c" => cache = arguments.next()?.parse().ok()?,
            "-r" => room = arguments.next()?.parse().ok()?,
            _ if word.starts_with('-') || file.is_some() => return None,
            _ => file = Some(word),
        }
    }
    Some(Asked {
        file: file?,
        vectors,
        degrees,
        way,
        cache,
        room,
    })
}

fn main() -> ExitCode {
    let Some(asked) = asked() else {
        eprintln!("resolve [-v] [-d] [-w division|greatest|newest|oldest|tree] [-c TERMS] [-r TERMS] FILE");
        return ExitCode::from(2);
    };
    let resolved = std::fs::read(&asked.file)
        .and_then(|bytes| resolve(&bytes, &asked, &mut BufWriter::new(stdout().lock())));
    match resolved {
        Err(error) => {
            eprintln!("{}: {error}", asked.file);
            ExitCode::from(2)
        }
        Ok(well) => ExitCode::from(u8::from(!well)),
    }
}

fn resolve(file: &[u8], asked: &Asked, out: &mut impl Write) -> Result<bool> {
    let mut engine = Engine::with_cache(asked.cache);
    // the levels as the first way that reached them gave them, level 1 first
    let mut first: Vec<Vec<Vec<Term>>> = Vec::new();
    let (mut agree, mut whole) = (true, true);
    for (name, heading, way, usual) in WAYS {
        if !asked.way.as_ref().map_or(usual, |only| only == name) {
            continue;
        }
        writeln!(out, "{heading}")?;
        if let Err(refusal) = engine.read(file) {
            writeln!(out, "  {refusal}")?;
            if let [leading, rest @ ..] = engine.stopped_at().as_slice() {
                let terms = rest.len() + 1;
                writeln!(
                    out,
                    "  division stops at a value, terms {terms}, the leading one"
                )?;
                writeln!(out, "    {}", words(leading))?;
            }
            return Ok(false);
        }
        writeln!(
            out,
            "  level 0: elements {}, terms {}",
            engine.count(0),
            engine.terms(0)
        )?;
        if asked.degrees {
            let degrees = engine.component_degrees().iter().copied();
            writeln!(out, "    degrees of the components:{}", listed(degrees))?;
            say_degrees(&engine, 0, out)?;
        }
        for level in 1..=HIGHEST_LEVEL {
            let vectors = match lifted(&mut engine, level, way, asked.room) {
                Ok(vectors) => vectors,
                Err(refusal) => {
                    writeln!(out, "  {refusal}")?;
                    whole = false;
                    break;
                }
            };
            writeln!(
                out,
                "  level {level}: vectors {}, terms {}",
                engine.count(level),
                engine.terms(level)
            )?;
            if asked.degrees {
                say_degrees(&engine, level, out)?;
            }
            let last = vectors.is_empty();
            match first.get(level - 1) {
                None => {
                    if asked.vectors {
                        say_vectors(&engine, level, out)?;
                    }
                    first.push(vectors);
                }
                Some(before) if *before == vectors => {}
                Some(_) => {
                    writeln!(out, "  level {level} differs from what another way gave")?;
                    agree = false;
                }
            }
            if last {
                break;
            }
        }
    }
    if asked.way.is_none() {
        let how = match (agree, whole) {
            (false, _) => "do not agree",
            (true, true) => "agree",
            (true, false) => "agree as far as they go",
        };
        writeln!(out, "the ways {how}")?;
    }
    Ok(agree && (whole || asked.way.is_none()))
}

/// A level lifted, by hybrid in this room, and all its vectors fetched.
fn lifted(
    engine: &mut Engine,
    level: usize,
    way: Way,
    room: usize,
) -> std::result::Result<Vec<Vec<Term>>, Refusal> {
    match way {
        Way::Hybrid(pick) => engine.lift_within(level, pick, room)?,
        _ => engine.lift(level, way)?,
    }
    (1..=engine.count(level))
        .map(|v| engine.fetch(level, v))
        .collect()
}

/// The vectors of a level as lines of the sheet.
fn say_vectors(engine: &Engine, level: usize, out: &mut impl Write) -> Result<()> {
    for (number, vector) in (1..).zip(engine.vectors(level)) {
        for term in vector.terms() {
            write!(
                out,
                "S,{level},{number},{},{}",
                term.coefficient, term.component
            )?;
            for exponent in &term.exponents[..engine.variables()] {
                write!(out, ",{exponent}")?;
            }
            writeln!(out)?;
        }
    }
    Ok(())
}

/// The degrees that the vectors of a level carry.
fn say_degrees(engine: &Engine, level: usize, out: &mut impl Write) -> Result<()> {
    let degrees = engine.vectors(level).map(|vector| vector.degree());
    writeln!(out, "    degrees:{}", listed(degrees))
}

/// Numbers, a blank in front of each.
fn listed(numbers: impl Iterator<Item = u16>) -> String {
    numbers.map(|number| format!(" {number}")).collect()
}

fn words(term: &Term) -> String {
    let exponents: Vec<String> = term.exponents.iter().map(u8::to_string).collect();
    format!(
        "{} of component {}, exponents {}",
        term.coefficient,
        term.component,
        exponents.join(" ")
    )
}
