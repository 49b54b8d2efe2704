// SPDX-License-Identifier: MIT OR Apache-2.0
//! Lists of calls as text, and what they answer.

use crate::engine::{Answer, Basis, Outcome, State};
use crate::lifting::{Usage, Way};
use crate::limits::{Limits, LIMIT_NAMES};
use crate::monomial::{Level, Monomial, Term, Vector, UNIT};
use crate::reckoning::Reckoning;

/// One of the three calls with its arguments.
#[derive(Clone, Debug, PartialEq, Eq)]
pub enum Call {
    /// read a file and accept or refuse its basis
    Read {
        /// the file's bytes
        file: Vec<u8>,
    },
    /// form the frame of a level and lift all its terms
    Lift {
        /// the level, which may be wrong
        level: u64,
        /// the way
        way: Way,
        /// the cache's length in terms; of use to the tree only
        cache: u64,
    },
    /// fetch a vector of a level
    Fetch {
        /// the level, which may be wrong
        level: u64,
        /// the vector's number, which may be wrong
        vector: u64,
    },
}

/// A list of calls and the limits under which it runs.
#[derive(Clone, Debug, PartialEq, Eq)]
pub struct Script {
    /// the limits
    pub limits: Limits,
    /// the calls in their sequence
    pub calls: Vec<Call>,
}

/// What a script's run gives.
#[derive(Clone, Debug)]
pub struct Run {
    /// one answer for each call
    pub answers: Vec<Answer>,
    /// the levels held after the list
    pub levels: Vec<Level>,
    /// the levels by the plain reckoning of the list
    pub reckoned: Vec<Level>,
    /// the state after the list
    pub state: State,
    /// what all the calls took together
    pub usage: Usage,
}

/// Makes one call on a state.
pub fn make_call(limits: &Limits, state: &mut State, call: &Call, budget: Option<u64>) -> Outcome {
    match call {
        Call::Read { file } => state.read(limits, file, budget),
        Call::Lift { level, way, cache } => state.lift(limits, *level, *way, *cache, budget),
        Call::Fetch { level, vector } => Outcome::Answered(state.fetch(limits, *level, *vector)),
    }
}

impl Script {
    /// Makes all calls, from the empty state on; `None` if the budget (of products of all calls,
    /// and of steps of each reckoned level) is used up.
    pub fn run(&self, budget: Option<u64>) -> Option<Run> {
        let mut state = State::new();
        let mut reckoning = Reckoning::new();
        let mut answers = Vec::new();
        let mut usage = Usage::default();
        for call in &self.calls {
            let left = budget.map(|budget| budget - usage.products);
            let answer = make_call(&self.limits, &mut state, call, left).answer()?;
            reckoning.feed(&self.limits, call, answer.number);
            usage = usage.and(&answer.usage);
            answers.push(answer);
        }
        let steps = budget.map(|budget| budget.saturating_mul(100));
        Some(Run {
            answers,
            levels: state.levels().to_vec(),
            reckoned: reckoning.levels(steps).ok()?,
            state,
            usage,
        })
    }

    /// Reads the text form; a mistake is told with its line.
    pub fn parse(text: &str) -> Result<Script, String> {
        let mut script = Script {
            limits: Limits::document_01(),
            calls: Vec::new(),
        };
        let mut first = true;
        for (number, line) in (1..).zip(text.lines()) {
            let words: Vec<&str> = line.split_ascii_whitespace().collect();
            match words.as_slice() {
                [] => continue,
                ["limits", settings @ ..] if first => set_limits(&mut script.limits, settings),
                ["limits", ..] => Err("limits stand first".to_string()),
                words => parse_call(words).map(|call| script.calls.push(call)),
            }
            .map_err(|mistake| format!("line {number}: {mistake}"))?;
            first = false;
        }
        Ok(script)
    }

    /// The text form.
    pub fn text(&self) -> String {
        let mut text = String::new();
        let usual = Limits::document_01();
        let changed: Vec<String> = LIMIT_NAMES
            .iter()
            .filter(|name| self.limits.get(name) != usual.get(name))
            .map(|name| format!(" {name}={}", self.limits.get(name).unwrap_or(0)))
            .collect();
        if !changed.is_empty() {
            text.push_str(&format!("limits{}\n", changed.concat()));
        }
        for call in &self.calls {
            text.push_str(&call_text(call));
            text.push('\n');
        }
        text
    }
}

impl Run {
    /// One line for each call, then the levels held, the levels reckoned and the degrees held.
    pub fn text(&self) -> String {
        let mut text = String::new();
        for answer in &self.answers {
            text.push_str(&answer_text(answer));
            text.push('\n');
        }
        text.push_str(&format!("levels {}\n", levels_text(&self.levels)));
        text.push_str(&format!("reckoned {}\n", levels_text(&self.reckoned)));
        let degrees = degrees_text(self.state.basis.as_ref());
        text.push_str(&format!("degrees {degrees}\n"));
        text
    }
}

fn set_limits(limits: &mut Limits, settings: &[&str]) -> Result<(), String> {
    for setting in settings {
        let (name, value) = setting
            .split_once('=')
            .ok_or_else(|| format!("{setting} is not name=value"))?;
        limits.set(name, parse_number(value)?)?;
    }
    Ok(())
}

fn parse_call(words: &[&str]) -> Result<Call, String> {
    let lift = |level: &str, way, cache| {
        Ok(Call::Lift {
            level: parse_number(level)?,
            way,
            cache,
        })
    };
    match words {
        ["read", "-"] => Ok(Call::Read { file: Vec::new() }),
        ["read", hex] => Ok(Call::Read {
            file: bytes_of_hex(hex)?,
        }),
        ["lift", level, "division"] => lift(level, Way::Division, 0),
        ["lift", level, "hybrid", pick] => lift(level, Way::Hybrid(parse_number(pick)?), 0),
        ["lift", level, "tree", cache] => lift(level, Way::Tree, parse_number(cache)?),
        ["fetch", level, vector] => Ok(Call::Fetch {
            level: parse_number(level)?,
            vector: parse_number(vector)?,
        }),
        _ => Err("no such call".to_string()),
    }
}

fn parse_number(word: &str) -> Result<u64, String> {
    word.parse().map_err(|_| format!("{word} is not a number"))
}

fn call_text(call: &Call) -> String {
    match call {
        Call::Read { file } if file.is_empty() => "read -".to_string(),
        Call::Read { file } => format!("read {}", hex_of_bytes(file)),
        Call::Lift { level, way, cache } => match way {
            Way::Division => format!("lift {level} division"),
            Way::Hybrid(pick) => format!("lift {level} hybrid {pick}"),
            Way::Tree => format!("lift {level} tree {cache}"),
        },
        Call::Fetch { level, vector } => format!("fetch {level} {vector}"),
    }
}

/// Two lower case hexadecimal digits for each byte.
pub fn hex_of_bytes(bytes: &[u8]) -> String {
    bytes.iter().map(|byte| format!("{byte:02x}")).collect()
}

/// The bytes that `hex_of_bytes` gives these digits for.
pub fn bytes_of_hex(hex: &str) -> Result<Vec<u8>, String> {
    let digit = |byte: u8| {
        (byte as char)
            .to_digit(16)
            .map(|digit| digit as u8)
            .ok_or_else(|| "a byte is two hexadecimal digits".to_string())
    };
    if !hex.len().is_multiple_of(2) {
        return Err("a byte is two hexadecimal digits".to_string());
    }
    hex.as_bytes()
        .chunks_exact(2)
        .map(|pair| Ok(16 * digit(pair[0])? + digit(pair[1])?))
        .collect()
}

/// `number place vector`
pub fn answer_text(answer: &Answer) -> String {
    let vector = vector_text(&answer.vector);
    format!("{} {} {vector}", answer.number, answer.place)
}

/// Terms `c:component:e1.e2...e8` joined by `;`, or `-` if there is none.
pub fn vector_text(vector: &[Term]) -> String {
    or_dash(
        vector
            .iter()
            .map(|term| {
                let exponents: Vec<String> = term
                    .monomial
                    .exponents
                    .iter()
                    .map(|exponent| exponent.to_string())
                    .collect();
                format!(
                    "{}:{}:{}",
                    term.coefficient,
                    term.monomial.component,
                    exponents.join(".")
                )
            })
            .collect(),
        ";",
    )
}

/// How many levels there are, then each level's vectors joined by `/`, or `-` if it has none.
pub fn levels_text(levels: &[Level]) -> String {
    let mut text = levels.len().to_string();
    for level in levels {
        let vectors = level.iter().map(|vector| vector_text(vector)).collect();
        text.push(' ');
        text.push_str(&or_dash(vectors, "/"));
    }
    text
}

/// How many levels there are, then the components' degrees, then for each level the degrees that
/// its elements or vectors carry: joined by `.`, or `-` if there is none. Without a basis `0`.
pub fn degrees_text(basis: Option<&Basis>) -> String {
    let Some(basis) = basis else {
        return "0".to_string();
    };
    let mut text = basis.carried.len().to_string();
    for degrees in std::iter::once(&basis.degrees).chain(&basis.carried) {
        text.push(' ');
        text.push_str(&or_dash(degrees.iter().map(u64::to_string).collect(), "."));
    }
    text
}

fn or_dash(parts: Vec<String>, joint: &str) -> String {
    if parts.is_empty() {
        "-".to_string()
    } else {
        parts.join(joint)
    }
}

/// The vector that `vector_text` gives this text for.
pub fn parse_vector(text: &str) -> Option<Vector> {
    if text == "-" {
        return Some(Vector::new());
    }
    text.split(';')
        .map(|term| {
            let mut parts = term.split(':');
            let coefficient = parts.next()?.parse().ok()?;
            let component = parts.next()?.parse().ok()?;
            let mut exponents = UNIT;
            let mut numbers = parts.next()?.split('.');
            for exponent in &mut exponents {
                *exponent = numbers.next()?.parse().ok()?;
            }
            (numbers.next().is_none() && parts.next().is_none()).then_some(Term {
                coefficient,
                monomial: Monomial {
                    component,
                    exponents,
                },
            })
        })
        .collect()
}
