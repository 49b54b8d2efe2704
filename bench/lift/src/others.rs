// SPDX-License-Identifier: MIT OR Apache-2.0
//! Other systems on the same elements: Singular's `sres` and Macaulay2's `res` with strategy 5 (`fres`: bench/run-fres, in the kernel). Each repeats the call
//! inside one process, by its interpreter, and tells how long the repetitions took; reading and, in Singular, the test for a Gröbner basis are not part of
//! it.

use reference::monomial::{Parameters, Term};
use reference::reader::Problem;
use std::process::Command;

/// Microseconds of one call, if the system is there and makes it.
#[derive(Default)]
pub struct Times {
    pub sres: Option<f64>,
    pub m2: Option<f64>,
}

pub fn times(problem: &Problem, homogeneous: bool) -> Times {
    let mut times = Times::default();
    times.sres = run("Singular", &["-q"], &singular(problem));
    // strategy 5 is for homogeneous modules
    if homogeneous {
        times.m2 = run("M2", &["--script"], &macaulay(problem));
    }
    times
}

/// Runs a script that prints `time T N`: T milliseconds for N calls.
fn run(program: &str, arguments: &[&str], script: &str) -> Option<f64> {
    let path = std::env::temp_dir().join(format!("bench-lift-{}.txt", std::process::id()));
    std::fs::write(&path, script).expect("a folder for temporary files");
    let output = Command::new("timeout")
        .arg("60")
        .arg(program)
        .args(arguments)
        .arg(&path)
        .stdin(std::process::Stdio::null())
        .output();
    std::fs::remove_file(&path).ok();
    let output = output.ok()?;
    let text = String::from_utf8_lossy(&output.stdout).into_owned();
    let line = text.lines().find_map(|line| line.strip_prefix("time "))?;
    let mut numbers = line.split(' ').map(str::parse::<f64>);
    let (time, calls) = (numbers.next()?.ok()?, numbers.next()?.ok()?);
    Some(1_000.0 * time / calls)
}

/// The elements, each as a sum of terms that `write` writes.
fn elements(problem: &Problem, write: impl Fn(&Term) -> String) -> String {
    problem
        .elements
        .iter()
        .map(|element| element.iter().map(&write).collect::<Vec<_>>().join("+"))
        .collect::<Vec<_>>()
        .join(",\n")
}

fn power_product(term: &Term, n: u64, variable: impl Fn(usize) -> String) -> String {
    let mut text = term.coefficient.to_string();
    for x in 0..n as usize {
        let exponent = term.monomial.exponents[x];
        if exponent > 0 {
            text.push_str(&format!("*{}^{exponent}", variable(x + 1)));
        }
    }
    text
}

fn singular(problem: &Problem) -> String {
    let Parameters { p, n, order, s } = problem.parameters;
    let order = ["lp", "Dp", "dp"][order as usize - 1];
    let kind = if s == 1 { "ideal" } else { "module" };
    let elements = elements(problem, |term| {
        let product = power_product(term, n, |x| format!("x({x})"));
        match s {
            1 => product,
            _ => format!("{product}*gen({})", term.monomial.component),
        }
    });
    format!(
        "system(\"--ticks-per-sec\",1000);
ring r={p},(x(1..{n})),({order},C);
{kind} I={elements};
attrib(I,\"isSB\",1);
int n=1; int t; int i;
while(1){{ t=rtimer; for(i=1;i<=n;i++){{ def R=sres(I,0); kill R; }} t=rtimer-t; if(t>=300){{break;}} n=n*2; }}
print(\"time \"+string(t)+\" \"+string(n));
quit;
"
    )
}

fn macaulay(problem: &Problem) -> String {
    let Parameters { p, n, order, s } = problem.parameters;
    let order = ["Lex", "GLex", "GRevLex"][order as usize - 1];
    let elements = elements(problem, |term| {
        let product = power_product(term, n, |x| format!("x_{x}"));
        match s {
            1 => product,
            _ => format!("{product}*F_{}", term.monomial.component - 1),
        }
    });
    // the generator of R^{-d} has degree d in Macaulay2
    let degrees: Vec<String> = problem.degrees.iter().map(|d| format!("-{d}")).collect();
    let degrees = degrees.join(",");
    // one row of polynomials, or columns from vectors of F
    let generators = match s {
        1 => format!("matrix {{{{{elements}}}}}"),
        _ => format!("matrix {{{elements}}}"),
    };
    format!(
        "R = ZZ/{p}[x_1..x_{n}, MonomialOrder => {order}]
F = R^{{{degrees}}}
g = {generators}
f = () -> res(coker map(F,, g), Strategy => 5, LengthLimit => 10)
f()
n = 1
t = 0
while (t = (elapsedTiming(for i to n-1 do f()))#0; t < 0.3) do n = 2*n
print(\"time \" | toString(1000.0*t) | \" \" | toString(n))
"
    )
}
