// SPDX-License-Identifier: MIT OR Apache-2.0
//! Files with D lines: right ones, and every way to spoil one.

use crate::generate::problems::{degree_line, random_degrees};
use crate::limits::MOST_DEGREE;
use crate::random::Random;

/// One way to spoil a file by a D line, or by a G line.
#[derive(Clone, Debug, PartialEq, Eq)]
pub struct Spoiled {
    /// what is wrong
    pub name: &'static str,
    /// number and place of the refusal, where the file without this line is read
    pub refused: (u64, u64),
    /// lines that are put in, each with the place that it then has, the first being 0
    pub(crate) lines: Vec<(usize, String)>,
    /// whether the file ends with the last of them
    pub(crate) cut: bool,
}

/// What may stand for a degree, whether it is a number of a file, and so what is refused.
const DEGREES: [(&str, &str, u64); 24] = [
    ("one above", "256", 18),
    ("two above", "257", 18),
    ("a byte more", "511", 18),
    ("a word's half", "32768", 18),
    ("the greatest number", "65535", 18),
    ("past the numbers", "65536", 1),
    ("past the numbers by a degree", "65537", 1),
    ("five digits", "99999", 1),
    ("past 64 bits", "18446744073709551617", 1),
    ("two zeros", "00", 1),
    ("a leading zero", "01", 1),
    ("a leading zero of a large one", "0256", 1),
    ("a plus", "+1", 1),
    ("a minus", "-1", 1),
    ("a blank in front", " 1", 1),
    ("a blank behind", "1 ", 1),
    ("a blank alone", " ", 1),
    ("a tabulator", "\t1", 1),
    ("an empty field", "", 1),
    ("a carriage return", "1\r", 1),
    ("a quoted number", "\"1\"", 1),
    ("a fraction", "1.0", 1),
    ("sixteen's base", "0x1", 1),
    ("a letter", "D", 1),
];

/// Every way to spoil a file of so many lines by a D line; the file has none, and the degrees are
/// right ones for it.
pub fn spoiled_degree_lines(file_lines: usize, degrees: &[u64]) -> Vec<Spoiled> {
    let good = degree_line(degrees);
    let large = with_degree(degrees, 0, "256");
    let mut ways = Vec::new();
    let mut way = |name, refused, lines: &[(usize, String)], cut| {
        ways.push(Spoiled {
            name,
            refused,
            lines: lines.to_vec(),
            cut,
        })
    };
    let ended = |line: &str| format!("{line}\n");
    // line 2 of another shape, or with a degree that is none
    for (name, text) in [
        ("a field less", degree_line(&degrees[1..])),
        ("a field more", format!("{good},0")),
        ("a field more, above 255", format!("{large},0")),
        ("a comma more", format!("{good},")),
        ("two commas", good.replacen(',', ",,", 1)),
        ("no comma behind the letter", good.replacen(',', "", 1)),
        ("the letter alone", "D".to_string()),
        ("lower case", format!("d{}", &good[1..])),
        ("two letters", format!("D{good}")),
        ("a blank before the letter", format!(" {good}")),
        ("a carriage return at the end", format!("{good}\r")),
        ("another letter", format!("H{}", &good[1..])),
        ("no letter", good[1..].to_string()),
        ("an empty line", String::new()),
    ] {
        way(name, (1, 2), &[(1, ended(&text))], false);
    }
    for (name, text, number) in DEGREES {
        for at in 0..degrees.len() {
            let line = with_degree(degrees, at, text);
            way(name, (number, 2), &[(1, ended(&line))], false);
        }
    }
    for at in 1..degrees.len() {
        let line = large.split(',').map(str::to_string);
        let mut fields: Vec<String> = line.collect();
        fields[at + 1] = "x".to_string();
        let line = ended(&fields.join(","));
        way("above 255 beside no number", (1, 2), &[(1, line)], false);
    }
    // in the wrong place, or once too often
    let last = file_lines.max(2) - 1;
    way("before R", (1, 1), &[(0, ended(&good))], false);
    way(
        "before R and behind it",
        (1, 1),
        &[(0, ended(&good)), (2, ended(&good))],
        false,
    );
    for (name, line) in [("a second one", &good), ("a second one above 255", &large)] {
        let lines = [(1, ended(&good)), (2, ended(line))];
        way(name, (1, 3), &lines, false);
    }
    way(
        "two above 255",
        (18, 2),
        &[(1, ended(&large)), (2, ended(&large))],
        false,
    );
    if file_lines > 2 {
        way("after T", (1, 3), &[(2, ended(&good))], false);
        way("after T, above 255", (1, 3), &[(2, ended(&large))], false);
        let lines = [(1, ended(&good)), (3, ended(&good))];
        way("before T and after it", (1, 4), &lines, false);
        way(
            "before E",
            (1, last as u64 + 1),
            &[(last, ended(&good))],
            false,
        );
    }
    way(
        "after E",
        (1, last as u64 + 2),
        &[(last + 1, ended(&good))],
        false,
    );
    way(
        "an empty line before it",
        (1, 2),
        &[(1, ended("")), (2, ended(&good))],
        false,
    );
    // not ended, or the last line
    way("not ended", (1, 2), &[(1, good.clone())], true);
    way("not ended, above 255", (1, 2), &[(1, large.clone())], true);
    way("nothing behind it", (1, 3), &[(1, ended(&good))], true);
    way("nothing behind 256", (18, 2), &[(1, ended(&large))], true);
    ways
}

/// The D line with one degree put otherwise.
fn with_degree(degrees: &[u64], at: usize, text: &str) -> String {
    let mut fields = vec!["D".to_string()];
    fields.extend(degrees.iter().map(u64::to_string));
    fields[at + 1] = text.to_string();
    fields.join(",")
}

impl Spoiled {
    /// The file, which has no such line, spoiled in this way.
    pub fn file(&self, file: &[u8]) -> Vec<u8> {
        let mut lines: Vec<&[u8]> = file.split_inclusive(|byte| *byte == 10).collect();
        for (at, line) in &self.lines {
            lines.insert((*at).min(lines.len()), line.as_bytes());
        }
        if let (true, Some((last, _))) = (self.cut, self.lines.last()) {
            lines.truncate(last + 1);
        }
        lines.concat()
    }
}

/// The components of a file: the last number of its first line, where it is 1 to 16, else 1.
pub fn components_of(file: &[u8]) -> u64 {
    let line = file.split(|byte| *byte == 10).next().unwrap_or(&[]);
    let field = line.rsplit(|byte| *byte == b',').next().unwrap_or(&[]);
    let number = std::str::from_utf8(field).ok().and_then(|s| s.parse().ok());
    number.filter(|s| (1..=16).contains(s)).unwrap_or(1)
}

/// The file without the lines that begin with D.
pub fn without_degree_lines(file: &[u8]) -> Vec<u8> {
    without_lines(file, b'D')
}

/// The file without the lines that begin with this letter.
pub(crate) fn without_lines(file: &[u8], letter: u8) -> Vec<u8> {
    file.split_inclusive(|byte| *byte == 10)
        .filter(|line| line[0] != letter)
        .collect::<Vec<&[u8]>>()
        .concat()
}

/// The file with these degrees in a D line of its own, zeros too; one that it has leaves.
pub fn with_degrees(file: &[u8], degrees: &[u64]) -> Vec<u8> {
    let file = without_degree_lines(file);
    let first = file.iter().position(|byte| *byte == 10);
    let (head, rest) = file.split_at(first.map_or(file.len(), |end| end + 1));
    [head, degree_line(degrees).as_bytes(), b"\n", rest].concat()
}

/// The file with another D line, or none.
pub fn with_random_degrees(random: &mut Random, file: &[u8]) -> Vec<u8> {
    if random.chance(20) {
        return without_degree_lines(file);
    }
    let s = components_of(file);
    with_degrees(file, &random_degrees(random, s))
}

/// Spoils the file by a D line in one of the ways.
pub fn spoil_degree_line(random: &mut Random, file: &mut Vec<u8>) {
    let bare = without_degree_lines(file);
    let mut degrees = random_degrees(random, components_of(&bare));
    if random.chance(20) {
        degrees.fill(MOST_DEGREE);
    }
    let lines = bare.split_inclusive(|byte| *byte == 10).count();
    let ways = spoiled_degree_lines(lines, &degrees);
    *file = random.pick(&ways).file(&bare);
}
