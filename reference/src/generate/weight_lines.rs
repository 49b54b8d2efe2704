// SPDX-License-Identifier: MIT OR Apache-2.0
//! Files with G lines (request A14): right ones, and every way to spoil one.

use crate::generate::degree_lines::{components_of, with_degrees, without_lines, Spoiled};
use crate::generate::files::{damage, edit, plain_file};
use crate::generate::problems::{degree_line, random_degrees, weight_line, Size};
use crate::limits::MOST_WEIGHT;
use crate::monomial::{Weights, PLAIN_WEIGHTS};
use crate::random::Random;

/// Weights for n variables: those of a file without a G line, two groups of variables, every a at
/// 1, small ones, any, one pair for all, and those at the limits.
pub fn random_weights(random: &mut Random, n: u64) -> Vec<Weights> {
    let kind = random.below(10);
    let first = random.between(0, n);
    let pair = [
        random.between(0, MOST_WEIGHT),
        random.between(0, MOST_WEIGHT),
    ];
    let mut of_variable = |x: u64| match kind {
        0 => PLAIN_WEIGHTS,
        1 | 2 if x < first => [1, 0],
        1 | 2 => [0, 1],
        3 => [1, random.between(0, MOST_WEIGHT)],
        4 => [random.below(3), random.below(3)],
        5 => pair,
        6 => *random.pick(&[[0, 0], [0, 15], [15, 0], [15, 15]]),
        7 => [random.below(2), 0],
        _ => [
            random.between(0, MOST_WEIGHT),
            random.between(0, MOST_WEIGHT),
        ],
    };
    (0..n).map(&mut of_variable).collect()
}

/// What may stand for a weight, and so what is refused.
const WEIGHTS: [(&str, &str, u64); 26] = [
    ("one above", "16", 24),
    ("two above", "17", 24),
    ("twice as much", "30", 24),
    ("a bit more", "31", 24),
    ("three digits", "100", 24),
    ("a degree", "255", 24),
    ("a byte", "256", 24),
    ("the greatest number", "65535", 24),
    ("past the numbers", "65536", 1),
    ("past the numbers by a weight", "65537", 1),
    ("five digits", "99999", 1),
    ("past 64 bits", "18446744073709551617", 1),
    ("two zeros", "00", 1),
    ("a leading zero", "01", 1),
    ("a leading zero of a large one", "016", 1),
    ("a plus", "+1", 1),
    ("a minus", "-1", 1),
    ("a blank in front", " 1", 1),
    ("a blank behind", "1 ", 1),
    ("a blank alone", " ", 1),
    ("an empty field", "", 1),
    ("a carriage return", "1\r", 1),
    ("a quoted number", "\"1\"", 1),
    ("a fraction", "1.0", 1),
    ("sixteen's base", "0x1", 1),
    ("a letter", "G", 1),
];

/// Every way to spoil a file by a G line. The file has none, but a D line or none; its lines are
/// counted with the D line, and the weights and the degrees are right ones for it.
pub fn spoiled_weight_lines(
    file_lines: usize,
    has_degrees: bool,
    weights: &[Weights],
    degrees: &[u64],
) -> Vec<Spoiled> {
    let good = weight_line(weights);
    let large = with_weight(weights, 0, "16");
    // where the line belongs, from 0, and its number
    let own = 1 + usize::from(has_degrees);
    let number = own as u64 + 1;
    let mut ways = Vec::new();
    let mut way = |name, refused, lines: &[(usize, &str)], cut| {
        let ended = |(at, line): &(usize, &str)| (*at, format!("{line}\n"));
        let mut lines: Vec<(usize, String)> = lines.iter().map(ended).collect();
        if cut == Cut::Unended {
            let (_, last) = lines.last_mut().expect("a line");
            last.pop();
        }
        ways.push(Spoiled {
            name,
            refused,
            lines,
            cut: cut != Cut::No,
        })
    };
    // a line of another shape, or with a weight that is none
    let half: String = weights.iter().map(|ab| format!(",{}", ab[0])).collect();
    for (name, text) in [
        ("no fields", weight_line(&[])),
        ("a pair less", weight_line(&weights[1..])),
        ("a field less", without_last_field(&good)),
        ("a field less, above 15", without_last_field(&large)),
        ("a field more", format!("{good},0")),
        ("a field more, above 15", format!("{large},0")),
        ("a pair more", format!("{good},1,0")),
        ("one weight for each variable", format!("G{half}")),
        ("twice as many", format!("{good}{}", &good[1..])),
        ("a comma more", format!("{good},")),
        ("two commas", good.replacen(',', ",,", 1)),
        ("no comma behind the letter", good.replacen(',', "", 1)),
        ("lower case", format!("g{}", &good[1..])),
        ("two letters", format!("G{good}")),
        ("a blank before the letter", format!(" {good}")),
        ("a carriage return at the end", format!("{good}\r")),
        ("another letter", format!("H{}", &good[1..])),
        ("no letter", good[1..].to_string()),
        ("an empty line", String::new()),
    ] {
        way(name, (1, number), &[(own, &text)], Cut::No);
    }
    for (name, text, refused) in WEIGHTS {
        for at in 0..2 * weights.len() {
            let line = with_weight(weights, at, text);
            way(name, (refused, number), &[(own, &line)], Cut::No);
        }
    }
    for at in 1..2 * weights.len() {
        let line = large.split(',').map(str::to_string);
        let mut fields: Vec<String> = line.collect();
        fields[at + 1] = "x".to_string();
        let (name, line) = ("above 15 beside no number", fields.join(","));
        way(name, (1, number), &[(own, &line)], Cut::No);
    }
    // in the wrong place, or once too often
    let last = file_lines.max(2) - 1;
    way("before R", (1, 1), &[(0, &good)], Cut::No);
    let both = [(0, good.as_str()), (own + 1, &good)];
    way("before R and behind it", (1, 1), &both, Cut::No);
    for (name, line) in [("a second one", &good), ("a second one above 15", &large)] {
        let lines = [(own, good.as_str()), (own + 1, line)];
        way(name, (1, number + 1), &lines, Cut::No);
    }
    let lines = [(own, large.as_str()), (own + 1, &large)];
    way("two above 15", (24, number), &lines, Cut::No);
    if file_lines > own + 1 {
        for (name, line) in [("after T", &good), ("after T, above 15", &large)] {
            way(name, (1, number + 1), &[(own + 1, line)], Cut::No);
        }
        let lines = [(own, good.as_str()), (own + 2, &good)];
        way("before T and after it", (1, number + 2), &lines, Cut::No);
        way("before E", (1, last as u64 + 1), &[(last, &good)], Cut::No);
    }
    let behind = (1, last as u64 + 2);
    way("after E", behind, &[(last + 1, &good)], Cut::No);
    let lines = [(own, ""), (own + 1, good.as_str())];
    way("an empty line before it", (1, number), &lines, Cut::No);
    // beside D lines
    let d = degree_line(degrees);
    let d_large = d.replacen(&degrees[0].to_string(), "256", 1);
    if has_degrees {
        way("before D", (1, 3), &[(1, &good)], Cut::No);
        way("before D, above 15", (24, 2), &[(1, &large)], Cut::No);
        let lines = [(1, good.as_str()), (3, &good)];
        way("before D and behind it", (1, 3), &lines, Cut::No);
        let lines = [(2, good.as_str()), (3, &d)];
        way("another D behind it", (1, 4), &lines, Cut::No);
    } else {
        for (name, line) in [("D behind it", &d), ("D above 255 behind it", &d_large)] {
            let lines = [(1, good.as_str()), (2, line)];
            way(name, (1, 3), &lines, Cut::No);
        }
        let lines = [(1, large.as_str()), (2, &d_large)];
        way("above 15, D above 255 behind it", (24, 2), &lines, Cut::No);
        let lines = [(1, d_large.as_str()), (2, &large)];
        way("D above 255, then above 15", (18, 2), &lines, Cut::No);
        let lines = [(1, d.as_str()), (2, &large)];
        way("D, then above 15", (24, 3), &lines, Cut::No);
    }
    // not ended, or the last line
    way("not ended", (1, number), &[(own, &good)], Cut::Unended);
    let name = "not ended, above 15";
    way(name, (1, number), &[(own, &large)], Cut::Unended);
    let name = "nothing behind it";
    way(name, (1, number + 1), &[(own, &good)], Cut::Ended);
    let name = "nothing behind 16";
    way(name, (24, number), &[(own, &large)], Cut::Ended);
    ways
}

/// Whether the file ends with the line that is put in, and how.
#[derive(Clone, Copy, PartialEq, Eq)]
enum Cut {
    No,
    Ended,
    Unended,
}

fn without_last_field(line: &str) -> String {
    let (rest, _) = line.rsplit_once(',').expect("a field");
    rest.to_string()
}

/// The G line with one weight put otherwise.
fn with_weight(weights: &[Weights], at: usize, text: &str) -> String {
    let mut fields = vec!["G".to_string()];
    fields.extend(weights.iter().flatten().map(u64::to_string));
    fields[at + 1] = text.to_string();
    fields.join(",")
}

/// The variables of a file: the second number of its first line, where it is 1 to 8, else 1.
pub fn variables_of(file: &[u8]) -> u64 {
    let line = file.split(|byte| *byte == 10).next().unwrap_or(&[]);
    let field = line.split(|byte| *byte == b',').nth(2).unwrap_or(&[]);
    let number = std::str::from_utf8(field).ok().and_then(|n| n.parse().ok());
    number.filter(|n| (1..=8).contains(n)).unwrap_or(1)
}

/// Whether line 2 begins with D.
fn has_degree_line(file: &[u8]) -> bool {
    let second = file.split(|byte| *byte == 10).nth(1);
    second.is_some_and(|line| line.starts_with(b"D"))
}

/// The file without the lines that begin with G.
pub fn without_weight_lines(file: &[u8]) -> Vec<u8> {
    without_lines(file, b'G')
}

/// The file with these weights in a G line of its own, also where they are 1 and 0; one that it
/// has leaves.
pub fn with_weights(file: &[u8], weights: &[Weights]) -> Vec<u8> {
    let file = without_weight_lines(file);
    let lines = 1 + usize::from(has_degree_line(&file));
    let head: usize = file
        .split_inclusive(|byte| *byte == 10)
        .take(lines)
        .map(<[u8]>::len)
        .sum();
    let (head, rest) = file.split_at(head);
    [head, weight_line(weights).as_bytes(), b"\n", rest].concat()
}

/// The file with another G line, or none.
pub fn with_random_weights(random: &mut Random, file: &[u8]) -> Vec<u8> {
    if random.chance(20) {
        return without_weight_lines(file);
    }
    let n = variables_of(file);
    with_weights(file, &random_weights(random, n))
}

/// Spoils the file by a G line in one of the ways.
pub fn spoil_weight_line(random: &mut Random, file: &mut Vec<u8>) {
    let bare = without_weight_lines(file);
    let weights = random_weights(random, variables_of(&bare));
    let degrees = random_degrees(random, components_of(&bare));
    let lines = bare.split_inclusive(|byte| *byte == 10).count();
    let ways = spoiled_weight_lines(lines, has_degree_line(&bare), &weights, &degrees);
    // half of the ways are numbers
    let way = match random.chance(50) {
        true => random.pick(&ways),
        false => {
            let names = |way: &&Spoiled| WEIGHTS.iter().all(|(name, ..)| *name != way.name);
            let others: Vec<&Spoiled> = ways.iter().filter(names).collect();
            *random.pick(&others)
        }
    };
    *file = way.file(&bare);
}

/// As `damage`; at times by a G line, or by its letter.
pub fn damage_weights(random: &mut Random, file: &mut Vec<u8>) {
    match random.below(12) {
        0 | 1 => spoil_weight_line(random, file),
        2 => *file = with_random_weights(random, file),
        3 => {
            let at = random.below(file.len() as u64 + 1) as usize;
            file.insert(at, b'G');
        }
        _ => damage(random, file),
    }
}

/// A small file in which a G line is right, spoiled, edited or damaged.
pub fn weighted_file(random: &mut Random, size: &Size) -> Vec<u8> {
    let bare = plain_file(random, size);
    let weights = random_weights(random, variables_of(&bare));
    let mut file = with_weights(&bare, &weights);
    match random.below(10) {
        0..=4 => {}
        5 | 6 => spoil_weight_line(random, &mut file),
        7 => file = edit(random, &file),
        8 => damage_weights(random, &mut file),
        _ => {
            let degrees = random_degrees(random, components_of(&bare));
            file = with_degrees(&file, &degrees);
        }
    }
    file
}
