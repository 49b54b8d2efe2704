// SPDX-License-Identifier: MIT OR Apache-2.0
//! What a test is asked for on its command line.

/// The words behind the program's name.
pub fn words() -> Vec<String> {
    std::env::args().skip(1).collect()
}

/// `[COUNT [SEED]]`, or `spoil` and one of these names: how many cases, the seed, and which answer to spoil so that the comparison itself is tried.
/// `cases` says what is counted.
pub fn asked<S: Copy>(
    words: &[String],
    cases: &str,
    (wanted, seed): (u64, u64),
    spoils: &[(&str, S)],
) -> (u64, u64, Option<S>) {
    let number = |word: &str, what: &str| {
        word.parse()
            .unwrap_or_else(|error| panic!("{what}: {error:?}"))
    };
    let count = |word| number(word, &format!("how many {cases}"));
    match words.iter().map(String::as_str).collect::<Vec<_>>()[..] {
        ["spoil", ref what @ ..] => {
            let what = what.join(" ");
            let named = spoils.iter().find(|(name, _)| *name == what);
            let Some((_, spoiled)) = named else {
                let names: Vec<&str> = spoils.iter().map(|(name, _)| *name).collect();
                panic!("spoil one of these: {}", names.join(", "));
            };
            (wanted, seed, Some(*spoiled))
        }
        [] => (wanted, seed, None),
        [wanted] => (count(wanted), seed, None),
        [wanted, seed] => (count(wanted), number(seed, "a seed"), None),
        _ => panic!("at most two arguments"),
    }
}
