// SPDX-License-Identifier: MIT OR Apache-2.0
//! The calls on lent buffers: every word of every buffer afterwards, for any contents before.

use crate::common::*;
use reference::buffers::*;
use reference::engine::{sound, Basis, State};
use reference::field::is_prime;
use reference::generate::cases::calls_case;
use reference::generate::scripts::{random_lengths, random_way, Reach};
use reference::generate::states::carry;
use reference::lifting::Way;
use reference::monomial::{Level, Monomial, Parameters, Term};
use reference::random::Random;
use reference::script::{make_call, Call, Script};
use reference::Limits;

const PRINTED: [&str; 6] = [
    "R,7,2,1,1",
    "T,1,1,1,1,0",
    "T,1,1,1,0,1",
    "T,2,1,1,0,2",
    "T,2,1,1,0,0",
    "E,4",
];

#[test]
fn lengths_of_document_01() {
    let limits = Limits::document_01();
    assert_eq!(ROW, 6);
    assert_eq!(state_words(&limits), 125_471);
    assert_eq!(work_words(&limits, None), 3_072);
    assert_eq!(work_words(&limits, Some(Way::Division)), 3_072);
    assert_eq!(work_words(&limits, Some(Way::Hybrid(1))), 192);
    assert_eq!(work_words(&limits, Some(Way::Tree)), 24_576);
    assert_eq!(whole_work_words(&limits, None), 3_072);
    assert_eq!(whole_work_words(&limits, Some(Way::Division)), 3_072);
    assert_eq!(whole_work_words(&limits, Some(Way::Hybrid(1))), 3_072);
    assert_eq!(whole_work_words(&limits, Some(Way::Tree)), 24_576);
    assert_eq!(out_words(&limits), 3_072);
    let layout = Layout::new(&limits);
    for k in 0..10 {
        assert_eq!(layout.count(k), 5 + 129 * k);
        assert_eq!(layout.first_end(k), 6 + 129 * k);
        assert_eq!(layout.first_row(k), 1_295 + 12_288 * k);
        assert_eq!(layout.first_carried(k), 124_191 + 128 * k);
    }
    assert_eq!(layout.first_degree(), 124_175);
}

#[test]
fn the_printed_example_word_by_word() {
    let limits = Limits::document_01();
    let mut state = vec![9; 125_476];
    let mut work = vec![9; 24_577];
    let mut cache = vec![9; 47];
    let mut out = vec![9; 3_073];
    assert_eq!(
        read_call(&limits, &file(&PRINTED), &mut state, &mut work),
        (0, 0)
    );
    let mut expected = vec![0; 125_476];
    expected[..8].copy_from_slice(&[7, 2, 1, 1, 1, 2, 2, 4]);
    let elements = [
        [1, 1, 0, 0, 0, 256],
        [1, 1, 0, 0, 0, 1],
        [1, 1, 0, 0, 0, 2],
        [1, 1, 0, 0, 0, 0],
    ];
    expected[1_295..1_319].copy_from_slice(&elements.concat());
    // x and y²
    expected[124_191..124_193].copy_from_slice(&[1, 2]);
    assert!(state == expected);
    assert!(work.iter().all(|word| *word == 0));
    work.fill(9);
    let way = Way::Tree;
    assert_eq!(
        lift_call(&limits, &mut state, 1, way, &mut work, &mut cache),
        (0, 0)
    );
    expected[4] = 2;
    expected[134..136].copy_from_slice(&[1, 4]);
    let vector = [
        [1, 2, 0, 0, 0, 256],
        [6, 1, 0, 0, 0, 2],
        [6, 1, 0, 0, 0, 0],
        [1, 2, 0, 0, 0, 1],
    ];
    expected[13_583..13_607].copy_from_slice(&vector.concat());
    // x·e_2
    expected[124_319] = 3;
    assert!(state == expected);
    assert!(work.iter().chain(&cache).all(|word| *word == 0));
    assert_eq!(fetch_call(&limits, &state, 1, 1, &mut out), (0, 0));
    let mut fetched = vector.concat();
    fetched.resize(3_073, 0);
    assert_eq!(out, fetched);
    assert_eq!(
        lift_call(&limits, &mut state, 2, Way::Hybrid(2), &mut work, &mut []),
        (0, 0)
    );
    expected[4] = 3;
    assert!(state == expected);
}

#[test]
fn nine_leaves_its_value_in_work() {
    let limits = Limits::document_01();
    let mut state = vec![9; 125_471];
    let mut work = vec![9; 3_072];
    let lines = [
        "R,7,2,1,1",
        "T,1,1,1,2,0",
        "T,2,1,1,1,1",
        "T,2,1,1,0,2",
        "E,3",
    ];
    assert_eq!(
        read_call(&limits, &file(&lines), &mut state, &mut work),
        (9, 1)
    );
    assert!(state.iter().all(|word| *word == 0));
    assert_eq!(work[..6], [6, 1, 0, 0, 0, 3]);
    assert!(work[6..].iter().all(|word| *word == 0));
    // the same of each two neighbours among eight variables, for each place of a row
    let rows = [
        [6, 1, 0, 0, 0, 3],
        [6, 1, 0, 0, 768, 0],
        [6, 1, 0, 0, 3, 0],
        [6, 1, 0, 768, 0, 0],
        [6, 1, 0, 3, 0, 0],
        [6, 1, 768, 0, 0, 0],
        [6, 1, 3, 0, 0, 0],
    ];
    for (x, row) in rows.iter().enumerate() {
        let line = |start: &str, here, next| {
            let mut exponents = [0; 8];
            (exponents[x], exponents[x + 1]) = (here, next);
            format!("{start},{}", exponents.map(|e| e.to_string()).join(","))
        };
        let lines = [
            "R,7,8,1,1",
            &line("T,1,1,1", 2, 0),
            &line("T,2,1,1", 1, 1),
            &line("T,2,1,1", 0, 2),
            "E,3",
        ];
        work.fill(9);
        let refused = read_call(&limits, &file(&lines), &mut state, &mut work);
        assert_eq!(refused, (9, 1));
        assert_eq!(work[..6], *row);
        assert!(work[6..].iter().all(|word| *word == 0));
    }
}

#[test]
fn sixteen_comes_first_and_changes_nothing() {
    let limits = Limits::document_01();
    let mut good = vec![0; 125_471];
    let mut work = vec![0; 24_576];
    read_call(&limits, &file(&PRINTED), &mut good, &mut work);
    // a bad file, a level that is not complete, wrong numbers: 16 all the same
    for (state_length, work_length) in [(125_470, 24_576), (125_471, 191), (0, 0)] {
        let mut state = good[..state_length].to_vec();
        let mut work = vec![5; work_length];
        let before = (state.clone(), work.clone());
        assert_eq!(read_call(&limits, b"", &mut state, &mut work), (16, 0));
        let wrong = lift_call(&limits, &mut state, 77, Way::Hybrid(9), &mut work, &mut []);
        assert_eq!(wrong, (16, 0));
        assert!((state, work) == before);
    }
    let mut state = good.clone();
    let mut work = vec![5; 24_575];
    let mut cache = vec![5; 100];
    assert_eq!(
        lift_call(&limits, &mut state, 1, Way::Tree, &mut work, &mut cache),
        (16, 0)
    );
    assert!(work.iter().chain(&cache).all(|word| *word == 5));
    assert!(state == good);
    // the same buffer does for division
    assert_eq!(
        lift_call(&limits, &mut state, 1, Way::Division, &mut work, &mut cache),
        (0, 0)
    );
    assert!(work.iter().chain(&cache).all(|word| *word == 0));
    let mut out = vec![5; 3_071];
    assert_eq!(fetch_call(&limits, &state, 1, 1, &mut out), (16, 0));
    assert_eq!(
        fetch_call(&limits, &state[..125_470], 1, 1, &mut vec![0; 3_072]),
        (16, 0)
    );
    assert!(out.iter().all(|word| *word == 5));
    // 11 and 12 change nothing either
    let mut out = vec![5; 3_072];
    assert_eq!(fetch_call(&limits, &state, 1, 2, &mut out), (12, 0));
    assert_eq!(fetch_call(&limits, &state, 2, 1, &mut out), (11, 0));
    assert!(out.iter().all(|word| *word == 5));
    let mut work = vec![5; 3_072];
    for (level, way, number) in [(3, Way::Division, 11), (1, Way::Hybrid(0), 12)] {
        let before = state.clone();
        let refused = lift_call(&limits, &mut state, level, way, &mut work, &mut cache);
        assert_eq!(refused, (number, 0));
        assert!(state == before && work.iter().all(|word| *word == 5));
    }
}

/// The words that a state has, laid out here once more.
fn words_of(limits: &Limits, held: &State, length: usize) -> Vec<u16> {
    let mut words = vec![0; length];
    let Some(basis) = &held.basis else {
        return words;
    };
    let ends = limits.elements.max(limits.vectors) as usize;
    let rows = limits.t_lines.max(limits.level_terms) as usize;
    let levels = limits.levels as usize + 1;
    words[0] = basis.parameters.p as u16;
    words[1] = basis.parameters.n as u16;
    words[2] = basis.parameters.order as u16;
    words[3] = basis.parameters.s as u16;
    words[4] = basis.levels.len() as u16;
    for (k, level) in basis.levels.iter().enumerate() {
        let at = 5 + (ends + 1) * k;
        let mut row = 5 + (ends + 1) * levels + ROW * rows * k;
        words[at] = level.len() as u16;
        let mut end = 0;
        for (v, vector) in level.iter().enumerate() {
            end += vector.len() as u16;
            words[at + 1 + v] = end;
            for term in vector {
                words[row..row + ROW].copy_from_slice(&row_of(term));
                row += ROW;
            }
        }
    }
    let mut at = 5 + (ends + 1) * levels + ROW * rows * levels;
    for (i, degree) in basis.degrees.iter().enumerate() {
        words[at + i] = *degree as u16;
    }
    at += limits.components as usize;
    // by the level below, not by images: each level's degrees are those before it in the words
    let mut below = basis.degrees.clone();
    for level in &basis.levels {
        let own = level.iter().map(|vector| {
            let Monomial {
                component,
                exponents,
            } = vector[0].monomial;
            exponents.iter().sum::<u64>() + below[component as usize - 1]
        });
        below = own.collect();
        for (v, degree) in below.iter().enumerate() {
            words[at + v] = *degree as u16;
        }
        at += ends;
    }
    words
}

/// The row of a term, word by word as the page's table has it.
fn row_of(term: &Term) -> [u16; ROW] {
    let exponents = term.monomial.exponents;
    let bytes = exponents.map(|e| u8::try_from(e).expect("a byte"));
    let [x1, x2, x3, x4, x5, x6, x7, x8] = bytes.map(u16::from);
    [
        term.coefficient as u16,
        term.monomial.component as u16,
        256 * x7 + x8,
        256 * x5 + x6,
        256 * x3 + x4,
        256 * x1 + x2,
    ]
}

/// The word of a row that has the exponent of variable x (x1 is 0), and what one of it counts there.
fn place_of(x: usize) -> (usize, u16) {
    (5 - x / 2, [256, 1][x % 2])
}

fn rows_then_zeros(vector: &[Term], length: usize) -> Vec<u16> {
    let mut words: Vec<u16> = vector.iter().flat_map(row_of).collect();
    words.resize(length, 0);
    words
}

fn garbage(random: &mut Random, length: usize) -> Vec<u16> {
    let fill = random.bits() as u16;
    let mut words = vec![fill; length];
    for _ in 0..20.min(length) {
        let at = random.below(length as u64) as usize;
        words[at] = random.bits() as u16;
    }
    words
}

/// Small limits that a script fits in, so that the state is short.
fn short_state(script: &Script) -> Limits {
    let mut limits = script.limits;
    limits.t_lines = limits.t_lines.min(60);
    limits.level_terms = limits.level_terms.min(120);
    limits.vectors = limits.vectors.min(40);
    limits.elements = limits.elements.min(20);
    limits
}

#[test]
fn lists_of_calls_on_buffers() {
    let mut random = Random::new(41);
    let mut sixteens = 0;
    for case in 0..600 {
        let (mut script, _) = calls_case(41, case, &Reach::tiny());
        if case % 20 != 0 {
            script.limits = short_state(&script);
        }
        let limits = script.limits;
        let longer = random.below(3) as usize;
        let length = state_words(&limits) + longer;
        let mut held = State::new();
        let mut state = if random.chance(50) {
            vec![0; length]
        } else {
            // no accepted basis, whatever else stands there
            let mut words = garbage(&mut random, length);
            words[4] = 0;
            words
        };
        let mut untouched = true;
        for call in &script.calls {
            let lent = random_lengths(&mut random, &limits, call, length);
            let mut work = garbage(&mut random, lent.work);
            let mut cache = garbage(&mut random, lent.cache);
            let mut out = garbage(&mut random, lent.out);
            let before = (state.clone(), work.clone(), cache.clone(), out.clone());
            let needed = match call {
                Call::Lift { way, .. } => work_words(&limits, Some(*way)),
                _ => work_words(&limits, None),
            };
            let short = match call {
                Call::Fetch { .. } => lent.out < out_words(&limits),
                _ => lent.work < needed,
            };
            let found = match call {
                Call::Read { file } => read_call(&limits, file, &mut state, &mut work),
                Call::Lift { level, way, .. } => {
                    lift_call(&limits, &mut state, *level, *way, &mut work, &mut cache)
                }
                Call::Fetch { level, vector } => {
                    fetch_call(&limits, &state, *level, *vector, &mut out)
                }
            };
            if short {
                assert_eq!(found, (16, 0));
                assert!(before == (state.clone(), work, cache, out));
                sixteens += 1;
                continue;
            }
            // "w is the number of whole rows in the area"
            let mut within = limits;
            if let Call::Lift {
                way: Way::Hybrid(_),
                ..
            } = call
            {
                within.working = within.working.min(lent.work as u64 / 6);
            }
            let answer = make_call(&within, &mut held, call, None)
                .answer()
                .expect("no budget");
            assert_eq!(found, (answer.number, answer.place));
            if matches!(answer.number, 11 | 12) {
                assert!(before == (state.clone(), work, cache, out));
                continue;
            }
            match call {
                Call::Fetch { .. } => {
                    assert_eq!(out, rows_then_zeros(&answer.vector, lent.out));
                    assert!((&before.0, &before.1, &before.2) == (&state, &work, &cache));
                }
                _ => {
                    untouched = false;
                    assert!(state == words_of(&limits, &held, length));
                    assert_eq!(work, rows_then_zeros(&answer.vector, lent.work));
                    assert_eq!(out, before.3);
                    if matches!(call, Call::Lift { .. }) {
                        assert!(cache.iter().all(|word| *word == 0));
                    } else {
                        assert_eq!(cache, before.2);
                    }
                }
            }
        }
        if !untouched {
            // the round trip
            let back = read_state(&limits, &state);
            assert_eq!(back, held);
            let mut again = garbage(&mut random, length);
            write_state(&limits, &back, &mut again);
            assert!(again == state);
        }
    }
    assert!(sixteens > 100);
}

/// Whether the words are a sound state, asked of the words one by one.
fn sound_words(limits: &Limits, words: &[u16]) -> bool {
    let ends = limits.elements.max(limits.vectors) as usize;
    let rows = limits.t_lines.max(limits.level_terms) as usize;
    let levels = limits.levels as usize + 1;
    let word = |at: usize| u64::from(words[at]);
    let (p, n, order, s) = (word(0), word(1), word(2), word(3));
    let complete = word(4);
    if complete < 1
        || complete > limits.levels + 1
        || !is_prime(p)
        || p > limits.prime_bound
        || n < 1
        || n > limits.variables
        || !(1..=3).contains(&order)
        || s < 1
        || s > limits.components
    {
        return false;
    }
    let degrees = 5 + (ends + 1) * levels + ROW * rows * levels;
    let carried = |k: usize, v: usize| word(degrees + limits.components as usize + ends * k + v);
    if (0..s as usize).any(|i| word(degrees + i) > 255) {
        return false;
    }
    let mut below = s;
    // leading monomials of each level's vectors, as (component, exponents)
    let mut leads: Vec<Vec<(u64, Vec<u64>)>> = Vec::new();
    for k in 0..complete as usize {
        let at = 5 + (ends + 1) * k;
        let first_row = 5 + (ends + 1) * levels + ROW * rows * k;
        let count = word(at);
        let (least, most, most_terms, most_of_one) = if k == 0 {
            (1, limits.elements, limits.t_lines, limits.t_lines)
        } else {
            (0, limits.vectors, limits.level_terms, limits.vector)
        };
        if count < least || count > most {
            return false;
        }
        let mut start = 0;
        let mut own = Vec::new();
        for v in 0..count as usize {
            let end = word(at + 1 + v);
            if end <= start || end > most_terms || end - start > most_of_one {
                return false;
            }
            let mut before: Option<Vec<i64>> = None;
            for row in start..end {
                let row = first_row + ROW * row as usize;
                let exponent = |x| {
                    let (at, one) = place_of(x);
                    word(row + at) / u64::from(one) % 256
                };
                let exponents: Vec<u64> = (0..8).map(exponent).collect();
                let bad = word(row) < 1
                    || word(row) >= p
                    || word(row + 1) < 1
                    || word(row + 1) > below
                    || exponents.iter().any(|e| *e > limits.exponent)
                    || exponents[n as usize..].iter().any(|e| *e != 0);
                if bad {
                    return false;
                }
                let rank = rank(order, &leads, word(row + 1), &exponents);
                if before.is_some_and(|before| before <= rank) {
                    return false;
                }
                before = Some(rank);
                if own.len() == v {
                    // what it carries: by what the level below carries
                    let component = word(row + 1) as usize - 1;
                    let under = match k {
                        0 => word(degrees + component),
                        _ => carried(k - 1, component),
                    };
                    if carried(k, v) != exponents.iter().sum::<u64>() + under {
                        return false;
                    }
                    own.push((word(row + 1), exponents));
                }
            }
            start = end;
        }
        leads.push(own);
        below = count;
    }
    true
}

/// Numbers whose first difference decides: the image on level 0, then components upward.
fn rank(order: u64, leads: &[Vec<(u64, Vec<u64>)>], component: u64, exponents: &[u64]) -> Vec<i64> {
    let mut image = exponents.to_vec();
    let mut path = vec![component];
    for level in leads.iter().rev() {
        let (component, leading) = &level[*path.last().expect("a component") as usize - 1];
        for (e, own) in image.iter_mut().zip(leading) {
            *e += own;
        }
        path.push(*component);
    }
    let degree: u64 = image.iter().sum();
    let mut rank: Vec<i64> = Vec::new();
    if order != 1 {
        rank.push(degree as i64);
    }
    if order == 3 {
        rank.extend(image.iter().rev().map(|e| -(*e as i64)));
    } else {
        rank.extend(image.iter().map(|e| *e as i64));
    }
    rank.extend(path.iter().rev().map(|c| *c as i64));
    rank
}

/// Calls on any state: 11 exactly if it is not sound, else as the levels in it say.
fn check_any_state(random: &mut Random, limits: &Limits, words: &[u16]) -> bool {
    let is_sound = sound_words(limits, words);
    let held = read_state(limits, words);
    let found_sound = held
        .basis
        .as_ref()
        .is_some_and(|basis| sound(limits, basis));
    assert_eq!(found_sound, is_sound);
    let complete = u64::from(words[4]);
    for _ in 0..2 {
        let level = if random.chance(85) {
            random.between(1, complete.clamp(1, 9))
        } else {
            *random.pick(&[0, complete.wrapping_add(1), 10, 65_535])
        };
        let (mut way, cache) = random_way(random);
        if random.chance(5) {
            way = Way::Hybrid(*random.pick(&[0, 4]));
        }
        let mut state = words.to_vec();
        let mut work = garbage(random, whole_work_words(limits, Some(way)));
        let mut cache = garbage(random, ROW * cache as usize + 3);
        let before = (state.clone(), work.clone(), cache.clone());
        let budget = Some(20_000);
        let found = lift_call_within(
            limits, &mut state, level, way, &mut work, &mut cache, budget,
        );
        let Some((number, place)) = found else {
            assert!(before == (state, work, cache));
            continue;
        };
        assert_eq!(number == 11 && !is_sound, !is_sound);
        match number {
            11 | 12 => {
                assert_eq!(place, 0);
                assert!(before == (state, work, cache));
            }
            13..=15 => {
                assert_eq!(place, level);
                assert!(state.iter().chain(&work).chain(&cache).all(|w| *w == 0));
            }
            0 => {
                assert_eq!(place, 0);
                assert!(work.iter().chain(&cache).all(|w| *w == 0));
                let mut after = held.clone();
                let length = (before.2.len() / ROW) as u64;
                after.lift(limits, level, way, length, None);
                assert!(state == words_of(limits, &after, state.len()));
                assert!(sound_words(limits, &state));
            }
            other => panic!("number {other}"),
        }
        let vector = random.below(4);
        let mut out = garbage(random, out_words(limits) + 2);
        let before = out.clone();
        let (number, place) = fetch_call(limits, words, level, vector, &mut out);
        assert_eq!(place, 0);
        assert!(is_sound || number == 11);
        if number == 0 {
            let expected = &held.levels()[level as usize][vector as usize - 1];
            assert_eq!(out, rows_then_zeros(expected, out.len()));
        } else {
            assert!(matches!(number, 11 | 12));
            assert_eq!(out, before);
        }
    }
    is_sound
}

#[test]
fn garbage_states() {
    let mut random = Random::new(42);
    let mut limits = Limits::document_01();
    limits.t_lines = 6;
    limits.level_terms = 6;
    limits.vectors = 4;
    limits.elements = 4;
    limits.levels = 3;
    limits.vector = 5;
    let mut sound_ones = 0;
    for _ in 0..20_000 {
        let most = *random.pick(&[2, 3, 5, 8, 300, 65_535]);
        let mut words: Vec<u16> = (0..state_words(&limits))
            .map(|_| random.between(0, most) as u16)
            .collect();
        if random.chance(90) {
            words[0] = 7;
            // with eight variables any words are exponents
            words[1] = *random.pick(&[2, 8]);
            words[2] = 1;
            words[3] = 2;
            words[4] = random.between(1, 3) as u16;
        }
        if random.chance(80) {
            carry(&limits, &mut words);
        }
        sound_ones += u64::from(check_any_state(&mut random, &limits, &words));
    }
    assert!(sound_ones > 30, "{sound_ones}");
}

#[test]
fn altered_states() {
    let mut random = Random::new(43);
    let (mut sound_ones, mut unsound_ones) = (0, 0);
    for case in 0..1_500 {
        let (mut script, _) = calls_case(43, case, &Reach::tiny());
        script.limits = short_state(&script);
        let limits = script.limits;
        let mut held = State::new();
        let mut words = vec![0; state_words(&limits)];
        for call in &script.calls {
            let mut next = held.clone();
            let _ = make_call(&limits, &mut next, call, Some(2_000));
            if next.basis.is_some() {
                held = next;
            }
        }
        let Some(basis) = &held.basis else {
            continue;
        };
        write_state(&limits, &held, &mut words);
        // the words that the counts name
        let layout = Layout::new(&limits);
        let mut named: Vec<usize> = (0..5).collect();
        for (k, level) in basis.levels.iter().enumerate() {
            named.extend(layout.count(k)..=layout.count(k) + level.len());
            let rows: usize = level.iter().map(Vec::len).sum();
            named.extend(layout.first_row(k)..layout.first_row(k) + ROW * rows);
            named.extend(layout.first_carried(k)..layout.first_carried(k) + level.len());
        }
        named.extend(layout.first_degree()..layout.first_degree() + basis.degrees.len());
        let mut is_named = vec![false; words.len()];
        for at in &named {
            is_named[*at] = true;
        }
        assert!(check_any_state(&mut random, &limits, &words));
        for _ in 0..8 {
            let mut altered = words.clone();
            for _ in 0..random.between(1, 3) {
                let at = *random.pick(&named);
                // a row's word has two exponents: either of them, or both
                altered[at] = match random.below(9) {
                    0 => altered[at].wrapping_add(1),
                    1 => altered[at].wrapping_sub(1),
                    2 => altered[at].wrapping_add(256),
                    3 => altered[at].wrapping_sub(256),
                    4 => random.bits() as u16,
                    5 => (256 * random.below(12) + random.below(12)) as u16,
                    _ => random.below(12) as u16,
                };
            }
            // words that are not named may hold anything
            for (at, word) in altered.iter_mut().enumerate() {
                if !is_named[at] && random.chance(20) {
                    *word = random.bits() as u16;
                }
            }
            // degrees as the altered rows have them, so that these are looked at for themselves
            if random.chance(60) {
                carry(&limits, &mut altered);
            }
            if check_any_state(&mut random, &limits, &altered) {
                sound_ones += 1;
            } else {
                unsound_ones += 1;
            }
        }
    }
    assert!(
        sound_ones > 500 && unsound_ones > 500,
        "{sound_ones} {unsound_ones}"
    );
}

#[test]
fn garbage_states_of_full_length() {
    let mut random = Random::new(44);
    let limits = Limits::document_01();
    let mut good = vec![0; 125_471];
    let mut work = vec![0; 24_576];
    let lines = [
        "R,7,3,1,1",
        "T,1,1,1,1,0,0",
        "T,2,1,1,0,1,0",
        "T,3,1,1,0,0,1",
        "E,3",
    ];
    read_call(&limits, &file(&lines), &mut good, &mut work);
    for level in 1..=9 {
        let lifted = lift_call(&limits, &mut good, level, Way::Tree, &mut work, &mut []);
        assert_eq!(lifted, (0, 0));
    }
    assert_eq!(good[4], 10);
    assert!(check_any_state(&mut random, &limits, &good));
    for _ in 0..60 {
        let mut words = if random.chance(50) {
            good.clone()
        } else {
            garbage(&mut random, 125_471)
        };
        for _ in 0..random.below(4) {
            let at = match random.below(5) {
                0 => random.below(5),
                1 => random.below(1_295),
                2 => 124_175 + random.below(16),
                3 => 124_191 + 128 * random.below(10) + random.below(4),
                _ => 1_295 + 12_288 * random.below(10) + random.below(36),
            };
            words[at as usize] = random.bits() as u16;
        }
        check_any_state(&mut random, &limits, &words);
    }
}

/// A state whose levels are these, over the prime 7.
fn state_of(n: u64, order: u64, s: u64, levels: &[Level]) -> State {
    let parameters = Parameters { p: 7, n, order, s };
    let basis = Basis::new(parameters, vec![0; s as usize], levels.to_vec());
    State { basis: Some(basis) }
}

/// Limits under which a state is short enough for thousands of them.
fn few_places() -> Limits {
    Limits {
        t_lines: 4,
        level_terms: 4,
        elements: 2,
        vectors: 2,
        levels: 2,
        ..Limits::document_01()
    }
}

/// What lifting level 1 answers, in a copy of the state.
fn lifted(limits: &Limits, words: &[u16]) -> (u64, u64) {
    let mut state = words.to_vec();
    let mut work = vec![3; work_words(limits, Some(Way::Division))];
    let answer = lift_call(limits, &mut state, 1, Way::Division, &mut work, &mut []);
    if answer.0 == 11 {
        assert!(state == words && work.iter().all(|word| *word == 3));
    }
    answer
}

#[test]
fn the_worked_row() {
    let row = [5, 9, 1_800, 1_286, 772, 258];
    let term = term(5, 9, &[1, 2, 3, 4, 5, 6, 7, 8]);
    assert_eq!(read_rows(&row), [term]);
    assert_eq!(row_of(&term), row);
    // x1 is in the top byte of the number, whose lowest 16 bits come first
    let number = 0x0102_0304_0506_0708_u64;
    assert_eq!(row[2..], [0, 16, 32, 48].map(|low| (number >> low) as u16));
    // a processor with the lowest byte first has the number's bytes in memory
    let memory = row[2..].iter().flat_map(|word| word.to_le_bytes());
    assert!(memory.eq(number.to_le_bytes()));
    let limits = Limits::document_01();
    let mut state = vec![9; 125_471];
    let mut work = vec![9; 3_072];
    let lines = ["R,7,8,1,16", "T,1,5,9,1,2,3,4,5,6,7,8", "E,1"];
    let accepted = read_call(&limits, &file(&lines), &mut state, &mut work);
    assert_eq!(accepted, (0, 0));
    assert_eq!(state[..7], [7, 8, 1, 16, 1, 1, 1]);
    assert_eq!(state[1_295..1_301], row);
    assert_eq!(state[124_191], 36);
    assert!(state[1_301..124_191].iter().all(|word| *word == 0));
    assert!(state[124_192..].iter().all(|word| *word == 0));
    // as a vector of level 1, over nine elements
    let elements = vec![vec![self::term(1, 1, &[])]; 9];
    let held = state_of(8, 1, 1, &[elements, vec![vec![term]]]);
    write_state(&limits, &held, &mut state);
    assert_eq!(state[13_583..13_589], row);
    assert_eq!(read_state(&limits, &state), held);
    let mut out = vec![9; 3_072];
    assert_eq!(fetch_call(&limits, &state, 1, 1, &mut out), (0, 0));
    assert_eq!(out[..6], row);
    assert!(out[6..].iter().all(|word| *word == 0));
}

#[test]
fn rows_at_the_ends_of_the_exponents() {
    let limits = few_places();
    let row_at = Layout::new(&limits).first_row(0);
    let check = |exponents: [u64; 8]| {
        let text = exponents.map(|e| e.to_string()).join(",");
        let lines = ["R,7,8,3,2", &format!("T,1,6,2,{text}"), "E,1"];
        let mut state = vec![9; state_words(&limits)];
        let mut work = vec![9; work_words(&limits, None)];
        let accepted = read_call(&limits, &file(&lines), &mut state, &mut work);
        assert_eq!(accepted, (0, 0));
        let term = term(6, 2, &exponents);
        let row = &state[row_at..row_at + ROW];
        assert_eq!(row, row_of(&term));
        let number = exponents.iter().fold(0, |number, e| 256 * number + e);
        let words = row[2..].iter().rev().map(|word| u64::from(*word));
        assert_eq!(words.fold(0, |found, word| 65_536 * found + word), number);
        assert_eq!(read_rows(row), [term]);
        assert_eq!(read_state(&limits, &state).levels(), [[vec![term]]]);
        assert_eq!(lifted(&limits, &state), (0, 0));
    };
    // 0 or 255 in each place, in all ways
    for choice in 0..256 {
        check(std::array::from_fn(|x| 255 * (choice >> x & 1)));
    }
    // every exponent in each place, beside zeros
    for x in 0..8 {
        for e in 0..=255 {
            let mut exponents = [0; 8];
            exponents[x] = e;
            check(exponents);
        }
    }
}

#[test]
fn every_four_words_are_eight_exponents() {
    let mut random = Random::new(45);
    let limits = few_places();
    let row_at = Layout::new(&limits).first_row(0);
    let ends = [
        0, 1, 255, 256, 257, 32_767, 32_768, 65_279, 65_280, 65_534, 65_535,
    ];
    // a lower limit on exponents is asked as before
    let lower = Limits {
        exponent: 254,
        ..limits
    };
    let mut above = 0;
    for _ in 0..5_000 {
        let mut row = [3, 1, 0, 0, 0, 0];
        for word in &mut row[2..] {
            *word = if random.chance(50) {
                random.bits() as u16
            } else {
                *random.pick(&ends)
            };
        }
        let terms = read_rows(&row);
        assert!(terms[0].monomial.exponents.iter().all(|e| *e <= 255));
        assert_eq!(row_of(&terms[0]), row);
        let held = state_of(8, random.between(1, 3), 1, &[vec![terms]]);
        let mut words = vec![9; state_words(&limits)];
        write_state(&limits, &held, &mut words);
        assert_eq!(words[row_at..row_at + ROW], row);
        assert_eq!(read_state(&limits, &words), held);
        assert_eq!(lifted(&limits, &words), (0, 0));
        let number = if words_have_255(&row[2..]) { 11 } else { 0 };
        assert_eq!(lifted(&lower, &words), (number, 0));
        above += number / 11;
    }
    assert!((500..4_500).contains(&above), "{above}");
}

fn words_have_255(words: &[u16]) -> bool {
    words
        .iter()
        .any(|word| word / 256 == 255 || word % 256 == 255)
}

#[test]
fn a_byte_past_n_is_eleven() {
    let limits = few_places();
    let layout = Layout::new(&limits);
    for n in 1..=8 {
        // two elements x1, and on level 1 the vector e_2 − e_1
        let x1 = vec![term(1, 1, &[1])];
        let vector = vec![term(1, 2, &[]), term(6, 1, &[])];
        let held = state_of(n, 1, 1, &[vec![x1.clone(), x1], vec![vector]]);
        let mut good = vec![0; state_words(&limits)];
        write_state(&limits, &held, &mut good);
        assert_eq!(lifted(&limits, &good), (0, 0));
        for (level, row) in [(0, 0), (0, 1), (1, 0), (1, 1)] {
            for x in 1..8 {
                for byte in [1, 2, 127, 128, 255] {
                    let (at, one) = place_of(x);
                    let mut words = good.clone();
                    words[layout.first_row(level) + ROW * row + at] += one * byte;
                    carry(&limits, &mut words);
                    // a level that is not complete is not looked at
                    let mut shorter = words.clone();
                    shorter[4] = 1;
                    let past_n = x as u64 >= n;
                    let short = if past_n && level == 0 { 11 } else { 0 };
                    assert_eq!(lifted(&limits, &shorter), (short, 0));
                    // within n it is in its range, and the order decides: the vector stays
                    // descending if e_2's image became greater, by element 2 or by its own term
                    let descending = (level, row) == (0, 1) || (level, row) == (1, 0);
                    let number = if past_n || !descending { 11 } else { 0 };
                    assert_eq!(lifted(&limits, &words), (number, 0));
                    assert_eq!(sound_words(&limits, &words), number == 0);
                    let mut out = vec![3; out_words(&limits)];
                    let fetched = fetch_call(&limits, &words, 1, 1, &mut out);
                    assert_eq!(fetched, (number, 0));
                    assert_eq!(out.iter().all(|word| *word == 3), number == 11);
                }
            }
        }
    }
}

#[test]
fn the_order_decides_among_rows_in_range() {
    let limits = few_places();
    let layout = Layout::new(&limits);
    // two terms' last words, and the order codes by which the first is greater; by the others
    // the second is
    let pairs: [([u16; 4], [u16; 4], &[u64]); 9] = [
        // x1, x2^255
        ([0, 0, 0, 256], [0, 0, 0, 255], &[1]),
        // x2, x3^255
        ([0, 0, 0, 1], [0, 0, 65_280, 0], &[1]),
        // x4, x5^255·x6^255
        ([0, 0, 1, 0], [0, 65_535, 0, 0], &[1]),
        // x7, x8
        ([256, 0, 0, 0], [1, 0, 0, 0], &[1, 2, 3]),
        // x6, x7
        ([0, 1, 0, 0], [256, 0, 0, 0], &[1, 2, 3]),
        // x1·x3, x2^2
        ([0, 0, 256, 256], [0, 0, 0, 2], &[1, 2]),
        // x1·x8, x2·x7
        ([1, 0, 0, 256], [256, 0, 0, 1], &[1, 2]),
        // all that there can be, one x8 less
        ([65_535; 4], [65_534, 65_535, 65_535, 65_535], &[1, 2, 3]),
        // one x8 less, one x1 less
        (
            [65_534, 65_535, 65_535, 65_535],
            [65_535, 65_535, 65_535, 65_279],
            &[1, 2, 3],
        ),
    ];
    for (first, second, greater) in pairs {
        for order in 1..=3 {
            let with = |rows: [[u16; 4]; 2]| {
                let mut words = vec![0; state_words(&limits)];
                words[..7].copy_from_slice(&[7, 8, order as u16, 1, 1, 1, 2]);
                for (row, numbers) in rows.iter().enumerate() {
                    let at = layout.first_row(0) + ROW * row;
                    words[at..at + 2].copy_from_slice(&[4, 1]);
                    words[at + 2..at + ROW].copy_from_slice(numbers);
                }
                carry(&limits, &mut words);
                assert_eq!(sound_words(&limits, &words), lifted(&limits, &words).0 == 0);
                lifted(&limits, &words)
            };
            let is_greater = greater.contains(&order);
            let number = |sound| if sound { 0 } else { 11 };
            assert_eq!(with([first, second]), (number(is_greater), 0));
            assert_eq!(with([second, first]), (number(!is_greater), 0));
            assert_eq!(with([first, first]), (11, 0));
        }
    }
    // any two rows, whose bytes past n are mostly zero
    let mut random = Random::new(46);
    let (mut sound_ones, mut past_n, mut ascending) = (0, 0, 0);
    for _ in 0..5_000 {
        let n = random.between(1, 8) as u16;
        let mut words = vec![0; state_words(&limits)];
        words[..7].copy_from_slice(&[7, n, random.between(1, 3) as u16, 1, 1, 1, 2]);
        let set = if random.chance(90) { usize::from(n) } else { 8 };
        let most = *random.pick(&[1, 2, 255]);
        for row in 0..2 {
            let at = layout.first_row(0) + ROW * row;
            words[at..at + 2].copy_from_slice(&[4, 1]);
            for x in 0..set {
                let (word, one) = place_of(x);
                words[at + word] += one * random.between(0, most) as u16;
            }
        }
        carry(&limits, &mut words);
        let sound_here = sound_words(&limits, &words);
        let number = if sound_here { 0 } else { 11 };
        assert_eq!(lifted(&limits, &words), (number, 0));
        match (sound_here, set == usize::from(n)) {
            (true, _) => sound_ones += 1,
            (false, true) => ascending += 1,
            (false, false) => past_n += 1,
        }
    }
    assert!(
        sound_ones > 1_000 && past_n > 300 && ascending > 1_000,
        "{sound_ones} {past_n} {ascending}"
    );
}

#[test]
fn the_cache_counts_whole_rows() {
    // y^10 is lifted through y^9, .., y, each y^d to d terms: all ten take 65 terms of the cache
    let lines = [
        "R,7,2,1,1",
        "T,1,1,1,0,1",
        "T,1,1,1,0,0",
        "T,2,1,1,1,0",
        "T,2,1,1,0,9",
        "E,4",
    ];
    let mut limits = Limits::document_01();
    // where one of them is not in the cache the work area needs 21 terms
    limits.tree = 11;
    let held = accepted(&lines);
    let mut before = vec![0; state_words(&limits)];
    write_state(&limits, &held, &mut before);
    let mut answers = Vec::new();
    for length in 0..=400 {
        let mut state = before.clone();
        let mut work = vec![9; work_words(&limits, Some(Way::Tree))];
        let mut cache = vec![9; length];
        let found = lift_call(&limits, &mut state, 1, Way::Tree, &mut work, &mut cache);
        assert!(work.iter().chain(&cache).all(|word| *word == 0));
        let answer = lift(&mut held.clone(), &limits, 1, Way::Tree, length as u64 / 6);
        assert_eq!(found, (answer.number, answer.place));
        answers.push(found);
    }
    assert!(answers[..390].iter().all(|answer| *answer == (14, 1)));
    assert!(answers[390..].iter().all(|answer| *answer == (0, 0)));
}
