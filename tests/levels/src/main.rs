// SPDX-License-Identifier: MIT OR Apache-2.0
//! The proved soundness test against the unrelated implementation: sound states, and states with words altered anywhere.
//!
//!     test-levels [STATES [SEED]]   at least so many states (400,000 without it)
//!     test-levels spoil             spoils one answer: the run must find it and exit with 1

use common::arguments::{asked, words};
use common::buffers::{exponent_at, rows, DEGREES, STATE, VARIABLES};
use common::files::with_some_weights;
use common::states::{
    alter, degree_is_free, degree_words, full_basis, long_basis, random_basis, write_basis, Size,
};
use reference::buffers::read_state;
use reference::engine::{sound, Basis, State};
use reference::generate::problems::{
    problem_file, random_basis as random_problem, Size as ProblemSize,
};
use reference::generate::states::{alter_degree, carry, with_other_degrees};
use reference::lifting::Way;
use reference::monomial::{Monomial, Parameters, Term, UNIT};
use reference::random::Random;
use reference::Limits;
use testing::soundness as proved;

const STATES: u64 = 400_000;
const SEED: u64 = 20_250_202;

struct Compare {
    limits: Limits,
    states: u64,
    sound: u64,
    spoiled: Option<u64>,
}

impl Compare {
    /// Both answers to these words.
    fn words(&mut self, state: &[u16], what: &str) -> bool {
        let expected = read_state(&self.limits, state)
            .basis
            .is_some_and(|basis| sound(&self.limits, &basis));
        let mut number = proved::number(state);
        if self.spoiled == Some(self.states) {
            number = 11 - number;
        }
        self.states += 1;
        self.sound += u64::from(expected);
        if number != if expected { 0 } else { 11 } {
            println!(
                "state {}: {what}: the proved test says {number}, the unrelated implementation says {}",
                self.states,
                if expected { "sound" } else { "not sound" }
            );
            std::process::exit(1);
        }
        expected
    }

    /// A sound state, and so many alterations of it.
    fn altered(&mut self, random: &mut Random, basis: &Basis, state: &mut [u16], alterations: u64) {
        write_basis(basis.clone(), state);
        assert!(
            self.words(state, "as made"),
            "the generator makes sound states"
        );
        for _ in 0..alterations {
            let before = alter(random, basis, state);
            self.words(
                state,
                &format!("words {:?}", before.iter().map(|w| w.0).collect::<Vec<_>>()),
            );
            for (at, word) in before.into_iter().rev() {
                state[at] = word;
            }
        }
    }
}

/// Each exponent of an element's one term, by itself and at both ends of its range, in each number of variables: past the last variable it must be 0.
fn each_exponent(compare: &mut Compare, state: &mut [u16]) {
    for n in 1..=VARIABLES {
        let parameters = Parameters {
            p: 7,
            n: n as u64,
            order: 3,
            s: 1,
        };
        let monomial = Monomial {
            component: 1,
            exponents: UNIT,
        };
        let term = Term {
            coefficient: 1,
            monomial,
        };
        let levels = vec![vec![vec![term]]];
        write_basis(Basis::new(parameters, vec![9], levels), state);
        for x in 0..VARIABLES {
            let (word, one) = exponent_at(x);
            for exponent in [1, 255] {
                state[rows(0) + word] = exponent * one;
                carry(&compare.limits, state);
                let what = format!("exponent {} is {exponent} of {n} variables", x + 1);
                assert_eq!(compare.words(state, &what), x < n, "{what}");
            }
            state[rows(0) + word] = 0;
            carry(&compare.limits, state);
        }
    }
}

/// Each word that holds a degree or has room for one, changed in some ways; all of them that follow from other degrees of the components; and words that are
/// none filled. Gives how many were changed.
fn each_degree(compare: &mut Compare, random: &mut Random, state: &mut [u16]) -> u64 {
    let mut changed = 0;
    for (levels, vectors) in [(1, 3), (2, 5), (3, 9), (10, 4), (10, 12)] {
        for _ in 0..2 {
            let size = Size {
                levels,
                vectors,
                terms: 3,
                exponent: 4,
            };
            let basis = random_basis(random, &size);
            write_basis(basis.clone(), state);
            assert!(compare.words(state, "degrees as made"));
            let named = degree_words(&basis);
            for at in DEGREES..STATE {
                let old = state[at];
                let words: Vec<u16> = if named.contains(&at) {
                    vec![
                        old.wrapping_add(1),
                        old.wrapping_sub(1),
                        old ^ 256,
                        !old,
                        255,
                        256,
                    ]
                } else {
                    vec![1]
                };
                for word in words {
                    state[at] = word;
                    let what = format!("degree word {at} from {old} to {word}");
                    let free = word == old || degree_is_free(&basis, at, word);
                    assert_eq!(compare.words(state, &what), free, "{what}");
                    changed += 1;
                }
                state[at] = old;
            }
            for _ in 0..20 {
                let other = with_other_degrees(random, &basis);
                write_basis(other.clone(), state);
                assert!(compare.words(state, "other degrees"));
                let (at, _) = alter_degree(random, &compare.limits, &other, state);
                compare.words(state, &format!("other degrees, word {at}"));
                changed += 2;
            }
            write_basis(basis.clone(), state);
            for (at, word) in state.iter_mut().enumerate().skip(DEGREES) {
                if !named.contains(&at) {
                    *word = random.bits() as u16;
                }
            }
            assert!(compare.words(state, "other words behind the degrees"));
        }
    }
    changed
}

/// The levels that lifting makes, over a random basis that is accepted.
fn lifted(random: &mut Random, limits: &Limits) -> Option<Basis> {
    let mut held = State::new();
    let mut file = problem_file(&random_problem(random, &ProblemSize::small()));
    with_some_weights(random, &mut file);
    held.read(limits, &file, Some(20_000));
    for k in 1..=random.below(4) {
        held.lift(limits, k, Way::Hybrid(2), 0, Some(20_000));
    }
    held.basis
}

fn main() {
    // there is one way to spoil an answer, without a name
    let (wanted, seed, spoil) = asked(&words(), "states", (STATES, SEED), &[("", ())]);
    let mut compare = Compare {
        limits: Limits::document_01(),
        states: 0,
        sound: 0,
        spoiled: spoil.map(|()| 4_321),
    };
    let mut random = Random::new(seed);
    let mut state = vec![0_u16; STATE];

    // buffers of other lengths: too short is 16, longer ones are read as they are
    for words in [0, 1, rows(0), STATE - 1] {
        assert_eq!(proved::number(&state[..words]), 16);
    }
    // no state at all
    compare.words(&state, "all zero");
    each_exponent(&mut compare, &mut state);
    let degrees = each_degree(&mut compare, &mut random, &mut state);
    for order in 1..=3 {
        let basis = full_basis(&mut random, order);
        compare.altered(&mut random, &basis, &mut state, 60);
        let basis = long_basis(&mut random);
        compare.altered(&mut random, &basis, &mut state, 200);
    }
    let sizes = [
        Size {
            levels: 2,
            vectors: 4,
            terms: 4,
            exponent: 2,
        },
        Size {
            levels: 4,
            vectors: 6,
            terms: 6,
            exponent: 3,
        },
        Size {
            levels: 10,
            vectors: 5,
            terms: 8,
            exponent: 4,
        },
        Size {
            levels: 10,
            vectors: 20,
            terms: 12,
            exponent: 2,
        },
    ];
    let mut lifts = 0;
    while compare.states < wanted {
        let basis = if random.chance(15) {
            match lifted(&mut random, &compare.limits) {
                None => continue,
                Some(basis) => {
                    lifts += 1;
                    basis
                }
            }
        } else {
            let size = *random.pick(&sizes);
            random_basis(&mut random, &size)
        };
        compare.altered(&mut random, &basis, &mut state, 40);
    }
    println!(
        "levels: {} states agree ({} sound, {} not, {degrees} with a degree changed, {lifts} bases lifted, seed {seed})",
        compare.states,
        compare.sound,
        compare.states - compare.sound
    );
    // a run in which one of the answers hardly comes tests too little
    assert!(compare.sound * 10 >= compare.states && compare.sound * 10 <= compare.states * 9);
}
