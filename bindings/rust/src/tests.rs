// SPDX-License-Identifier: MIT OR Apache-2.0
use crate::{
    betti, bidegrees, calls, completed, hilbert, layout, member, minimal, replay, sheet, Division,
    Engine, Order, Pick, Printing, Problem, Refusal, Term, Way, HIGHEST_LEVEL, LEAST_TERMS,
    MINOR, VERSION, WORKING_TERMS,
};

const PRINTED: &[u8] = b"R,7,2,1,1\nT,1,1,1,1,0\nT,1,1,1,0,1\nT,2,1,1,0,2\nT,2,1,1,0,0\nE,4\n";
/// A tree as deep as its work area allows (tests/common has how it is made).
const DEEP: &[u8] = b"R,7,5,1,2\nT,1,1,2,1,0,0,0,0\nT,1,1,1,0,8,11,244,1\nT,2,1,2,1,0,0,0,0\nT,2,1,1,0,8,11,244,1\nT,3,1,1,0,0,0,0,1\nT,3,6,1,0,0,0,0,0\nT,4,1,1,0,0,1,0,0\nT,4,6,1,0,0,0,1,1\nT,4,1,1,0,0,0,1,0\nT,5,1,1,0,1,0,254,0\nT,5,6,1,0,0,254,0,0\nE,11\n";

fn term(coefficient: u16, component: u16, x: u8, y: u8) -> Term {
    Term {
        coefficient,
        component,
        exponents: [x, y, 0, 0, 0, 0, 0, 0],
    }
}

/// document 01's printed example
#[test]
fn the_printed_vector_by_every_way() {
    let mut engine = Engine::new();
    assert_eq!(engine.complete(), 0);
    for way in [
        Way::Division,
        Way::Hybrid(Pick::Greatest),
        Way::Hybrid(Pick::Newest),
        Way::Hybrid(Pick::Oldest),
        Way::Tree,
    ] {
        engine.read(PRINTED).expect("a Gröbner basis");
        assert_eq!(
            (engine.complete(), engine.count(0), engine.terms(0)),
            (1, 2, 4)
        );
        engine.lift(1, way).expect("no limit is met");
        assert_eq!(
            (engine.complete(), engine.count(1), engine.terms(1)),
            (2, 1, 4)
        );
        assert_eq!(
            engine.fetch(1, 1),
            Ok(vec![
                term(1, 2, 1, 0),
                term(6, 1, 0, 2),
                term(6, 1, 0, 0),
                term(1, 2, 0, 1)
            ])
        );
        engine.lift(2, way).expect("no limit is met");
        assert_eq!(
            (engine.complete(), engine.count(2), engine.terms(2)),
            (3, 0, 0)
        );
    }
}

/// −x − y, −y modulo primes of request A4
#[test]
fn large_primes_by_every_way() {
    for p in [65_521_u16, 65_519] {
        let c = p - 1;
        let file = format!("R,{p},2,1,1\nT,1,{c},1,1,0\nT,1,{c},1,0,1\nT,2,{c},1,0,1\nE,3\n");
        let mut engine = Engine::new();
        for way in [
            Way::Division,
            Way::Hybrid(Pick::Greatest),
            Way::Hybrid(Pick::Newest),
            Way::Hybrid(Pick::Oldest),
            Way::Tree,
        ] {
            engine.read(file.as_bytes()).expect("a Gröbner basis");
            engine.lift(1, way).expect("no limit is met");
            assert_eq!(
                engine.fetch(1, 1),
                Ok(vec![term(1, 2, 1, 0), term(c, 1, 0, 1), term(1, 2, 0, 1)])
            );
        }
    }
}

#[test]
fn refusals_in_words() {
    let mut engine = Engine::with_cache(0);
    assert_eq!(engine.lift(1, Way::Tree), Err(Refusal::NoLevel));
    assert_eq!(engine.read(b""), Err(Refusal::BadLine { line: 1 }));
    assert_eq!(engine.read(&[0; 65_537]), Err(Refusal::FileTooLong));
    assert_eq!(
        engine.read(b"R,7,2,1,1\nT,1,7,1,1,0\nE,1\n"),
        Err(Refusal::BadTerm { line: 2 })
    );
    engine.read(PRINTED).expect("a Gröbner basis");
    assert_eq!(engine.lift(10, Way::Division), Err(Refusal::BadNumber));
    assert_eq!(engine.fetch(1, 1), Err(Refusal::NoLevel));
    // instance 9 of document 01: "With x + y^255: `X,13,0`"
    assert_eq!(
        engine.read(b"R,7,2,1,1\nT,1,1,1,1,0\nT,1,1,1,0,255\nT,2,1,1,0,2\nE,3\n"),
        Err(Refusal::ExponentLimit { level: 0 })
    );
    // instance 6 of document 01: "refused 9, value 6y³"
    let refusal = engine.read(b"R,7,2,1,1\nT,1,1,1,2,0\nT,2,1,1,1,1\nT,2,1,1,0,2\nE,3\n");
    assert_eq!(refusal, Err(Refusal::NoBasis { frame_term: 1 }));
    assert_eq!(engine.stopped_at(), [term(6, 1, 0, 3)]);
    assert_eq!(
        refusal.unwrap_err().to_string(),
        "refused 9 at frame term 1: the elements are no Groebner basis"
    );
    assert_eq!(engine.complete(), 0);
}

/// on this thread's 2 MiB of stack it would not return
#[test]
fn the_deepest_tree() {
    let mut engine = Engine::with_cache(100_000);
    engine.read(DEEP).expect("a Gröbner basis");
    engine.lift(1, Way::Division).expect("no limit is met");
    let by_division: Vec<_> = (1..=engine.count(1)).map(|v| engine.fetch(1, v)).collect();
    assert!(!by_division.is_empty());
    engine.lift(1, Way::Tree).expect("no limit is met");
    let by_tree: Vec<_> = (1..=engine.count(1)).map(|v| engine.fetch(1, v)).collect();
    assert_eq!(by_division, by_tree);
}

/// x + y^n + .. + y, y: by every pick code the working value has n terms and the vector n + 2
fn tailed(n: u8) -> Vec<u8> {
    let mut problem = Problem::new(7, 2, Order::Lexicographic, 1);
    let tail = (1..=n).map(|i| Term::new(1, 1, &[0, i]));
    problem.element(tail.chain([Term::new(1, 1, &[1])]));
    problem.element([Term::new(1, 1, &[0, 1])]);
    problem.file()
}

/// request A11: 16 below 32 terms, then 14 below as many as the value has, then the same words of the state
#[test]
fn hybrid_in_every_room() {
    for n in [5, 32, 33, 40, 100, 254] {
        for pick in [Pick::Greatest, Pick::Newest, Pick::Oldest] {
            let mut read = Engine::with_cache(3);
            read.read(&tailed(n)).expect("a Gröbner basis");
            let mut whole = read.clone();
            whole.lift(1, Way::Hybrid(pick)).expect("no limit is met");
            let terms = usize::from(n);
            assert_eq!(whole.terms(1), terms + 2);
            let rooms = (30..=42).chain([0, 1, 99, 100, 101, 253, 254, 255]);
            for room in rooms.chain([511, 512, 513, 100_000, usize::MAX]) {
                let mut engine = read.clone();
                let lifted = engine.lift_within(1, pick, room);
                if room < LEAST_TERMS {
                    assert_eq!(lifted, Err(Refusal::ShortBuffer));
                    assert_eq!(engine.state, read.state);
                } else if room < terms {
                    assert_eq!(lifted, Err(Refusal::TermLimit { level: 1 }));
                    assert_eq!(engine.complete(), 0);
                } else {
                    assert_eq!(lifted, Ok(()));
                    assert_eq!(engine.state, whole.state);
                }
            }
        }
    }
}

/// the call itself with slices of any length: whole rows count, and what is lent is zero afterwards
#[test]
fn hybrid_in_slices_of_any_length() {
    let least = LEAST_TERMS * layout::ROW_WORDS;
    assert_eq!(of_header("LEAST_WORK_WORDS"), Some(least));
    let mut read = Engine::new();
    read.read(&tailed(33)).expect("a Gröbner basis");
    for (words, number) in [
        (0, 16),
        (least - 1, 16),
        (least, 14),
        (least + layout::ROW_WORDS - 1, 14),
        (least + layout::ROW_WORDS, 0),
        (least + layout::ROW_WORDS + 1, 0),
        (layout::WORK_WORDS - 1, 0),
        (layout::WORK_WORDS + 1, 0),
        (layout::TREE_WORK_WORDS + 1, 0),
    ] {
        let (mut state, mut work, mut cache) = (read.state.clone(), vec![5; words], vec![5; 20]);
        let place = usize::from(number == 14);
        let answer = calls::lift(&mut state, &mut work, &mut cache, 1, 1, 3);
        assert_eq!(answer, (number, place), "{words} words");
        let left = if number == 16 { 5 } else { 0 };
        assert!(work.iter().chain(&cache).all(|word| *word == left));
        assert_eq!(state == read.state, number == 16);
    }
}

/// engines on threads of their own, each in the least room, give what one alone gives
#[test]
fn engines_side_by_side() {
    let file = include_bytes!("../../../examples/delpezzo6.txt");
    let lifted = |room: usize, pick: Pick| {
        let mut engine = Engine::with_cache(0);
        engine.read(file).expect("a Gröbner basis");
        let mut levels = 0;
        while levels == 0 || engine.count(levels) != 0 {
            levels += 1;
            let done = engine.lift_within(levels, pick, room);
            done.expect("no limit is met");
        }
        engine.state
    };
    let alone = lifted(WORKING_TERMS, Pick::Greatest);
    std::thread::scope(|scope| {
        for pick in [Pick::Greatest, Pick::Newest, Pick::Oldest].repeat(8) {
            let (lifted, alone) = (&lifted, &alone);
            scope.spawn(move || assert_eq!(lifted(LEAST_TERMS, pick), *alone));
        }
    });
}

/// the printed example of document 01, and instance 10: "empty file prints `X,1,1`"
#[test]
fn the_sheet_of_every_file() {
    let lines = "S,1,1,1,2,1,0\nS,1,1,6,1,0,2\nS,1,1,6,1,0,0\nS,1,1,1,2,0,1\nZ,1,1\nZ,2,0\n";
    assert_eq!(sheet(PRINTED), lines.as_bytes());
    assert_eq!(sheet(b""), b"X,1,1\n");
}

/// A page of these rows.
fn page(rows: &[(&str, &[u8])]) -> Vec<u8> {
    let row = |label: &str, counts: &[u8]| {
        let cells = (0..11).map(|column| match counts.get(column) {
            None | Some(0) => "     -".to_string(),
            Some(count) => format!("{count:6}"),
        });
        format!("{label:>6}{}\n", cells.collect::<String>())
    };
    let rows = rows.iter().map(|(label, counts)| row(label, counts));
    rows.collect::<String>().into_bytes()
}

/// the page of request A1, and one whose degrees come from a D line; then 17, with D or without it, after acceptance
#[test]
fn the_page_of_every_file() {
    assert_eq!(
        betti(b"R,7,2,3,1\nT,1,1,1,2,0\nT,2,1,1,1,1\nT,3,1,1,0,2\nE,3\n"),
        concat!(
            "    0:     1     -     -     -     -     -     -     -     -     -     -\n",
            "    1:     -     3     2     -     -     -     -     -     -     -     -\n",
            " total     1     3     2     -     -     -     -     -     -     -     -\n"
        )
        .as_bytes()
    );
    let module = "T,1,1,1,1,1\nT,2,1,1,2,0\nT,2,1,2,0,1\nT,3,1,2,0,2\nE,4\n";
    assert_eq!(
        betti(format!("R,7,2,3,2\nD,0,1\n{module}").as_bytes()),
        page(&[
            ("0:", &[1]),
            ("1:", &[1, 2, 1]),
            ("2:", &[0, 1]),
            ("total", &[2, 3, 1])
        ])
    );
    // 1, 1: rows −2 and −1 are in use
    assert_eq!(
        betti(b"R,7,1,1,1\nT,1,1,1,0\nT,2,1,1,0\nE,2\n"),
        page(&[
            ("-2:", &[0, 0, 1]),
            ("-1:", &[0, 2]),
            ("0:", &[1]),
            ("total", &[1, 2, 1])
        ])
    );
    for (file, printed) in [
        (format!("R,7,2,3,2\n{module}"), "X,17,2\n"),
        (format!("R,7,2,3,2\nD,1,0\n{module}"), "X,17,2\n"),
        ("R,7,1,1,1\nT,1,1,1,1\nT,1,1,1,0\nE,2\n".into(), "X,17,1\n"),
        // x² and xy + y are no basis: 9 comes first
        (
            "R,7,2,1,1\nT,1,1,1,2,0\nT,2,1,1,1,1\nT,2,1,1,0,1\nE,3\n".into(),
            "X,9,1\nW,6,1,0,1\n",
        ),
        ("R,7,1,1,2\nD,0,256\n".into(), "X,18,2\n"),
        ("".into(), "X,1,1\n"),
    ] {
        assert_eq!(betti(file.as_bytes()), printed.as_bytes(), "{file}");
    }
}

/// an element twice; a relation that follows from two others; constants in components, which leave one of two, or none; the same monomials modulo 2 and
/// modulo 3; nothing to be left out; then what is refused, as by the page
#[test]
fn the_minimal_numbers_of_every_file() {
    let module = "T,1,1,1,1,1\nT,2,1,1,2,0\nT,2,1,2,0,1\nT,3,1,2,0,2\nE,4\n";
    let plane = include_str!("../../../examples/rp2_char2.txt");
    assert_eq!(
        plane.replacen("R,2,", "R,3,", 1),
        include_str!("../../../examples/rp2_char3.txt")
    );
    let twice = "R,7,2,1,1\nT,1,1,1,1,0\nT,2,1,1,1,0\nT,3,1,1,0,1\nE,3\n";
    let two = "R,7,2,1,2\nD,0,1\nT,1,1,1,1,0\nT,1,1,2,0,0\nT,2,1,2,0,2\nE,3\n";
    let none = "R,7,1,1,2\nT,1,2,2,0\nT,1,1,1,0\nT,2,1,1,0\nE,3\n";
    type Rows<'a> = &'a [(&'a str, &'a [u8])];
    let cases: [(&str, Rows); 6] = [
        (
            twice,
            &[("-1:", &[]), ("0:", &[1, 2, 1]), ("total", &[1, 2, 1])],
        ),
        (
            &format!("R,7,2,3,2\nD,0,1\n{module}"),
            &[
                ("0:", &[1]),
                ("1:", &[1, 2]),
                ("2:", &[]),
                ("total", &[2, 2]),
            ],
        ),
        // x e_1 + e_2 takes away e_2, so that y^2 e_2 is a relation of e_1
        (
            two,
            &[
                ("0:", &[1]),
                ("1:", &[]),
                ("2:", &[0, 1]),
                ("total", &[1, 1]),
            ],
        ),
        (none, &[("-1:", &[]), ("0:", &[]), ("total", &[])]),
        (
            plane,
            &[
                ("0:", &[1]),
                ("1:", &[]),
                ("2:", &[0, 10, 15, 6, 1]),
                ("3:", &[0, 0, 0, 1]),
                ("total", &[1, 10, 15, 7, 1]),
            ],
        ),
        (
            include_str!("../../../examples/rp2_char3.txt"),
            &[
                ("0:", &[1]),
                ("1:", &[]),
                ("2:", &[0, 10, 15, 6]),
                ("3:", &[]),
                ("total", &[1, 10, 15, 6]),
            ],
        ),
    ];
    for (file, rows) in cases {
        let found = minimal(file.as_bytes());
        assert_eq!(
            String::from_utf8_lossy(&found),
            String::from_utf8_lossy(&page(rows)),
            "{file}"
        );
    }
    let squares = b"R,7,2,3,1\nT,1,1,1,2,0\nT,2,1,1,1,1\nT,3,1,1,0,2\nE,3\n";
    assert_eq!(minimal(squares), betti(squares));
    for (file, refused) in [
        (format!("R,7,2,3,2\n{module}"), "X,17,2\n"),
        // 9 comes first
        (
            "R,7,2,1,1\nT,1,1,1,2,0\nT,2,1,1,1,1\nT,2,1,1,0,1\nE,3\n".into(),
            "X,9,1\nW,6,1,0,1\n",
        ),
        (
            include_str!("../../../examples/cnc_g7.txt").into(),
            "X,15,2\n",
        ),
        ("R,7,1,1,2\nD,0,256\n".into(), "X,18,2\n"),
        ("R,7,1,1,2\nG,0,16\n".into(), "X,24,2\n"),
        ("".into(), "X,1,1\n"),
    ] {
        let found = minimal(file.as_bytes());
        assert_eq!(String::from_utf8_lossy(&found), refused, "{file}");
        assert_eq!(found, betti(file.as_bytes()));
    }
}

/// request A14's example; with components' degrees, added to the first sum alone; without a G line; then 25, 24 and what comes before them
#[test]
fn the_bidegrees_of_every_file() {
    let product = "T,1,1,1,1,0,1,0\nT,2,1,1,0,1,0,1\nE,2\n";
    let module = "T,1,1,1,1,1\nT,2,1,1,2,0\nT,2,1,2,0,1\nT,3,1,2,0,2\nE,4\n";
    for (head, lines, printed) in [
        (
            "R,7,4,3,1\nG,1,0,1,0,0,1,0,1\n",
            product,
            "B,0,0,0,1\nB,1,1,1,2\nB,2,2,2,1\n",
        ),
        ("R,7,4,3,1\n", product, "B,0,0,0,1\nB,1,2,0,2\nB,2,4,0,1\n"),
        (
            "R,7,4,3,1\nD,9\nG,0,1,15,0,0,0,0,15\n",
            product,
            "B,0,9,0,1\nB,1,9,1,1\nB,1,24,15,1\nB,2,24,16,1\n",
        ),
        (
            "R,7,2,3,2\nD,0,1\n",
            module,
            "B,0,0,0,1\nB,0,1,0,1\nB,1,2,0,2\nB,1,3,0,1\nB,2,3,0,1\n",
        ),
        // x1^2 and x2 have one bidegree and two degrees: 17 is not tested
        (
            "R,7,2,3,1\nG,1,0,2,0\n",
            "T,1,1,1,2,0\nT,1,1,1,0,1\nE,2\n",
            "B,0,0,0,1\nB,1,2,0,1\n",
        ),
        ("R,7,2,3,2\n", module, "X,25,2\n"),
        ("R,7,2,3,2\nD,0,1\nG,1,0,0,1\n", module, "X,25,2\n"),
        // one degree and two bidegrees
        (
            "R,7,2,3,1\nG,1,0,0,1\n",
            "T,1,1,1,1,0\nT,1,1,1,0,1\nE,2\n",
            "X,25,1\n",
        ),
        // x² and xy + y are no basis: 9 comes first
        (
            "R,7,2,1,1\nG,1,0,0,1\n",
            "T,1,1,1,2,0\nT,2,1,1,1,1\nT,2,1,1,0,1\nE,3\n",
            "X,9,1\nW,6,1,0,1\n",
        ),
        ("R,7,1,1,2\nG,0,16\n", "", "X,24,2\n"),
        ("R,7,1,1,2\nD,0,0\nG,16,0\n", "", "X,24,3\n"),
        ("R,7,1,1,2\nD,0,256\nG,16,0\n", "", "X,18,2\n"),
        ("R,7,1,1,2\nG,0\n", "", "X,1,2\n"),
        ("R,7,1,1,2\nG,0,0\nD,0,0\n", "", "X,1,3\n"),
        ("", "", "X,1,1\n"),
    ] {
        let file = format!("{head}{lines}");
        let found = bidegrees(file.as_bytes());
        assert_eq!(String::from_utf8_lossy(&found), printed, "{file}");
    }
}

/// request A13's example, which is not homogeneous; x², xy, y²; a module with components' degrees and without; nothing but elements above degree 32, in as many
/// variables and components as there can be; the whole module; then what is refused, a limit of lifting among it
#[test]
fn the_hilbert_function_of_every_file() {
    let module = "T,1,1,1,1,1\nT,2,1,1,2,0\nT,2,1,2,0,1\nT,3,1,2,0,2\nE,4\n";
    let squares = "R,7,2,3,1\nT,1,1,1,2,0\nT,2,1,1,1,1\nT,3,1,1,0,2\nE,3\n";
    let high = "R,65521,8,1,16\nT,1,1,16,255,0,0,0,0,0,0,0\nE,1\n";
    let printed = String::from_utf8_lossy(PRINTED);
    let cases: [(&str, fn(u64) -> u64); 7] = [
        (&printed, |d| u64::from(d < 2)),
        (squares, |d| [1, 2].get(d as usize).copied().unwrap_or(0)),
        (&format!("R,7,2,3,2\nD,0,1\n{module}"), |d| match d {
            0 => 1,
            _ => 3,
        }),
        (&format!("R,7,2,3,2\nD,9,5\n{module}"), |d| match d {
            0..=4 => 0,
            5 => 1,
            6..=8 => 2,
            9 => 3,
            10 => 4,
            _ => 3,
        }),
        (&format!("R,7,2,3,2\n{module}"), |d| {
            [2, 4].get(d as usize).copied().unwrap_or(3)
        }),
        // C(d + 7, 7) for each component
        (high, |d| {
            (1..=7).fold(16, |product, k| product * (d + k) / k)
        }),
        ("R,7,2,1,1\nT,1,3,1,0,0\nE,1\n", |_| 0),
    ];
    for (file, value) in cases {
        let expected: String = (0..=32).map(|d| format!("H,{d},{}\n", value(d))).collect();
        let found = hilbert(file.as_bytes());
        assert_eq!(String::from_utf8_lossy(&found), expected, "{file}");
    }
    for (file, refused) in [
        (
            "R,7,2,1,1\nT,1,1,1,2,0\nT,2,1,1,1,1\nT,2,1,1,0,2\nE,3\n",
            "X,9,1\nW,6,1,0,3\n",
        ),
        (
            "R,7,2,1,1\nT,1,1,1,1,0\nT,1,1,1,0,255\nT,2,1,1,0,2\nE,3\n",
            "X,13,0\n",
        ),
        (include_str!("../../../examples/cnc_g7.txt"), "X,15,2\n"),
        ("R,7,1,1,2\nD,0,256\n", "X,18,2\n"),
        ("R,7,1,1,2\nG,0,16\n", "X,24,2\n"),
        ("", "X,1,1\n"),
    ] {
        let found = hilbert(file.as_bytes());
        assert_eq!(String::from_utf8_lossy(&found), refused, "{file}");
    }
}

/// request A12: lines of quotients, remainder and answer; nothing behind E; what is refused, in its order
#[test]
fn the_division_of_every_input() {
    let printed = String::from_utf8_lossy(PRINTED);
    for (lines, answer) in [
        (
            "V,1,1,2,0\nV,1,1,0,0\n",
            "C,1,1,1,0\nC,6,1,0,1\nC,1,2,0,0\nM,1\n",
        ),
        ("V,2,1,0,1\n", "W,2,1,0,1\nM,0\n"),
        ("", "M,1\n"),
        ("V,1,1,1,255\n", "X,13,0\n"),
        ("V,1,1,1,255\nx\n", "X,23,8\n"),
        ("V,1,1,0,1\nV,1,1,0,1\n", "X,23,8\n"),
        ("V,7,1,0,1\n", "X,23,7\n"),
        ("V,1,1,0,1", "X,23,7\n"),
    ] {
        let input = format!("{printed}{lines}");
        let found = member(input.as_bytes());
        assert_eq!(String::from_utf8_lossy(&found), answer, "{lines}");
    }
    let none = b"R,7,2,1,1\nT,1,1,1,2,0\nT,2,1,1,1,1\nT,2,1,1,0,2\nE,3\nx\n";
    assert_eq!(member(none), b"X,9,1\nW,6,1,0,3\n");
    assert_eq!(member(b""), b"X,1,1\n");
}

/// request A6: an element more, with D and G lines as they are; several; a file that is accepted at once; the 64th element and the 65th; what is not read
#[test]
fn the_completed_file() {
    let squares = "T,1,1,1,2,0\nT,2,1,1,1,1\nT,2,1,1,0,2\n";
    let three = "T,1,1,1,1,0\nT,2,1,1,1,0\nT,2,1,1,0,1\nT,3,1,1,1,0\nT,3,1,1,0,1\nT,3,1,1,0,0\n";
    for (head, elements, count, added, more) in [
        ("", squares, 3, "T,3,1,1,0,3\n", 1),
        ("D,5\nG,1,2,3,4\n", squares, 3, "T,3,1,1,0,3\n", 1),
        ("", three, 6, "T,4,1,1,0,1\nT,5,1,1,0,0\n", 2),
        ("D,5\n", "T,1,1,1,2,0\nT,2,3,1,0,3\n", 2, "", 0),
    ] {
        let file = format!("R,7,2,1,1\n{head}{elements}E,{count}\n");
        let basis = completed(file.as_bytes());
        let expected = format!("R,7,2,1,1\n{head}{elements}{added}E,{}\n", count + more);
        assert_eq!(String::from_utf8_lossy(&basis), expected);
        Engine::new().read(&basis).expect("a Gröbner basis");
    }
    // y² in a second component so many times, then x and x + y
    let stuffed = |others: usize| {
        let mut file = "R,7,2,1,2\n".to_string();
        for number in 1..=others {
            file.push_str(&format!("T,{number},1,2,0,2\n"));
        }
        let (first, second) = (others + 1, others + 2);
        file + &format!(
            "T,{first},1,1,1,0\nT,{second},1,1,1,0\nT,{second},1,1,0,1\nE,{}\n",
            others + 3
        )
    };
    assert!(completed(stuffed(61).as_bytes()).ends_with(b"T,64,1,1,0,1\nE,65\n"));
    let refused = Refusal::printed(&completed(stuffed(62).as_bytes()));
    assert_eq!(refused, Some(Refusal::TooManyElements { element: 65 }));
    assert_eq!(
        refused.expect("it is refused").to_string(),
        "refused 19 at element 65: a completed file would have more than 64 elements"
    );
    assert_eq!(completed(b""), b"X,1,1\n");
}

/// logs of the printed instance: taken, 12, 21 and 22 with their lines
#[test]
fn logs_replayed() {
    let printed = "R,7,2,1,1\nT,1,1,1,1,0\nT,1,1,1,0,1\nT,2,1,1,0,2\nT,2,1,1,0,0\nE,4\n";
    let vector = "S,1,1,1,2,1,0\nS,1,1,6,1,0,2\nS,1,1,6,1,0,0\nS,1,1,1,2,0,1\n";
    for (lines, answer) in [
        ("L,1,1\nP,1,2,1\nP,1,0,1\nP,0,3,1\n", vector),
        ("L,1,1\nP,1,0,1\nP,1,2,1\nP,0,3,1\n", vector),
        ("", "X,21,7\n"),
        ("L,1,1", "X,21,7\n"),
        ("L,10,1\n", "X,12,7\n"),
        ("L,1,2\n", "X,12,7\n"),
        ("L,1,1\nP,0,0,1\n", "X,22,8\n"),
        ("L,1,1\nP,1,2,1\nP,1,0\n", "X,21,9\n"),
        ("L,1,1\nP,1,2,1\nP,1,0,1\n", "X,22,10\n"),
        ("L,1,1\nP,1,2,1\nP,1,0,1\nP,0,3,1\nP,0,3,1\n", "X,22,11\n"),
    ] {
        let input = format!("{printed}{lines}");
        let found = replay(input.as_bytes());
        assert_eq!(String::from_utf8_lossy(&found), answer, "{lines}");
    }
    assert_eq!(
        Refusal::printed(b"X,21,7\n"),
        Some(Refusal::BadLog { line: 7 })
    );
    assert_eq!(
        Refusal::printed(b"X,22,8\n"),
        Some(Refusal::NotTaken { line: 8 })
    );
    assert_eq!(replay(b""), b"X,1,1\n");
}

/// the same over an engine, with levels above or without, many vectors of one basis; 23 with the term
#[test]
fn vectors_divided() {
    let mut engine = Engine::new();
    assert_eq!(engine.divide(&[]), Err(Refusal::NoLevel));
    engine.read(PRINTED).expect("a Gröbner basis");
    for level in 0..3 {
        if level > 0 {
            engine.lift(level, Way::Division).expect("no limit is met");
        }
        let before = engine.state.clone();
        let square = engine.divide(&[term(1, 1, 2, 0), term(1, 1, 0, 0)]);
        let quotients = vec![term(1, 1, 1, 0), term(6, 1, 0, 1), term(1, 2, 0, 0)];
        let remainder = vec![];
        assert_eq!(
            square,
            Ok(Division {
                quotients,
                remainder
            })
        );
        let y = engine.divide(&[term(3, 1, 0, 1)]).expect("no limit is met");
        assert_eq!(
            (y.is_member(), y.remainder),
            (false, vec![term(3, 1, 0, 1)])
        );
        let zero = engine.divide(&[]).expect("nothing to divide");
        assert!(zero.is_member() && zero.quotients.is_empty());
        let bad = |term| Err(Refusal::BadVector { term });
        assert_eq!(engine.divide(&[term(0, 1, 0, 1)]), bad(1));
        assert_eq!(engine.divide(&[term(7, 1, 0, 1)]), bad(1));
        assert_eq!(engine.divide(&[term(1, 2, 0, 1)]), bad(1));
        assert_eq!(engine.divide(&[Term::new(1, 1, &[0, 0, 1])]), bad(1));
        assert_eq!(engine.divide(&[term(1, 1, 0, 1), term(1, 1, 1, 0)]), bad(2));
        let many: Vec<Term> = (0..=512_u32)
            .map(|i| term(1, 1, 3 - (i >> 8) as u8, 255 - (i & 255) as u8))
            .collect();
        assert_eq!(engine.divide(&many), bad(513));
        let limit = Err(Refusal::ExponentLimit { level: 0 });
        assert_eq!(engine.divide(&[term(1, 1, 1, 255)]), limit);
        assert_eq!(engine.state, before);
    }
}

/// a lent vector over slices: zeros behind, what stands behind the last whole row, 16 before 11 before 23, and the state as it was
#[test]
fn vectors_lent() {
    let mut state = vec![0; layout::STATE_WORDS];
    let mut work = vec![0; layout::WORK_WORDS];
    assert_eq!(calls::read(PRINTED, &mut state, &mut work), (0, 0));
    let square = [term(1, 1, 2, 0).row(), term(1, 1, 0, 0).row()].concat();
    let lent = |state: &[u16], vector: &[u16], quotients: usize, remainder: usize| {
        let before = state.to_vec();
        let (mut q, mut r) = (vec![5; quotients], vec![5; remainder]);
        let answer = calls::divide(state, vector, &mut q, &mut r);
        assert_eq!(state, before);
        (answer, q, r)
    };
    const OUT: usize = layout::OUT_WORDS;
    let fives = |words: usize| vec![5_u16; words];
    let quotients = [term(1, 1, 1, 0), term(6, 1, 0, 1), term(1, 2, 0, 0)];
    let rows: Vec<u16> = quotients.iter().flat_map(Term::row).collect();
    for more in 0..layout::ROW_WORDS {
        let vector = [&square[..], &[9; 5][..more.min(5)]].concat();
        let (answer, q, r) = lent(&state, &vector, OUT + more, OUT);
        assert_eq!(answer, (0, 0));
        assert_eq!(&q[..rows.len()], &rows[..]);
        assert!(q[rows.len()..].iter().chain(&r).all(|word| *word == 0));
    }
    let bad = [&square[..], &[0; layout::ROW_WORDS]].concat();
    assert_eq!(
        lent(&state, &bad, OUT, OUT),
        ((23, 3), vec![0; OUT], vec![0; OUT])
    );
    let none = vec![0; layout::STATE_WORDS];
    assert_eq!(
        lent(&none, &bad, OUT, OUT),
        ((11, 0), fives(OUT), fives(OUT))
    );
    for (words, q, r) in [
        (layout::STATE_WORDS - 1, OUT, OUT),
        (layout::STATE_WORDS, OUT - 1, OUT),
        (layout::STATE_WORDS, OUT, OUT - 1),
        (0, 0, 0),
    ] {
        assert_eq!(
            lent(&none[..words], &bad, q, r),
            ((16, 0), fives(q), fives(r))
        );
    }
}

/// a G line changes no sheet, no page, no minimal numbers and no Hilbert function
#[test]
fn weights_change_nothing_else() {
    let rest = "T,1,1,1,1,1\nT,2,1,1,2,0\nT,2,1,2,0,1\nT,3,1,2,0,2\nE,4\n";
    for head in ["R,7,2,3,2\n", "R,7,2,3,2\nD,0,1\n"] {
        let without = format!("{head}{rest}");
        for weights in ["G,1,0,0,1\n", "G,15,15,0,0\n", "G,0,0,0,0\n"] {
            let with = format!("{head}{weights}{rest}");
            assert_eq!(sheet(with.as_bytes()), sheet(without.as_bytes()));
            assert_eq!(betti(with.as_bytes()), betti(without.as_bytes()));
            assert_eq!(minimal(with.as_bytes()), minimal(without.as_bytes()));
            assert_eq!(hilbert(with.as_bytes()), hilbert(without.as_bytes()));
            let mut engines = [Engine::new(), Engine::new()];
            for (engine, file) in engines.iter_mut().zip([&with, &without]) {
                engine.read(file.as_bytes()).expect("a Gröbner basis");
                engine.lift(1, Way::Division).expect("no limit is met");
            }
            assert_eq!(engines[0].state, engines[1].state);
        }
    }
}

/// a buffer that is a word or a byte too short: 16, and nothing is changed
#[test]
fn short_buffers_of_pages() {
    let file = b"R,7,1,1,1\nT,1,1,1,1\nE,1\n";
    let pages: [(Printing, usize, Vec<u8>); 8] = [
        (calls::sheet, layout::SHEET_BYTES, sheet(file)),
        (calls::betti, layout::PAGE_BYTES, betti(file)),
        (calls::minimal, layout::PAGE_BYTES, minimal(file)),
        (calls::bidegrees, layout::BIDEGREES_BYTES, bidegrees(file)),
        (calls::hilbert, layout::HILBERT_BYTES, hilbert(file)),
        (calls::member, layout::MEMBER_BYTES, member(file)),
        (calls::completed, layout::COMPLETED_BYTES, completed(file)),
        (calls::replay, layout::REPLAY_BYTES, replay(file)),
    ];
    for (call, room, printed) in pages {
        let lengths = (layout::STATE_WORDS, layout::WORK_WORDS, room);
        for (state, work, out) in [
            (lengths.0 - 1, lengths.1, lengths.2),
            (lengths.0, lengths.1 - 1, lengths.2),
            (lengths.0, lengths.1, lengths.2 - 1),
            (0, 0, 0),
        ] {
            let (mut state, mut work, mut out) = (vec![5; state], vec![5; work], vec![5; out]);
            assert_eq!(call(file, &mut state, &mut work, &mut out), (16, 0));
            assert!(state.iter().chain(&work).all(|word| *word == 5));
            assert!(out.iter().all(|byte| *byte == 5));
        }
        let mut out = vec![5; lengths.2 + 9];
        let (mut state, mut work) = (vec![5; lengths.0], vec![5; lengths.1]);
        let (number, length) = call(file, &mut state, &mut work, &mut out);
        assert_eq!((number, &out[..length]), (0, &printed[..]));
        assert!(out[length..].iter().all(|byte| *byte == 0));
        assert!(state.iter().chain(&work).all(|word| *word == 0));
    }
}

/// what an X line says, wherever it stands; 17 and 25 in words
#[test]
fn printed_refusals() {
    assert_eq!(Refusal::printed(&sheet(PRINTED)), None);
    assert_eq!(Refusal::printed(&hilbert(PRINTED)), None);
    let mixed = Refusal::printed(&betti(PRINTED));
    assert_eq!(mixed, Some(Refusal::TwoDegrees { element: 2 }));
    assert_eq!(Refusal::printed(&minimal(PRINTED)), mixed);
    assert_eq!(
        mixed.unwrap().to_string(),
        "refused 17 at element 2: an element has terms of two degrees"
    );
    let mixed = Refusal::printed(&bidegrees(PRINTED));
    assert_eq!(mixed, Some(Refusal::TwoBidegrees { element: 2 }));
    assert_eq!(
        mixed.unwrap().to_string(),
        "refused 25 at element 2: an element has terms of two bidegrees"
    );
    for (lines, refusal) in [
        (&b"X,1,0\n"[..], Refusal::FileTooLong),
        (b"Z,1,1\nX,15,2\n", Refusal::LevelLimit { level: 2 }),
        (b"X,9,1\nW,6,1,0,3\n", Refusal::NoBasis { frame_term: 1 }),
        (b"X,20,9\n", Refusal::NotEnded { level: 9 }),
        (b"X,19,65\n", Refusal::TooManyElements { element: 65 }),
    ] {
        assert_eq!(Refusal::printed(lines), Some(refusal));
    }
    for lines in [
        &b""[..],
        b"Z,1,0\n",
        b"X,\n",
        b"X,1\n",
        b"X,a,1\n",
        b"1X,1,1\n",
    ] {
        assert_eq!(Refusal::printed(lines), None);
    }
}

/// a refusal for each number, and back; a number that no call gives is no success
#[test]
fn every_number_is_a_refusal() {
    for number in 1..100 {
        for place in [0, 3] {
            let refusal = Refusal::new(number, place);
            assert_eq!(refusal.number(), number);
            if refusal.place_name().is_some() {
                assert_eq!(refusal.place(), place);
            }
            let other = Refusal::Other { number, place };
            let known = matches!(number, 1..=9 | 11..=25);
            assert_eq!(refusal == other, !known);
        }
    }
}

#[test]
fn the_library_is_of_this_version() {
    assert_eq!(calls::version(), VERSION);
    assert_eq!(of_header("VERSION"), Some(usize::from(VERSION)));
    assert_eq!(crate::library_minor(), MINOR);
    assert_eq!(of_header("MINOR"), Some(usize::from(MINOR)));
    assert_eq!(of_header("HIGHEST_LEVEL"), Some(HIGHEST_LEVEL));
    assert_eq!(of_header("LEAST_TERMS"), Some(LEAST_TERMS));
    assert_eq!(of_header("VECTOR_TERMS"), Some(WORKING_TERMS));
}

/// The number that the header has by this name.
fn of_header(name: &str) -> Option<usize> {
    let header = include_str!("../../../include/tagetessash.h");
    header.lines().find_map(|line| {
        let mut words = line.strip_prefix("#define TAGETESSASH_")?.split(' ');
        (words.next()? == name).then(|| words.next()?.parse().ok())?
    })
}

/// Each number of the layout is the header's, and the state is as long as what stands in it.
#[test]
fn the_layout_is_the_headers() {
    let mut numbers = 0;
    for line in include_str!("layout.rs").lines() {
        if let Some(said) = line.strip_prefix("pub const ").filter(|s| s.contains('=')) {
            let (name, value) = said.split_once(": usize = ").expect("a number");
            let value = value.trim_end_matches(';').replace('_', "");
            assert_eq!(of_header(name), Some(value.parse().unwrap()), "{name}");
            numbers += 1;
        }
    }
    assert_eq!(numbers, 28);
    assert_eq!(layout::count_at(HIGHEST_LEVEL + 1), layout::rows_at(0));
    assert_eq!(layout::rows_at(HIGHEST_LEVEL + 1), layout::DEGREES_AT);
    let behind = layout::carried_at(0) - layout::DEGREES_AT;
    assert_eq!(of_header("COMPONENTS"), Some(behind));
    assert_eq!(layout::carried_at(HIGHEST_LEVEL + 1), layout::STATE_WORDS);
}

/// x e_1, x e_2, y e_1, y e_2, e_3, z e_1, z e_2, as in tests/bindings/edges.c: the frame of level 1 is x e_3, x e_4, y e_6, x e_6, y e_7, x e_7, that of
/// level 2 y e_4, y e_6
const MODULE: &str = "T,1,1,1,1,0,0\nT,2,1,2,1,0,0\nT,3,1,1,0,1,0\nT,4,1,2,0,1,0\nT,5,1,3,0,0,0\nT,6,1,1,0,0,1\nT,7,1,2,0,0,1\nE,7\n";

fn degrees_of(engine: &Engine, level: usize) -> Vec<u16> {
    engine.vectors(level).map(|v| v.degree()).collect()
}

/// by hand, with a D line and without it: other degrees, the same vectors
#[test]
fn degrees_by_every_way() {
    let mut engine = Engine::new();
    assert_eq!(engine.component_degrees(), []);
    let with = format!("R,7,3,1,3\nD,1,2,2\n{MODULE}");
    let without = format!("R,7,3,1,3\n{MODULE}");
    for way in [
        Way::Division,
        Way::Hybrid(Pick::Greatest),
        Way::Hybrid(Pick::Newest),
        Way::Hybrid(Pick::Oldest),
        Way::Tree,
    ] {
        let mut vectors = Vec::new();
        for (file, components, carried) in [
            (
                &with,
                [1, 2, 2],
                [&[2, 3, 2, 3, 2, 2, 3][..], &[3, 4, 3, 3, 4, 4], &[4, 5]],
            ),
            (
                &without,
                [0, 0, 0],
                [&[1, 1, 1, 1, 0, 1, 1][..], &[2; 6], &[3; 2]],
            ),
        ] {
            engine.read(file.as_bytes()).expect("a Gröbner basis");
            assert_eq!(engine.component_degrees(), components);
            engine.lift(1, way).expect("no limit is met");
            engine.lift(2, way).expect("no limit is met");
            for (level, expected) in (0..).zip(carried) {
                assert_eq!(degrees_of(&engine, level), expected);
            }
            assert_eq!(degrees_of(&engine, 3), []);
            let terms = |level| {
                let vectors = engine.vectors(level);
                vectors
                    .map(|v| v.terms().collect::<Vec<Term>>())
                    .collect::<Vec<_>>()
            };
            vectors.push([terms(0), terms(1), terms(2)]);
        }
        assert_eq!(vectors[0], vectors[1]);
    }
    assert!(engine.read(b"").is_err());
    assert_eq!(engine.component_degrees(), []);
}

/// a word of the degrees that is not its own: no accepted basis
#[test]
fn a_wrong_degree_is_no_basis() {
    let file = format!("R,7,3,1,3\nD,1,2,2\n{MODULE}");
    let mut engine = Engine::new();
    engine.read(file.as_bytes()).expect("a Gröbner basis");
    for level in 1..=2 {
        engine.lift(level, Way::Division).expect("no limit is met");
    }
    let mut words: Vec<usize> = (layout::DEGREES_AT..).take(3).collect();
    for level in 0..3 {
        words.extend((layout::carried_at(level)..).take(engine.count(level)));
    }
    for word in words {
        for altered in [engine.state[word] + 1, engine.state[word] - 1, 65_535] {
            let mut other = engine.clone();
            other.state[word] = altered;
            assert_eq!(other.fetch(1, 1), Err(Refusal::NoLevel), "word {word}");
            let lifted = other.lift(1, Way::Hybrid(Pick::Newest));
            assert_eq!(lifted, Err(Refusal::NoLevel), "word {word}");
            assert_eq!(other.state[word], altered);
        }
    }
    assert!(engine.fetch(1, 1).is_ok());
}

/// 18 after the line's shape; what has not D's shape is 1
#[test]
fn degrees_of_problems() {
    let read = |degrees: &[u16]| {
        let mut problem = Problem::new(7, 1, Order::Lexicographic, 2);
        problem.degrees(degrees.iter().copied());
        problem.element([Term::new(1, 2, &[1]), Term::new(1, 1, &[])]);
        let mut engine = Engine::new();
        engine.read(&problem.file())?;
        assert_eq!(engine.component_degrees(), degrees);
        Ok(degrees_of(&engine, 0)[0])
    };
    assert_eq!(read(&[0, 0]), Ok(1));
    assert_eq!(read(&[9, 255]), Ok(256));
    for degrees in [[0, 256], [65_535, 0]] {
        assert_eq!(read(&degrees), Err(Refusal::BadDegree { line: 2 }));
    }
    for degrees in [&[0][..], &[256], &[0, 1, 2], &[]] {
        assert_eq!(read(degrees), Err(Refusal::BadLine { line: 2 }));
    }
    assert_eq!(
        read(&[0, 256]).unwrap_err().to_string(),
        "refused 18 at line 2: a component's degree is above 255"
    );
}

/// 24 after the line's shape, behind a D line and without one; what has not G's shape is 1
#[test]
fn weights_of_problems() {
    let read = |weights: &[(u16, u16)], degrees: bool| {
        let mut problem = Problem::new(7, 2, Order::Lexicographic, 1);
        problem.weights(weights.iter().copied());
        if degrees {
            problem.degrees([3]);
        }
        problem.element([Term::new(1, 1, &[1]), Term::new(1, 1, &[])]);
        Engine::new().read(&problem.file())
    };
    for degrees in [false, true] {
        let line = if degrees { 3 } else { 2 };
        assert_eq!(read(&[(0, 15), (15, 0)], degrees), Ok(()));
        for weights in [[(16, 0), (0, 0)], [(0, 0), (0, 65_535)]] {
            let refused = read(&weights, degrees);
            assert_eq!(refused, Err(Refusal::BadWeight { line }));
        }
        for weights in [&[(0, 0)][..], &[(16, 0)], &[(1, 1); 3], &[]] {
            let refused = read(weights, degrees);
            assert_eq!(refused, Err(Refusal::BadLine { line }));
        }
    }
    assert_eq!(
        read(&[(0, 0), (0, 16)], false).unwrap_err().to_string(),
        "refused 24 at line 2: a variable's weight is above 15"
    );
}

/// the row that docs/BUFFERS.md prints
#[test]
fn a_row_unpacked() {
    let term = Term::new(5, 9, &[1, 2, 3, 4, 5, 6, 7, 8]);
    assert_eq!(Term::of(&[5, 9, 1800, 1286, 772, 258]), term);
    let row = [1, 2, 0x00ff, 0, 0, 0xff00];
    assert_eq!(
        Term::of(&row),
        Term::new(1, 2, &[255, 0, 0, 0, 0, 0, 0, 255])
    );
}

/// what a state holds, and nothing without a basis
#[test]
fn ring_elements_and_vectors() {
    let mut engine = Engine::new();
    assert_eq!((engine.prime(), engine.variables()), (0, 0));
    assert_eq!((engine.order(), engine.components()), (None, 0));
    for level in [0, 1, 9, 10, usize::MAX] {
        assert_eq!(engine.vectors(level).len(), 0);
    }
    engine
        .read(b"R,101,3,2,2\nT,1,1,2,1,0,0\nT,1,3,1,0,0,0\nT,2,5,1,0,2,0\nE,3\n")
        .expect("a Gröbner basis");
    assert_eq!((engine.prime(), engine.variables()), (101, 3));
    assert_eq!(engine.order(), Some(Order::DegreeLexicographic));
    assert_eq!(engine.components(), 2);
    let elements: Vec<Vec<Term>> = engine.vectors(0).map(|v| v.terms().collect()).collect();
    assert_eq!(
        elements,
        [
            vec![Term::new(1, 2, &[1]), Term::new(3, 1, &[])],
            vec![Term::new(5, 1, &[0, 2])]
        ]
    );
    assert_eq!(
        format!("{engine:?}"),
        "Engine { prime: 101, variables: 3, order: Some(DegreeLexicographic), components: 2, vectors by level: [2], cache terms: 4096 }"
    );
    engine.read(DEEP).expect("a Gröbner basis");
    engine.lift(1, Way::Division).expect("no limit is met");
    engine.lift(2, Way::Division).expect("no limit is met");
    for level in 1..=2 {
        let fetched: Vec<_> = (1..=engine.count(level))
            .map(|v| engine.fetch(level, v).expect("it is there"))
            .collect();
        let seen: Vec<Vec<Term>> = engine.vectors(level).map(|v| v.terms().collect()).collect();
        assert_eq!(seen, fetched);
    }
    assert_eq!(engine.vectors(3).len(), 0);
    engine.read(PRINTED).expect("a Gröbner basis");
    let first = engine.vectors(0).next().expect("an element");
    assert!(
        format!("{first:?}").starts_with("[Term { coefficient: 1, component: 1, exponents: [1, 0")
    );
}

/// terms in any order are written descending by each order; what can not be said is refused where it stands
#[test]
fn problems_from_terms() {
    let all: Vec<Term> = (0..8)
        .map(|i| {
            Term::new(
                1,
                1 + i / 4,
                &[(i % 2) as u8, (i / 2 % 2) as u8, 1 - (i % 2) as u8],
            )
        })
        .collect();
    for order in [
        Order::Lexicographic,
        Order::DegreeLexicographic,
        Order::DegreeReverseLexicographic,
    ] {
        let file = Problem::new(7, 3, order, 2)
            .element(all.iter().copied())
            .file();
        let reversed = Problem::new(7, 3, order, 2)
            .element(all.iter().rev().copied())
            .file();
        assert_eq!(file, reversed);
        let mut engine = Engine::new();
        engine
            .read(&file)
            .expect("descending, and one element is a Gröbner basis");
        assert_eq!(engine.order(), Some(order));
        assert_eq!(
            engine.vectors(0).next().expect("an element").terms().len(),
            8
        );
    }
    let read = |problem: &Problem| Engine::new().read(&problem.file());
    let ring = || Problem::new(7, 2, Order::Lexicographic, 1);
    let x = Term::new(1, 1, &[1]);
    assert_eq!(read(ring().element([x])), Ok(()));
    assert_eq!(read(&ring()), Err(Refusal::BadCount { line: 2 }));
    assert_eq!(
        read(ring().element([x]).element([])),
        Err(Refusal::BadTerm { line: 3 })
    );
    assert_eq!(
        read(ring().element([x, x])),
        Err(Refusal::NotDescending { line: 3 })
    );
    assert_eq!(
        read(ring().element([Term::new(1, 1, &[0, 0, 1])])),
        Err(Refusal::BadLine { line: 2 })
    );
    assert_eq!(
        read(ring().element([Term::new(7, 1, &[1])])),
        Err(Refusal::BadTerm { line: 2 })
    );
    assert_eq!(
        read(&Problem::new(65533, 9, Order::Lexicographic, 1)),
        Err(Refusal::BadPrime { line: 1 })
    );
    assert_eq!(
        read(Problem::new(7, 9, Order::Lexicographic, 1).element([x])),
        Err(Refusal::BadRing { line: 1 })
    );
}

/// what 9 leaves, put to the elements: a step of Buchberger's algorithm
#[test]
fn from_generators_to_a_basis() {
    let mut problem = Problem::new(7, 2, Order::Lexicographic, 1);
    problem.element([Term::new(1, 1, &[2])]);
    problem.element([Term::new(1, 1, &[1, 1]), Term::new(1, 1, &[0, 2])]);
    let mut engine = Engine::new();
    let mut steps = 0;
    while let Err(refusal) = engine.read(&problem.file()) {
        assert!(matches!(refusal, Refusal::NoBasis { .. }));
        problem.element(engine.stopped_at());
        steps += 1;
    }
    assert_eq!((steps, engine.count(0)), (1, 3));
}
