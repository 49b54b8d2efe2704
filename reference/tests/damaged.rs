// SPDX-License-Identifier: MIT OR Apache-2.0
//! Damaged files and files at the limits: a listing or an X line with a number and a place.

use crate::common::*;
use reference::generate::cases::{file_case, FILE_KINDS};
use reference::generate::files::{exact_length_file, exact_t_lines_file};
use reference::random::Random;
use reference::sheet::sheet;
use reference::Limits;

/// Checks the shape of a sheet; gives the refusal's number, 0 if there is none.
fn check_sheet(file: &[u8], printed: &[u8]) -> u64 {
    let text = std::str::from_utf8(printed).expect("text");
    assert!(text.ends_with('\n'));
    let lines: Vec<Vec<&str>> = text.lines().map(|line| line.split(',').collect()).collect();
    for fields in &lines {
        assert!(fields[1..].iter().all(|field| field
            .parse::<u64>()
            .is_ok_and(|number| number.to_string() == *field)));
    }
    let mut rest = lines.as_slice();
    // finished levels
    let mut level = 1;
    while let Some(first) = rest.first().filter(|line| matches!(line[0], "S" | "Z")) {
        let terms = rest.iter().take_while(|line| line[0] == "S").count();
        let vectors = match terms {
            0 => "0",
            _ => rest[terms - 1][2],
        };
        assert_eq!(first[1], level.to_string());
        assert_eq!(rest[terms], ["Z", &level.to_string(), vectors]);
        let mut before = 0;
        for line in &rest[..terms] {
            let vector: u64 = line[2].parse().expect("a number");
            assert!(vector == before || vector == before + 1);
            before = vector;
        }
        rest = &rest[terms + 1..];
        level += 1;
        if vectors == "0" || level == 10 {
            assert!(rest.is_empty());
        }
    }
    let Some(refusal) = rest.first() else {
        return 0;
    };
    assert_eq!((refusal[0], refusal.len()), ("X", 3));
    let number: u64 = refusal[1].parse().expect("a number");
    let place: u64 = refusal[2].parse().expect("a number");
    let file_lines = file.split_inclusive(|byte| *byte == 10).count() as u64;
    match number {
        1 => assert!(place <= file_lines + 1),
        2 | 3 => assert_eq!(place, 1),
        18 => assert_eq!(place, 2),
        24 => assert!(place == 2 || place == 3),
        4..=8 => assert!((2..=file_lines).contains(&place)),
        9 => assert!((1..=128).contains(&place)),
        13..=15 => assert!(place == level || (level, place) == (1, 0)),
        other => panic!("number {other}"),
    }
    assert_eq!(rest.len() > 1, number == 9);
    assert!(rest[1..].iter().all(|line| line[0] == "W"));
    number
}

#[test]
fn every_truncation_and_every_changed_byte() {
    let mut random = Random::new(31);
    let limits = Limits::document_01();
    for case in 0..40 {
        let good = file_case("small", 31, case).expect("a kind").file;
        for at in 0..good.len() {
            let mut files = vec![good[..at].to_vec()];
            let mut edit = |change: &mut dyn FnMut(&mut Vec<u8>)| {
                let mut file = good.clone();
                change(&mut file);
                files.push(file);
            };
            let byte = random.bits() as u8;
            edit(&mut |file| file[at] ^= 1 << (byte % 8));
            edit(&mut |file| file[at] = byte);
            edit(&mut |file| {
                file.remove(at);
            });
            edit(&mut |file| file.insert(at, good[at]));
            edit(&mut |file| file.insert(at, byte));
            for file in files {
                if let (Some(printed), _) = sheet(&limits, &file, Some(20_000)) {
                    check_sheet(&file, &printed);
                }
            }
        }
    }
}

#[test]
fn all_kinds_of_generated_files() {
    let mut seen = [0; 25];
    for kind in FILE_KINDS {
        for case in 0..1_500 {
            let case = file_case(kind, 32, case).expect("a kind");
            let number = check_sheet(&case.file, &case.sheet);
            seen[number as usize] += 1;
            let lines = |text: &[u8]| text.iter().filter(|byte| **byte == 10).count();
            if kind == "small" || kind == "weighted" {
                assert!(lines(&case.file) <= 25 && lines(&case.sheet) <= 120);
            }
        }
    }
    for number in [0, 1, 2, 3, 4, 5, 6, 7, 8, 9, 13, 14, 15, 18, 24] {
        assert!(seen[number] > 0, "refusal {number} is never met");
    }
    assert!(file_case("no such kind", 1, 1).is_none());
}

#[test]
fn any_bytes_at_all() {
    let mut random = Random::new(33);
    let limits = Limits::document_01();
    for _ in 0..20_000 {
        let length = random.below(60);
        let letters = b"RDGTE0123456789,,,,\n\n\n \r";
        let file: Vec<u8> = (0..length)
            .map(|_| {
                if random.chance(97) {
                    *random.pick(letters)
                } else {
                    random.bits() as u8
                }
            })
            .collect();
        if let (Some(printed), _) = sheet(&limits, &file, Some(1_000)) {
            check_sheet(&file, &printed);
        }
    }
}

#[test]
fn files_of_exact_length() {
    let mut random = Random::new(34);
    for _ in 0..5 {
        let file = exact_length_file(&mut random, 65_536);
        assert_eq!(file.len(), 65_536);
        assert_eq!(sheet_lines(&file), ["Z,1,0"]);
        let file = exact_length_file(&mut random, 65_537);
        assert_eq!(file.len(), 65_537);
        assert_eq!(sheet_lines(&file), ["X,1,0"]);
        assert_eq!(
            sheet_lines(&exact_t_lines_file(&mut random, 2_048)),
            ["Z,1,0"]
        );
        let file = exact_t_lines_file(&mut random, 2_049);
        let place = file.iter().filter(|byte| **byte == 10).count() - 1;
        assert_eq!(sheet_lines(&file), [format!("X,8,{place}")]);
        let with_degrees = file.split(|byte| *byte == 10).nth(1).expect("a line")[0] == b'D';
        assert_eq!(place, 2_050 + usize::from(with_degrees));
    }
}
