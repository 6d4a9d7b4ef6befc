//! Stored answers: `tests/sample.txt`, and every file `*.txt` in the directory that TOJALINDA_VECTORS names.
//!
//! One case a line, `<call> <what it is given> -> <answer>`; bytes and 16-bit numbers are hexadecimal, `.` is none.

use crate::asks::{Ask, Told, Who, ALL};
use std::path::{Path, PathBuf};

/// What a lent buffer holds before.
const FILLING: u8 = 0xa5;

/// The numbers of a table that holds every row.
const NUMBERS: usize = crate::reference::NUMBERS;

fn bytes(hex: &str) -> Vec<u8> {
    if hex == "." {
        return Vec::new();
    }
    let digit = |byte: u8| char::from(byte).to_digit(16).expect("a hexadecimal digit") as u8;
    hex.as_bytes().chunks(2).map(|two| digit(two[0]) << 4 | digit(two[1])).collect()
}

fn table(hex: &str) -> Vec<u16> {
    bytes(hex).chunks(2).map(|two| u16::from_le_bytes([two[0], two[1]])).collect()
}

fn decimal<T: std::str::FromStr>(text: &str) -> T {
    text.parse().ok().unwrap_or_else(|| panic!("{text} is no number"))
}

/// A table with these rows, all others absent.
fn table_of(rows: &[&str]) -> Vec<u16> {
    let mut table = vec![u16::MAX; NUMBERS];
    for (k, row) in rows.iter().enumerate() {
        if let Some((start, end)) = row.split_once('-').filter(|(start, _)| !start.is_empty()) {
            table[2 * k] = decimal(start);
            table[2 * k + 1] = decimal(end);
        }
    }
    table
}

/// A case's question and answer; none for a call that this library does not have.
fn case(line: &str) -> Option<(Ask, Told)> {
    let (given, answer) = line.split_once(" -> ").expect("a case has an answer");
    let given: Vec<&str> = given.split(' ').collect();
    let answer: Vec<&str> = answer.split(' ').collect();
    let refused = (answer[0] == "refused").then(|| (decimal(answer[1]), decimal(answer[2])));
    let told = |table: Vec<u16>, bytes: Vec<u8>, numbers: &dyn Fn() -> Vec<u64>| Told {
        numbers: refused.map_or_else(|| Ok(numbers()), Err),
        table,
        bytes,
    };
    let outcome = || vec![(answer[0] == "whole") as u64, decimal(answer[1])];
    Some(match given[0] {
        "check" => {
            let numbers = || answer[1..].iter().map(|number| decimal(number)).collect();
            (Ask::Check { pattern: bytes(given[1]) }, told(vec![], vec![], &numbers))
        }
        "match" | "search" => {
            let before = vec![7; NUMBERS];
            let after = if refused.is_some() { before.clone() } else { table_of(&answer[2..]) };
            (asked(&given, before), told(after, vec![], &outcome))
        }
        "tmatch" | "tsearch" => {
            let after = table(answer.last().unwrap());
            (asked(&given, table(given[3])), told(after, vec![], &outcome))
        }
        "replace" => {
            let buffer = vec![FILLING; decimal(given[4])];
            let mut after = buffer.clone();
            if refused.is_none() {
                let output = bytes(answer[0]);
                after[..output.len()].copy_from_slice(&output);
            }
            let numbers = || answer[1..].iter().map(|number| decimal(number)).collect();
            let [pattern, template, line] = [1, 2, 3].map(|k| bytes(given[k]));
            (Ask::Replace { pattern, template, line, buffer }, told(vec![], after, &numbers))
        }
        "piece" => {
            let part = if refused.is_some() { vec![] } else { bytes(answer[3]) };
            let numbers = || vec![(answer[0] == "line") as u64, decimal(answer[1]), decimal(answer[2])];
            let [template, line] = [1, 2].map(|k| bytes(given[k]));
            let ask = Ask::Piece { template, line, table: table(given[3]), number: decimal(given[4]) };
            (ask, told(vec![], part, &numbers))
        }
        "pick" => return None,
        other => panic!("no call {other}"),
    })
}

fn asked(given: &[&str], table: Vec<u16>) -> Ask {
    let search = given[0].ends_with("search");
    Ask::Match { search, pattern: bytes(given[1]), line: bytes(given[2]), table }
}

/// Puts every case of a file to everyone; tells how many there were.
fn replay(file: &Path) -> usize {
    let text = std::fs::read_to_string(file).unwrap_or_else(|error| panic!("{}: {error}", file.display()));
    let mut cases = 0;
    for (at, line) in text.lines().enumerate() {
        let Some((ask, expected)) = case(line) else { continue };
        for &who in ALL {
            check_case(who, &ask, &expected, &format!("{}:{}", file.display(), at + 1));
        }
        cases += 1;
    }
    cases
}

fn check_case(who: Who, ask: &Ask, expected: &Told, case: &str) {
    if let Some(told) = who.told(ask) {
        assert!(told == *expected, "{case}: {who:?} tells\n{:?}\ninstead of\n{:?}", told.numbers, expected.numbers);
    }
}

#[test]
fn the_stored_sample() {
    crate::with_room(|| {
        let sample = Path::new(env!("CARGO_MANIFEST_DIR")).join("tests/sample.txt");
        assert!(replay(&sample) >= 300, "the sample is there in full");
    });
}

#[test]
#[ignore = "TOJALINDA_VECTORS names the directory"]
fn all_vectors() {
    let folder = std::env::var_os("TOJALINDA_VECTORS").expect("TOJALINDA_VECTORS is set");
    crate::with_room(move || {
        let mut files: Vec<PathBuf> = std::fs::read_dir(folder).unwrap().map(|entry| entry.unwrap().path()).collect();
        files.retain(|file| file.extension().is_some_and(|extension| extension == "txt"));
        files.sort();
        assert!(!files.is_empty(), "TOJALINDA_VECTORS names a directory with vectors");
        for file in files {
            println!("{}: {} cases", file.display(), replay(&file));
        }
    });
}
