//! Which refusal comes first: every combination of faults that a call can be given.

use crate::asks::{all_agree, Ask};
use std::collections::BTreeSet;
use tojalinda::{calls, Part, Tree};

/// Patterns with one group, without fault and with each of the faults that stand after one another.
fn patterns() -> Vec<Vec<u8>> {
    let lawful = Tree::text("a").star().group();
    vec![
        lawful.records(),
        vec![0; calls::pattern_bytes() + 1],
        [lawful.records(), vec![0]].concat(),
        [Tree::text("a").times(250).records(), vec![0]].concat(),
        Tree::text("a").times(250).records(),
        vec![0, 0, 7, 0],
        vec![1, 0, 7, 0],
    ]
}

/// A lawful one, one with a reference above the group count, one with that and a fault behind it, one too long.
fn templates() -> Vec<Vec<u8>> {
    let lawful = Part::records(&[Part::text("-"), Part::Reference(1)]);
    let above = Part::records(&[Part::text("-"), Part::Reference(2)]);
    let broken = [above.clone(), vec![1, 0, 32]].concat();
    vec![lawful, above, broken, vec![0; calls::template_bytes() + 1]]
}

fn lines() -> Vec<Vec<u8>> {
    [3, calls::line_bytes() + 1].map(|length| vec![b'b'; length]).to_vec()
}

/// Tables whose row 1 lies in the line, is absent, or lies outside it, each also one number too short.
fn tables() -> Vec<Vec<u16>> {
    let numbers = calls::table_numbers();
    let with = |row: [u16; 2]| [vec![0, 0], row.to_vec(), vec![0; numbers - 4]].concat();
    let rows = [[1, 2], [calls::ABSENT; 2], [2, 1], [1, 4], [1, calls::ABSENT], [calls::ABSENT, 2]];
    let whole = rows.map(with);
    whole.iter().cloned().chain(whole.iter().map(|table| table[..numbers - 1].to_vec())).collect()
}

/// Every way to take one from each list.
fn combinations<A: Clone, B: Clone>(first: &[A], second: &[B]) -> Vec<(A, B)> {
    first.iter().flat_map(|a| second.iter().map(|b| (a.clone(), b.clone()))).collect()
}

/// Asks everyone, and expects just these refusals to come up.
fn agree_with_refusals(asks: impl Iterator<Item = Ask>, expected: &[u32]) {
    let refusals: BTreeSet<u32> =
        asks.filter_map(|ask| all_agree(&ask).numbers.err()).map(|refused| refused.0).collect();
    assert_eq!(refusals, expected.iter().copied().collect());
}

#[test]
fn of_match_and_search() {
    crate::with_room(|| {
        let given = combinations(&combinations(&patterns(), &lines()), &combinations(&tables(), &[false, true]));
        let asks =
            given.into_iter().map(|((pattern, line), (table, search))| Ask::Match { search, pattern, line, table });
        agree_with_refusals(asks, &[1, 2, 3, 8, 11, 12]);
    });
}

#[test]
fn of_replacing() {
    crate::with_room(|| {
        let buffers = [0, 3, 7, 8].map(|length| vec![0xa5; length]);
        let given = combinations(&combinations(&patterns(), &templates()), &combinations(&lines(), &buffers));
        let asks = given.into_iter().map(|((pattern, template), (line, buffer))| Ask::Replace {
            pattern,
            template,
            line,
            buffer,
        });
        agree_with_refusals(asks, &[1, 2, 3, 8, 9, 10, 11, 13]);
    });
}

#[test]
fn of_piece() {
    crate::with_room(|| {
        let given = combinations(&combinations(&templates(), &lines()), &combinations(&tables(), &[0, 1, 2]));
        let asks =
            given.into_iter().map(|((template, line), (table, number))| Ask::Piece { template, line, table, number });
        agree_with_refusals(asks, &[9, 11, 12, 15, 16]);
    });
}
