//! The calls as the archive has them: on records, with all memory lent by the caller.

use crate::raw;
use crate::Error;
use std::ops::Range;

pub use raw::{line_bytes, pattern_bytes, rows, table_numbers, template_bytes};

/// Both numbers of an absent row.
pub const ABSENT: u16 = u16::MAX;

/// What checking tells of a pattern.
#[derive(Clone, Copy, Debug, PartialEq, Eq, Hash)]
pub struct Numbers {
    /// The places of its machine, the accepting one among them.
    pub places: usize,
    /// The most repeats with an optional pass that stand inside one another.
    pub depth: usize,
    /// Its capturing groups.
    pub groups: usize,
}

/// What a match or a search tells beside the rows.
#[derive(Clone, Copy, Debug, PartialEq, Eq, Hash)]
pub struct Outcome {
    /// Whether there is a match. Without one every row is absent.
    pub matched: bool,
    /// How many steps the list machine made.
    pub steps: u64,
}

/// What replace-all tells beside the output.
#[derive(Clone, Copy, Debug, PartialEq, Eq, Hash)]
pub struct Written {
    /// How many bytes of the buffer are the output.
    pub length: usize,
    /// How many matches were replaced.
    pub replacements: u64,
    /// The steps of all searches.
    pub steps: u64,
}

/// The bytes that one template record puts in: a part of the template or a part of the line.
#[derive(Clone, Debug, PartialEq, Eq, Hash)]
pub enum Piece {
    /// A literal: this part of the template.
    Template(Range<usize>),
    /// A reference: this part of the line; that of an absent row is empty, at the line's start.
    Line(Range<usize>),
}

/// A status and its numbers as a result. No memory lent here is too short, so that any other status is a refusal.
pub(crate) fn answer<const N: usize>(status: u32, out: [u64; N]) -> Result<[u64; N], Error> {
    match status {
        raw::ANSWERED => Ok(out),
        number => Err(Error { number, place: out[0] as usize }),
    }
}

pub(crate) fn numbers(out: [u64; 3]) -> Numbers {
    let [places, depth, groups] = out.map(|number| number as usize);
    Numbers { places, depth, groups }
}

pub(crate) fn outcome(out: [u64; 2]) -> Outcome {
    Outcome { matched: out[0] != 0, steps: out[1] }
}

/// Checks a pattern.
///
/// ```
/// use tojalinda::{check, Tree};
///
/// let numbers = check(&Tree::text("a").star().records())?;
/// assert_eq!((numbers.places, numbers.depth, numbers.groups), (5, 1, 0));
/// # Ok::<(), tojalinda::Error>(())
/// ```
pub fn check(pattern: &[u8]) -> Result<Numbers, Error> {
    let mut out = [0; 3];
    let status = raw::check(pattern, &mut out);
    answer(status, out).map(numbers)
}

/// Matches the whole line once, the rows into a lent table. For many lines build a [`Pattern`](crate::Pattern).
///
/// ```
/// use tojalinda::{calls, Tree};
///
/// let mut table = vec![0; calls::table_numbers()];
/// let outcome = calls::whole_match(&Tree::text("a").star().records(), b"aa", &mut table)?;
/// assert!(outcome.matched);
/// assert_eq!(calls::row(&table, 0), Some(0..2));
/// assert_eq!(calls::row(&table, 1), None);
/// # Ok::<(), tojalinda::Error>(())
/// ```
pub fn whole_match(pattern: &[u8], line: &[u8], table: &mut [u16]) -> Result<Outcome, Error> {
    let mut out = [0; 2];
    let status = raw::whole_match(pattern, line, table, &mut out);
    answer(status, out).map(outcome)
}

/// Searches the line once, the rows into a lent table; row 0 is the part found.
///
/// ```
/// use tojalinda::{calls, Tree};
///
/// let mut table = vec![0; calls::table_numbers()];
/// assert!(calls::search(&Tree::text("b").plus().records(), b"abba", &mut table)?.matched);
/// assert_eq!(calls::row(&table, 0), Some(1..3));
/// # Ok::<(), tojalinda::Error>(())
/// ```
pub fn search(pattern: &[u8], line: &[u8], table: &mut [u16]) -> Result<Outcome, Error> {
    let mut out = [0; 2];
    let status = raw::search(pattern, line, table, &mut out);
    answer(status, out).map(outcome)
}

/// Writes the line with every match replaced into a lent buffer; bytes after the output stay.
///
/// ```
/// use tojalinda::{calls, Part, Tree};
///
/// let mut buffer = *b"......";
/// let template = Part::records(&[Part::text("-")]);
/// let written = calls::replace(&Tree::text("b").star().records(), &template, b"abc", &mut buffer)?;
/// assert_eq!((written.length, written.replacements), (5, 3));
/// assert_eq!(&buffer, b"-a-c-.");
/// # Ok::<(), tojalinda::Error>(())
/// ```
pub fn replace(pattern: &[u8], template: &[u8], line: &[u8], buffer: &mut [u8]) -> Result<Written, Error> {
    let mut out = [0; 3];
    let status = raw::replace(pattern, template, line, buffer, &mut out);
    let [length, replacements, steps] = answer(status, out)?;
    Ok(Written { length: length as usize, replacements, steps })
}

/// Says which bytes the template record `number`, counted from 0, puts in, by the rows of a span table.
///
/// ```
/// use tojalinda::{calls, piece, Part, Piece};
///
/// let template = Part::records(&[Part::text("<"), Part::Reference(1)]);
/// let mut table = vec![calls::ABSENT; calls::table_numbers()];
/// table[2..4].copy_from_slice(&[1, 3]);
/// assert_eq!(piece(&template, b"abcd", &table, 0)?, Piece::Template(4..5));
/// assert_eq!(piece(&template, b"abcd", &table, 1)?, Piece::Line(1..3));
/// assert_eq!(piece(&template, b"abcd", &table, 2).unwrap_err().number, 16);
/// # Ok::<(), tojalinda::Error>(())
/// ```
pub fn piece(template: &[u8], line: &[u8], table: &[u16], number: usize) -> Result<Piece, Error> {
    let mut out = [0; 3];
    let status = raw::piece(template, line, table, number, &mut out);
    let [source, start, end] = answer(status, out)?;
    let part = start as usize..end as usize;
    Ok(if source == 0 { Piece::Template(part) } else { Piece::Line(part) })
}

/// The bytes that [`piece`] tells of, without copying; where it refuses, the empty part at the template's start.
///
/// ```
/// use tojalinda::{calls, part, Part};
///
/// let template = Part::records(&[Part::Reference(0)]);
/// let table = [vec![1, 3], vec![calls::ABSENT; calls::table_numbers() - 2]].concat();
/// assert_eq!(part(&template, b"abcd", &table, 0), b"bc");
/// assert_eq!(part(&template, b"abcd", &table, 1), b"");
/// ```
pub fn part<'a>(template: &'a [u8], line: &'a [u8], table: &[u16], number: usize) -> &'a [u8] {
    match piece(template, line, table, number) {
        Ok(Piece::Template(part)) => &template[part],
        Ok(Piece::Line(part)) => &line[part],
        Err(_) => &template[..0],
    }
}

/// A row of a span table, or nothing where it is absent or the table does not have it.
pub fn row(table: &[u16], number: usize) -> Option<Range<usize>> {
    match table.get(number.checked_mul(2)?..)? {
        [ABSENT, ABSENT, ..] => None,
        [start, end, ..] => Some(usize::from(*start)..usize::from(*end)),
        _ => None,
    }
}
