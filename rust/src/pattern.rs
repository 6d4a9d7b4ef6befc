//! A pattern that is built once and matched against many lines.

use crate::calls::{self, answer, numbers, outcome, Numbers, Outcome};
use crate::raw::{self, Machine};
use crate::Error;
use std::cell::RefCell;
use std::fmt;
use std::ops::Range;

thread_local! {
    /// What machines are run in on this thread. It may hold anything between two runs.
    static SCRATCH: RefCell<Box<[u16]>> = RefCell::new(scratch());
}

fn scratch() -> Box<[u16]> {
    vec![0; raw::scratch_numbers()].into()
}

/// Which part of a line has to match.
#[derive(Clone, Copy, Debug, PartialEq, Eq, Hash)]
pub enum Mode {
    /// The whole line.
    Whole,
    /// The first part of it that does.
    Search,
}

/// A pattern with its machines, built once. Any number of threads may use it at the same time.
///
/// ```
/// use tojalinda::{Pattern, Tree};
///
/// // grown (\d+) factory (\d+)
/// let count = || Tree::range(b'0', b'9').plus().group();
/// let tree = Tree::sequence([Tree::text("grown "), count(), Tree::text(" factory "), count()]);
/// let pattern = Pattern::new(&tree.records())?;
///
/// let line = b"module 4: grown 12 factory 3, no action";
/// let found = pattern.search(line)?.expect("both counts are there");
/// assert_eq!(&line[found.range()], b"grown 12 factory 3");
/// assert_eq!(&line[found.row(1).unwrap()], b"12");
/// assert_eq!(&line[found.row(2).unwrap()], b"3");
/// assert!(pattern.matches(line)?.is_none());
/// # Ok::<(), tojalinda::Error>(())
/// ```
#[derive(Clone)]
pub struct Pattern {
    numbers: Numbers,
    whole: Machine,
    search: Machine,
}

impl Pattern {
    /// Checks the records of a pattern and builds its machines.
    ///
    /// ```
    /// use tojalinda::{Pattern, Tree};
    ///
    /// let error = Pattern::new(&Tree::text("a").times(250).records()).unwrap_err();
    /// assert_eq!(error.number, 8);
    /// assert!(Pattern::new(&Tree::text("a").times(248).records()).is_ok());
    /// ```
    pub fn new(records: &[u8]) -> Result<Pattern, Error> {
        let (numbers, whole) = built(records, Mode::Whole)?;
        let (_, search) = built(records, Mode::Search)?;
        Ok(Pattern { numbers, whole, search })
    }

    /// The records that it was built from.
    pub fn records(&self) -> &[u8] {
        self.whole.pattern()
    }

    /// The places of its machine, the accepting one among them.
    pub fn places(&self) -> usize {
        self.numbers.places
    }

    /// The most repeats with an optional pass that stand inside one another.
    pub fn depth(&self) -> usize {
        self.numbers.depth
    }

    /// How many capturing groups it has.
    pub fn groups(&self) -> usize {
        self.numbers.groups
    }

    /// Matches the whole line: row 0 is the line.
    ///
    /// ```
    /// use tojalinda::{Pattern, Tree};
    ///
    /// // ((a)|b)*
    /// let tree = Tree::alternation([Tree::text("a").group(), Tree::text("b")]).group().star();
    /// let found = Pattern::new(&tree.records())?.matches(b"ab")?.unwrap();
    /// assert_eq!(found.rows().collect::<Vec<_>>(), [Some(0..2), Some(1..2), None]);
    /// # Ok::<(), tojalinda::Error>(())
    /// ```
    pub fn matches(&self, line: &[u8]) -> Result<Option<Match>, Error> {
        self.found(Mode::Whole, line)
    }

    /// Searches the line: row 0 is the part found.
    ///
    /// ```
    /// use tojalinda::{Pattern, Tree};
    ///
    /// let digits = Pattern::new(&Tree::range(b'0', b'9').plus().records())?;
    /// assert_eq!(digits.search(b"ab 123")?.unwrap().range(), 3..6);
    /// assert_eq!(digits.search(b"ab")?, None);
    /// # Ok::<(), tojalinda::Error>(())
    /// ```
    pub fn search(&self, line: &[u8]) -> Result<Option<Match>, Error> {
        self.found(Mode::Search, line)
    }

    fn found(&self, mode: Mode, line: &[u8]) -> Result<Option<Match>, Error> {
        let mut table = vec![0; calls::table_numbers()];
        let Outcome { matched, steps } = self.run(mode, line, &mut table)?;
        table.truncate(2 * (self.groups() + 1));
        Ok(matched.then_some(Match { table, steps }))
    }

    /// Matches or searches with the rows into a lent span table, as [`calls`] does, but with the built machine:
    /// this allocates nothing, and tells the steps without a match too.
    ///
    /// ```
    /// use tojalinda::{calls, Mode, Pattern, Tree};
    ///
    /// let pattern = Pattern::new(&Tree::text("a").star().records())?;
    /// let mut table = vec![0; calls::table_numbers()];
    /// let outcome = pattern.run(Mode::Whole, b"b", &mut table)?;
    /// assert_eq!((outcome.matched, outcome.steps), (false, 4));
    /// # Ok::<(), tojalinda::Error>(())
    /// ```
    pub fn run(&self, mode: Mode, line: &[u8], table: &mut [u16]) -> Result<Outcome, Error> {
        let machine = match mode {
            Mode::Whole => &self.whole,
            Mode::Search => &self.search,
        };
        let mut out = [0; 2];
        let mut run = |scratch: &mut [u16]| machine.run(line, scratch, table, &mut out);
        let status = SCRATCH.try_with(|scratch| run(&mut scratch.borrow_mut()));
        // A thread that is ending may have given up its scratch.
        let status = status.unwrap_or_else(|_| run(&mut scratch()));
        answer(status, out).map(outcome)
    }

    /// Replaces every match in the line by the template, a run of template records.
    ///
    /// It searches what is left of the line behind every match, so that its time may grow with the square of the
    /// line's length: the steps of all searches are at most (places + 10) × (depth + 1) × (length + 1) × (length + 2) / 2,
    /// where the depth is at least 1.
    ///
    /// ```
    /// use tojalinda::{Part, Pattern, Tree};
    ///
    /// let word = || Tree::set([(b'A', b'Z'), (b'a', b'z')]).plus().group();
    /// let names = Pattern::new(&Tree::sequence([word(), Tree::text(" "), word()]).records())?;
    /// let template = Part::records(&[Part::Reference(2), Part::text(", "), Part::Reference(1)]);
    /// let replaced = names.replace_all(&template, b"Don Knuth; Alan Turing")?;
    /// assert_eq!(replaced.bytes, b"Knuth, Don; Turing, Alan");
    /// assert_eq!(replaced.replacements, 2);
    /// # Ok::<(), tojalinda::Error>(())
    /// ```
    pub fn replace_all(&self, template: &[u8], line: &[u8]) -> Result<Replaced, Error> {
        let mut bytes = vec![0; output_bytes(template, line)];
        let written = calls::replace(self.records(), template, line, &mut bytes)?;
        bytes.truncate(written.length);
        bytes.shrink_to_fit();
        Ok(Replaced { bytes, replacements: written.replacements, steps: written.steps })
    }
}

/// A length that no output exceeds. There is at most one match more than the line has bytes, and each puts in at most
/// the template's own bytes; a reference, which takes six of those, puts in no more than the line in all.
fn output_bytes(template: &[u8], line: &[u8]) -> usize {
    const REFERENCE_BYTES: usize = 6;
    // What is longer is refused.
    let template = template.len().min(calls::template_bytes());
    let line = line.len().min(calls::line_bytes());
    (line + 1) * (1 + template + template / REFERENCE_BYTES)
}

/// A pattern's numbers, and its machine for whole matches or for searches.
fn built(records: &[u8], mode: Mode) -> Result<(Numbers, Machine), Error> {
    let mut out = [0; 3];
    let (status, machine) = Machine::build(records, mode == Mode::Search, &mut out);
    let out = answer(status, out)?;
    Ok((numbers(out), machine.expect("what is not refused is built")))
}

impl fmt::Debug for Pattern {
    fn fmt(&self, to: &mut fmt::Formatter<'_>) -> fmt::Result {
        to.debug_struct("Pattern").field("records", &self.records()).field("numbers", &self.numbers).finish()
    }
}

/// A match: the place of row 0 and of each group.
#[derive(Clone, Debug, PartialEq, Eq, Hash)]
pub struct Match {
    table: Vec<u16>,
    steps: u64,
}

impl Match {
    /// Where the match stands in the line: row 0, which a match always has.
    pub fn range(&self) -> Range<usize> {
        usize::from(self.table[0])..usize::from(self.table[1])
    }

    /// Where row `number` stands in the line; nothing if its group is absent or the pattern has no such group.
    pub fn row(&self, number: usize) -> Option<Range<usize>> {
        calls::row(&self.table, number)
    }

    /// Row 0, then the row of each group.
    pub fn rows(&self) -> impl Iterator<Item = Option<Range<usize>>> + '_ {
        (0..self.table.len() / 2).map(|number| self.row(number))
    }

    /// How many steps the list machine made.
    pub fn steps(&self) -> u64 {
        self.steps
    }
}

/// A line with its matches replaced.
#[derive(Clone, Debug, PartialEq, Eq, Hash)]
pub struct Replaced {
    /// The output.
    pub bytes: Vec<u8>,
    /// How many matches were replaced.
    pub replacements: u64,
    /// The steps of all searches.
    pub steps: u64,
}
