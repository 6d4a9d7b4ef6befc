//! Patterns and templates as trees, and the records that stand for them.
//!
//! Checking refuses a deep tree, but a tree of any depth may be made, copied, compared, written and dropped: none of it
//! calls itself on what stands inside.

use std::fmt;
use std::hash::{Hash, Hasher};
use std::mem;

const NOTHING: u16 = 0;
const EMPTY: u16 = 1;
const SET: u16 = 2;
const GROUP: u16 = 3;
const SEQUENCE: u16 = 4;
const ALTERNATION: u16 = 5;
const REPEAT: u16 = 6;
const LITERAL: u16 = 32;
const REFERENCE: u16 = 33;
const NO_UPPER_END: u16 = u16::MAX;

/// How many bytes stand before a record's body.
const HEADER: usize = 4;

/// How many levels of a tree `{:?}` shows; a pattern that is not refused has fewer.
const SHOWN_LEVELS: usize = 32;

/// A pattern as a tree. It may be one that checking refuses: [`Tree::records`] writes what is there.
///
/// ```
/// use tojalinda::Tree;
///
/// let a_star = Tree::text("a").star();
/// assert_eq!(a_star.records(), [12, 0, 6, 0, 0, 0, 255, 255, 0, 0, 2, 0, 2, 0, b'a', b'a']);
/// ```
pub enum Tree {
    /// Matches nowhere.
    Nothing,
    /// Matches the empty string.
    Empty,
    /// Matches one byte between the two of some pair.
    Set(Vec<(u8, u8)>),
    /// A capturing group.
    Group(Box<Tree>),
    /// One after the other, two or more.
    Sequence(Vec<Tree>),
    /// One of these, two or more, an earlier one rather than a later.
    Alternation(Vec<Tree>),
    /// So many times.
    Repeat {
        /// Passes that must be made.
        min: u16,
        /// The most passes, or no upper end. A number above 255 is refused, 65,535 as well.
        max: Option<u16>,
        /// Whether to stop rather than make another pass.
        lazy: bool,
        /// What is repeated.
        inner: Box<Tree>,
    },
}

impl Tree {
    /// The bytes of a text, one after the other.
    pub fn text(text: impl AsRef<[u8]>) -> Tree {
        Tree::sequence(text.as_ref().iter().map(|&byte| Tree::range(byte, byte)))
    }

    /// Any byte from `low` to `high`.
    pub fn range(low: u8, high: u8) -> Tree {
        Tree::Set(vec![(low, high)])
    }

    /// Any byte in one of the pairs, which rise and leave a gap between each other.
    pub fn set(pairs: impl IntoIterator<Item = (u8, u8)>) -> Tree {
        Tree::Set(pairs.into_iter().collect())
    }

    /// Any byte.
    pub fn any() -> Tree {
        Tree::range(0, u8::MAX)
    }

    /// One after the other; one alone is itself, none is the empty string.
    pub fn sequence(members: impl IntoIterator<Item = Tree>) -> Tree {
        let mut members: Vec<Tree> = members.into_iter().collect();
        match members.len() {
            0 => Tree::Empty,
            1 => members.remove(0),
            _ => Tree::Sequence(members),
        }
    }

    /// One of these; one alone is itself, none matches nowhere.
    pub fn alternation(members: impl IntoIterator<Item = Tree>) -> Tree {
        let mut members: Vec<Tree> = members.into_iter().collect();
        match members.len() {
            0 => Tree::Nothing,
            1 => members.remove(0),
            _ => Tree::Alternation(members),
        }
    }

    /// A capturing group of this.
    pub fn group(self) -> Tree {
        Tree::Group(Box::new(self))
    }

    /// This `min` to `max` times, as often as possible.
    pub fn repeat(self, min: u16, max: Option<u16>) -> Tree {
        Tree::Repeat { min, max, lazy: false, inner: Box::new(self) }
    }

    /// This `min` to `max` times, as seldom as possible.
    pub fn repeat_lazily(self, min: u16, max: Option<u16>) -> Tree {
        Tree::Repeat { min, max, lazy: true, inner: Box::new(self) }
    }

    /// Any number of times.
    pub fn star(self) -> Tree {
        self.repeat(0, None)
    }

    /// Once or more.
    pub fn plus(self) -> Tree {
        self.repeat(1, None)
    }

    /// Once or not at all.
    pub fn maybe(self) -> Tree {
        self.repeat(0, Some(1))
    }

    /// Exactly so many times.
    pub fn times(self, count: u16) -> Tree {
        self.repeat(count, Some(count))
    }

    /// The records of this pattern.
    pub fn records(&self) -> Vec<u8> {
        enum Turn<'a> {
            Open(&'a Tree),
            Close(usize),
        }
        let mut records = Vec::new();
        let mut turns = vec![Turn::Open(self)];
        while let Some(turn) = turns.pop() {
            match turn {
                Turn::Open(tree) => {
                    turns.push(Turn::Close(records.len()));
                    turns.extend(tree.inside().iter().rev().map(Turn::Open));
                    tree.open(&mut records);
                }
                Turn::Close(start) => close(&mut records, start),
            }
        }
        records
    }

    /// Opens the record and writes what its body has before the records inside.
    fn open(&self, to: &mut Vec<u8>) {
        match self.head() {
            Head::Nothing => open(to, NOTHING),
            Head::Empty => open(to, EMPTY),
            Head::Set(pairs) => {
                open(to, SET);
                to.extend(pairs.iter().flat_map(|&(low, high)| [low, high]));
            }
            Head::Group => open(to, GROUP),
            Head::Sequence(_) => open(to, SEQUENCE),
            Head::Alternation(_) => open(to, ALTERNATION),
            Head::Repeat { min, max, lazy } => {
                open(to, REPEAT);
                // The greatest number is not written, since it means no upper end; the one below is wrong as well.
                let most = max.map_or(NO_UPPER_END, |max| max.min(NO_UPPER_END - 1));
                to.extend([min, most, u16::from(lazy)].into_iter().flat_map(u16::to_le_bytes));
            }
        }
    }

    /// What stands directly inside.
    fn inside(&self) -> &[Tree] {
        match self {
            Tree::Nothing | Tree::Empty | Tree::Set(_) => &[],
            Tree::Group(inner) | Tree::Repeat { inner, .. } => std::slice::from_ref(inner),
            Tree::Sequence(members) | Tree::Alternation(members) => members,
        }
    }

    /// Moves away what stands directly inside.
    fn give_up(&mut self, to: &mut Vec<Tree>) {
        match self {
            Tree::Nothing | Tree::Empty | Tree::Set(_) => {}
            Tree::Group(inner) | Tree::Repeat { inner, .. } => to.push(mem::replace(inner, Tree::Empty)),
            Tree::Sequence(members) | Tree::Alternation(members) => to.append(members),
        }
    }

    /// All trees in this one: itself, then those in each that stands inside.
    fn all(&self) -> impl Iterator<Item = &Tree> {
        let mut waiting = vec![self];
        std::iter::from_fn(move || {
            let tree = waiting.pop()?;
            waiting.extend(tree.inside().iter().rev());
            Some(tree)
        })
    }

    fn heads(&self) -> impl Iterator<Item = Head<'_>> {
        self.all().map(Tree::head)
    }

    fn head(&self) -> Head<'_> {
        match self {
            Tree::Nothing => Head::Nothing,
            Tree::Empty => Head::Empty,
            Tree::Set(pairs) => Head::Set(pairs),
            Tree::Group(_) => Head::Group,
            Tree::Sequence(members) => Head::Sequence(members.len()),
            Tree::Alternation(members) => Head::Alternation(members.len()),
            Tree::Repeat { min, max, lazy, .. } => Head::Repeat { min: *min, max: *max, lazy: *lazy },
        }
    }
}

/// A tree without what stands inside. The heads of all trees in one, in their order, say what it is.
#[derive(PartialEq, Hash)]
enum Head<'a> {
    Nothing,
    Empty,
    Set(&'a [(u8, u8)]),
    Group,
    Sequence(usize),
    Alternation(usize),
    Repeat { min: u16, max: Option<u16>, lazy: bool },
}

impl PartialEq for Tree {
    fn eq(&self, other: &Tree) -> bool {
        self.heads().eq(other.heads())
    }
}

impl Eq for Tree {}

impl Hash for Tree {
    fn hash<H: Hasher>(&self, to: &mut H) {
        self.heads().for_each(|head| head.hash(to));
    }
}

impl Clone for Tree {
    fn clone(&self) -> Tree {
        // Last to first, so that what stands inside a tree was copied just before it, its first member last.
        let heads: Vec<Head> = self.heads().collect();
        let mut copies: Vec<Tree> = Vec::new();
        for head in heads.into_iter().rev() {
            let mut inner = || copies.pop().unwrap_or(Tree::Empty);
            let copy = match head {
                Head::Nothing => Tree::Nothing,
                Head::Empty => Tree::Empty,
                Head::Set(pairs) => Tree::Set(pairs.to_vec()),
                Head::Group => inner().group(),
                Head::Sequence(members) => Tree::Sequence((0..members).map(|_| inner()).collect()),
                Head::Alternation(members) => Tree::Alternation((0..members).map(|_| inner()).collect()),
                Head::Repeat { min, max, lazy } => Tree::Repeat { min, max, lazy, inner: Box::new(inner()) },
            };
            copies.push(copy);
        }
        copies.pop().unwrap_or(Tree::Empty)
    }
}

impl Drop for Tree {
    fn drop(&mut self) {
        let mut waiting = Vec::new();
        self.give_up(&mut waiting);
        while let Some(mut tree) = waiting.pop() {
            tree.give_up(&mut waiting);
        }
    }
}

impl fmt::Debug for Tree {
    fn fmt(&self, to: &mut fmt::Formatter<'_>) -> fmt::Result {
        Shown(self, SHOWN_LEVELS).fmt(to)
    }
}

/// So many levels of a tree, and `..` for what stands deeper.
struct Shown<'a>(&'a Tree, usize);

impl fmt::Debug for Shown<'_> {
    fn fmt(&self, to: &mut fmt::Formatter<'_>) -> fmt::Result {
        let Shown(tree, levels) = *self;
        let Some(below) = levels.checked_sub(1) else { return to.write_str("..") };
        let inner: Vec<Shown> = tree.inside().iter().map(|inner| Shown(inner, below)).collect();
        match tree.head() {
            Head::Nothing => to.write_str("Nothing"),
            Head::Empty => to.write_str("Empty"),
            Head::Set(pairs) => to.debug_tuple("Set").field(&pairs).finish(),
            Head::Group => to.debug_tuple("Group").field(&inner[0]).finish(),
            Head::Sequence(_) => to.debug_tuple("Sequence").field(&inner).finish(),
            Head::Alternation(_) => to.debug_tuple("Alternation").field(&inner).finish(),
            Head::Repeat { min, max, lazy } => {
                let mut repeat = to.debug_struct("Repeat");
                repeat.field("min", &min).field("max", &max).field("lazy", &lazy).field("inner", &inner[0]).finish()
            }
        }
    }
}

/// One record of a template.
///
/// ```
/// use tojalinda::Part;
///
/// assert_eq!(Part::records(&[Part::text("-"), Part::Reference(1)]), [1, 0, 32, 0, b'-', 2, 0, 33, 0, 1, 0]);
/// ```
#[derive(Clone, Debug, PartialEq, Eq, Hash)]
pub enum Part {
    /// These bytes.
    Literal(Vec<u8>),
    /// What stands in the row: 0 is the match, other numbers are groups.
    Reference(u16),
}

impl Part {
    /// The bytes of a text.
    pub fn text(text: impl AsRef<[u8]>) -> Part {
        Part::Literal(text.as_ref().to_vec())
    }

    /// The records of a template.
    pub fn records(parts: &[Part]) -> Vec<u8> {
        let mut records = Vec::new();
        for part in parts {
            let start = records.len();
            match part {
                Part::Literal(bytes) => {
                    open(&mut records, LITERAL);
                    records.extend(bytes);
                }
                Part::Reference(row) => {
                    open(&mut records, REFERENCE);
                    records.extend(row.to_le_bytes());
                }
            }
            close(&mut records, start);
        }
        records
    }
}

/// Begins a record, its length left open.
fn open(to: &mut Vec<u8>, kind: u16) {
    to.extend([0, 0]);
    to.extend(kind.to_le_bytes());
}

/// Ends the record that began at `start`. A body too long for its length field is also too long for every limit.
fn close(to: &mut [u8], start: usize) {
    let length = u16::try_from(to.len() - start - HEADER).unwrap_or(u16::MAX);
    to[start..start + 2].copy_from_slice(&length.to_le_bytes());
}
