//! Tojalinda for Rust: a matcher for byte strings whose answers are proved.
//!
//! A pattern comes as records; [`Tree`] writes them from a tree. A [`Pattern`] is built once and matched against
//! many lines, [`Pattern::matches`] the whole of each and [`Pattern::search`] the first part that matches, or
//! has all its matches replaced by [`Pattern::replace_all`]. The rows of a match say where each group stands:
//!
//! ```
//! use tojalinda::{Pattern, Tree};
//!
//! // (a|ab)(c|bcd)(d*)
//! let tree = Tree::sequence([
//!     Tree::alternation([Tree::text("a"), Tree::text("ab")]).group(),
//!     Tree::alternation([Tree::text("c"), Tree::text("bcd")]).group(),
//!     Tree::text("d").star().group(),
//! ]);
//! let pattern = Pattern::new(&tree.records())?;
//! let found = pattern.matches(b"abcd")?.expect("the line matches");
//! assert_eq!(found.rows().collect::<Vec<_>>(), [Some(0..4), Some(0..1), Some(1..4), Some(4..4)]);
//! # Ok::<(), tojalinda::Error>(())
//! ```
//!
//! The time of a match is at most in proportion to places × (depth + 1) × (length + 1), whatever the pattern and the
//! line, that of a search to (places + 10) × (depth + 1) × (length + 1) with a depth of at least 1, and
//! [`Match::steps`] tells the exact count. Replace-all searches again behind every match:
//! [`Pattern::replace_all`] says what its searches come to. Nothing here panics on any input, and each call needs less
//! than 1 MiB of stack. What cannot be answered is refused by an [`Error`] with a number and a place.
//!
//! The answers come from an archive of proved code; this crate adds types and owns memory. [`calls`] has the
//! archive's calls as they are, on memory that the caller lends.

#![deny(unsafe_code)]
#![warn(missing_docs)]

pub mod calls;
mod error;
mod pattern;
#[allow(unsafe_code)]
#[doc(hidden)]
#[allow(missing_docs)]
pub mod raw;
mod tree;

pub use calls::{check, part, piece, Numbers, Outcome, Piece};
pub use error::Error;
pub use pattern::{Match, Mode, Pattern, Replaced};
pub use tree::{Part, Tree};
