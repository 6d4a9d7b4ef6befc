//! Nothing panics and nothing needs more than a small stack, whatever the arguments: what cannot be answered is refused.

use std::collections::hash_map::DefaultHasher;
use std::hash::{Hash, Hasher};
use std::sync::atomic::{AtomicUsize, Ordering};
use tojalinda::{calls, check, part, piece, Mode, Part, Pattern, Tree};

const STACK: usize = 256 << 10;

/// The ways in which a tree holds others.
const HOLDERS: [fn(Tree) -> Tree; 6] = [
    Tree::group,
    Tree::star,
    |inner| Tree::Sequence(vec![inner]),
    |inner| Tree::Sequence(vec![Tree::Empty, inner, Tree::any()]),
    |inner| Tree::Alternation(vec![inner, Tree::Nothing]),
    |inner| inner.repeat_lazily(2, Some(3)),
];

fn deep(levels: usize, hold: fn(Tree) -> Tree) -> Tree {
    (1..levels).fold(Tree::text("a"), |inner, _| hold(inner))
}

fn refused_by(records: &[u8]) -> (u32, usize) {
    let error = check(records).unwrap_err();
    assert_eq!(Pattern::new(records).unwrap_err(), error);
    (error.number, error.place)
}

fn hashed(tree: &Tree) -> u64 {
    let mut hasher = DefaultHasher::new();
    tree.hash(&mut hasher);
    hasher.finish()
}

fn on_a_small_stack(test: impl FnOnce() + Send + 'static) {
    std::thread::Builder::new().stack_size(STACK).spawn(test).unwrap().join().unwrap();
}

#[test]
fn deep_trees() {
    on_a_small_stack(|| {
        for levels in [200_000, 1_000_000] {
            for hold in HOLDERS {
                let tree = deep(levels, hold);
                let copy = tree.clone();
                assert!(copy == tree && hashed(&copy) == hashed(&tree));
                assert!(hold(copy) != tree);
                assert_eq!(refused_by(&tree.records()), (1, 0));
                for shown in [format!("{tree:?}"), format!("{tree:#?}")] {
                    assert!(shown.contains("..") && shown.len() < 100_000);
                }
            }
        }
    });
}

/// One level too many, in patterns short enough.
#[test]
fn levels() {
    on_a_small_stack(|| {
        for hold in [Tree::star, |inner| Tree::Sequence(vec![inner, Tree::Empty])] {
            assert!(check(&deep(16, hold).records()).is_ok());
            assert_eq!(refused_by(&deep(17, hold).records()).0, 6);
        }
    });
}

#[test]
fn copies_and_showing() {
    let tree = Tree::alternation([
        Tree::sequence([Tree::text("ab").group(), Tree::Nothing, Tree::set([(0, 3), (7, 9)])]),
        Tree::any().repeat_lazily(1, Some(2)),
        Tree::Empty,
    ]);
    assert_eq!(tree.clone(), tree);
    assert_eq!(tree.clone().records(), tree.records());
    assert_eq!(
        format!("{tree:?}"),
        "Alternation([Sequence([Group(Sequence([Set([(97, 97)]), Set([(98, 98)])])), Nothing, Set([(0, 3), (7, 9)])]), \
         Repeat { min: 1, max: Some(2), lazy: true, inner: Set([(0, 255)]) }, Empty])"
    );
    assert_ne!(Tree::text("a").star(), Tree::text("a").repeat(0, Some(u16::MAX)));
    assert_ne!(Tree::Sequence(vec![Tree::Empty; 2]), Tree::Alternation(vec![Tree::Empty; 2]));
    assert_ne!(Tree::Sequence(vec![Tree::Empty; 2]), Tree::Sequence(vec![Tree::Empty; 3]));
}

/// No number of passes means no upper end.
#[test]
fn repeat_numbers() {
    assert!(check(&Tree::text("a").star().records()).is_ok());
    for count in [256, 257, u16::MAX - 1, u16::MAX] {
        let a = || Tree::text("a");
        for tree in
            [a().repeat(0, Some(count)), a().repeat_lazily(255, Some(count)), a().times(count), a().repeat(count, None)]
        {
            assert_eq!(refused_by(&tree.records()), (5, 0));
            assert_eq!(refused_by(&tree.group().records()), (5, 4));
        }
    }
}

#[test]
fn rows() {
    let found = Pattern::new(&Tree::text("a").group().records()).unwrap().matches(b"a").unwrap().unwrap();
    let table = vec![0; calls::table_numbers()];
    for number in [2, 10, usize::MAX / 4, usize::MAX / 2, usize::MAX / 2 + 1, usize::MAX / 2 + 2, usize::MAX] {
        assert_eq!(found.row(number), None);
        assert_eq!(calls::row(&[1, 2, 3], number), None);
        assert_eq!(calls::row(&table, number), (number < calls::rows()).then_some(0..0));
    }
    assert_eq!((found.row(0), found.row(1)), (Some(0..1), Some(0..1)));
}

/// Records and templates too long for a length field, and memory of no length.
#[test]
fn longest_and_shortest() {
    let wide = Tree::Sequence(vec![Tree::Empty; 100_000]);
    let pairs = Tree::Set(vec![(0, 0); 100_000]);
    for tree in [wide.clone(), wide.group().star(), pairs] {
        assert_eq!(refused_by(&tree.records()), (1, 0));
    }
    let a = Pattern::new(&Tree::text("a").records()).unwrap();
    let numbers = |error: tojalinda::Error| (error.number, error.place);
    let long = vec![b'a'; calls::line_bytes() + 1];
    for template in [Part::records(&[Part::Literal(long.clone())]), vec![0; 1 << 20]] {
        assert_eq!(a.replace_all(&template, b"a").map_err(numbers), Err((9, 0)));
        assert_eq!(piece(&template, b"", &[], usize::MAX).map_err(numbers), Err((9, 0)));
        assert_eq!(part(&template, b"", &[], usize::MAX), b"");
    }
    assert_eq!(a.replace_all(b"", &long).map_err(numbers), Err((11, 0)));
    assert_eq!(a.matches(&long).map_err(numbers), Err((11, 0)));
    assert_eq!(a.run(Mode::Search, b"a", &mut []).map_err(numbers), Err((12, 0)));
    assert_eq!(check(&[]).map_err(numbers), Err((2, 0)));
    assert_eq!(calls::search(&[], &[], &mut []).map_err(numbers), Err((2, 0)));
    assert_eq!(calls::whole_match(a.records(), &[], &mut []).map_err(numbers), Err((12, 0)));
    assert_eq!(calls::replace(a.records(), &[], b"b", &mut []).map_err(numbers), Err((13, 0)));
    assert_eq!(piece(&[], &[], &[], 0).map_err(numbers), Err((12, 0)));
    assert_eq!(a.replace_all(b"", b"").unwrap().bytes, b"");
    for row in [9, 10, u16::MAX] {
        let expected = if row == 9 { 10 } else { 9 };
        assert_eq!(a.replace_all(&Part::records(&[Part::Reference(row)]), b"a").map_err(numbers), Err((expected, 0)));
    }
}

/// The longest outputs fit: a match before every byte and at the end, and the line as often as a template can say.
#[test]
fn longest_outputs() {
    let line = vec![b'b'; 1_000];
    let literal = Part::records(&[Part::Literal(vec![b'-'; calls::template_bytes() - 4])]);
    let replaced = Pattern::new(&Tree::Empty.records()).unwrap().replace_all(&literal, &line).unwrap();
    assert_eq!(replaced.replacements, 1_001);
    assert_eq!(replaced.bytes.len(), 1_001 * (calls::template_bytes() - 4) + 1_000);

    let references = calls::template_bytes() / 6;
    let template = Part::records(&vec![Part::Reference(1); references]);
    for pattern in [Tree::any().star().group(), Tree::any().group()] {
        let replaced = Pattern::new(&pattern.records()).unwrap().replace_all(&template, &line).unwrap();
        assert_eq!(replaced.bytes, b"b".repeat(1_000 * references));
    }
}

static ENDINGS: AtomicUsize = AtomicUsize::new(0);

/// Matches while its thread is ending.
struct Ending;

impl Drop for Ending {
    fn drop(&mut self) {
        let pattern = Pattern::new(&Tree::text("a").star().records()).unwrap();
        assert_eq!(pattern.matches(b"aa").unwrap().unwrap().range(), 0..2);
        ENDINGS.fetch_add(1, Ordering::SeqCst);
    }
}

/// A thread may match before and after it gave up what it runs machines in.
#[test]
fn a_thread_that_ends() {
    thread_local! {
        static EARLY: Ending = const { Ending };
        static LATE: Ending = const { Ending };
    }
    let thread = std::thread::spawn(|| {
        EARLY.with(|_| {});
        Pattern::new(&Tree::Empty.records()).unwrap().matches(b"").unwrap();
        LATE.with(|_| {});
    });
    thread.join().unwrap();
    assert_eq!(ENDINGS.load(Ordering::SeqCst), 2);
}
