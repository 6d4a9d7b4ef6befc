//! Everything can be called on a thread with 1 MiB of stack, on the patterns that make the calls nest deepest.

use crate::asks::{Ask, Told, Who};
use tojalinda::{calls, Part, Tree};

const STACK: usize = 1 << 20;

/// Patterns of 500 places, or 16 levels, or both, that lead a thread through as many places as there are before it
/// takes a byte, with forks inside one another.
fn worst() -> Vec<Tree> {
    let or_nothing = || Tree::alternation([Tree::text("a"), Tree::Empty]);
    let nothing_or = || Tree::alternation([Tree::Empty, Tree::text("a")]);
    let nest = |times: usize, tree: Tree| (0..times).fold(tree, |inner, _| inner.star());
    let nest_lazily = |times: usize, tree: Tree| (0..times).fold(tree, |inner, _| inner.repeat_lazily(0, None));
    let forks = |count: usize| Tree::sequence((0..count).map(|_| nothing_or()));
    vec![
        // ((a|)(){255}(){239})*: 500 places
        Tree::sequence([or_nothing(), Tree::Empty.times(255), Tree::Empty.times(239)]).star(),
        // forks that prefer the empty branch, one after the other: each leads to the next
        forks(249),
        forks(248).star(),
        nest(13, forks(229)),
        nest_lazily(13, forks(229)),
        nest(15, Tree::text("a")),
        nest_lazily(15, Tree::text("a")),
        nest(6, nest_lazily(6, forks(229)).group()),
        Tree::text("a").maybe().times(99),
        Tree::text("a").repeat_lazily(0, Some(124)),
        Tree::text("a").repeat(0, Some(124)),
        Tree::Alternation((0..249).map(|_| Tree::text("a")).collect()),
        Tree::Sequence(vec![Tree::text("a").times(248), Tree::text("b")]),
        (0..9).fold(forks(120), |inner, _| inner.group()).star(),
        // 16 levels of sequences
        (0..15).fold(Tree::text("a"), |inner, _| Tree::Sequence(vec![inner, Tree::Empty])),
        Tree::text("a").times(255).times(255).times(0),
    ]
}

fn asks() -> Vec<Ask> {
    let mut asks = Vec::new();
    let lines = [vec![], vec![b'a'; 3], vec![b'a'; 300], [vec![b'a'; 248], vec![b'b']].concat(), vec![b'b'; 20]];
    let template = Part::records(&[Part::text("<"), Part::Reference(0), Part::text(">")]);
    for tree in worst() {
        let pattern = tree.records();
        asks.push(Ask::Check { pattern: pattern.clone() });
        for line in &lines {
            for search in [false, true] {
                let table = vec![0; calls::table_numbers()];
                asks.push(Ask::Match { search, pattern: pattern.clone(), line: line.clone(), table });
            }
        }
        let [template, line] = [template.clone(), lines[1].clone()];
        asks.push(Ask::Replace { pattern, template, line, buffer: vec![0; 50] });
    }
    let table = vec![0; calls::table_numbers()];
    asks.push(Ask::Piece { template, line: lines[1].clone(), table, number: 2 });
    asks
}

#[test]
fn one_mebibyte() {
    crate::with_room(|| {
        for tree in worst() {
            let places = calls::check(&tree.records()).map(|numbers| numbers.places);
            assert!(places.is_ok(), "{places:?}");
        }
        let expected: Vec<(Ask, Told)> =
            asks().into_iter().map(|ask| (ask.clone(), Who::Reference.told(&ask).unwrap())).collect();
        let calls = move || {
            for (ask, expected) in expected {
                for who in [Who::Calls, Who::Built] {
                    if let Some(told) = who.told(&ask) {
                        assert!(told == expected, "{who:?} tells {:?}, not {:?}", told.numbers, expected.numbers);
                    }
                }
            }
        };
        std::thread::Builder::new().stack_size(STACK).spawn(calls).unwrap().join().unwrap();
    });
}
