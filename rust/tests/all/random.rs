//! Random questions: patterns small and at their limits, whole and damaged, lines that match and lines that do not,
//! tables and buffers of all lengths. TOJALINDA_CASES says how many of each.

use crate::asks::{all_agree, Ask, Told};
use crate::reference;
use tojalinda::{calls, Part, Tree};

/// A small generator (xorshift64*), so that a case can be run again by its seed.
pub struct Random(u64);

impl Random {
    pub fn new(seed: u64) -> Random {
        Random(seed.wrapping_mul(0x9e37_79b9_7f4a_7c15) | 1)
    }

    fn next(&mut self) -> u64 {
        self.0 ^= self.0 >> 12;
        self.0 ^= self.0 << 25;
        self.0 ^= self.0 >> 27;
        self.0.wrapping_mul(0x2545_f491_4f6c_dd1d) >> 20
    }

    /// A number below `end`.
    pub fn below(&mut self, end: usize) -> usize {
        (self.next() % end as u64) as usize
    }

    pub fn one_in(&mut self, times: usize) -> bool {
        self.below(times) == 0
    }

    pub fn pick<T: Copy>(&mut self, from: &[T]) -> T {
        from[self.below(from.len())]
    }

    /// A length that is mostly small.
    fn length(&mut self) -> usize {
        match self.below(40) {
            0 => self.below(600),
            1..=4 => self.below(60),
            _ => self.below(12),
        }
    }
}

/// Few different bytes, so that patterns and lines meet.
fn byte(random: &mut Random) -> u8 {
    if random.one_in(20) {
        random.below(256) as u8
    } else {
        random.pick(b"aaabbc")
    }
}

fn set(random: &mut Random) -> Tree {
    if random.one_in(12) {
        return Tree::any();
    }
    if random.one_in(12) {
        return many_pairs(random);
    }
    if random.one_in(40) {
        // Two pairs that may touch, overlap, stand the wrong way round or run down.
        let ends: [u8; 4] = std::array::from_fn(|_| random.pick(b"abcde"));
        return Tree::set([(ends[0], ends[1]), (ends[2], ends[3])]);
    }
    let low = byte(random);
    Tree::range(low, low.saturating_add(random.pick(&[0, 0, 0, 1, 2])))
}

/// Up to 32 pairs, or one too many, rising with gaps.
fn many_pairs(random: &mut Random) -> Tree {
    let mut low = random.below(4);
    let mut pairs = Vec::new();
    while low < 256 && pairs.len() < 33 {
        let high = (low + random.below(5)).min(255);
        pairs.push((low as u8, high as u8));
        low = high + 2 + random.below(3);
    }
    Tree::Set(pairs)
}

/// A tree of at most so many levels.
fn tree(random: &mut Random, levels: usize) -> Tree {
    if levels <= 1 || random.one_in(6) {
        return match random.below(12) {
            0 => Tree::Nothing,
            1 | 2 => Tree::Empty,
            _ => set(random),
        };
    }
    let members = |random: &mut Random| {
        let count = random.pick(&[2, 2, 2, 3, 4]);
        (0..count).map(|_| tree(random, levels - 1)).collect()
    };
    match random.below(8) {
        0 | 1 => tree(random, levels - 1).group(),
        2 | 3 => Tree::Sequence(members(random)),
        4 | 5 => Tree::Alternation(members(random)),
        _ => {
            let min = random.pick(&[0, 0, 0, 1, 1, 2, 3]);
            let max = random.pick(&[None, None, Some(min), Some(min + 1), Some(min + 2)]);
            let lazy = random.one_in(3);
            Tree::Repeat { min, max, lazy, inner: Box::new(tree(random, levels - 1)) }
        }
    }
}

/// A pattern at or over some limit: long, deep, with many groups, many places, or great counts.
fn great_tree(random: &mut Random) -> Tree {
    let leaf = tree(random, 3);
    match random.below(6) {
        0 => (0..13 + random.below(5)).fold(leaf, |inner, _| match random.below(3) {
            0 => inner.star(),
            1 => Tree::Sequence(vec![Tree::Empty, inner]),
            _ => inner.repeat_lazily(0, Some(1)),
        }),
        1 => Tree::Sequence((0..8 + random.below(4)).map(|_| set(random).group()).collect()),
        2 => leaf.times(random.below(256) as u16),
        3 => {
            let least = random.below(256) as u16;
            leaf.times(255).times(255).repeat(random.below(2) as u16, Some(least)).times(0)
        }
        4 => Tree::Alternation((0..2 + random.below(400)).map(|_| set(random)).collect()),
        _ => {
            let min = random.below(130) as u16;
            Tree::sequence([set(random).times(min), set(random).repeat(0, Some(random.below(70) as u16))])
        }
    }
}

/// A line that some reading of the tree takes, if there is one that is not long.
fn taken(random: &mut Random, tree: &Tree, line: &mut Vec<u8>) {
    if line.len() > 300 {
        return;
    }
    match tree {
        Tree::Nothing | Tree::Empty => {}
        Tree::Set(pairs) if pairs.is_empty() => {}
        Tree::Set(pairs) => {
            let (low, high) = random.pick(pairs);
            line.push(low.saturating_add(random.below(usize::from(high.saturating_sub(low)) + 1) as u8));
        }
        Tree::Group(inner) => taken(random, inner, line),
        Tree::Sequence(members) => members.iter().for_each(|member| taken(random, member, line)),
        Tree::Alternation(members) => {
            let member = random.below(members.len());
            taken(random, &members[member], line);
        }
        Tree::Repeat { min, max, inner, .. } => {
            let more = max.map_or(4, |max| usize::from(max.saturating_sub(*min)).min(4));
            for _ in 0..usize::from(*min) + random.below(more + 1) {
                taken(random, inner, line);
            }
        }
    }
}

fn line(random: &mut Random, tree: &Tree) -> Vec<u8> {
    let mut line = Vec::new();
    if random.one_in(4) {
        let length = random.length();
        line.extend((0..length).map(|_| byte(random)));
        return line;
    }
    let (before, times, after) = (random.pick(&[0, 0, 2]), random.pick(&[1, 1, 2]), random.pick(&[0, 0, 2]));
    line.extend((0..before).map(|_| byte(random)));
    (0..times).for_each(|_| taken(random, tree, &mut line));
    line.extend((0..after).map(|_| byte(random)));
    if random.one_in(5) && !line.is_empty() {
        let at = random.below(line.len());
        line[at] = byte(random);
    }
    line
}

/// Flips a bit, cuts bytes out, puts some in, or changes a number to one near a limit.
fn damage(random: &mut Random, records: &mut Vec<u8>) {
    for _ in 0..random.pick(&[1, 1, 1, 2, 4]) {
        let at = random.below(records.len() + 1);
        match random.below(6) {
            0 if at < records.len() => records[at] ^= 1 << random.below(8),
            1 if at < records.len() => records[at] = random.pick(&[0, 1, 2, 3, 4, 5, 6, 7, 32, 33, 255]),
            2 => records.truncate(at),
            3 => {
                let end = (at + random.below(6)).min(records.len());
                drop(records.drain(at..end));
            }
            4 => {
                let put: Vec<u8> = (0..1 + random.below(5)).map(|_| random.pick(&[0, 0, 1, 2, 6, 255])).collect();
                drop(records.splice(at..at, put));
            }
            _ => records.extend([0, 0, 1, 0]),
        }
    }
}

/// A pattern's tree and its records, one in four damaged, one in ten great.
fn pattern(random: &mut Random) -> (Tree, Vec<u8>) {
    let levels = random.pick(&[2, 3, 4, 5, 6, 7]);
    let tree = if random.one_in(10) { great_tree(random) } else { tree(random, levels) };
    let mut records = tree.records();
    if random.one_in(4) {
        damage(random, &mut records);
    }
    (tree, records)
}

/// A template whose references are mostly to rows up to `row`.
fn template(random: &mut Random, row: u64) -> Vec<u8> {
    let parts: Vec<Part> = (0..random.pick(&[0, 1, 2, 2, 3, 4]))
        .map(|_| match random.below(2) {
            0 => Part::Literal((0..1 + random.below(3)).map(|_| byte(random)).collect()),
            _ if random.one_in(12) => Part::Reference(random.below(11) as u16),
            _ => Part::Reference(random.below(row as usize + 1) as u16),
        })
        .collect();
    let mut records = Part::records(&parts);
    if random.one_in(8) {
        damage(random, &mut records);
    }
    if random.one_in(200) {
        records = Part::records(&[Part::Literal(vec![b'x'; calls::template_bytes() - 5 + random.below(4)])]);
    }
    records
}

/// A table of some length, mostly enough, with numbers that are rows of a line of this length or nearly so.
fn table(random: &mut Random, line: usize) -> Vec<u16> {
    let numbers = calls::table_numbers();
    let length =
        random.pick(&[0, 1, numbers - 1, numbers, numbers, numbers, numbers, numbers, numbers + 1, numbers + 5]);
    let mut table = Vec::new();
    while table.len() < length {
        let start = random.below(line + 2) as u16;
        table.extend(match random.below(8) {
            0 | 1 => [calls::ABSENT, calls::ABSENT],
            2 => [start, calls::ABSENT],
            3 => [calls::ABSENT, start],
            _ => [start, start.saturating_add(random.below(4) as u16)],
        });
    }
    table.truncate(length);
    table
}

fn cases(usual: u64) -> u64 {
    std::env::var("TOJALINDA_CASES").map_or(usual, |cases| cases.parse().expect("TOJALINDA_CASES is a number"))
}

/// Which refusals came up, and how many answers.
#[derive(Default)]
struct Tally {
    refused: [u64; 17],
    answered: u64,
    matched: u64,
}

impl Tally {
    fn count(&mut self, told: &Told) {
        match &told.numbers {
            Ok(numbers) => {
                self.answered += 1;
                self.matched += u64::from(numbers[0] == 1);
            }
            Err((number, _)) => self.refused[*number as usize] += 1,
        }
    }

    /// A random test that never comes to a refusal, or hardly to an answer, tests nothing there.
    fn covers(&self, refusals: &[usize], cases: u64) {
        assert!(self.answered > cases / 4, "only {} of {cases} are answered", self.answered);
        for &number in refusals {
            assert!(self.refused[number] > 0, "no case is refused by {number}");
        }
    }
}

#[test]
fn checking() {
    crate::with_room(|| {
        let (cases, mut tally) = (cases(40_000), Tally::default());
        for seed in 0..cases {
            let random = &mut Random::new(seed);
            let (_, pattern) = pattern(random);
            tally.count(&all_agree(&Ask::Check { pattern }));
        }
        tally.covers(&[1, 2, 3, 4, 5, 6, 7, 8], cases);
    });
}

#[test]
fn matches_and_searches() {
    crate::with_room(|| {
        let (cases, mut tally) = (cases(30_000), Tally::default());
        for seed in 0..cases {
            let random = &mut Random::new(seed);
            let (tree, pattern) = pattern(random);
            let line = line(random, &tree);
            let table = table(random, line.len());
            tally.count(&all_agree(&Ask::Match { search: random.one_in(2), pattern, line, table }));
        }
        tally.covers(&[2, 3, 4, 5, 6, 7, 8, 12], cases);
        assert!(tally.matched > cases / 8, "only {} of {cases} match", tally.matched);
    });
}

/// The reference is right by its reading, which gives up where it takes too long: that must be seldom.
#[test]
fn the_reading_decides() {
    crate::with_room(|| {
        let (mut answers, mut decided) = (0, 0);
        for seed in 0..cases(10_000) {
            let random = &mut Random::new(seed);
            let (tree, pattern) = pattern(random);
            let line = line(random, &tree);
            if let Ok(checked) = reference::check(&pattern) {
                let answer = reference::answer(&checked, random.one_in(2), &line);
                answers += 1;
                decided += u64::from(answer.decided);
            }
        }
        assert!(10 * decided > 9 * answers, "the reading decides only {decided} of {answers}");
    });
}

#[test]
fn replacing() {
    crate::with_room(|| {
        let (cases, mut tally) = (cases(15_000), Tally::default());
        for seed in 0..cases {
            let random = &mut Random::new(seed);
            let (tree, pattern) = pattern(random);
            let line = line(random, &tree);
            let groups = reference::check(&pattern).map_or(1, |checked| checked.groups);
            let template = template(random, groups);
            let room = random.pick(&[0, line.len(), 2 * line.len() + 9, 900, 900]);
            let mut ask = Ask::Replace { pattern, template, line, buffer: vec![0xa5; room] };
            let told = all_agree(&ask);
            tally.count(&told);
            // Once more with a buffer that the output just fits, or fails to fit by one.
            if let (Ok(numbers), Ask::Replace { buffer, .. }) = (&told.numbers, &mut ask) {
                buffer.truncate((numbers[0] as usize).saturating_sub(random.below(2)));
                tally.count(&all_agree(&ask));
            }
        }
        tally.covers(&[2, 3, 8, 9, 10, 13], cases);
    });
}

#[test]
fn pieces() {
    crate::with_room(|| {
        let (cases, mut tally) = (cases(40_000), Tally::default());
        for seed in 0..cases {
            let random = &mut Random::new(seed);
            let template = template(random, 9);
            let length = random.length();
            let line: Vec<u8> = (0..length).map(|_| byte(random)).collect();
            let table = table(random, line.len());
            let number = random.pick(&[0, 0, 0, 0, 1, 1, 2, 4, usize::MAX]);
            tally.count(&all_agree(&Ask::Piece { template, line, table, number }));
        }
        tally.covers(&[9, 12, 15, 16], cases);
    });
}

/// Lines around the longest, on patterns whose readings stay short.
#[test]
fn long_lines() {
    crate::with_room(|| {
        let most = calls::line_bytes();
        let trees = [
            Tree::text("a").star(),
            Tree::alternation([Tree::text("ab"), Tree::any()]).group().star(),
            Tree::text("b"),
            Tree::range(b'a', b'b').repeat_lazily(0, None).star().group(),
        ];
        for tree in &trees {
            for length in [most - 1, most, most + 1] {
                for (search, byte) in [(false, b'a'), (true, b'a'), (true, b'b')] {
                    let mut line = vec![b'a'; length];
                    line[length - 1] = byte;
                    let table = vec![1; calls::table_numbers() + 3];
                    all_agree(&Ask::Match { search, pattern: tree.records(), line, table });
                }
            }
        }
        let template = Part::records(&[Part::text("<"), Part::Reference(0), Part::text(">")]);
        for length in [most, most + 1] {
            let mut line = vec![b'a'; length];
            // Few matches: each search goes on to the line's end.
            line[length / 2] = b'b';
            line[length - 1] = b'b';
            let [pattern, buffer] = [Tree::text("b").records(), vec![0; 2 * length]];
            all_agree(&Ask::Replace { pattern, template: template.clone(), line: line.clone(), buffer });
            let table = vec![length as u16; calls::table_numbers()];
            all_agree(&Ask::Piece { template: template.clone(), line, table, number: 1 });
        }
    });
}
