//! Lent memory: too short an `out` touches nothing, nor does a refusal, and numbers that no call speaks of stay.

use tojalinda::raw::{self, Machine};
use tojalinda::{calls, Part, Tree};

const BEFORE: u64 = 0x5a5a_5a5a_5a5a_5a5a;

/// All that a call may be lent beside `out`.
#[derive(Clone, PartialEq, Eq)]
struct Lent {
    table: Vec<u16>,
    buffer: Vec<u8>,
    machine: Vec<u16>,
    scratch: Vec<u16>,
}

fn lent() -> Lent {
    Lent {
        table: vec![0x5a5a; calls::table_numbers() + 4],
        buffer: vec![0x5a; 40],
        machine: vec![0x5a5a; raw::machine_numbers()],
        scratch: vec![0x5a5a; raw::scratch_numbers()],
    }
}

/// Calls with an `out` of every length up to 6, of which `needs` are enough.
fn every_out(needs: usize, expected: u32, call: impl Fn(&mut Lent, &mut [u64]) -> u32) {
    for length in 0..=6 {
        let (mut memory, mut out) = (lent(), vec![BEFORE; length]);
        let status = call(&mut memory, &mut out);
        assert_eq!(status, if length < needs { raw::SHORT } else { expected }, "an out of {length}");
        let written = match status {
            raw::SHORT => 0,
            raw::ANSWERED => needs,
            _ => 1,
        };
        assert!(out[..written].iter().all(|&number| number != BEFORE), "an out of {length} has its numbers");
        assert!(out[written..].iter().all(|&number| number == BEFORE), "an out of {length} keeps the others");
        assert!(status == raw::ANSWERED || memory == lent(), "an out of {length} and status {status}");
    }
}

/// A pattern with the status of every call on it: one that is answered and one of an unknown kind.
fn patterns() -> [(Vec<u8>, u32); 2] {
    [(Tree::text("a").star().group().records(), raw::ANSWERED), (vec![0, 0, 9, 0], 3)]
}

#[test]
fn an_out_that_is_too_short() {
    let template = Part::records(&[Part::Reference(1), Part::text("-")]);
    for (pattern, status) in &patterns() {
        every_out(3, *status, |_, out| raw::check(pattern, out));
        every_out(2, *status, |lent, out| raw::whole_match(pattern, b"aa", &mut lent.table, out));
        every_out(2, *status, |lent, out| raw::search(pattern, b"baa", &mut lent.table, out));
        every_out(3, *status, |lent, out| raw::replace(pattern, &template, b"baab", &mut lent.buffer, out));
        for search in [false, true] {
            every_out(3, *status, |lent, out| raw::build(pattern, search, &mut lent.machine, out));
        }
    }
    let table = vec![0; calls::table_numbers()];
    every_out(3, raw::ANSWERED, |_, out| raw::piece(&template, b"a", &table, 1, out));
    every_out(3, 16, |_, out| raw::piece(&template, b"a", &table, 2, out));
}

#[test]
fn an_out_too_short_for_a_run() {
    for search in [false, true] {
        let (_, machine) = Machine::build(&patterns()[0].0, search, &mut [0; 3]);
        let machine = machine.unwrap();
        every_out(2, raw::ANSWERED, |lent, out| machine.run(b"aa", &mut lent.scratch, &mut lent.table, out));
        every_out(2, 12, |lent, out| {
            let short = calls::table_numbers() - 1;
            machine.run(b"aa", &mut lent.scratch, &mut lent.table[..short], out)
        });
        let long = vec![b'a'; calls::line_bytes() + 1];
        every_out(2, 11, |lent, out| machine.run(&long, &mut lent.scratch, &mut lent.table, out));
    }
}

#[test]
fn a_machine_or_a_scratch_that_is_too_short() {
    let (pattern, _) = &patterns()[0];
    let (_, machine) = Machine::build(pattern, false, &mut [0; 3]);
    for missing in [1, 2, 100] {
        let (mut memory, mut out) = (lent(), [BEFORE; 3]);
        let numbers = raw::machine_numbers() - missing;
        assert_eq!(raw::build(pattern, false, &mut memory.machine[..numbers], &mut out), raw::SHORT);
        let numbers = raw::scratch_numbers() - missing;
        let run = machine.as_ref().unwrap().run(b"aa", &mut memory.scratch[..numbers], &mut memory.table, &mut out);
        assert_eq!(run, raw::SHORT);
        assert!(memory == lent() && out == [BEFORE; 3]);
    }
}

/// What a scratch holds before changes no answer: filled with anything, or left by another machine's run.
#[test]
fn a_scratch_that_holds_anything() {
    let trees = [
        Tree::text("a").star().group().star(),
        Tree::alternation([Tree::text("ab").group(), Tree::any()]).repeat_lazily(1, None),
        Tree::text("a").times(100),
        Tree::Empty,
    ];
    let machines: Vec<Machine> = trees
        .iter()
        .flat_map(|tree| [false, true].map(|search| Machine::build(&tree.records(), search, &mut [0; 3]).1.unwrap()))
        .collect();
    let answer = |machine: &Machine, line: &[u8], scratch: &mut [u16]| {
        let (mut table, mut out) = (vec![7; calls::table_numbers()], [0; 2]);
        assert_eq!(machine.run(line, scratch, &mut table, &mut out), raw::ANSWERED);
        (table, out)
    };
    let mut shared = vec![0; raw::scratch_numbers()];
    let line = [b"ab".repeat(40), b"a".repeat(100)].concat();
    for round in 0..4 {
        for length in 0..line.len() {
            for machine in &machines {
                let line = &line[..length];
                let filling = [0, 1, length as u16, u16::MAX][round];
                let expected = answer(machine, line, &mut vec![filling; raw::scratch_numbers() + round]);
                assert_eq!(answer(machine, line, &mut shared), expected, "{length} bytes, filled with {filling}");
            }
        }
    }
}

/// The limits that the archive tells are those that this crate's tests are written for.
#[test]
fn limits() {
    use crate::reference::*;
    assert_eq!(calls::pattern_bytes(), PATTERN_BYTES);
    assert_eq!(calls::template_bytes(), TEMPLATE_BYTES);
    assert_eq!(calls::line_bytes(), LINE_BYTES);
    assert_eq!((calls::rows(), calls::table_numbers()), (GROUPS + 1, NUMBERS));
}

/// One pattern, many threads at once.
#[test]
fn a_pattern_shared_by_threads() {
    let pattern = tojalinda::Pattern::new(&Tree::text("ab").group().star().records()).unwrap();
    std::thread::scope(|scope| {
        for thread in 0..8 {
            let pattern = &pattern;
            scope.spawn(move || {
                for times in 0..300 {
                    let line = [vec![b'x'; thread], b"ab".repeat(times)].concat();
                    let found = pattern.search(&line).unwrap().unwrap();
                    assert_eq!(found.range(), if thread == 0 { 0..2 * times } else { 0..0 });
                    assert_eq!(pattern.matches(&line).unwrap().is_some(), thread == 0);
                }
            });
        }
    });
}
