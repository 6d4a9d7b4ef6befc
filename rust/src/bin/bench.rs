//! How fast the library is, beside the same machine in plain C, measured in the same run.
//!
//!     bench                                   one table: ours, plain C, and their ratio
//!     bench <s|w> <records-hex> <line-file>   searches, or matches whole, the bytes of the file:
//!                                             nanoseconds per call with a built machine, then the rows
//!
//! A row of the table is measured in turns, ours and then plain C, so that both meet the same disturbances; each
//! number is the median of the turns, in processor time of this thread, which other programs disturb little.

#[path = "../../plain/plain.rs"]
mod plain;

use std::hint::black_box;
use std::process::ExitCode;
use tojalinda::{calls, raw, Mode, Pattern, Tree};

/// How often each of the two is measured at the most.
const TURNS: usize = 41;
/// After how many nanoseconds no other turn begins, so that slow calls are measured less often.
const ENOUGH: f64 = 2e9;
/// How long one measurement takes, in nanoseconds.
const TURN: f64 = 4e6;

/// The length of a health line.
const SHORT: usize = 73;

fn main() -> ExitCode {
    let arguments: Vec<String> = std::env::args().skip(1).collect();
    let arguments: Vec<&str> = arguments.iter().map(String::as_str).collect();
    let done = match arguments[..] {
        [] => {
            print_table();
            Ok(())
        }
        ["s", records, file] => print_one(Mode::Search, records, file),
        ["w", records, file] => print_one(Mode::Whole, records, file),
        _ => Err("usage: bench [<s|w> <records-hex> <line-file>]".to_string()),
    };
    match done {
        Ok(()) => ExitCode::SUCCESS,
        Err(why) => {
            eprintln!("{why}");
            ExitCode::FAILURE
        }
    }
}

// ---- Measuring ----

/// The processor time that this thread has used, in nanoseconds.
fn clock() -> f64 {
    #[repr(C)]
    struct Time {
        seconds: i64,
        nanoseconds: i64,
    }
    const OF_THIS_THREAD: i32 = 3;
    extern "C" {
        fn clock_gettime(clock: i32, time: *mut Time) -> i32;
    }
    let mut time = Time { seconds: 0, nanoseconds: 0 };
    // Safe: it writes one time, laid out as 64-bit Linux has it.
    assert_eq!(unsafe { clock_gettime(OF_THIS_THREAD, &mut time) }, 0);
    time.seconds as f64 * 1e9 + time.nanoseconds as f64
}

/// Nanoseconds for so many calls.
fn duration(call: &mut dyn FnMut(), times: u32) -> f64 {
    let start = clock();
    (0..times).for_each(|_| call());
    clock() - start
}

/// How many calls take a turn.
fn calls_in_a_turn(call: &mut dyn FnMut()) -> u32 {
    let mut times = 1;
    loop {
        let taken = duration(call, times);
        if taken >= TURN / 8.0 {
            return (f64::from(times) * TURN / taken).ceil() as u32;
        }
        times *= 2;
    }
}

/// Takes an answer that only its time was asked for.
fn ignore<T>(answer: T) {
    let _ = black_box(answer);
}

/// Nanoseconds per call of each, in turns that alternate.
fn measure<const N: usize>(mut rivals: [&mut dyn FnMut(); N]) -> Vec<[f64; N]> {
    let times = rivals.each_mut().map(|call| calls_in_a_turn(call));
    let mut turn = || std::array::from_fn(|rival| duration(rivals[rival], times[rival]) / f64::from(times[rival]));
    let start = clock();
    let mut turns = vec![turn()];
    while turns.len() < TURNS && clock() - start < ENOUGH {
        turns.push(turn());
    }
    turns
}

/// The median of one number of each turn.
fn median<const N: usize>(turns: &[[f64; N]], number: impl Fn(&[f64; N]) -> f64) -> f64 {
    let mut numbers: Vec<f64> = turns.iter().map(number).collect();
    numbers.sort_by(f64::total_cmp);
    numbers[numbers.len() / 2]
}

// ---- The table ----

/// One row: what a call does, and how long ours and plain C take for it.
struct Row {
    name: String,
    bytes: usize,
    /// Steps of a run, places of a build; a check has neither.
    steps: Option<u64>,
    ours: f64,
    plain: f64,
    ratio: f64,
}

impl Row {
    fn new(name: String, bytes: usize, steps: Option<u64>, turns: Vec<[f64; 2]>) -> Row {
        let [ours, plain] = [0, 1].map(|rival| median(&turns, |turn| turn[rival]));
        Row { name, bytes, steps, ours, plain, ratio: median(&turns, |[ours, plain]| ours / plain) }
    }

    fn print(&self) {
        let per = |nanoseconds: f64, count: f64| format!("{:.3}", nanoseconds / count);
        let steps = |nanoseconds| self.steps.map_or("-".to_string(), |steps| per(nanoseconds, steps as f64));
        println!(
            "| {} | {} | {} | {:.0} | {:.0} | {} | {} | {} | {} | {:.2} |",
            self.name,
            self.bytes,
            self.steps.map_or("-".to_string(), |steps| steps.to_string()),
            self.ours,
            self.plain,
            per(self.ours, self.bytes as f64),
            per(self.plain, self.bytes as f64),
            steps(self.ours),
            steps(self.plain),
            self.ratio
        );
    }
}

fn print_table() {
    println!(
        "Times are nanoseconds of processor time per call, the median of up to {TURNS} turns, the ratio the median of"
    );
    println!(
        "theirs; plain C is compiled by {}. Rows with whole or search run a built machine over a line:",
        env!("PLAIN_COMPILER")
    );
    println!(
        "bytes are the line's, steps the list machine's. The others build for searches (checking first), check, or"
    );
    println!("check, build and search a health line in one call: bytes are the pattern's, steps its places.");
    println!();
    println!("| | bytes | steps | ours | plain C | ours/byte | C/byte | ours/step | C/step | ratio |");
    println!("|---|---:|---:|---:|---:|---:|---:|---:|---:|---:|");
    let runs = runs().into_iter().map(|(name, mode, tree, line)| run(name, mode, &tree, &line));
    let runs: Vec<Row> = runs.inspect(Row::print).collect();
    preparations().into_iter().flat_map(|(name, tree)| prepare(name, &tree)).for_each(|row| row.print());

    let ratios = |rows: &mut dyn Iterator<Item = &Row>| rows.map(|row| row.ratio).collect::<Vec<f64>>();
    let all = ratios(&mut runs.iter());
    let short = ratios(&mut runs.iter().filter(|row| row.bytes <= SHORT));
    println!();
    println!("runs: geometric mean of the ratios {:.3}, greatest {:.2}", geometric_mean(&all), greatest(&all));
    println!(
        "runs on at most {SHORT} bytes: geometric mean {:.3}, greatest {:.2}",
        geometric_mean(&short),
        greatest(&short)
    );
}

fn geometric_mean(ratios: &[f64]) -> f64 {
    (ratios.iter().map(|ratio| ratio.ln()).sum::<f64>() / ratios.len() as f64).exp()
}

fn greatest(ratios: &[f64]) -> f64 {
    ratios.iter().copied().fold(0.0, f64::max)
}

// ---- What is measured ----

fn digits() -> Tree {
    Tree::range(b'0', b'9').plus().group()
}

/// `grown (\d+) factory (\d+)`
fn health() -> Tree {
    Tree::sequence([Tree::text("grown "), digits(), Tree::text(" factory "), digits()])
}

/// `(?:seg (\d+): factory=(\d+) grown=(\d+);)*`
fn segments() -> Tree {
    let texts = ["seg ", ": factory=", " grown="].map(Tree::text);
    let counts = [digits(), digits(), digits()];
    let pairs = texts.into_iter().zip(counts).flat_map(|(text, count)| [text, count]);
    Tree::sequence(pairs.chain([Tree::text(";")])).star()
}

/// Segments of a line of at most so many bytes.
fn segment_line(most: usize) -> Vec<u8> {
    let mut line = Vec::new();
    for number in 0.. {
        let next = format!("seg {}: factory={} grown={};", number, number % 37, number * 7 % 1000);
        if line.len() + next.len() > most {
            break;
        }
        line.extend(next.bytes());
    }
    line
}

fn stars(times: usize, tree: Tree) -> Tree {
    (0..times).fold(tree, |inner, _| inner.star())
}

/// `(a*)*b`
fn star_of_star() -> Tree {
    Tree::sequence([Tree::text("a").star().group().star(), Tree::text("b")])
}

/// `(a|aa)*c`
fn overlapping() -> Tree {
    let one_or_two = Tree::alternation([Tree::text("a"), Tree::text("aa")]).group().star();
    Tree::sequence([one_or_two, Tree::text("c")])
}

/// `a{248}b`
fn counted() -> Tree {
    Tree::sequence([Tree::text("a").times(248), Tree::text("b")])
}

/// `[A-Za-z_][A-Za-z0-9_]* = ([^;]*);`
fn assignment() -> Tree {
    let first = Tree::set([(b'A', b'Z'), (b'_', b'_'), (b'a', b'z')]);
    let more = Tree::set([(b'0', b'9'), (b'A', b'Z'), (b'_', b'_'), (b'a', b'z')]).star();
    let value = Tree::set([(0, b';' - 1), (b';' + 1, 255)]).star().group();
    Tree::sequence([first, more, Tree::text(" = "), value, Tree::text(";")])
}

const HEALTH: &[u8] = b"2026-03-14 05:12 module 07 bay 3 grown 128 factory 14 temp 41 state ok ..";
const NO_HEALTH: &[u8] = b"2026-03-14 05:12 module 07 bay 3 grown -- factory 14 temp 41 state down .";

fn runs() -> Vec<(&'static str, Mode, Tree, Vec<u8>)> {
    use Mode::{Search, Whole};
    assert!(HEALTH.len() == SHORT && NO_HEALTH.len() == SHORT);
    let a = |count: usize| vec![b'a'; count];
    let most = calls::line_bytes();
    vec![
        ("search, health line", Search, health(), HEALTH.to_vec()),
        ("search, health line, none", Search, health(), NO_HEALTH.to_vec()),
        ("search, assignment", Search, assignment(), b"  let grown_count = module.grown + 12; // 7 fields".to_vec()),
        ("whole, 2 segments", Whole, segments(), segment_line(SHORT)),
        ("whole, segments", Whole, segments(), segment_line(2_000)),
        ("whole, segments, longest", Whole, segments(), segment_line(most)),
        ("search, health, longest", Search, health(), HEALTH.iter().copied().cycle().take(most).collect()),
        ("whole, (a*)*b", Whole, star_of_star(), a(2_000)),
        ("search, (a*)*b", Search, star_of_star(), a(2_000)),
        ("whole, (a\\|aa)*c", Whole, overlapping(), a(2_000)),
        ("whole, 15 nested stars", Whole, stars(15, Tree::text("a")), a(2_000)),
        ("whole, 7 nested (a)*", Whole, (0..7).fold(Tree::text("a"), |t, _| t.group().star()), a(2_000)),
        ("whole, a{248}b", Whole, counted(), [a(248), vec![b'b']].concat()),
        ("search, a{248}b", Search, counted(), a(2_000)),
        (
            "search, a{0,120}b",
            Search,
            Tree::sequence([Tree::text("a").repeat(0, Some(120)), Tree::text("b")]),
            a(2_000),
        ),
    ]
}

fn preparations() -> Vec<(&'static str, Tree)> {
    vec![
        ("health", health()),
        ("segments", segments()),
        ("a{248}b", counted()),
        ("15 nested stars", stars(15, Tree::text("a"))),
    ]
}

/// Measures runs of a built machine, having compared their answers.
fn run(name: &str, mode: Mode, tree: &Tree, line: &[u8]) -> Row {
    let records = tree.records();
    let pattern = Pattern::new(&records).expect("the pattern is lawful");
    let mut table = vec![0; calls::table_numbers()];
    let mut machine = plain::Machine::build(&records, mode == Mode::Search).expect("the pattern is lawful");
    let mut plain_table = [0; plain::NUMBERS];

    let outcome = pattern.run(mode, line, &mut table).expect("the line is lawful");
    let plain_outcome = machine.run(line, &mut plain_table);
    assert_eq!((outcome.matched, outcome.steps), plain_outcome, "{name}");
    assert_eq!(table[..2 * (pattern.groups() + 1)], plain_table[..2 * (pattern.groups() + 1)], "{name}");

    let mut ours = || ignore(pattern.run(mode, black_box(line), &mut table));
    let mut plain = || ignore(machine.run(black_box(line), &mut plain_table));
    Row::new(name.to_string(), line.len(), Some(outcome.steps), measure([&mut ours, &mut plain]))
}

/// Measures building for searches, checking, and a search of the health line that does all in one call.
fn prepare(name: &str, tree: &Tree) -> [Row; 3] {
    let records = &tree.records()[..];
    let places = calls::check(records).expect("the pattern is lawful").places as u64;
    let row = |what: &str, steps, turns| Row::new(format!("{what}, {name}"), records.len(), steps, turns);

    let mut machine = vec![0; raw::machine_numbers()];
    let mut plain_machine = plain::Machine::build(records, true).expect("the pattern is lawful");
    let mut ours = || ignore(raw::build(black_box(records), true, &mut machine, &mut [0; 3]));
    let mut plain = || ignore(plain_machine.rebuild(true));
    let build = row("build", Some(places), measure([&mut ours, &mut plain]));

    let mut ours = || ignore(calls::check(black_box(records)));
    let mut plain = || ignore(plain::check(black_box(records)));
    let check = row("check", None, measure([&mut ours, &mut plain]));

    let mut table = vec![0; calls::table_numbers()];
    let mut plain_table = [0; plain::NUMBERS];
    let mut ours = || ignore(calls::search(black_box(records), HEALTH, &mut table));
    let mut plain = || {
        ignore(plain_machine.rebuild(true));
        ignore(plain_machine.run(black_box(HEALTH), &mut plain_table));
    };
    let all = row("all in one", Some(places), measure([&mut ours, &mut plain]));
    [build, check, all]
}

// ---- One pattern and one line ----

fn from_hex(hex: &str) -> Option<Vec<u8>> {
    let digits: Option<Vec<u8>> = hex.chars().map(|digit| digit.to_digit(16).map(|digit| digit as u8)).collect();
    let digits = digits.filter(|digits| digits.len() % 2 == 0)?;
    Some(digits.chunks(2).map(|two| two[0] << 4 | two[1]).collect())
}

fn print_one(mode: Mode, records: &str, file: &str) -> Result<(), String> {
    let records = from_hex(records).ok_or("the records are not hexadecimal")?;
    let line = std::fs::read(file).map_err(|error| format!("{file}: {error}"))?;
    let pattern = Pattern::new(&records).map_err(|error| error.to_string())?;
    let mut table = vec![0; calls::table_numbers()];
    let outcome = pattern.run(mode, &line, &mut table).map_err(|error| error.to_string())?;
    let rows = if outcome.matched {
        let row =
            |number| calls::row(&table, number).map_or("-".to_string(), |row| format!("{}-{}", row.start, row.end));
        (0..=pattern.groups()).map(row).collect::<Vec<_>>().join(" ")
    } else {
        "none".to_string()
    };
    let turns = measure([&mut || ignore(pattern.run(mode, black_box(&line), &mut table))]);
    println!("{:.1} {rows}", median(&turns, |[nanoseconds]| *nanoseconds));
    Ok(())
}
