//! An independent implementation of the scope document, written from its text and for being read, not for speed.
//!
//! It shares nothing with the library: it has a checker, the ordered reading (by backtracking), the list machine (for
//! steps), replace-all and piece of its own. The reading and the machine must agree on rows, which is tested too.

use std::cell::Cell;
use std::ops::Range;

pub const PATTERN_BYTES: usize = 4096;
pub const LEVELS: usize = 16;
pub const GROUPS: usize = 9;
pub const PLACES: u128 = 500;
pub const TEMPLATE_BYTES: usize = 1024;
pub const LINE_BYTES: usize = 65_534;
pub const NUMBERS: usize = 2 * (GROUPS + 1);
pub const ABSENT: u16 = u16::MAX;

/// A refusal's number and place.
pub type Refused = (u32, usize);

/// The place of each row, or absent.
pub type Rows = [Option<(usize, usize)>; GROUPS + 1];

/// A pattern; a group has its number, a repeat the numbers of the groups inside it.
#[derive(Clone, Debug)]
pub enum Expression {
    Nothing,
    Empty,
    Set(Vec<(u8, u8)>),
    Group(usize, Box<Expression>),
    Sequence(Vec<Expression>),
    Alternation(Vec<Expression>),
    Repeat(Passes),
}

#[derive(Clone, Debug)]
pub struct Passes {
    min: u16,
    max: Option<u16>,
    lazy: bool,
    inside: Range<usize>,
    inner: Box<Expression>,
}

use Expression::*;

/// A pattern that checking accepted, with its numbers.
#[derive(Clone, Debug)]
pub struct Checked {
    pub expression: Expression,
    pub places: u64,
    pub depth: u64,
    pub groups: u64,
}

// ---- Checking ----

fn number(bytes: &[u8], at: usize) -> u16 {
    u16::from_le_bytes([bytes[at], bytes[at + 1]])
}

/// The header and the body's end of the record at `at`, if all of it is there before `stop`.
fn header(bytes: &[u8], at: usize, stop: usize) -> Option<(u16, usize)> {
    if at + 4 > stop {
        return None;
    }
    let end = at + 4 + usize::from(number(bytes, at));
    (end <= stop).then(|| (number(bytes, at + 2), end))
}

struct Walk<'a> {
    bytes: &'a [u8],
    groups: usize,
}

impl Walk<'_> {
    /// The record at `at`, inside a holder that ends at `stop`; also where it ends.
    fn record(&mut self, at: usize, stop: usize, level: usize) -> Result<(Expression, usize), Refused> {
        let (kind, end) = header(self.bytes, at, stop).ok_or((2, at))?;
        if kind > 6 {
            return Err((3, at));
        }
        if level > LEVELS {
            return Err((6, at));
        }
        let body = at + 4;
        let expression = match kind {
            0 | 1 if end > body => return Err((2, at)),
            0 => Nothing,
            1 => Empty,
            2 => Set(pairs(&self.bytes[body..end]).ok_or((4, at))?),
            3 => {
                self.groups += 1;
                let group = self.groups;
                if group > GROUPS {
                    return Err((7, at));
                }
                Group(group, Box::new(self.only(at, body, end, level)?))
            }
            4 => Sequence(self.members(at, body, end, level)?),
            5 => Alternation(self.members(at, body, end, level)?),
            _ => self.repeat(at, body, end, level)?,
        };
        Ok((expression, end))
    }

    fn repeat(&mut self, at: usize, body: usize, end: usize, level: usize) -> Result<Expression, Refused> {
        if end < body + 6 {
            return Err((2, at));
        }
        let [min, max, mode] = [0, 2, 4].map(|k| number(self.bytes, body + k));
        let max = if max == u16::MAX { None } else { Some(max) };
        if min > 255 || max.is_some_and(|max| max > 255 || min > max) || mode > 1 {
            return Err((5, at));
        }
        let before = self.groups;
        let inner = Box::new(self.only(at, body + 6, end, level)?);
        Ok(Repeat(Passes { min, max, lazy: mode == 1, inside: before + 1..self.groups + 1, inner }))
    }

    fn only(&mut self, holder: usize, at: usize, end: usize, level: usize) -> Result<Expression, Refused> {
        let (inner, stopped) = self.record(at, end, level + 1)?;
        if stopped < end {
            return Err((2, holder));
        }
        Ok(inner)
    }

    fn members(&mut self, holder: usize, mut at: usize, end: usize, level: usize) -> Result<Vec<Expression>, Refused> {
        let mut members = Vec::new();
        while at < end {
            let (member, stopped) = self.record(at, end, level + 1)?;
            members.push(member);
            at = stopped;
        }
        if members.len() < 2 {
            return Err((2, holder));
        }
        Ok(members)
    }
}

/// The pairs of a set's body, if it is right.
fn pairs(body: &[u8]) -> Option<Vec<(u8, u8)>> {
    if body.is_empty() || body.len() % 2 == 1 || body.len() > 64 {
        return None;
    }
    let pairs: Vec<(u8, u8)> = body.chunks(2).map(|pair| (pair[0], pair[1])).collect();
    let rising = pairs.iter().all(|pair| pair.0 <= pair.1);
    let apart = pairs.windows(2).all(|two| u16::from(two[1].0) >= u16::from(two[0].1) + 2);
    (rising && apart).then_some(pairs)
}

impl Expression {
    /// Its places. Saturating is enough: no pattern of 16 levels and 4,096 bytes comes near, and 0 times it is 0.
    fn places(&self) -> u128 {
        match self {
            Nothing | Set(_) => 1,
            Empty => 0,
            Group(_, inner) => 2 + inner.places(),
            Sequence(members) => members.iter().map(|member| member.places()).sum(),
            Alternation(members) => members.iter().map(|m| m.places()).sum::<u128>() + members.len() as u128 - 1,
            Repeat(repeat) => {
                let inner = repeat.inner.places();
                let optional = repeat.max.map_or(1, |max| max - repeat.min);
                u128::from(repeat.min)
                    .saturating_mul(1 + inner)
                    .saturating_add(u128::from(optional).saturating_mul(3 + inner))
            }
        }
    }

    fn depth(&self) -> u64 {
        match self {
            Nothing | Empty | Set(_) => 0,
            Group(_, inner) => inner.depth(),
            Sequence(members) | Alternation(members) => members.iter().map(|m| m.depth()).max().unwrap_or(0),
            Repeat(repeat) => repeat.inner.depth() + u64::from(repeat.max != Some(repeat.min)),
        }
    }
}

/// Refusals 1 to 8, or the pattern.
pub fn check(bytes: &[u8]) -> Result<Checked, Refused> {
    if bytes.len() > PATTERN_BYTES {
        return Err((1, 0));
    }
    let mut walk = Walk { bytes, groups: 0 };
    let (expression, end) = walk.record(0, bytes.len(), 1)?;
    if end < bytes.len() {
        return Err((2, end));
    }
    let places = expression.places() + 1;
    if places > PLACES {
        return Err((8, 0));
    }
    Ok(Checked { places: places as u64, depth: expression.depth(), groups: walk.groups as u64, expression })
}

// ---- The ordered reading ----

/// The reading has tried so much, or is nested so deep, that it gives up: its answer is not known.
struct UsedUp;

/// What comes after an expression: says whether it leads to the end that is wanted. The last number is how much deeper
/// the reading may nest.
type Then<'a> = &'a mut dyn FnMut(usize, Rows, u32) -> Result<bool, UsedUp>;

struct Reading<'a> {
    line: &'a [u8],
    tries: Cell<u64>,
}

impl Reading<'_> {
    /// Tries the outcomes of an expression in order, each followed by `then`, up to the first that succeeds.
    fn read(&self, e: &Expression, at: usize, rows: Rows, room: u32, then: Then) -> Result<bool, UsedUp> {
        let room = self.spend(room)?;
        match e {
            Nothing => Ok(false),
            Empty => then(at, rows, room),
            Set(pairs) => match self.line.get(at) {
                Some(&byte) if pairs.iter().any(|&(low, high)| low <= byte && byte <= high) => then(at + 1, rows, room),
                _ => Ok(false),
            },
            Group(group, inner) => self.read(inner, at, rows, room, &mut |end, mut rows: Rows, room| {
                rows[*group] = Some((at, end));
                then(end, rows, room)
            }),
            Sequence(members) => self.sequence(members, at, rows, room, then),
            Alternation(members) => {
                for member in members {
                    if self.read(member, at, rows, room, then)? {
                        return Ok(true);
                    }
                }
                Ok(false)
            }
            Repeat(repeat) => self.repeat(repeat, 0, at, rows, room, then),
        }
    }

    fn sequence(&self, members: &[Expression], at: usize, rows: Rows, room: u32, then: Then) -> Result<bool, UsedUp> {
        match members {
            [] => then(at, rows, room),
            [first, rest @ ..] => {
                self.read(first, at, rows, room, &mut |end, rows, room| self.sequence(rest, end, rows, room, then))
            }
        }
    }

    /// A repeat of which `made` passes are made.
    fn repeat(&self, r: &Passes, made: u16, at: usize, rows: Rows, room: u32, then: Then) -> Result<bool, UsedUp> {
        let must = made < r.min;
        if !must && r.max == Some(made) {
            return then(at, rows, room);
        }
        if !must && r.lazy && then(at, rows, room)? {
            return Ok(true);
        }
        let mut cleared = rows;
        cleared[r.inside.clone()].fill(None);
        // With no upper end it does not matter how many optional passes were made.
        let made_then = if must || r.max.is_some() { made + 1 } else { made };
        let passed = self.read(&r.inner, at, cleared, room, &mut |end, rows, room| {
            if !must && end == at {
                return Ok(false);
            }
            self.repeat(r, made_then, end, rows, room, then)
        })?;
        if passed || must || r.lazy {
            return Ok(passed);
        }
        then(at, rows, room)
    }

    fn spend(&self, room: u32) -> Result<u32, UsedUp> {
        self.tries.set(self.tries.get().checked_sub(1).ok_or(UsedUp)?);
        room.checked_sub(1).ok_or(UsedUp)
    }
}

/// How much a reading may try, and how deep it may nest.
const TRIES: u64 = 20_000;
const NESTING: u32 = 2_000;

/// The first outcome of the reading that ends at the line's end; `None` where finding it takes too long.
fn first_outcome(expression: &Expression, line: &[u8]) -> Option<Option<Rows>> {
    let reading = Reading { line, tries: TRIES.into() };
    let mut first = None;
    let found = reading.read(expression, 0, [None; GROUPS + 1], NESTING, &mut |end, rows, _| {
        if end == line.len() {
            first = Some(rows);
        }
        Ok(end == line.len())
    });
    match found {
        Ok(_) => Some(first),
        Err(UsedUp) => None,
    }
}

// ---- The list machine ----

#[derive(Clone, Debug)]
enum Place {
    Set(Vec<(u8, u8)>, usize),
    Stop,
    Fork(usize, usize),
    Open(usize, usize),
    Close(usize, usize),
    Begin { inside: Range<usize>, optional: bool, next: usize },
    End(usize),
    Accept,
}

/// The places of an expression before the place `next`; answers its first one.
fn lay(places: &mut Vec<Place>, e: &Expression, next: usize) -> usize {
    match e {
        Nothing => add(places, Place::Stop),
        Empty => next,
        Set(pairs) => add(places, Place::Set(pairs.clone(), next)),
        Group(group, inner) => {
            let close = add(places, Place::Close(*group, next));
            let first = lay(places, inner, close);
            add(places, Place::Open(*group, first))
        }
        Sequence(members) => members.iter().rev().fold(next, |next, member| lay(places, member, next)),
        Alternation(members) => {
            let (last, others) = members.split_last().unwrap();
            let last = lay(places, last, next);
            others.iter().rev().fold(last, |rest, member| {
                let first = lay(places, member, next);
                add(places, Place::Fork(first, rest))
            })
        }
        Repeat(repeat) => {
            let mut entry = next;
            match repeat.max {
                None => entry = optional_pass(places, repeat, None, next),
                Some(max) => {
                    for _ in repeat.min..max {
                        entry = optional_pass(places, repeat, Some(entry), next);
                    }
                }
            }
            for _ in 0..repeat.min {
                let first = lay(places, &repeat.inner, entry);
                entry = add(places, Place::Begin { inside: repeat.inside.clone(), optional: false, next: first });
            }
            entry
        }
    }
}

/// Fork, begin, pass and end; the end leads to `after`, or back to the fork.
fn optional_pass(places: &mut Vec<Place>, repeat: &Passes, after: Option<usize>, out: usize) -> usize {
    let end = add(places, Place::End(after.unwrap_or(0)));
    let first = lay(places, &repeat.inner, end);
    let begin = add(places, Place::Begin { inside: repeat.inside.clone(), optional: true, next: first });
    let fork = add(places, if repeat.lazy { Place::Fork(out, begin) } else { Place::Fork(begin, out) });
    if after.is_none() {
        places[end] = Place::End(fork);
    }
    fork
}

fn add(places: &mut Vec<Place>, place: Place) -> usize {
    places.push(place);
    places.len() - 1
}

struct Machine<'a> {
    places: &'a [Place],
    line: &'a [u8],
    steps: u64,
    /// For each place and level the last position, counted from 1, at which the pair was seen.
    seen: Vec<[usize; LEVELS + 1]>,
    carried: Vec<(usize, Rows)>,
}

impl Machine<'_> {
    /// Follows a thread at a position; answers the rows of one that accepts at the line's end.
    fn visit(&mut self, place: usize, level: usize, at: usize, mut rows: Rows) -> Option<Rows> {
        if self.seen[place][level] == at + 1 {
            return None;
        }
        self.seen[place][level] = at + 1;
        self.steps += 1;
        let places = self.places;
        match &places[place] {
            Place::Stop => None,
            Place::Set(pairs, next) => {
                let byte = *self.line.get(at)?;
                if pairs.iter().any(|&(low, high)| (low..=high).contains(&byte)) {
                    self.carried.push((*next, rows));
                }
                None
            }
            Place::Fork(preferred, other) => {
                self.visit(*preferred, level, at, rows).or_else(|| self.visit(*other, level, at, rows))
            }
            Place::Open(group, next) => {
                rows[*group] = Some((at, at));
                self.visit(*next, level, at, rows)
            }
            Place::Close(group, next) => {
                let (start, _) = rows[*group].expect("a group is opened before it is closed");
                rows[*group] = Some((start, at));
                self.visit(*next, level, at, rows)
            }
            Place::Begin { inside, optional, next } => {
                rows[inside.clone()].fill(None);
                self.visit(*next, level + usize::from(*optional), at, rows)
            }
            Place::End(next) if level == 0 => self.visit(*next, 0, at, rows),
            Place::End(_) => None,
            Place::Accept => (at == self.line.len()).then_some(rows),
        }
    }
}

/// The rows and the steps of the list machine.
fn run_machine(expression: &Expression, line: &[u8]) -> (Option<Rows>, u64) {
    let mut places = vec![Place::Accept];
    let first = lay(&mut places, expression, 0);
    let carried = vec![(first, [None; GROUPS + 1])];
    let seen = vec![[0; LEVELS + 1]; places.len()];
    let mut machine = Machine { places: &places, line, steps: 0, seen, carried };
    for at in 0..=line.len() {
        for (place, rows) in std::mem::take(&mut machine.carried) {
            if let Some(rows) = machine.visit(place, 0, at, rows) {
                return (Some(rows), machine.steps);
            }
        }
    }
    (None, machine.steps)
}

// ---- Whole match and search ----

/// The rows, if there is a match, the steps, and whether the reading told the rows as well as the machine.
pub struct Answer {
    pub rows: Option<Rows>,
    pub steps: u64,
    pub decided: bool,
}

/// The pattern wrapped for a search: the added group is row 0.
fn wrapped(expression: &Expression) -> Expression {
    let any = |lazy| {
        let inner = Box::new(Set(vec![(0, 255)]));
        Repeat(Passes { min: 0, max: None, lazy, inside: 0..0, inner })
    };
    Sequence(vec![any(true), Group(0, Box::new(expression.clone())), any(false)])
}

/// The answer of a checked pattern on a line of any length. The reading decides the rows; where it takes too long, the
/// machine's stand alone.
pub fn answer(checked: &Checked, search: bool, line: &[u8]) -> Answer {
    let expression = if search { wrapped(&checked.expression) } else { checked.expression.clone() };
    let (rows, steps) = run_machine(&expression, line);
    let read = first_outcome(&expression, line);
    if let Some(read) = read {
        assert_eq!(rows, read, "the list machine's rows are not the reading's: {expression:?} on {line:?}");
    }
    let whole = |mut rows: Rows| {
        if !search {
            rows[0] = Some((0, line.len()));
        }
        rows
    };
    Answer { rows: rows.map(whole), steps, decided: read.is_some() }
}

/// The span table that rows stand in.
pub fn table(rows: Option<Rows>) -> [u16; NUMBERS] {
    let mut table = [ABSENT; NUMBERS];
    for (k, row) in rows.unwrap_or_default().iter().enumerate() {
        if let Some((start, end)) = row {
            table[2 * k] = *start as u16;
            table[2 * k + 1] = *end as u16;
        }
    }
    table
}

/// Match or search with a lent table.
pub fn fill(pattern: &[u8], search: bool, line: &[u8], lent: &mut [u16]) -> Result<Answer, Refused> {
    let checked = check(pattern)?;
    if line.len() > LINE_BYTES {
        return Err((11, 0));
    }
    if lent.len() < NUMBERS {
        return Err((12, 0));
    }
    let answer = answer(&checked, search, line);
    lent[..NUMBERS].copy_from_slice(&table(answer.rows));
    Ok(answer)
}

// ---- Replace-all and piece ----

#[derive(Clone, Debug)]
enum Part {
    Literal(Range<usize>),
    Reference(usize),
}

/// The records of a template with their places.
fn template_parts(template: &[u8]) -> Result<Vec<(usize, Part)>, Refused> {
    if template.len() > TEMPLATE_BYTES {
        return Err((9, 0));
    }
    let mut parts = Vec::new();
    let mut at = 0;
    while at < template.len() {
        let (kind, end) = header(template, at, template.len()).ok_or((9, at))?;
        let body = at + 4..end;
        let part = match kind {
            32 if !body.is_empty() => Part::Literal(body),
            33 if body.len() == 2 && usize::from(number(template, body.start)) <= GROUPS => {
                Part::Reference(number(template, body.start).into())
            }
            _ => return Err((9, at)),
        };
        parts.push((at, part));
        at = end;
    }
    Ok(parts)
}

/// The output, the replacements and the steps.
#[derive(Clone, Debug, PartialEq, Eq)]
pub struct Replaced {
    pub output: Vec<u8>,
    pub replacements: u64,
    pub steps: u64,
}

/// Replace-all into a buffer of `room` bytes.
pub fn replace(pattern: &[u8], template: &[u8], line: &[u8], room: usize) -> Result<Replaced, Refused> {
    let checked = check(pattern)?;
    let parts = template_parts(template)?;
    for (at, part) in &parts {
        if matches!(part, Part::Reference(row) if *row as u64 > checked.groups) {
            return Err((10, *at));
        }
    }
    if line.len() > LINE_BYTES {
        return Err((11, 0));
    }
    let replaced = replace_lawful(&checked, template, &parts, line);
    if replaced.output.len() > room {
        return Err((13, 0));
    }
    Ok(replaced)
}

fn replace_lawful(checked: &Checked, template: &[u8], parts: &[(usize, Part)], line: &[u8]) -> Replaced {
    let mut done = Replaced { output: Vec::new(), replacements: 0, steps: 0 };
    let mut last_end = None;
    let mut p = 0;
    while p <= line.len() {
        let rest = &line[p..];
        let answer = answer(checked, true, rest);
        done.steps += answer.steps;
        let Some(rows) = answer.rows else {
            done.output.extend(rest);
            break;
        };
        let (s, e) = rows[0].expect("a search that finds has row 0");
        done.output.extend(&rest[..s]);
        if s < e || last_end != Some(p + s) {
            done.replacements += 1;
            for (_, part) in parts {
                match part {
                    Part::Literal(range) => done.output.extend(&template[range.clone()]),
                    Part::Reference(row) => {
                        let (start, end) = rows[*row].unwrap_or((0, 0));
                        done.output.extend(&rest[start..end]);
                    }
                }
            }
        }
        if s < e {
            last_end = Some(p + e);
            p += e;
        } else {
            done.output.extend(rest.get(s));
            p += s + 1;
        }
    }
    done
}

/// Whether the piece is a part of the line (else of the template), and which.
pub fn piece(template: &[u8], line: &[u8], table: &[u16], number: usize) -> Result<(bool, usize, usize), Refused> {
    let parts = template_parts(template)?;
    if line.len() > LINE_BYTES {
        return Err((11, 0));
    }
    if table.len() < NUMBERS {
        return Err((12, 0));
    }
    match parts.get(number).map(|(_, part)| part) {
        None => Err((16, 0)),
        Some(Part::Literal(range)) => Ok((false, range.start, range.end)),
        Some(Part::Reference(row)) => match (table[2 * row], table[2 * row + 1]) {
            (ABSENT, ABSENT) => Ok((true, 0, 0)),
            (start, end) if start > end || usize::from(end) > line.len() => Err((15, 0)),
            (start, end) => Ok((true, start.into(), end.into())),
        },
    }
}
