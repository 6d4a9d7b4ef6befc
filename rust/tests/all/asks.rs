//! One question, and its answer by each implementation: the numbers or the refusal, and all lent memory afterwards.

#[cfg(feature = "bench")]
use crate::plain;
use crate::reference;
use tojalinda::{calls, Error, Mode, Pattern, Piece};

#[derive(Clone, Debug, PartialEq, Eq)]
pub enum Ask {
    Check { pattern: Vec<u8> },
    Match { search: bool, pattern: Vec<u8>, line: Vec<u8>, table: Vec<u16> },
    Replace { pattern: Vec<u8>, template: Vec<u8>, line: Vec<u8>, buffer: Vec<u8> },
    Piece { template: Vec<u8>, line: Vec<u8>, table: Vec<u16>, number: usize },
}

/// Checking: places, depth, groups. Match: 1 or 0, steps, with the table. Replace: length, replacements, steps, with the
/// buffer. Piece: 0 or 1, start, end, with the part itself. A refusal is a number and a place.
#[derive(Clone, Debug, PartialEq, Eq)]
pub struct Told {
    pub numbers: Result<Vec<u64>, (u32, usize)>,
    pub table: Vec<u16>,
    pub bytes: Vec<u8>,
}

/// Who may be asked. The plain machine, which is there with the feature `bench`, has no replace-all and no pieces, a
/// built pattern no pieces.
#[derive(Clone, Copy, Debug, PartialEq, Eq)]
pub enum Who {
    Reference,
    Calls,
    Built,
    #[cfg(feature = "bench")]
    Plain,
}

pub const ALL: &[Who] = &[
    Who::Reference,
    Who::Calls,
    Who::Built,
    #[cfg(feature = "bench")]
    Who::Plain,
];

fn told(numbers: Result<Vec<u64>, (u32, usize)>) -> Told {
    Told { numbers, table: Vec::new(), bytes: Vec::new() }
}

fn refused(error: Error) -> (u32, usize) {
    (error.number, error.place)
}

impl Who {
    /// The answer, or none where this implementation has no such call.
    pub fn told(self, ask: &Ask) -> Option<Told> {
        Some(match ask {
            Ask::Check { pattern } => told(self.check(pattern)),
            Ask::Match { search, pattern, line, table } => {
                let mut table = table.clone();
                let numbers = self.fill(*search, pattern, line, &mut table);
                Told { numbers, table, bytes: Vec::new() }
            }
            Ask::Replace { pattern, template, line, buffer } => {
                let mut bytes = buffer.clone();
                let numbers = self.replace(pattern, template, line, &mut bytes)?;
                Told { numbers, table: Vec::new(), bytes }
            }
            Ask::Piece { template, line, table, number } => {
                let (numbers, part) = self.piece(template, line, table, *number)?;
                Told { numbers, table: Vec::new(), bytes: part }
            }
        })
    }

    fn check(self, pattern: &[u8]) -> Result<Vec<u64>, (u32, usize)> {
        let list = |numbers: [usize; 3]| numbers.map(|number| number as u64).to_vec();
        match self {
            Who::Reference => reference::check(pattern).map(|c| vec![c.places, c.depth, c.groups]),
            Who::Calls => calls::check(pattern).map(|n| list([n.places, n.depth, n.groups])).map_err(refused),
            Who::Built => Pattern::new(pattern).map(|p| list([p.places(), p.depth(), p.groups()])).map_err(refused),
            #[cfg(feature = "bench")]
            Who::Plain => plain::check(pattern).map(|numbers| numbers.map(u64::from).to_vec()),
        }
    }

    fn fill(self, search: bool, pattern: &[u8], line: &[u8], table: &mut [u16]) -> Result<Vec<u64>, (u32, usize)> {
        let outcome = match self {
            Who::Reference => {
                let answer = reference::fill(pattern, search, line, table)?;
                return Ok(vec![answer.rows.is_some() as u64, answer.steps]);
            }
            #[cfg(feature = "bench")]
            Who::Plain => return fill_plainly(search, pattern, line, table),
            Who::Calls if search => calls::search(pattern, line, table),
            Who::Calls => calls::whole_match(pattern, line, table),
            Who::Built => {
                let mode = if search { Mode::Search } else { Mode::Whole };
                Pattern::new(pattern).and_then(|pattern| pattern.run(mode, line, table))
            }
        };
        outcome.map(|outcome| vec![outcome.matched as u64, outcome.steps]).map_err(refused)
    }

    fn replace(
        self,
        pattern: &[u8],
        template: &[u8],
        line: &[u8],
        buffer: &mut [u8],
    ) -> Option<Result<Vec<u64>, (u32, usize)>> {
        let (output, numbers) = match self {
            #[cfg(feature = "bench")]
            Who::Plain => return None,
            Who::Calls => {
                let written = calls::replace(pattern, template, line, buffer).map_err(refused);
                return Some(written.map(|w| vec![w.length as u64, w.replacements, w.steps]));
            }
            Who::Reference => match reference::replace(pattern, template, line, buffer.len()) {
                Ok(replaced) => (replaced.output, [replaced.replacements, replaced.steps]),
                Err(refused) => return Some(Err(refused)),
            },
            Who::Built => match Pattern::new(pattern).and_then(|pattern| pattern.replace_all(template, line)) {
                // It finds its own buffer; that the output does not fit this one is said here.
                Ok(replaced) if replaced.bytes.len() > buffer.len() => return Some(Err((13, 0))),
                Ok(replaced) => (replaced.bytes, [replaced.replacements, replaced.steps]),
                Err(error) => return Some(Err(refused(error))),
            },
        };
        buffer[..output.len()].copy_from_slice(&output);
        Some(Ok(vec![output.len() as u64, numbers[0], numbers[1]]))
    }

    #[allow(clippy::type_complexity)]
    fn piece(
        self,
        template: &[u8],
        line: &[u8],
        table: &[u16],
        number: usize,
    ) -> Option<(Result<Vec<u64>, (u32, usize)>, Vec<u8>)> {
        match self {
            Who::Reference => {
                let piece = reference::piece(template, line, table, number);
                let part = match piece {
                    Ok((true, start, end)) => line[start..end].to_vec(),
                    Ok((false, start, end)) => template[start..end].to_vec(),
                    Err(_) => Vec::new(),
                };
                Some((piece.map(|(of_line, start, end)| vec![of_line as u64, start as u64, end as u64]), part))
            }
            Who::Calls => {
                let part = calls::part(template, line, table, number);
                let numbers = match calls::piece(template, line, table, number) {
                    Ok(Piece::Template(part)) => Ok(vec![0, part.start as u64, part.end as u64]),
                    Ok(Piece::Line(part)) => Ok(vec![1, part.start as u64, part.end as u64]),
                    Err(error) => {
                        assert_eq!(
                            part.as_ptr(),
                            template.as_ptr(),
                            "the part of a refusal is at the template's start"
                        );
                        Err(refused(error))
                    }
                };
                Some((numbers, part.to_vec()))
            }
            _ => None,
        }
    }
}

/// The plain machine, with the refusals that it leaves to its caller.
#[cfg(feature = "bench")]
fn fill_plainly(search: bool, pattern: &[u8], line: &[u8], table: &mut [u16]) -> Result<Vec<u64>, (u32, usize)> {
    let mut machine = plain::Machine::build(pattern, search)?;
    if line.len() > calls::line_bytes() {
        return Err((11, 0));
    }
    let Some(table) = table.first_chunk_mut::<{ plain::NUMBERS }>() else {
        return Err((12, 0));
    };
    let (matched, steps) = machine.run(line, table);
    Ok(vec![matched as u64, steps])
}

/// Asks everyone and compares with what the first who has the call tells.
pub fn all_agree(ask: &Ask) -> Told {
    let expected = Who::Reference.told(ask).expect("the reference has every call");
    for &who in ALL {
        if let Some(told) = who.told(ask) {
            assert!(told == expected, "{who:?} tells\n{told:?}\nand the reference\n{expected:?}\nfor {ask:?}");
        }
    }
    expected
}
