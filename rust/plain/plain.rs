//! The plain C machine as a Rust type, for the benchmark and the tests.
#![allow(dead_code)]

use std::ffi::c_int;

/// How many numbers its span tables have.
pub const NUMBERS: usize = 20;
const LINE_BYTES: usize = 65_534;

mod c {
    use std::ffi::c_int;

    extern "C" {
        pub fn plain_machine_bytes() -> usize;
        pub fn plain_scratch_bytes() -> usize;
        pub fn plain_check(pattern: *const u8, length: usize, numbers: *mut u32) -> u32;
        pub fn plain_build(
            pattern: *const u8,
            length: usize,
            search: c_int,
            machine: *mut u64,
            numbers: *mut u32,
        ) -> u32;
        pub fn plain_run(
            machine: *const u64,
            line: *const u8,
            length: usize,
            scratch: *mut u64,
            table: *mut u16,
            steps: *mut u64,
        ) -> c_int;
    }
}

/// A refusal's number and place.
pub type Refused = (u32, usize);

/// Checks a pattern: its places, depth and groups.
pub fn check(pattern: &[u8]) -> Result<[u32; 3], Refused> {
    let mut numbers = [0; 3];
    // Safe: the pattern is a slice's, and `numbers` has the three that it writes.
    match unsafe { c::plain_check(pattern.as_ptr(), pattern.len(), numbers.as_mut_ptr()) } {
        0 => Ok(numbers),
        refusal => Err((refusal, numbers[0] as usize)),
    }
}

/// A built machine with what it is run in.
pub struct Machine {
    /// The machine points into it.
    pattern: Box<[u8]>,
    machine: Vec<u64>,
    scratch: Vec<u64>,
}

impl Machine {
    pub fn build(pattern: &[u8], search: bool) -> Result<Machine, Refused> {
        // Safe: they only answer numbers.
        let (machine, scratch) = unsafe { (c::plain_machine_bytes(), c::plain_scratch_bytes()) };
        let [machine, scratch] = [machine, scratch].map(|bytes| vec![0; bytes.div_ceil(8)]);
        let mut built = Machine { pattern: pattern.into(), machine, scratch };
        built.rebuild(search)?;
        Ok(built)
    }

    /// Builds its pattern again, in the same memory.
    pub fn rebuild(&mut self, search: bool) -> Result<(), Refused> {
        let mut numbers = [0; 3];
        // Safe: the machine's memory has the size that it asks for, and the pattern lives as long.
        let refusal = unsafe {
            c::plain_build(
                self.pattern.as_ptr(),
                self.pattern.len(),
                c_int::from(search),
                self.machine.as_mut_ptr(),
                numbers.as_mut_ptr(),
            )
        };
        if refusal == 0 {
            Ok(())
        } else {
            Err((refusal, numbers[0] as usize))
        }
    }

    /// Whether there is a match, and the steps.
    pub fn run(&mut self, line: &[u8], table: &mut [u16; NUMBERS]) -> (bool, u64) {
        assert!(line.len() <= LINE_BYTES);
        let mut steps = 0;
        // Safe: `build` answers only machines that are built, and all memory has the sizes that it asks for.
        let matched = unsafe {
            c::plain_run(
                self.machine.as_ptr(),
                line.as_ptr(),
                line.len(),
                self.scratch.as_mut_ptr(),
                table.as_mut_ptr(),
                &mut steps,
            )
        };
        (matched != 0, steps)
    }
}
