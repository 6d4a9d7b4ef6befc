//! The archive's C interface, and all `unsafe` of this crate.
//!
//! `include/tojalinda.h` says what each call does. The functions here only turn slices into pointers and
//! lengths; a [`Machine`] has private fields, so that the one requirement of `toj_run` holds of every one there is.

mod c {
    extern "C" {
        pub fn toj_pattern_bytes() -> usize;
        pub fn toj_template_bytes() -> usize;
        pub fn toj_line_bytes() -> usize;
        pub fn toj_rows() -> usize;
        pub fn toj_table_numbers() -> usize;
        pub fn toj_machine_numbers() -> usize;
        pub fn toj_scratch_numbers() -> usize;

        pub fn toj_check(pattern: *const u8, pattern_len: usize, out: *mut u64, out_len: usize) -> u32;

        pub fn toj_match(
            pattern: *const u8,
            pattern_len: usize,
            line: *const u8,
            line_len: usize,
            table: *mut u16,
            table_len: usize,
            out: *mut u64,
            out_len: usize,
        ) -> u32;

        pub fn toj_search(
            pattern: *const u8,
            pattern_len: usize,
            line: *const u8,
            line_len: usize,
            table: *mut u16,
            table_len: usize,
            out: *mut u64,
            out_len: usize,
        ) -> u32;

        pub fn toj_replace(
            pattern: *const u8,
            pattern_len: usize,
            template: *const u8,
            template_len: usize,
            line: *const u8,
            line_len: usize,
            buffer: *mut u8,
            buffer_len: usize,
            out: *mut u64,
            out_len: usize,
        ) -> u32;

        pub fn toj_piece(
            template: *const u8,
            template_len: usize,
            line: *const u8,
            line_len: usize,
            table: *const u16,
            table_len: usize,
            number: usize,
            out: *mut u64,
            out_len: usize,
        ) -> u32;

        pub fn toj_build(
            pattern: *const u8,
            pattern_len: usize,
            search: u32,
            machine: *mut u16,
            machine_len: usize,
            out: *mut u64,
            out_len: usize,
        ) -> u32;

        pub fn toj_run(
            pattern: *const u8,
            pattern_len: usize,
            machine: *const u16,
            machine_len: usize,
            line: *const u8,
            line_len: usize,
            seen: *mut u16,
            seen_len: usize,
            taken: *mut u16,
            taken_len: usize,
            lists: *mut u16,
            lists_len: usize,
            pending: *mut u16,
            pending_len: usize,
            table: *mut u16,
            table_len: usize,
            out: *mut u64,
            out_len: usize,
        ) -> u32;
    }
}

/// The status of a call that was not refused.
pub const ANSWERED: u32 = 0;
/// The status of a call that was given an `out`, a machine or a scratch too short for it.
pub const SHORT: u32 = 255;

/// The archive's limits, under the names that the rest of the crate gives them.
macro_rules! limits {
    ($($(#[$text:meta])* $name:ident = $call:ident;)*) => {
        $($(#[$text])* pub fn $name() -> usize {
            // Safe: it takes no argument and only answers a number.
            unsafe { c::$call() }
        })*
    };
}

limits! {
    /// The greatest length of a pattern.
    pattern_bytes = toj_pattern_bytes;
    /// The greatest length of a template.
    template_bytes = toj_template_bytes;
    /// The greatest length of a line.
    line_bytes = toj_line_bytes;
    /// The rows of a span table: row 0, and one for each group that a pattern may have.
    rows = toj_rows;
    /// The least length of a span table.
    table_numbers = toj_table_numbers;
    /// The length of a built machine, in 16-bit numbers.
    machine_numbers = toj_machine_numbers;
    /// The length of each of the memories that a machine is run in, in 16-bit numbers.
    part_numbers = toj_scratch_numbers;
}

/// How many memories a machine is run in.
const PARTS: usize = 4;

/// The length of all of them together.
pub fn scratch_numbers() -> usize {
    PARTS * part_numbers()
}

pub fn check(pattern: &[u8], out: &mut [u64]) -> u32 {
    // Safe, here and below: each pointer and length is one slice's.
    unsafe { c::toj_check(pattern.as_ptr(), pattern.len(), out.as_mut_ptr(), out.len()) }
}

pub fn whole_match(pattern: &[u8], line: &[u8], table: &mut [u16], out: &mut [u64]) -> u32 {
    unsafe {
        c::toj_match(
            pattern.as_ptr(),
            pattern.len(),
            line.as_ptr(),
            line.len(),
            table.as_mut_ptr(),
            table.len(),
            out.as_mut_ptr(),
            out.len(),
        )
    }
}

pub fn search(pattern: &[u8], line: &[u8], table: &mut [u16], out: &mut [u64]) -> u32 {
    unsafe {
        c::toj_search(
            pattern.as_ptr(),
            pattern.len(),
            line.as_ptr(),
            line.len(),
            table.as_mut_ptr(),
            table.len(),
            out.as_mut_ptr(),
            out.len(),
        )
    }
}

pub fn replace(pattern: &[u8], template: &[u8], line: &[u8], buffer: &mut [u8], out: &mut [u64]) -> u32 {
    unsafe {
        c::toj_replace(
            pattern.as_ptr(),
            pattern.len(),
            template.as_ptr(),
            template.len(),
            line.as_ptr(),
            line.len(),
            buffer.as_mut_ptr(),
            buffer.len(),
            out.as_mut_ptr(),
            out.len(),
        )
    }
}

pub fn piece(template: &[u8], line: &[u8], table: &[u16], number: usize, out: &mut [u64]) -> u32 {
    unsafe {
        c::toj_piece(
            template.as_ptr(),
            template.len(),
            line.as_ptr(),
            line.len(),
            table.as_ptr(),
            table.len(),
            number,
            out.as_mut_ptr(),
            out.len(),
        )
    }
}

pub fn build(pattern: &[u8], search: bool, machine: &mut [u16], out: &mut [u64]) -> u32 {
    unsafe {
        c::toj_build(
            pattern.as_ptr(),
            pattern.len(),
            u32::from(search),
            machine.as_mut_ptr(),
            machine.len(),
            out.as_mut_ptr(),
            out.len(),
        )
    }
}

/// A built machine beside the pattern that it was built from. Nothing changes either afterwards.
#[derive(Clone)]
pub struct Machine {
    pattern: Box<[u8]>,
    numbers: Box<[u16]>,
}

impl Machine {
    /// Builds the machine of a pattern; none where the status is a refusal.
    pub fn build(pattern: &[u8], search: bool, out: &mut [u64]) -> (u32, Option<Machine>) {
        let mut numbers = vec![0; machine_numbers()];
        let status = build(pattern, search, &mut numbers, out);
        let machine = || Machine { pattern: pattern.into(), numbers: numbers.into() };
        (status, (status == ANSWERED).then(machine))
    }

    /// The records that it was built from.
    pub fn pattern(&self) -> &[u8] {
        &self.pattern
    }

    /// Runs it in a scratch of `scratch_numbers()` numbers, whose quarters are the four memories.
    pub fn run(&self, line: &[u8], scratch: &mut [u16], table: &mut [u16], out: &mut [u64]) -> u32 {
        let part = scratch.len() / PARTS;
        let (seen, rest) = scratch.split_at_mut(part);
        let (taken, rest) = rest.split_at_mut(part);
        let (lists, pending) = rest.split_at_mut(part);
        // Safe: the machine is as `build` left it for this very pattern, by what `Machine` says of its fields.
        unsafe {
            c::toj_run(
                self.pattern.as_ptr(),
                self.pattern.len(),
                self.numbers.as_ptr(),
                self.numbers.len(),
                line.as_ptr(),
                line.len(),
                seen.as_mut_ptr(),
                seen.len(),
                taken.as_mut_ptr(),
                taken.len(),
                lists.as_mut_ptr(),
                lists.len(),
                pending.as_mut_ptr(),
                pending.len(),
                table.as_mut_ptr(),
                table.len(),
                out.as_mut_ptr(),
                out.len(),
            )
        }
    }
}
