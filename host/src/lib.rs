//! The archive's C entries for one pattern as safe functions over byte slices (those for roles are in `roles`, the reader of listings in `reading`), and what
//! tests and measures them all.
//! Lengths are in bytes, fields stand high byte first; `include/cram.h` describes every parameter.
pub mod by_halves;
pub mod case;
pub mod compare;
pub mod direct;
pub mod edges;
pub mod every;
pub mod examples;
pub mod forms;
pub mod game;
pub mod generator;
pub mod input;
pub mod limits;
pub mod measured;
pub mod plain;
pub mod reading;
pub mod roles;
pub mod stack;
pub mod worked;
pub mod worked_roles;

/// What compile answers.
#[repr(C)]
#[derive(Clone, Copy, Debug, PartialEq, Eq)]
pub struct Compiled {
    pub number: u32,
    pub place: u32,
}

/// What run answers.
#[repr(C)]
#[derive(Clone, Copy, Debug, PartialEq, Eq)]
pub struct Ran {
    pub number: u32,
    pub place: u32,
    pub reason: u32,
    pub used: u32,
    pub counter: u32,
    pub accumulator: u32,
}

/// Direction, pattern, kinds, object cells, named cells; code.
pub type Compile = fn(u8, &[u8], &[u8], &[u8], &[u8], &mut [u8]) -> Compiled;

/// Kinds, object cells, message cells, certificates, accumulator, terms, counter, code.
pub type Run = fn(&[u8], &mut [u8], &mut [u8], &[u8], u32, &mut [u8], u32, &[u8]) -> Ran;

/// A compiler and a machine that promise the same.
pub struct Engine {
    pub compile: Compile,
    pub run: Run,
}

/// The proved archive.
pub const ARCHIVE: Engine = Engine { compile, run };

mod entries {
    use super::{Compiled, Ran};

    // Nothing checks these against the archive but the tests.
    extern "C" {
        pub fn cram_compile(
            create: u8,
            pattern: *const u8,
            pattern_len: usize,
            kinds: *const u8,
            kinds_len: usize,
            objects: *const u8,
            objects_len: usize,
            named: *const u8,
            named_len: usize,
            code: *mut u8,
            code_len: usize,
        ) -> Compiled;

        pub fn cram_run(
            kinds: *const u8,
            kinds_len: usize,
            objects: *mut u8,
            objects_len: usize,
            messages: *mut u8,
            messages_len: usize,
            certificates: *const u8,
            certificates_len: usize,
            accumulator: u32,
            terms: *mut u8,
            terms_len: usize,
            counter: u32,
            code: *const u8,
            code_len: usize,
        ) -> Ran;
    }
}

/// The archive's compile: code for a pattern, where `create` is 0 for matching and 1 for creating.
pub fn compile(create: u8, pattern: &[u8], kinds: &[u8], objects: &[u8], named: &[u8], code: &mut [u8]) -> Compiled {
    // Slices neither overlap nor are null, which is all that the entry asks.
    unsafe {
        entries::cram_compile(
            create,
            pattern.as_ptr(),
            pattern.len(),
            kinds.as_ptr(),
            kinds.len(),
            objects.as_ptr(),
            objects.len(),
            named.as_ptr(),
            named.len(),
            code.as_mut_ptr(),
            code.len(),
        )
    }
}

/// The archive's run: code over stores and a table of terms.
#[allow(clippy::too_many_arguments)]
pub fn run(
    kinds: &[u8],
    objects: &mut [u8],
    messages: &mut [u8],
    certificates: &[u8],
    accumulator: u32,
    terms: &mut [u8],
    counter: u32,
    code: &[u8],
) -> Ran {
    // Slices neither overlap nor are null, which is all that the entry asks.
    unsafe {
        entries::cram_run(
            kinds.as_ptr(),
            kinds.len(),
            objects.as_mut_ptr(),
            objects.len(),
            messages.as_mut_ptr(),
            messages.len(),
            certificates.as_ptr(),
            certificates.len(),
            accumulator,
            terms.as_mut_ptr(),
            terms.len(),
            counter,
            code.as_ptr(),
            code.len(),
        )
    }
}
