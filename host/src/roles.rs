//! The archive's three C entries for whole roles as safe functions over byte slices.
//! Lengths are in bytes, fields stand high byte first; `include/cram.h` describes every parameter.

/// What the compile of a role answers.
#[repr(C)]
#[derive(Clone, Copy, Debug, PartialEq, Eq)]
pub struct RoleCompiled {
    pub number: u32,
    pub place: u32,
    pub half: u32,
}

/// What a round answers.
#[repr(C)]
#[derive(Clone, Copy, Debug, PartialEq, Eq)]
pub struct Rounded {
    pub number: u32,
    pub place: u32,
    pub reason: u32,
}

/// What a take answers.
#[repr(C)]
#[derive(Clone, Copy, Debug, PartialEq, Eq)]
pub struct Taken {
    pub number: u32,
    pub answer: u32,
}

/// Pattern rows, rows of each half, kinds, object cells, named cells; ends of rounds, code.
pub type CompileRole = fn(&[u8], &[u8], &[u8], &[u8], &[u8], &mut [u8], &mut [u8]) -> RoleCompiled;

/// Session record, rounds of the role, kinds, object cells, message cells, certificates, terms, the round's code.
pub type Round = fn(&mut [u8], u32, &[u8], &mut [u8], &mut [u8], &[u8], &mut [u8], &[u8]) -> Rounded;

/// Session record.
pub type Take = fn(&mut [u8]) -> Taken;

/// A compiler of roles and a machine for rounds that promise the same.
pub struct RoleEngine {
    pub compile_role: CompileRole,
    pub round: Round,
    pub take: Take,
}

/// The proved archive.
pub const ARCHIVE: RoleEngine =
    RoleEngine { compile_role: archive::compile_role, round: archive::round, take: archive::take };

/// The code of one round of a role, empty where there is no such round.
pub fn round_part<'a>(code: &'a [u8], ends: &[u8], round: usize) -> &'a [u8] {
    let ends: Vec<usize> = ends.chunks_exact(2).map(|end| u16::from_be_bytes([end[0], end[1]]) as usize).collect();
    let from = if round == 0 { 0 } else { ends.get(round - 1).copied().unwrap_or(0) };
    ends.get(round).map_or(&[], |&to| &code[4 * from..4 * to])
}

mod archive {
    use super::{RoleCompiled, Rounded, Taken};

    // Nothing checks these against the archive but the tests.
    extern "C" {
        fn cram_compile_role(
            rows: *const u8,
            rows_len: usize,
            counts: *const u8,
            counts_len: usize,
            kinds: *const u8,
            kinds_len: usize,
            objects: *const u8,
            objects_len: usize,
            named: *const u8,
            named_len: usize,
            ends: *mut u8,
            ends_len: usize,
            code: *mut u8,
            code_len: usize,
        ) -> RoleCompiled;

        fn cram_round(
            session: *mut u8,
            session_len: usize,
            rounds: u32,
            kinds: *const u8,
            kinds_len: usize,
            objects: *mut u8,
            objects_len: usize,
            messages: *mut u8,
            messages_len: usize,
            certificates: *const u8,
            certificates_len: usize,
            terms: *mut u8,
            terms_len: usize,
            code: *const u8,
            code_len: usize,
        ) -> Rounded;

        fn cram_take(session: *mut u8, session_len: usize) -> Taken;
    }

    /// The archive's compile of a role: code for all its rounds, and where each ends.
    pub fn compile_role(
        rows: &[u8],
        counts: &[u8],
        kinds: &[u8],
        objects: &[u8],
        named: &[u8],
        ends: &mut [u8],
        code: &mut [u8],
    ) -> RoleCompiled {
        // Slices neither overlap nor are null, which is all that the entry asks.
        unsafe {
            cram_compile_role(
                rows.as_ptr(),
                rows.len(),
                counts.as_ptr(),
                counts.len(),
                kinds.as_ptr(),
                kinds.len(),
                objects.as_ptr(),
                objects.len(),
                named.as_ptr(),
                named.len(),
                ends.as_mut_ptr(),
                ends.len(),
                code.as_mut_ptr(),
                code.len(),
            )
        }
    }

    /// The archive's round: a message matched and answered, over stores and a table of terms.
    #[allow(clippy::too_many_arguments)]
    pub fn round(
        session: &mut [u8],
        rounds: u32,
        kinds: &[u8],
        objects: &mut [u8],
        messages: &mut [u8],
        certificates: &[u8],
        terms: &mut [u8],
        code: &[u8],
    ) -> Rounded {
        // Slices neither overlap nor are null, which is all that the entry asks.
        unsafe {
            cram_round(
                session.as_mut_ptr(),
                session.len(),
                rounds,
                kinds.as_ptr(),
                kinds.len(),
                objects.as_mut_ptr(),
                objects.len(),
                messages.as_mut_ptr(),
                messages.len(),
                certificates.as_ptr(),
                certificates.len(),
                terms.as_mut_ptr(),
                terms.len(),
                code.as_ptr(),
                code.len(),
            )
        }
    }

    /// The archive's take: the answer that waits.
    pub fn take(session: &mut [u8]) -> Taken {
        // The slice is not null, which is all that the entry asks.
        unsafe { cram_take(session.as_mut_ptr(), session.len()) }
    }
}
