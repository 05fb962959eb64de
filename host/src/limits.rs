//! Limits of documents 01 and 02, each named once.

pub const PATTERN_ROWS: usize = 96;
pub const CODE_WORDS: usize = 768;
pub const TERM_ROWS: usize = 4096;
pub const CERTIFICATES: usize = 32;
/// Kinds, object cells and named message cells.
pub const NAMED: usize = 64;
/// Message cells: the named ones and then scratch.
pub const MESSAGES: usize = 256;
/// A cell or accumulator that holds no row.
pub const UNSET: u16 = 65535;
/// The name counter's last value, at which no name is left.
pub const NAMES: u32 = 65536;
/// The most rounds of a role, of two halves each.
pub const ROUNDS: usize = 16;
/// The most words lent to a round: INPUT, two halves and OUTPUT.
pub const ROUND_WORDS: usize = 2 + 2 * CODE_WORDS;
/// No role has more words.
pub const ROLE_WORDS: usize = 24576;
/// Bytes of the session record: five numbers of four.
pub const RECORD: usize = 20;
