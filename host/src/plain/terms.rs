//! The table of terms: its rows, its rules and the search for an equal row.
use super::bytes::{field, row};
use crate::limits::TERM_ROWS;

pub const BYTE: u8 = 1;
pub const NONCE: u8 = 2;
pub const AGENT: u8 = 3;
pub const PUBLIC: u8 = 4;
pub const PRIVATE: u8 = 5;
pub const SHARED: u8 = 6;
pub const ENCRYPTION: u8 = 7;
pub const SIGNATURE: u8 = 8;
pub const HASH: u8 = 9;
pub const TUPLE: u8 = 10;

pub fn tag(row: u64) -> u8 {
    field(row, 0, 4) as u8
}

/// How many parts a tuple has.
pub fn count(row: u64) -> usize {
    field(row, 4, 4) as usize
}

pub fn part(row: u64, i: usize) -> u16 {
    field(row, 16 + 12 * i as u32, 12) as u16
}

pub fn number(row: u64) -> u64 {
    field(row, 48, 16)
}

/// A byte, an agent or a name.
pub const fn atom(tag: u8, number: u64) -> u64 {
    (tag as u64) << 60 | number
}

/// An encryption, signature or hash, where `n` is 0, or a tuple.
pub fn compound(tag: u8, n: usize, parts: &[u16]) -> u64 {
    let head = (tag as u64) << 60 | (n as u64) << 56;
    parts.iter().enumerate().fold(head, |row, (i, &part)| row | (part as u64) << (36 - 12 * i))
}

/// The rows before the first zero row.
pub fn used(terms: &[u8]) -> usize {
    first(terms, |row| row == 0).unwrap_or(terms.len() / 8)
}

/// The lowest row that breaks a rule, in a table with a counter.
pub type Check = fn(&[u8], u32) -> Option<usize>;

/// A check that searches all earlier rows for an equal one.
pub fn first_bad(terms: &[u8], counter: u32) -> Option<usize> {
    first_bad_by(terms, counter, |at| find(&terms[..8 * at], row(terms, at)).is_some())
}

/// A check that looks for an equal row in an index of hashes.
pub fn first_bad_hashed(terms: &[u8], counter: u32) -> Option<usize> {
    let mut index = Index::new();
    first_bad_by(terms, counter, |at| index.repeats(terms, at))
}

fn first_bad_by(terms: &[u8], counter: u32, mut repeats: impl FnMut(usize) -> bool) -> Option<usize> {
    let used = used(terms);
    let broken = (0..used).find(|&at| !shaped(terms, at, counter) || repeats(at));
    broken.or_else(|| first(&terms[8 * used..], |row| row != 0).map(|i| used + i))
}

/// The rows seen so far, each in the first free place from its hash on.
struct Index([u16; Index::PLACES]);

impl Index {
    const PLACES: usize = 2 * TERM_ROWS;
    const FREE: u16 = u16::MAX;

    fn new() -> Index {
        Index([Index::FREE; Index::PLACES])
    }

    /// Whether a row equals one that was seen; it is then seen itself.
    fn repeats(&mut self, terms: &[u8], at: usize) -> bool {
        let term = row(terms, at);
        let mut place = (term.wrapping_mul(0x9e37_79b9_7f4a_7c15) >> 51) as usize;
        while self.0[place] != Index::FREE {
            if row(terms, self.0[place] as usize) == term {
                return true;
            }
            place = (place + 1) % Index::PLACES;
        }
        self.0[place] = at as u16;
        false
    }
}

/// Whether a row is what its used fields pack to, and those are within their bounds.
fn shaped(terms: &[u8], at: usize, counter: u32) -> bool {
    let term = row(terms, at);
    let tag = tag(term);
    let number = number(term);
    match tag {
        BYTE => term == atom(tag, number & 255),
        AGENT => term == atom(tag, number),
        NONCE | PUBLIC | PRIVATE | SHARED => term == atom(tag, number) && number < counter as u64,
        ENCRYPTION => parts_below(term, 0, 2, at) && key_is(terms, term, PUBLIC),
        SIGNATURE => parts_below(term, 0, 2, at) && key_is(terms, term, PRIVATE),
        HASH => parts_below(term, 0, 1, at),
        TUPLE => count(term) <= 4 && parts_below(term, count(term), count(term), at),
        _ => false,
    }
}

fn parts_below(term: u64, n: usize, used: usize, owner: usize) -> bool {
    let parts = [part(term, 0), part(term, 1), part(term, 2), part(term, 3)];
    let parts = &parts[..used];
    term == compound(tag(term), n, parts) && parts.iter().all(|&part| (part as usize) < owner)
}

/// Whether the first part is a shared key or a key with the tag `own`.
fn key_is(terms: &[u8], term: u64, own: u8) -> bool {
    let key = tag(row(terms, part(term, 0) as usize));
    key == own || key == SHARED
}

fn find(terms: &[u8], term: u64) -> Option<usize> {
    let wanted = term.to_be();
    first(terms, |row| row == wanted)
}

/// The last row that equals a term: what was made a moment ago is met at once.
fn find_last(terms: &[u8], term: u64) -> Option<usize> {
    let wanted = term.to_be();
    let equals = |row: &[u8]| u64::from_ne_bytes(row.try_into().unwrap()) == wanted;
    let some = |block: &[u8]| block.chunks_exact(8).fold(false, |some, row| some | equals(row));
    let passed = terms.rchunks_exact(BLOCK).position(some).unwrap_or(terms.len() / BLOCK);
    let left = &terms[..terms.len() - BLOCK * passed];
    left.rchunks_exact(8).position(equals).map(|i| left.len() / 8 - 1 - i)
}

/// The bytes of the rows that are tested without leaving them, so that the tests go several at a time.
const BLOCK: usize = 8 * 32;

/// The first row that passes a test, which sees it in the machine's own byte order.
fn first(terms: &[u8], test: impl Fn(u64) -> bool) -> Option<usize> {
    let passes = |row: &[u8]| test(u64::from_ne_bytes(row.try_into().unwrap()));
    let some = |block: &[u8]| block.chunks_exact(8).fold(false, |some, row| some | passes(row));
    let from = BLOCK * terms.chunks_exact(BLOCK).position(some).unwrap_or(terms.len() / BLOCK);
    terms[from..].chunks_exact(8).position(passes).map(|i| from / 8 + i)
}

/// A table that passed its check, during a run.
pub struct Table<'a> {
    bytes: &'a mut [u8],
    entered: usize,
    used: usize,
}

impl<'a> Table<'a> {
    pub fn new(bytes: &'a mut [u8], used: usize) -> Table<'a> {
        debug_assert!(bytes.len() <= 8 * TERM_ROWS);
        Table { bytes, entered: used, used }
    }

    pub fn used(&self) -> usize {
        self.used
    }

    pub fn row(&self, at: u16) -> u64 {
        row(self.bytes, at as usize)
    }

    /// The row that equals a term, or else the first unused one, which then holds it.
    pub fn take(&mut self, term: u64) -> Option<u16> {
        let end = 8 * self.used;
        if let Some(at) = find_last(&self.bytes[..end], term) {
            return Some(at as u16);
        }
        self.bytes.get_mut(end..end + 8)?.copy_from_slice(&term.to_be_bytes());
        self.used += 1;
        Some((self.used - 1) as u16)
    }

    /// Gives back the rows taken since entry; they were zero there.
    pub fn give_back(&mut self) {
        self.bytes[8 * self.entered..8 * self.used].fill(0);
        self.used = self.entered;
    }
}
