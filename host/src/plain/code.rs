//! Code words.
use super::bytes::{field, word};
use super::stores::KINDS;
use super::terms::{BYTE, HASH, NONCE, PRIVATE, PUBLIC, SHARED, TUPLE};
use crate::limits::{MESSAGES, NAMED};

/// What begins a round and what ends it; neither stands anywhere else.
pub const INPUT: u32 = 0;
pub const OUTPUT: u32 = 1 << 27;

pub const LOAD: u8 = 2;
pub const STORE: u8 = 3;
pub const STORE_CONST: u8 = 4;
pub const DECODE: u8 = 5;
pub const ENCODE: u8 = 6;
pub const CREATE: u8 = 7;
pub const ANALYZE_TUPLE: u8 = 8;
pub const CREATE_TUPLE: u8 = 9;
pub const OPPOSITE: u8 = 10;
pub const KEY_OF: u8 = 11;
pub const MATCH: u8 = 12;
pub const ENCRYPT: u8 = 13;
pub const DECRYPT: u8 = 14;
pub const SIGN: u8 = 15;
pub const VERIFY: u8 = 16;
pub const HASHING: u8 = 17;

/// A round's code around the words between.
pub fn framed(between: &[u8]) -> Vec<u8> {
    [&INPUT.to_be_bytes()[..], between, &OUTPUT.to_be_bytes()].concat()
}

#[derive(Clone, Copy)]
pub struct Word {
    pub operation: u8,
    pub a: u8,
    pub b: u8,
    pub n: u8,
}

impl Word {
    /// Leaves the low 8 bits aside.
    pub fn unpack(word: u32) -> Word {
        let part = |from, width| field((word as u64) << 32, from, width) as u8;
        Word { operation: part(0, 5), a: part(5, 8), b: part(13, 8), n: part(21, 3) }
    }

    pub fn pack(self) -> u32 {
        (self.operation as u32) << 27 | (self.a as u32) << 19 | (self.b as u32) << 11 | (self.n as u32) << 8
    }
}

/// The lowest bad word.
pub fn first_bad(code: &[u8], kinds: &[u8]) -> Option<usize> {
    (0..code.len() / 4).find(|&at| !good(word(code, at), kinds))
}

fn good(word: u32, kinds: &[u8]) -> bool {
    let Word { operation, a, b, n } = Word::unpack(word);
    let object = |v: u8, wanted: &[u8]| (v as usize) < NAMED && wanted.contains(&kinds[v as usize]);
    let declared = || (a as usize) < NAMED && (1..=KINDS).contains(&kinds[a as usize]);
    let fits = match operation {
        LOAD | STORE | MATCH => b == 0 && n == 0,
        STORE_CONST => object(a, &[BYTE]) && n == 0,
        DECODE | ENCODE => declared() && b == 0 && n == 0,
        CREATE => object(a, &[NONCE, PRIVATE, SHARED]) && b == 0 && n == 0,
        ANALYZE_TUPLE | CREATE_TUPLE => object(a, &[TUPLE]) && n <= 4 && b as usize + n as usize <= MESSAGES,
        OPPOSITE => object(a, &[PRIVATE]) && object(b, &[PUBLIC]) && n == 0,
        KEY_OF => a == 0 && b == 0 && n == 0,
        ENCRYPT => object(a, &[PUBLIC, SHARED]) && b == 0 && n == 0,
        DECRYPT | SIGN => object(a, &[PRIVATE, SHARED]) && b == 0 && n == 0,
        VERIFY => object(a, &[PUBLIC, SHARED]) && n == 0,
        HASHING => object(a, &[HASH]) && b == 0 && n == 0,
        _ => false,
    };
    fits && word % 256 == 0
}
