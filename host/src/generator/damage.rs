//! One thing wrong, or nearly wrong, in bytes that are otherwise good.
use super::code;
use super::random::Random;
use crate::direct::DirectInput;
use crate::input::{CompileInput, RunInput};
use crate::limits::{CERTIFICATES, CODE_WORDS, NAMED, NAMES, PATTERN_ROWS, TERM_ROWS};

pub fn compile(random: &mut Random, lent: &mut CompileInput) {
    match random.below(12) {
        0..=2 => flip(random, &mut lent.pattern, 8),
        3 => swap(random, &mut lent.pattern),
        4 => repeat(random, &mut lent.pattern),
        5 => lent.kinds[random.below(NAMED)] = random.below(13) as u8,
        6 => put_cell(random, &mut lent.objects),
        7 => put_cell(random, &mut lent.named),
        8 => lent.create = random.byte(),
        9 => lent.create ^= 1,
        10 => {
            let rows = random.one_of(&[0, 1, PATTERN_ROWS, PATTERN_ROWS + 1]);
            lent.pattern.resize(8 * rows, 0);
        }
        _ => change_length(random, lent.slices()),
    }
}

pub fn run(random: &mut Random, lent: &mut RunInput) {
    match random.below(20) {
        0..=2 => flip(random, &mut lent.terms, 8),
        3 => swap(random, &mut lent.terms),
        4 => repeat(random, &mut lent.terms),
        5 => lent.counter = random.one_of(&[0, 1, 2, NAMES - 1, NAMES, NAMES + 1, u32::MAX]),
        6 => lent.accumulator = any_accumulator(random, lent),
        7 => put_cell(random, &mut lent.objects),
        8 => put_cell(random, &mut lent.messages),
        9 => lent.kinds[random.below(NAMED)] = random.below(13) as u8,
        10 => flip(random, &mut lent.certificates, 8),
        11 => repeat(random, &mut lent.certificates),
        12 => {
            let certificates = random.one_of(&[0, CERTIFICATES, CERTIFICATES + 1]);
            lent.certificates.resize(8 * certificates, 0);
        }
        13 | 14 => flip(random, &mut lent.code, 4),
        15 | 16 => put_word(random, lent),
        17 => {
            let words = random.one_of(&[0, CODE_WORDS, CODE_WORDS + 1]);
            lent.code.resize(4 * words, 0);
        }
        18 => lent.terms.truncate(8 * random.below(lent.terms.len() / 8 + 1)),
        _ => change_length(random, lent.slices()),
    }
}

/// What spoils a compile or a run, in what the engine is lent of it.
pub fn direct(random: &mut Random, lent: &mut DirectInput) {
    let DirectInput { create, pattern, kinds, objects, named, certificates, accumulator, terms, counter } =
        lent.clone();
    if random.one_in(2) {
        let mut compile = CompileInput { create, pattern, kinds, objects, named, code: Vec::new() };
        self::compile(random, &mut compile);
        let CompileInput { create, pattern, kinds, objects, named, .. } = compile;
        *lent = DirectInput { create, pattern, kinds, objects, named, ..lent.clone() };
    } else {
        let mut run =
            RunInput { kinds, objects, messages: named, certificates, accumulator, terms, counter, code: vec![0; 4] };
        self::run(random, &mut run);
        let RunInput { kinds, objects, messages: named, certificates, accumulator, terms, counter, .. } = run;
        *lent = DirectInput { kinds, objects, named, certificates, accumulator, terms, counter, ..lent.clone() };
    }
}

/// Spoils a row near the end of a full table: a bit, or a copy of an earlier row.
pub fn late_row(random: &mut Random, lent: &mut RunInput) {
    let at = 8 * (TERM_ROWS - 1 - random.below(3));
    if random.one_in(2) {
        flip(random, &mut lent.terms[at..at + 8], 8);
    } else {
        let from = 8 * random.below(TERM_ROWS - 4);
        lent.terms.copy_within(from..from + 8, at);
    }
}

pub fn bundle(random: &mut Random, bundle: &mut Vec<u8>) {
    match random.below(8) {
        0 => bundle.truncate(random.below(bundle.len())),
        1 => bundle.resize(bundle.len() + 1 + random.below(16), 0),
        2 => bundle[7] |= 1 << random.below(4),
        3 => flip(random, &mut bundle[..8], 8),
        4 => {
            // The low bits of the last word are spare where it is a certificate.
            let last = bundle.len() - 1 - random.below(5);
            bundle[last] ^= 1;
        }
        _ => flip(random, bundle, 8),
    }
}

/// Changes one bit, counted from the first slice on; false where there are not so many.
pub fn flip_bit<const N: usize>(slices: [&mut Vec<u8>; N], mut bit: usize) -> bool {
    for slice in slices {
        if bit < 8 * slice.len() {
            slice[bit / 8] ^= 128 >> (bit % 8);
            return true;
        }
        bit -= 8 * slice.len();
    }
    false
}

/// Changes a bit of one of the elements of `width` bytes.
pub fn flip(random: &mut Random, bytes: &mut [u8], width: usize) {
    if !bytes.is_empty() {
        let at = width * random.below(bytes.len() / width) + random.below(width);
        bytes[at] ^= 1 << random.below(8);
    }
}

/// Exchanges two rows.
fn swap(random: &mut Random, rows: &mut [u8]) {
    let (one, other) = (8 * random.below(rows.len() / 8), 8 * random.below(rows.len() / 8));
    for i in 0..8.min(rows.len()) {
        rows.swap(one + i, other + i);
    }
}

/// Copies one row over another.
fn repeat(random: &mut Random, rows: &mut [u8]) {
    let (from, to) = (8 * random.below(rows.len() / 8), 8 * random.below(rows.len() / 8));
    if !rows.is_empty() {
        rows.copy_within(from..from + 8, to);
    }
}

/// Writes any cell: unset, a low row, a row just past a table, or anything.
pub fn put_cell(random: &mut Random, cells: &mut [u8]) {
    let at = 2 * random.below(cells.len() / 2);
    let any = random.bits() as u16;
    let cell = random.one_of(&[65535, 65534, 4096, 4095, 0, 1, 2, 3, any % 64, any]);
    cells[at..at + 2].copy_from_slice(&cell.to_be_bytes());
}

fn any_accumulator(random: &mut Random, lent: &RunInput) -> u32 {
    let rows = (lent.terms.len() / 8) as u32;
    let held = lent.accumulator;
    random.one_of(&[rows, rows.wrapping_sub(1), 65534, 65535, 65536, 65536 + held, 131071, u32::MAX, 0])
}

/// Puts a word at any place: any 32 bits, or a good word with a bit changed.
fn put_word(random: &mut Random, lent: &mut RunInput) {
    let any = random.bits() as u32;
    let operation = 2 + random.below(16) as u8;
    let word = match code::word(random, operation, &lent.kinds) {
        Some(word) if !random.one_in(4) => word.pack() ^ 1 << (any % 32),
        _ => any,
    };
    let at = 4 * random.below(lent.code.len() / 4 + 1);
    lent.code.splice(at..at, word.to_be_bytes());
}

/// Makes one slice a little longer or shorter, mostly by less than an element.
pub fn change_length<const N: usize>(random: &mut Random, mut slices: [&mut Vec<u8>; N]) {
    let slice = &mut slices[random.below(N)];
    let length = match random.below(4) {
        0 => slice.len() + 1 + random.below(8),
        1 => slice.len() + 8,
        2 => slice.len().saturating_sub(1 + random.below(8)),
        _ => 0,
    };
    slice.resize(length, 0);
}
