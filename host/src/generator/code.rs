//! Code that no compiler wrote: good words for given kinds, mostly such that the run goes on.
use super::random::Random;
use crate::input::RunInput;
use crate::limits::NAMED;
use crate::plain;
use crate::plain::code::{
    Word, ANALYZE_TUPLE, CREATE, CREATE_TUPLE, DECRYPT, ENCODE, ENCRYPT, HASHING, KEY_OF, LOAD, MATCH, OPPOSITE, SIGN,
    STORE, STORE_CONST, VERIFY,
};
use crate::plain::terms::{AGENT, BYTE, ENCRYPTION, HASH, NONCE, PRIVATE, PUBLIC, SHARED, SIGNATURE, TUPLE};

/// Words tried one after another on the stores as they then are; a word that stops the run is seldom kept.
pub fn steps(random: &mut Random, lent: &RunInput) -> Vec<u8> {
    let mut now = lent.clone();
    let mut code = Vec::new();
    for _ in 0..random.one_of(&[1, 4, 12, 24]) {
        let operation = 2 + random.below(16) as u8;
        if let Some(kind) = wanted_in_accumulator(operation) {
            let encode = |random: &mut Random, kinds: &[u8]| {
                object(random, kinds, &[kind]).map(|a| Word { operation: ENCODE, a, b: 0, n: 0 })
            };
            if step(random, &mut now, encode) {
                code.extend(&now.code);
            }
        }
        let went_on = step(random, &mut now, |random, kinds| word(random, operation, kinds));
        if went_on || random.one_in(8) {
            code.extend(&now.code);
        }
        if !went_on && random.one_in(16) {
            break;
        }
    }
    code
}

/// The kind without which an operation gets nowhere.
fn wanted_in_accumulator(operation: u8) -> Option<u8> {
    match operation {
        KEY_OF => Some(AGENT),
        DECRYPT => Some(ENCRYPTION),
        VERIFY => Some(SIGNATURE),
        _ => None,
    }
}

/// Runs one of a few words, if possible one with which the run goes on.
fn step(random: &mut Random, now: &mut RunInput, word: impl Fn(&mut Random, &[u8]) -> Option<Word>) -> bool {
    for _ in 0..8 {
        now.code = word(random, &now.kinds).map_or(Vec::new(), |word| word.pack().to_be_bytes().to_vec());
        let ran = now.call(&plain::ENGINE);
        (now.accumulator, now.counter) = (ran.accumulator, ran.counter);
        if ran.number == 0 {
            return true;
        }
    }
    false
}

/// A good word, where the kinds have variables for it.
pub fn word(random: &mut Random, operation: u8, kinds: &[u8]) -> Option<Word> {
    let a = match operation {
        LOAD | STORE | MATCH => message(random),
        KEY_OF => 0,
        STORE_CONST => object(random, kinds, &[BYTE])?,
        CREATE => object(random, kinds, &[NONCE, PRIVATE, SHARED])?,
        ANALYZE_TUPLE | CREATE_TUPLE => object(random, kinds, &[TUPLE])?,
        OPPOSITE => object(random, kinds, &[PRIVATE])?,
        ENCRYPT | VERIFY => object(random, kinds, &[PUBLIC, SHARED])?,
        DECRYPT | SIGN => object(random, kinds, &[PRIVATE, SHARED])?,
        HASHING => object(random, kinds, &[HASH])?,
        _ => object(random, kinds, &[1, 2, 3, 4, 5, 6, 7, 8, 9, 10])?,
    };
    let n = match operation {
        ANALYZE_TUPLE | CREATE_TUPLE => random.below(5) as u8,
        _ => 0,
    };
    let b = match operation {
        STORE_CONST => random.one_of(&[0, 1, 2, 3, 255]),
        OPPOSITE => object(random, kinds, &[PUBLIC])?,
        VERIFY => message(random),
        ANALYZE_TUPLE | CREATE_TUPLE => message(random).min((256 - n as u16).min(255) as u8),
        _ => 0,
    };
    Some(Word { operation, a, b, n })
}

fn object(random: &mut Random, kinds: &[u8], wanted: &[u8]) -> Option<u8> {
    let fitting: Vec<u8> = (0..NAMED as u8).filter(|&v| wanted.contains(&kinds[v as usize])).collect();
    random.pick(&fitting)
}

/// Mostly one of few cells, so that what one word writes another reads.
fn message(random: &mut Random) -> u8 {
    let any = random.byte();
    random.one_of(&[0, 1, 2, 3, 63, 64, 65, 66, 252, 254, 255, any])
}
