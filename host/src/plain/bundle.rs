//! Bundles and their listings.
use super::bytes::{field, pair, row, word};
use super::code::Word;
use super::stores;
use crate::limits::{CERTIFICATES, CODE_WORDS, MESSAGES, NAMED, NAMES, PATTERN_ROWS, TERM_ROWS, UNSET};
use crate::{Compiled, Engine, Ran};
use std::io::Write;

/// A bundle in its parts, whose sizes are right.
struct Bundle<'a> {
    create: u8,
    pattern: &'a [u8],
    terms: &'a [u8],
    kinds: [u8; NAMED],
    objects: &'a [u8],
    named: &'a [u8],
    certificates: &'a [u8],
    accumulator: u32,
    counter: u32,
}

impl<'a> Bundle<'a> {
    /// The parts, or the number of the refusal.
    fn read(bytes: &'a [u8]) -> Result<Bundle<'a>, u32> {
        let header = row(bytes.get(..8).ok_or(1u32)?, 0);
        let part = |from, width| field(header, from, width) as usize;
        let (create, patterns, certificates) = (part(0, 1) as u8, part(1, 7), part(8, 6));
        let (accumulator, terms, counter) = (part(14, 16) as u32, part(30, 13), part(43, 17) as u32);
        let within = (1..=PATTERN_ROWS).contains(&patterns)
            && certificates <= CERTIFICATES
            && terms <= TERM_ROWS
            && counter <= NAMES
            && part(60, 4) == 0;
        let sizes = [8 * patterns, 8 * terms, NAMED / 2, 2 * NAMED, 2 * NAMED, 8 * certificates];
        if !within || bytes.len() != 8 + sizes.iter().sum::<usize>() {
            return Err(1);
        }
        let mut rest = &bytes[8..];
        let [pattern, terms, kinds, objects, named, certificates] = sizes.map(|size| {
            let (part, after) = rest.split_at(size);
            rest = after;
            part
        });
        if !(0..certificates.len() / 8).all(|i| stores::spared(row(certificates, i))) {
            return Err(3);
        }
        let kinds = std::array::from_fn(|v| kinds[v / 2] >> (4 - 4 * (v % 2)) & 15);
        Ok(Bundle { create, pattern, terms, kinds, objects, named, certificates, accumulator, counter })
    }
}

/// What the program `listing` prints for a bundle, compiled and run by `engine`.
pub fn listing(engine: &Engine, bundle: &[u8]) -> Vec<u8> {
    let mut text = Vec::new();
    match Bundle::read(bundle) {
        Err(number) => refused(&mut text, Compiled { number, place: 0 }),
        Ok(bundle) => list(engine, &bundle, &mut text),
    }
    text
}

fn refused(text: &mut Vec<u8>, refusal: Compiled) {
    print(text, "refused", &[refusal.number, refusal.place]);
}

/// A line: a word, if there is one, and numbers.
fn print(text: &mut Vec<u8>, word: &str, numbers: &[u32]) {
    text.extend_from_slice(word.as_bytes());
    for (i, number) in numbers.iter().enumerate() {
        let space = if i == 0 && word.is_empty() { "" } else { " " };
        write!(text, "{}{}", space, number).unwrap();
    }
    text.push(b'\n');
}

fn list(engine: &Engine, bundle: &Bundle, text: &mut Vec<u8>) {
    let mut code = [0; 4 * CODE_WORDS];
    let compiled =
        (engine.compile)(bundle.create, bundle.pattern, &bundle.kinds, bundle.objects, bundle.named, &mut code);
    if compiled.number != 0 {
        return refused(text, compiled);
    }
    let code = &code[..4 * compiled.place as usize];
    for at in 0..code.len() / 4 {
        let Word { operation, a, b, n } = Word::unpack(word(code, at));
        print(text, "", &[at as u32, operation as u32, a as u32, b as u32, n as u32]);
    }
    let mut objects = bundle.objects.to_vec();
    let mut messages = bundle.named.to_vec();
    messages.resize(2 * MESSAGES, 255);
    let mut terms = bundle.terms.to_vec();
    terms.resize(8 * TERM_ROWS, 0);
    let ran = (engine.run)(
        &bundle.kinds,
        &mut objects,
        &mut messages,
        bundle.certificates,
        bundle.accumulator,
        &mut terms,
        bundle.counter,
        code,
    );
    let Ran { number, place, reason, used, counter, accumulator } = ran;
    print(text, "end", &[number, place, reason, used, counter, accumulator]);
    if number == 0 {
        print_set(text, "o", &objects);
        print_set(text, "m", &messages[..2 * NAMED]);
    }
}

fn print_set(text: &mut Vec<u8>, sort: &str, cells: &[u8]) {
    for at in 0..cells.len() / 2 {
        let row = pair(cells, at);
        if row != UNSET {
            print(text, sort, &[at as u32, row as u32]);
        }
    }
}
