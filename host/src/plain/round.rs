//! A round: the checks, INPUT, the words between, OUTPUT; and the taking of its answer.
use super::bytes::{put_word, word};
use super::code::{self, INPUT, OUTPUT};
use super::machine::{lengths_fit, Machine};
use super::stores::Rows;
use super::terms::{self, Table};
use crate::limits::{NAMES, RECORD, ROUNDS, ROUND_WORDS, UNSET};
use crate::roles::{Rounded, Taken};

const USED: usize = 0;
const COUNTER: usize = 1;
const ROUND: usize = 2;
const MESSAGE: usize = 3;
const ANSWER: usize = 4;

const NONE: u32 = UNSET as u32;

#[allow(clippy::too_many_arguments)]
pub fn round(
    session: &mut [u8],
    rounds: u32,
    kinds: &[u8],
    objects: &mut [u8],
    messages: &mut [u8],
    certificates: &[u8],
    terms: &mut [u8],
    code: &[u8],
) -> Rounded {
    let answer = |number, place, reason| Rounded { number, place: place as u32, reason };
    let within = session.len() == RECORD
        && lengths_fit(kinds, objects, messages, certificates, terms)
        && code.len() % 4 == 0
        && (2..=ROUND_WORDS).contains(&(code.len() / 4))
        && (1..=ROUNDS as u32).contains(&rounds);
    if !within {
        return answer(1, 0, 0);
    }
    let record = [USED, COUNTER, ROUND, MESSAGE, ANSWER].map(|field| word(session, field));
    if let Some((number, place)) = refused(record, rounds, kinds, objects, messages, certificates, terms, code) {
        return answer(number, place, 0);
    }
    let [used, counter, round, message, _] = record;
    let table = Table::new(terms, used as usize);
    let mut machine = Machine::new(kinds, objects, messages, certificates, message as u16, table, counter);
    if let Err((place, stop)) = machine.steps(between(code)) {
        let (number, reason) = stop.answer();
        return answer(number, 1 + place, reason);
    }
    machine.leave(objects, messages);
    put_word(session, USED, machine.used());
    put_word(session, COUNTER, machine.counter);
    put_word(session, ROUND, round + 1);
    put_word(session, MESSAGE, NONE);
    put_word(session, ANSWER, machine.accumulator as u32);
    answer(0, code.len() / 4, 0)
}

/// The first refusal of what has its length, in the order 1, 2, 3, 9, 14, 13, 12, and its place.
#[allow(clippy::too_many_arguments)]
fn refused(
    [used, counter, round, message, waiting]: [u32; 5],
    rounds: u32,
    kinds: &[u8],
    objects: &[u8],
    messages: &[u8],
    certificates: &[u8],
    terms: &[u8],
    code: &[u8],
) -> Option<(u32, usize)> {
    let rows = terms::used(terms);
    if counter > NAMES || used as usize != rows {
        return Some((1, 0));
    }
    if let Some(place) = terms::first_bad(terms, counter) {
        return Some((2, place));
    }
    let table = Rows(&terms[..8 * rows]);
    let fit = table.stores_fit(kinds, objects, messages, certificates)
        && table.accumulator_fits(message)
        && table.accumulator_fits(waiting);
    if !fit {
        return Some((3, 0));
    }
    if let Some(place) = first_bad(code, kinds) {
        return Some((9, place));
    }
    match (round >= rounds, waiting != NONE, message == NONE) {
        (true, _, _) => Some((14, 0)),
        (_, true, _) => Some((13, 0)),
        (_, _, true) => Some((12, 0)),
        _ => None,
    }
}

/// The words between the first and the last.
fn between(code: &[u8]) -> &[u8] {
    &code[4..code.len() - 4]
}

/// The lowest bad word of a round.
fn first_bad(code: &[u8], kinds: &[u8]) -> Option<usize> {
    if word(code, 0) != INPUT {
        return Some(0);
    }
    if let Some(place) = code::first_bad(between(code), kinds) {
        return Some(1 + place);
    }
    let last = code.len() / 4 - 1;
    Some(last).filter(|&last| word(code, last) != OUTPUT)
}

/// The answer that waits, which then waits no more.
pub fn take(session: &mut [u8]) -> Taken {
    if session.len() != RECORD {
        return Taken { number: 1, answer: NONE };
    }
    let answer = word(session, ANSWER);
    put_word(session, ANSWER, NONE);
    Taken { number: 0, answer }
}
