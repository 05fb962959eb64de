//! Roles and rounds by means of compile and run alone, half after half: a third way, which the archive's two entries for
//! one pattern answer for. What they do not look at (the frame, the record and the lengths) is written out here.
use crate::limits::{CODE_WORDS, NAMED, RECORD, ROUNDS, ROUND_WORDS, UNSET};
use crate::plain::bytes::{put_pair, word};
use crate::plain::code::{framed, Word, CREATE, CREATE_TUPLE, DECODE, INPUT, OPPOSITE, OUTPUT, STORE, STORE_CONST};
use crate::roles::{RoleCompiled, RoleEngine, Rounded, Taken};
use crate::{Compiled, Ran, ARCHIVE};

pub const ROLES: RoleEngine = RoleEngine { compile_role, round, take };

fn compile_role(
    rows: &[u8],
    counts: &[u8],
    kinds: &[u8],
    objects: &[u8],
    named: &[u8],
    ends: &mut [u8],
    code: &mut [u8],
) -> RoleCompiled {
    let answer = |number, place| RoleCompiled { number, place, half: 0 };
    let rounds = counts.len() / 2;
    let lent: usize = counts.iter().map(|&count| count as usize).sum();
    let lengths = [rows.len(), counts.len(), kinds.len(), objects.len(), named.len(), ends.len(), code.len() % 4];
    let wanted = [8 * lent, 2 * rounds, NAMED, 2 * NAMED, 2 * NAMED, 2 * rounds, 0];
    if lengths != wanted || rounds == 0 || rounds > ROUNDS {
        return answer(1, 0);
    }
    let halves = match compile_halves(rows, counts, kinds, objects, named) {
        Ok(halves) => halves,
        Err(refusal) => return refusal,
    };
    let frame = |two: &[Vec<u8>]| framed(&two.concat());
    let written: Vec<Vec<u8>> = halves.chunks(2).map(frame).collect();
    let reached = (1..=rounds).flat_map(|round| (written[..round].concat().len() as u16 / 4).to_be_bytes());
    let reached: Vec<u8> = reached.collect();
    let written = written.concat();
    if written.len() > code.len() {
        return answer(8, written.len() as u32 / 4);
    }
    code[..written.len()].copy_from_slice(&written);
    ends.copy_from_slice(&reached);
    answer(0, written.len() as u32 / 4)
}

/// The words of each half, or the first refusal.
fn compile_halves(
    rows: &[u8],
    counts: &[u8],
    kinds: &[u8],
    objects: &[u8],
    named: &[u8],
) -> Result<Vec<Vec<u8>>, RoleCompiled> {
    let mut cells = [objects.to_vec(), named.to_vec()];
    let mut rest = rows;
    let mut halves = Vec::new();
    for (half, &count) in counts.iter().enumerate() {
        let (pattern, after) = rest.split_at(8 * count as usize);
        rest = after;
        let mut words = vec![0; 4 * CODE_WORDS];
        let Compiled { number, place } =
            (ARCHIVE.compile)((half % 2) as u8, pattern, kinds, &cells[0], &cells[1], &mut words);
        if number != 0 {
            return Err(RoleCompiled { number, place, half: half as u32 });
        }
        words.truncate(4 * place as usize);
        set_written(&words, &mut cells);
        halves.push(words);
    }
    Ok(halves)
}

/// Sets the object and named cells that code writes.
fn set_written(code: &[u8], [objects, named]: &mut [Vec<u8>; 2]) {
    for at in 0..code.len() / 4 {
        let Word { operation, a, b, .. } = Word::unpack(word(code, at));
        match operation {
            STORE if (a as usize) < NAMED => put_pair(named, a as usize, 0),
            STORE_CONST | DECODE | CREATE | CREATE_TUPLE => put_pair(objects, a as usize, 0),
            OPPOSITE => put_pair(objects, b as usize, 0),
            _ => {}
        }
    }
}

/// What a round is lent beside its record and its code, on its way from half to half.
struct Stores<'a> {
    kinds: &'a [u8],
    objects: Vec<u8>,
    messages: Vec<u8>,
    certificates: &'a [u8],
    terms: Vec<u8>,
}

impl Stores<'_> {
    fn run(&mut self, accumulator: u32, counter: u32, code: &[u8]) -> Ran {
        let Stores { kinds, objects, messages, certificates, terms } = self;
        (ARCHIVE.run)(kinds, objects, messages, certificates, accumulator, terms, counter, code)
    }

    /// A run on copies.
    fn trial(&self, accumulator: u32, counter: u32, code: &[u8]) -> Ran {
        let (objects, messages, terms) = (self.objects.clone(), self.messages.clone(), self.terms.clone());
        Stores { objects, messages, terms, ..*self }.run(accumulator, counter, code)
    }

    /// 1, 2 or 3: runs of no word say so, one with the message and one with the answer.
    fn refused(&self, [used, counter, _, message, waiting]: [u32; 5]) -> Option<Rounded> {
        let trials = [message, waiting].map(|held| self.trial(held, counter, &[]));
        if trials[0].number == 1 || trials[0].used != used {
            return stopped(1, 0, 0);
        }
        let refused = trials.iter().find(|ran| ran.number != 0)?;
        stopped(refused.number, refused.place, 0)
    }

    /// 9: the first word, the parts in turn, the last word.
    fn bad_word(&self, code: &[u8], [_, counter, _, message, _]: [u32; 5]) -> Option<Rounded> {
        let last = code.len() / 4 - 1;
        if word(code, 0) != INPUT {
            return stopped(9, 0, 0);
        }
        let trials = parts(code).map(|(from, part)| (from, self.trial(message, counter, part)));
        if let Some((from, bad)) = trials.iter().find(|(_, ran)| ran.number == 9) {
            return stopped(9, from + bad.place, 0);
        }
        stopped(9, last as u32, 0).filter(|_| word(code, last) != OUTPUT)
    }

    /// What the last part left, or the stop.
    fn run_parts(&mut self, code: &[u8], [used, counter, _, message, _]: [u32; 5]) -> Result<Ran, Rounded> {
        let mut now = Ran { number: 0, place: 0, reason: 0, used, counter, accumulator: message };
        for (from, part) in parts(code) {
            now = self.run(now.accumulator, now.counter, part);
            if now.number != 0 {
                return Err(Rounded { number: now.number, place: from + now.place, reason: now.reason });
            }
        }
        Ok(now)
    }
}

fn stopped(number: u32, place: u32, reason: u32) -> Option<Rounded> {
    Some(Rounded { number, place, reason })
}

/// The words between the first and the last in two parts, each with its place. Where they part does not matter as long as
/// neither is too long for a run.
fn parts(code: &[u8]) -> [(u32, &[u8]); 2] {
    let between = &code[4..code.len() - 4];
    let words = between.len() / 4 / 2;
    [(1, &between[..4 * words]), (1 + words as u32, &between[4 * words..])]
}

/// 12 to 14.
fn not_its_turn(rounds: u32, [_, _, turn, message, waiting]: [u32; 5]) -> Option<Rounded> {
    let none = UNSET as u32;
    let numbers = [(turn >= rounds, 14), (waiting != none, 13), (message == none, 12)];
    let first = numbers.iter().find(|(so, _)| *so)?;
    stopped(first.1, 0, 0)
}

#[allow(clippy::too_many_arguments)]
fn round(
    session: &mut [u8],
    rounds: u32,
    kinds: &[u8],
    objects: &mut [u8],
    messages: &mut [u8],
    certificates: &[u8],
    terms: &mut [u8],
    code: &[u8],
) -> Rounded {
    let words = code.len() / 4;
    let lengths = session.len() == RECORD && code.len() == 4 * words && (2..=ROUND_WORDS).contains(&words);
    if !lengths || rounds == 0 || rounds > ROUNDS as u32 {
        return Rounded { number: 1, place: 0, reason: 0 };
    }
    let record = [0, 1, 2, 3, 4].map(|field| word(session, field));
    let mut stores =
        Stores { kinds, objects: objects.to_vec(), messages: messages.to_vec(), certificates, terms: terms.to_vec() };
    let refused = stores.refused(record).or_else(|| stores.bad_word(code, record));
    if let Some(refused) = refused.or_else(|| not_its_turn(rounds, record)) {
        return refused;
    }
    let ran = match stores.run_parts(code, record) {
        Ok(ran) => ran,
        Err(stop) => return stop,
    };
    objects.copy_from_slice(&stores.objects);
    messages.copy_from_slice(&stores.messages);
    terms.copy_from_slice(&stores.terms);
    let left = [ran.used, ran.counter, record[2] + 1, UNSET as u32, ran.accumulator];
    session.copy_from_slice(&left.map(u32::to_be_bytes).concat());
    Rounded { number: 0, place: words as u32, reason: 0 }
}

fn take(session: &mut [u8]) -> Taken {
    if session.len() != RECORD {
        return Taken { number: 1, answer: UNSET as u32 };
    }
    let answer = word(session, 4);
    session[16..].copy_from_slice(&(UNSET as u32).to_be_bytes());
    Taken { number: 0, answer }
}
