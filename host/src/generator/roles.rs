//! Roles that are played to their end, and calls for roles with something wrong in them.
use super::damage;
use super::patterns;
use super::random::Random;
use super::stores;
use super::{code, table_length};
use crate::case::figure1::{bound, object, raw};
use crate::case::Case;
use crate::game::{Game, Role};
use crate::input::{Field, RoleInput, RoundInput, RunInput};
use crate::limits::{CODE_WORDS, NAMED, NAMES, PATTERN_ROWS, RECORD, ROLE_WORDS, ROUNDS, ROUND_WORDS, UNSET};
use crate::plain;
use crate::plain::bytes::{pair, put_pair, put_word, row};
use crate::plain::code::{framed, INPUT, OUTPUT};
use crate::plain::patterns::Form;
use crate::plain::terms::{tag, used, PRIVATE, PUBLIC, SHARED, TUPLE};

/// An author who does not slip.
const NEVER: usize = 1 << 40;
/// A half that is done adds no more rows than it has words.
const ROOM: usize = CODE_WORDS;

/// Two roles over one table, each half written for the stores as they are when its turn comes.
pub fn game(random: &mut Random) -> Game {
    loop {
        let first = stores::stores(random);
        if first.accumulator != UNSET {
            let second = stores::beside(random, &first);
            let turns = 2 * random.one_of(&[1, 1, 2, 3, 3, 4, 6, ROUNDS]) - random.below(2);
            if let Some(game) = written(random, [first, second], turns.max(2)) {
                return game;
            }
        }
    }
}

/// The game as far as its halves could be written, if each has a round.
fn written(random: &mut Random, stores: [Case; 2], turns: usize) -> Option<Game> {
    let mut roles = stores.map(|stores| Role { halves: Vec::new(), stores });
    let mut now = [roles[0].stores.clone(), roles[1].stores.clone()];
    for turn in 0..turns {
        let (own, other) = (turn % 2, 1 - turn % 2);
        let matching = match half(random, &mut now[own], false) {
            Some(matching) => matching,
            None => break,
        };
        let creating = match half(random, &mut now[own], true) {
            Some(creating) => creating,
            None => break,
        };
        roles[own].halves.extend([matching, creating]);
        now[other].terms = now[own].terms.clone();
        (now[other].counter, now[other].accumulator) = (now[own].counter, now[own].accumulator);
    }
    let rows = now[0].terms.len().max(now[1].terms.len()) + random.one_of(&[0, 1, 40]);
    Some(Game { roles, rows }).filter(|game| game.roles[1].rounds() > 0)
}

/// A half that is done; the stores are then as it leaves them.
fn half(random: &mut Random, stores: &mut Case, create: bool) -> Option<Vec<Form>> {
    stores.create = create;
    for _ in 0..3 {
        let size = random.one_of(&[1, 3, 6, 12, 24, 48]);
        patterns::write_sized(random, stores, size, NEVER);
        if performed(stores) {
            return Some(std::mem::take(&mut stores.pattern));
        }
    }
    (0..NAMED as u8).map(|r| vec![raw(r)]).find(|pattern| {
        stores.pattern = pattern.clone();
        performed(stores)
    })
}

/// Whether the pattern compiles and is done; the stores are then as it leaves them.
fn performed(stores: &mut Case) -> bool {
    let code = match stores.lend_compile(CODE_WORDS).words(&plain::ENGINE) {
        Ok(code) => code,
        Err(_) => return false,
    };
    let mut lent = stores.lend_run(stores.terms.len() + ROOM, &code);
    let ran = lent.call(&plain::ENGINE);
    if ran.number != 0 {
        return false;
    }
    stores.objects = std::array::from_fn(|v| pair(&lent.objects, v));
    stores.messages = std::array::from_fn(|r| pair(&lent.messages, r));
    stores.terms = (0..ran.used as usize).map(|at| row(&lent.terms, at)).collect();
    (stores.counter, stores.accumulator) = (ran.counter, ran.accumulator as u16);
    true
}

/// A compile of a role that needs `words` words, with one or two halves spoiled or something else wrong.
pub fn damaged_role(random: &mut Random, role: &Role, words: usize) -> RoleInput {
    let mut role = role.clone();
    for _ in 0..random.one_of(&[0, 1, 1, 1, 2]) {
        spoil_half(random, &mut role);
    }
    if random.one_in(24) {
        let halves = random.one_of(&[0, 2 * ROUNDS, 2 * ROUNDS + 1, 2 * ROUNDS + 2]);
        role.halves = role.halves.iter().cloned().cycle().take(halves).collect();
    }
    let words = match random.below(8) {
        0 => words - 1,
        1 => random.below(words),
        2 => words + 1,
        3 => ROLE_WORDS,
        _ => words,
    };
    let mut lent = role.lend_compile(words);
    if random.one_in(3) {
        damage_role(random, &mut lent);
    }
    lent
}

/// Makes a half that is likely refused, in each of the ways that a half can be.
fn spoil_half(random: &mut Random, role: &mut Role) {
    let half = random.below(role.halves.len());
    let cell = |random: &mut Random, set: bool| {
        let fitting: Vec<u8> =
            (0..NAMED as u8).filter(|&r| (role.stores.messages[r as usize] != UNSET) == set).collect();
        random.pick(&fitting).unwrap_or(0)
    };
    let (known, other, unknown) = (cell(random, true), cell(random, true), cell(random, false));
    let bare: Vec<u8> = (0..NAMED as u8).filter(|&v| [0, TUPLE].contains(&role.stores.kinds[v as usize])).collect();
    let pattern = &mut role.halves[half];
    let at = random.below(pattern.len());
    match random.below(9) {
        0 => pattern.clear(),
        1 => pattern.resize(PATTERN_ROWS + 1 + random.below(4), raw(0)),
        2 if !pattern.is_empty() => pattern[at].tag = 10 + random.below(6) as u8,
        3 if !pattern.is_empty() => pattern[at].v = random.below(NAMED) as u8,
        4 => *pattern = vec![raw(other), raw(known), bound(known, 0, 1)],
        5 if half % 2 == 1 => *pattern = vec![raw(unknown)],
        5 => *pattern = vec![raw(other), raw(known), bound(unknown, 0, 1)],
        6 => *pattern = vec![object(random.pick(&bare).unwrap_or(0))],
        7 if !pattern.is_empty() => pattern.truncate(at + 1),
        _ => {
            let other = random.below(role.halves.len());
            role.halves.swap(half, other);
        }
    }
}

/// One thing wrong in what is lent.
fn damage_role(random: &mut Random, lent: &mut RoleInput) {
    match random.below(12) {
        0 => damage::flip(random, &mut lent.rows, 8),
        1 => damage::flip(random, &mut lent.counts, 1),
        2 => move_a_row(random, &mut lent.counts),
        3 => lent.kinds[random.below(NAMED)] = random.below(13) as u8,
        4 | 10 | 11 => damage::put_cell(random, &mut lent.objects),
        5 => damage::put_cell(random, &mut lent.named),
        6 => {
            let ends = random.one_of(&[0, lent.counts.len() + 1, lent.counts.len() + 2, 2 * ROUNDS]);
            lent.ends.resize(ends, 0x5a);
        }
        7 => {
            let short = 1 + random.below(3).min(lent.code.len());
            lent.code.truncate(lent.code.len().saturating_sub(short));
        }
        8 => {
            lent.counts.pop();
        }
        _ => {
            let RoleInput { rows, counts, kinds, objects, named, ends, code } = lent;
            damage::change_length(random, [rows, counts, kinds, objects, named, ends, code]);
        }
    }
}

/// One half has a row more and another one less, so that their sum stays.
fn move_a_row(random: &mut Random, counts: &mut [u8]) {
    let (from, to) = (random.below(counts.len()), random.below(counts.len()));
    if !counts.is_empty() {
        counts[from] = counts[from].wrapping_sub(1);
        counts[to] = counts[to].wrapping_add(1);
    }
}

/// A round with something else or something wrong in it.
pub fn damaged_round(random: &mut Random, lent: &RoundInput) -> RoundInput {
    let mut lent = lent.clone();
    match random.below(15) {
        0..=3 => other_value(random, &mut lent),
        4 => lent.terms.truncate(8 * (lent.field(Field::Used) as usize + random.below(3))),
        5 | 6 => wait(random, &mut lent),
        7 => damage_record(random, &mut lent),
        8 => lent.rounds = random.one_of(&[0, 1, ROUNDS as u32, ROUNDS as u32 + 1, 1 << 16, u32::MAX]),
        9 | 10 => damage_frame(random, &mut lent),
        11 => change_words(random, &mut lent),
        12 => damage::change_length(random, lent.slices()),
        _ => damage_as_run(random, &mut lent),
    }
    if random.one_in(8) && lent.session.len() == RECORD {
        wait(random, &mut lent);
    }
    lent
}

/// Another message, other values in cells, fewer certificates or no name left: the round may be stuck or have no room.
fn other_value(random: &mut Random, lent: &mut RoundInput) {
    let used = lent.field(Field::Used) as usize;
    match random.below(8) {
        0 => lent.put(Field::Message, random.below(used) as u32),
        1 => lent.certificates.clear(),
        2..=4 => other_objects(random, lent),
        5 | 6 => {
            for cell in lent.messages.chunks_exact_mut(2).take(NAMED) {
                if pair(cell, 0) != UNSET && random.one_in(4) {
                    cell.copy_from_slice(&(random.below(used) as u16).to_be_bytes());
                }
            }
        }
        _ => lent.put(Field::Counter, NAMES),
    }
}

/// Cells hold other rows of the same kind, or are unset; in half of the calls it is keys alone, and none of them unset.
fn other_objects(random: &mut Random, lent: &mut RoundInput) {
    let used = lent.field(Field::Used) as u16;
    let keys = random.one_in(2);
    for v in 0..NAMED {
        let kind = lent.kinds[v];
        let chosen = if keys { [PUBLIC, PRIVATE, SHARED].contains(&kind) } else { random.one_in(3) };
        if pair(&lent.objects, v) != UNSET && chosen {
            let same: Vec<u16> = (0..used).filter(|&at| tag(row(&lent.terms, at as usize)) == kind).collect();
            let cell = random.pick(&same).filter(|_| keys || !random.one_in(4)).unwrap_or(UNSET);
            put_pair(&mut lent.objects, v, cell);
        }
    }
}

/// Any of: the role has ended, an answer waits, no message waits.
fn wait(random: &mut Random, lent: &mut RoundInput) {
    let used = lent.field(Field::Used).min(65535) as usize;
    if random.one_in(2) {
        let ended = random.one_of(&[lent.rounds, lent.rounds.wrapping_add(1), 1 << 16, u32::MAX]);
        lent.put(Field::Round, ended);
    }
    if random.one_in(2) {
        lent.put(Field::Answer, random.below(used) as u32);
    }
    if random.one_in(2) {
        lent.put(Field::Message, UNSET as u32);
    }
}

/// A number in the record that is wrong or nearly so, or a record of another length.
fn damage_record(random: &mut Random, lent: &mut RoundInput) {
    let field = random.one_of(&[Field::Used, Field::Counter, Field::Round, Field::Message, Field::Answer]);
    let (held, used) = (lent.field(field), lent.field(Field::Used));
    match random.below(8) {
        0 => lent.session.resize(random.one_of(&[0, 1, 16, 19, 21, 24, 40]), 0),
        1 => damage::flip(random, &mut lent.session, 4),
        _ => {
            let near = [held.wrapping_add(1), held.wrapping_sub(1), held.wrapping_add(1 << 16), held | 1 << 31, used];
            let far = [0, 65534, 65535, 65536, 65537, 131071, u32::MAX, used.wrapping_sub(1)];
            let value = if random.one_in(2) { random.one_of(&near) } else { random.one_of(&far) };
            lent.put(field, value);
        }
    }
}

/// A first or last word that is another, or INPUT or OUTPUT elsewhere.
fn damage_frame(random: &mut Random, lent: &mut RoundInput) {
    let last = lent.code.len() / 4 - 1;
    let any = random.bits() as u32;
    let frame = random.one_of(&[INPUT, OUTPUT, OUTPUT | 1, 1, OUTPUT | 1 << 19, 2 << 27, 1 << (any % 32)]);
    let at = random.one_of(&[0, last, 1.min(last), last.saturating_sub(1), any as usize % (last + 1)]);
    if random.one_in(3) {
        lent.code.splice(4 * at..4 * at, frame.to_be_bytes());
    } else {
        put_word(&mut lent.code, at, frame);
    }
}

/// Another number of words in a whole frame: none, few, as many as there can be, or one more.
fn change_words(random: &mut Random, lent: &mut RoundInput) {
    let words = random.one_of(&[2, 2, 3, ROUND_WORDS - 1, ROUND_WORDS, ROUND_WORDS, ROUND_WORDS + 1]);
    let middle = lent.code[4..lent.code.len() - 4].iter().copied();
    lent.code = framed(&middle.cycle().take(4 * (words - 2)).collect::<Vec<u8>>());
    if random.one_in(8) {
        lent.code.truncate(random.below(8));
    }
}

/// One thing wrong that may be wrong for a run as well.
fn damage_as_run(random: &mut Random, lent: &mut RoundInput) {
    let mut run = RunInput {
        kinds: std::mem::take(&mut lent.kinds),
        objects: std::mem::take(&mut lent.objects),
        messages: std::mem::take(&mut lent.messages),
        certificates: std::mem::take(&mut lent.certificates),
        accumulator: lent.field(Field::Message),
        terms: std::mem::take(&mut lent.terms),
        counter: lent.field(Field::Counter),
        code: std::mem::take(&mut lent.code),
    };
    damage::run(random, &mut run);
    lent.put(Field::Message, run.accumulator);
    lent.put(Field::Counter, run.counter);
    let RunInput { kinds, objects, messages, certificates, terms, code, .. } = run;
    *lent = RoundInput { kinds, objects, messages, certificates, terms, code, ..lent.clone() };
}

/// A round of code that no compiler wrote; in a quarter of the calls damaged.
pub fn direct_round(random: &mut Random) -> RoundInput {
    let mut stores = stores::stores(random);
    stores::fill_scratch(random, &mut stores);
    let rows = table_length(random, stores.terms.len());
    let middle = code::steps(random, &stores.lend_run(rows, &[]));
    let role = Role { halves: vec![Vec::new(); 2 * (1 + random.below(ROUNDS))], stores };
    let mut lent = role.lend_round(rows, &framed(&middle));
    lent.put(Field::Round, random.below(lent.rounds as usize) as u32);
    if random.one_in(4) {
        return damaged_round(random, &lent);
    }
    lent
}

/// A round over 4,096 used rows, some of them wrong: costly, so that a test takes few.
pub fn full_round(random: &mut Random) -> RoundInput {
    let run = super::full_run(random);
    let mut lent = RoundInput {
        session: vec![0; RECORD],
        rounds: 1,
        kinds: run.kinds,
        objects: run.objects,
        messages: run.messages,
        certificates: run.certificates,
        terms: run.terms,
        code: framed(&run.code),
    };
    lent.put(Field::Used, used(&lent.terms) as u32);
    lent.put(Field::Counter, run.counter);
    lent.put(Field::Message, run.accumulator);
    lent.put(Field::Answer, UNSET as u32);
    lent
}
