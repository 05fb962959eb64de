//! Valid tables and stores.
use super::random::Random;
use crate::case::Case;
use crate::limits::{CERTIFICATES, NAMED, NAMES, UNSET};
use crate::plain::terms::{
    atom, compound, number, part, tag, AGENT, BYTE, ENCRYPTION, HASH, NONCE, PRIVATE, PUBLIC, SHARED, SIGNATURE, TUPLE,
};

/// How often each kind is declared: tuples and encryptions more often, since a pattern needs one for each that it has.
const KINDS: [u8; 20] = [0, 1, 1, 2, 3, 3, 4, 4, 5, 5, 6, 7, 7, 7, 8, 8, 9, 10, 10, 10];

/// How often each kind of message is to be matched.
const MESSAGES: [u8; 14] = [
    PUBLIC, PUBLIC, ENCRYPTION, ENCRYPTION, ENCRYPTION, SIGNATURE, SIGNATURE, SIGNATURE, HASH, TUPLE, TUPLE, TUPLE,
    TUPLE, TUPLE,
];

/// A valid case without a pattern.
pub fn stores(random: &mut Random) -> Case {
    let mut case = Case::new(random.one_in(3));
    case.counter = random.one_of(&[0, 1, 3, 6, 6, 6, 6, 6, 6, 6, NAMES - 1, NAMES]);
    for _ in 0..random.one_of(&[0, 4, 32, 64, 64, 64, 64, 64, 64, 64]) {
        add_term(random, &mut case);
    }
    declare(random, &mut case);
    fill_cells(random, &mut case);
    add_certificates(random, &mut case);
    case.accumulator = message(random, &case);
    case
}

/// A row to match: mostly one with parts, seldom unset.
fn message(random: &mut Random, case: &Case) -> u16 {
    if random.one_in(20) {
        return UNSET;
    }
    let tag = random.one_of(&MESSAGES);
    let row = row_tagged(random, case, &[tag]);
    row.filter(|_| !random.one_in(8)).unwrap_or_else(|| any_row(random, case))
}

/// The same kinds and set cells, over another table.
pub fn other_terms(random: &mut Random, case: &Case) -> Case {
    let mut other = case.clone();
    other.terms.clear();
    for _ in 0..64 {
        add_term(random, &mut other);
    }
    for v in 0..NAMED {
        if other.objects[v] != UNSET {
            other.objects[v] = row_tagged(random, &other, &[other.kinds[v]]).unwrap_or(UNSET);
        }
        if other.messages[v] != UNSET {
            other.messages[v] = any_row(random, &other);
        }
    }
    other.accumulator = any_row(random, &other);
    add_certificates(random, &mut other);
    other
}

/// The same set cells over the same table, but one value is another.
pub fn other_value(random: &mut Random, case: &Case) -> Case {
    let mut other = case.clone();
    let same_tag = |random: &mut Random, row: u16| match case.terms.get(row as usize) {
        Some(&term) => row_tagged(random, case, &[tag(term)]).unwrap_or(row),
        None => row,
    };
    match random.below(5) {
        0 => other.accumulator = same_tag(random, case.accumulator),
        1 => other.objects = case.objects.map(|row| if random.one_in(3) { same_tag(random, row) } else { row }),
        2 => other.messages = case.messages.map(|row| if random.one_in(3) { same_tag(random, row) } else { row }),
        _ => other.certificates.retain(|_| random.one_in(2)),
    }
    other
}

/// Somebody else over the same table and certificates, with kinds and cells of their own.
pub fn beside(random: &mut Random, case: &Case) -> Case {
    let mut other = case.clone();
    declare(random, &mut other);
    fill_cells(random, &mut other);
    other
}

fn declare(random: &mut Random, case: &mut Case) {
    for kind in &mut case.kinds {
        *kind = random.one_of(&KINDS);
    }
}

/// The same kinds and table, with other set cells.
pub fn other_cells(random: &mut Random, case: &Case) -> Case {
    let mut other = case.clone();
    fill_cells(random, &mut other);
    other
}

/// Sets some scratch cells, as a direct run may find them.
pub fn fill_scratch(random: &mut Random, case: &mut Case) {
    if random.one_in(2) {
        for r in NAMED..case.messages.len() {
            case.messages[r] = if random.one_in(2) { any_row(random, case) } else { UNSET };
        }
    }
}

/// Sets about half of the object cells and of the named cells.
fn fill_cells(random: &mut Random, case: &mut Case) {
    for v in 0..NAMED {
        let row = row_tagged(random, case, &[case.kinds[v]]);
        case.objects[v] = row.filter(|_| random.one_in(2)).unwrap_or(UNSET);
        case.messages[v] = if random.one_in(2) { any_body(random, case) } else { UNSET };
    }
}

/// What a signature or a hash stands for, so that there is something to verify, or else any row.
fn any_body(random: &mut Random, case: &Case) -> u16 {
    let row = row_tagged(random, case, &[SIGNATURE, HASH]).filter(|_| random.one_in(2));
    match row.map(|row| case.terms[row as usize]) {
        Some(term) if tag(term) == HASH => part(term, 0),
        Some(term) => part(term, 1),
        None => any_row(random, case),
    }
}

/// Certificates for some of the agents, and seldom one too many.
pub fn add_certificates(random: &mut Random, case: &mut Case) {
    case.certificates.clear();
    let agents = (0..case.terms.len()).filter(|&at| tag(case.terms[at]) == AGENT);
    for agent in agents.take(2 * CERTIFICATES) {
        let key = row_tagged(random, case, &[PUBLIC]);
        case.certificates.extend(key.filter(|_| !random.one_in(4)).map(|key| (agent as u16, key)));
    }
    case.certificates.truncate(CERTIFICATES + random.one_in(8) as usize);
}

/// Any used row, or unset where there is none.
pub fn any_row(random: &mut Random, case: &Case) -> u16 {
    match case.terms.len() {
        0 => UNSET,
        used => random.below(used) as u16,
    }
}

pub fn row_tagged(random: &mut Random, case: &Case, tags: &[u8]) -> Option<u16> {
    let rows: Vec<u16> =
        (0..case.terms.len() as u16).filter(|&at| tags.contains(&tag(case.terms[at as usize]))).collect();
    random.pick(&rows)
}

/// Adds a term of any sort that the table allows, unless it is there.
fn add_term(random: &mut Random, case: &mut Case) {
    if let Some(term) = term(random, case) {
        add(case, term);
        if tag(term) == PRIVATE {
            add(case, atom(PUBLIC, number(term)));
        }
    }
}

fn add(case: &mut Case, term: u64) {
    if !case.terms.contains(&term) {
        case.terms.push(term);
    }
}

fn term(random: &mut Random, case: &Case) -> Option<u64> {
    // Of two rows the later one, so that terms grow deep.
    let body = |random: &mut Random| {
        let row = |random: &mut Random| Some(any_row(random, case)).filter(|&row| row != UNSET);
        row(random).max(row(random))
    };
    match random.one_of(&[1, 2, 3, 4, 5, 6, 7, 7, 8, 9, 10, 10, 10]) {
        BYTE => Some(atom(BYTE, random.one_of(&[0, 1, 2, 255]))),
        AGENT => Some(atom(AGENT, random.one_of(&[0, 1, 2, 255, 256, 65535]))),
        kind @ (NONCE | PUBLIC | PRIVATE | SHARED) => name(random, case.counter).map(|number| atom(kind, number)),
        ENCRYPTION => {
            let key = row_tagged(random, case, &[PUBLIC, SHARED])?;
            Some(compound(ENCRYPTION, 0, &[key, body(random)?]))
        }
        SIGNATURE => {
            let key = row_tagged(random, case, &[PRIVATE, SHARED])?;
            Some(compound(SIGNATURE, 0, &[key, body(random)?]))
        }
        HASH => Some(compound(HASH, 0, &[body(random)?])),
        _ => {
            let parts: Option<Vec<u16>> = (0..random.below(5)).map(|_| body(random)).collect();
            parts.map(|parts| compound(TUPLE, parts.len(), &parts))
        }
    }
}

/// One of the last few names below the counter, so that keys find their opposites.
fn name(random: &mut Random, counter: u32) -> Option<u64> {
    let names = counter.min(3) as usize;
    if names == 0 {
        return None;
    }
    Some((counter as usize - 1 - random.below(names)) as u64)
}
