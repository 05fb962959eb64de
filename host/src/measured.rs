//! The inputs that the benchmark times and whose stack it measures.
use crate::case::figure1::{bound, encrypted, object, raw, tuple, Key};
use crate::case::Case;
use crate::game::Role;
use crate::input::{CompileInput, RoleInput, RoundInput, RunInput};
use crate::limits::{CODE_WORDS, NAMED, PATTERN_ROWS, ROLE_WORDS, ROUNDS, ROUND_WORDS, TERM_ROWS};
use crate::plain;
use crate::plain::code::{framed, Word, HASHING, STORE_CONST};
use crate::plain::patterns::Form;
use crate::plain::terms::{atom, AGENT, BYTE, ENCRYPTION, HASH, NONCE, SHARED, TUPLE};
use crate::reading::{self, ReadInput};
use crate::{worked, worked_roles};

/// Compiles by what they are called.
pub fn compiles() -> Vec<(&'static str, CompileInput)> {
    let most = PATTERN_ROWS as u8;
    let named = [
        ("compile the listing's pattern", worked::greeting()),
        ("compile 96 rows, matching", worked::nested_pairs(false, most)),
        ("compile 96 rows, creating", worked::nested_pairs(true, most)),
        ("compile rows as deep as they go, matching", deep(false)),
        ("compile rows as deep as they go, creating", deep(true)),
        ("refuse 95 tuples in each other, creating", one_variable()),
    ];
    named.map(|(name, case)| (name, case.lend_compile(CODE_WORDS))).to_vec()
}

/// Runs by what they are called.
pub fn runs() -> Vec<(&'static str, RunInput)> {
    let greeting = worked::greeting();
    let code = greeting.lend_compile(CODE_WORDS).words(&plain::ENGINE).unwrap();
    vec![
        ("run the listing's code, 64 rows", greeting.lend_run(64, &code)),
        ("unpack 4,096 rows: no used row, no code", Case::new(false).lend_run(TERM_ROWS, &[])),
        ("768 words that make new terms", hashes_of_hashes()),
        ("check 4,096 used rows, no code", agents(TERM_ROWS).lend_run(TERM_ROWS, &[])),
    ]
}

/// The check of a table by its used rows, of which there are no others.
pub fn checks() -> Vec<(usize, RunInput)> {
    (4..=TERM_ROWS.trailing_zeros()).map(|bits| (1 << bits, agents(1 << bits).lend_run(1 << bits, &[]))).collect()
}

/// Searches by what they are called: a run whose words search the table, each as far as the others, and the same run without words.
pub fn searches() -> Vec<(&'static str, RunInput, RunInput)> {
    let named = [
        ("one search that finds the last of 4,096 rows", agents(TERM_ROWS), STORE_CONST),
        ("one search that finds the first of 4,096 rows", byte_first(), STORE_CONST),
        ("one search of 3,328 rows and more in vain", with_room(), HASHING),
    ];
    let lend = |case: &Case, operations: &[u8]| case.lend_run(TERM_ROWS, &words(operations));
    named.map(|(name, case, operation)| (name, lend(&case, &[operation; CODE_WORDS]), lend(&case, &[]))).to_vec()
}

/// Compiles of roles by what they are called.
pub fn role_compiles() -> Vec<(&'static str, RoleInput)> {
    let [initiator, _] = worked_roles::needham_schroeder().roles;
    let named = [
        ("compile a role of 3 rounds", initiator),
        ("compile a role of 16 rounds", sixteen_rounds()),
        ("compile a role as deep as it goes, matching", one_round(deep(false), |deep| vec![deep, vec![object(0)]])),
        ("compile a role as deep as it goes, creating", one_round(deep(true), |deep| vec![vec![raw(0)], deep])),
        ("refuse a role's 95 tuples in each other", one_round(one_variable(), |deep| vec![vec![raw(0)], deep])),
    ];
    named.map(|(name, role)| (name, role.lend_compile(ROLE_WORDS))).to_vec()
}

/// Rounds by what they are called.
pub fn rounds() -> Vec<(&'static str, RoundInput)> {
    vec![
        ("a round of Needham-Schroeder", worked_roles::second_of_initiator()),
        ("a round of 1,538 words that make new terms", round_of(hash_of_byte(), &[HASHING; ROUND_WORDS - 2])),
        ("a round of 2 words over 4,096 used rows", round_of(agents(TERM_ROWS), &[])),
    ]
}

/// Readings by what they are called.
pub fn readings() -> Vec<(&'static str, ReadInput)> {
    let code: Vec<u8> = (0..CODE_WORDS).flat_map(|at| (2 << 27 | (at as u32 % 256) << 19).to_be_bytes()).collect();
    let lent = |text| ReadInput { text, kinds: vec![0; NAMED], code: vec![0; 4 * CODE_WORDS] };
    vec![("read 768 lines back", lent(reading::printed(&code))), ("read no line back", lent(Vec::new()))]
}

/// Sixteen lets around tuples of one part in each other.
fn deep(create: bool) -> Case {
    let mut case = Case::new(create);
    case.kinds = [TUPLE; NAMED];
    case.declare(&[NONCE]);
    case.pattern.push(object(0));
    for t in 1..NAMED as u8 {
        case.pattern.push(tuple(t, &[t - 1]));
    }
    while case.pattern.len() < PATTERN_ROWS {
        let inner = case.pattern.len() as u8 - 1;
        let r = inner % NAMED as u8;
        case.pattern.extend([raw(r), bound(r, inner, inner + 1)]);
    }
    case
}

/// Tuples of one part in each other that all write one variable, which is seen after the innermost.
fn one_variable() -> Case {
    let mut case = Case::new(true);
    case.declare(&[NONCE, TUPLE]);
    case.pattern.push(object(0));
    while case.pattern.len() < PATTERN_ROWS {
        let inner = case.pattern.len() as u8 - 1;
        case.pattern.push(tuple(1, &[inner]));
    }
    case
}

/// A hash of a hash and so on, of one byte.
fn hashes_of_hashes() -> RunInput {
    hash_of_byte().lend_run(TERM_ROWS, &words(&[HASHING; CODE_WORDS]))
}

fn hash_of_byte() -> Case {
    let mut case = Case::new(false);
    case.declare(&[HASH]);
    case.accumulator = case.term(atom(BYTE, 0));
    case
}

/// Agents, and a byte in the last row.
fn agents(rows: usize) -> Case {
    let mut case = Case::new(false);
    case.declare(&[BYTE]);
    case.terms = (1..rows as u64).map(|i| atom(AGENT, i)).collect();
    case.term(atom(BYTE, 0));
    case
}

/// The same, with the byte in row 0.
fn byte_first() -> Case {
    let mut case = agents(TERM_ROWS);
    case.terms.rotate_right(1);
    case
}

/// Agents and a byte to be hashed, with room for the hashes of as many words as there may be.
fn with_room() -> Case {
    let mut case = hash_of_byte();
    case.terms.extend((case.terms.len()..TERM_ROWS - CODE_WORDS).map(|i| atom(AGENT, i as u64)));
    case
}

/// A role of one round of which a case's pattern is a half.
fn one_round(case: Case, halves: fn(Vec<Form>) -> Vec<Vec<Form>>) -> Role {
    Role { halves: halves(case.pattern.clone()), stores: case }
}

/// A round that is sent row 0 and whose words between INPUT and OUTPUT are `operations`.
fn round_of(stores: Case, operations: &[u8]) -> RoundInput {
    let role = Role { halves: vec![Vec::new(); 2], stores: Case { accumulator: 0, ..stores } };
    role.lend_round(TERM_ROWS, &framed(&words(operations)))
}

/// Each round opens a nonce under the shared key sh0 and sends it back under sh0.
fn sixteen_rounds() -> Role {
    let mut stores = Case::new(false);
    stores.declare(&[SHARED]);
    stores.objects[0] = stores.term(atom(SHARED, 0));
    stores.counter = 1;
    let mut halves = Vec::new();
    for round in 0..ROUNDS as u8 {
        let [read, nonce, sent] = [1, 2, 3].map(|v| 3 * round + v);
        for (v, kind) in [(read, ENCRYPTION), (nonce, NONCE), (sent, ENCRYPTION)] {
            stores.kinds[v as usize] = kind;
        }
        halves.extend([read, sent].map(|e| vec![object(nonce), encrypted(e, Key::Plain(0), 0)]));
    }
    Role { halves, stores }
}

fn words(operations: &[u8]) -> Vec<u8> {
    operations.iter().flat_map(|&operation| Word { operation, a: 0, b: 0, n: 0 }.pack().to_be_bytes()).collect()
}
