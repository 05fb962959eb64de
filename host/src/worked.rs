//! The worked cases of document 01, for any engine: P1 to P10, the listing, and those tried by program.
use crate::case::figure1::{bound, constant, encrypted, key_of, object, raw, tuple, Key};
use crate::case::Case;
use crate::limits::{CODE_WORDS, NAMED, NAMES, PATTERN_ROWS, TERM_ROWS, UNSET};
use crate::plain::code::{
    Word, ANALYZE_TUPLE, CREATE, DECODE, ENCODE, ENCRYPT, HASHING, LOAD, OPPOSITE, STORE, STORE_CONST,
};
use crate::plain::terms::{atom, compound, AGENT, BYTE, ENCRYPTION, HASH, NONCE, PRIVATE, PUBLIC, TUPLE};
use crate::{plain, Compiled, Engine, Ran};

/// What the listing prints for `greeting`.
pub const GREETING: &str = "\
0 5 1 0 0
1 8 1 64 2
2 2 64 0 0
3 5 0 0 0
4 2 65 0 0
5 3 0 0 0
end 0 6 0 3 4 1
o 0 0
o 1 2
m 0 1
";

/// Tries each case.
pub fn hold(engine: &Engine) {
    for (name, case) in CASES {
        println!("{}", name);
        case(engine);
    }
}

type Named = (&'static str, fn(&Engine));

const CASES: [Named; 15] = [
    ("P1 the listing's code", p1),
    ("P2 a created encryption", p2),
    ("P3 scratch of an inner and an outer tuple", p3),
    ("P4 a matched encryption under op", p4),
    ("P5 a constant written twice", p5),
    ("P6 a matched let", p6),
    ("P7 a matched let that does not set its name", p7),
    ("P8 a bare tuple variable", p8),
    ("P9 the empty tuple", p9),
    ("P10 no certificate", p10),
    ("the listing", listing),
    ("96 rows and 97", rows_at_the_limit),
    ("a code slice one short", slice_one_short),
    ("counters 65,535 and 65,536", counters_at_the_limit),
    ("a full table", full_table),
];

/// Matching t1:[n0, r0] against [nonce 3, agent 1].
pub fn greeting() -> Case {
    let mut case = Case::new(false);
    case.pattern = vec![object(0), raw(0), tuple(1, &[0, 1])];
    case.declare(&[NONCE, TUPLE]);
    let parts = [case.term(atom(NONCE, 3)), case.term(atom(AGENT, 1))];
    case.accumulator = case.term(compound(TUPLE, 2, &parts));
    case.counter = 4;
    case
}

/// Creating e1:E(k2:op(K3), n0), all unset.
pub fn created_encryption() -> Case {
    let mut case = Case::new(true);
    case.pattern = vec![object(0), encrypted(1, Key::Opposite(2, 3), 0)];
    case.declare(&[NONCE, ENCRYPTION, PUBLIC, PRIVATE]);
    case
}

/// Matching a tuple of c:5 twice, with the same c.
pub fn written_twice() -> Case {
    let mut case = Case::new(false);
    case.pattern = vec![constant(0, 5), constant(0, 5), tuple(1, &[0, 1])];
    case.declare(&[BYTE, TUPLE]);
    case
}

/// Matching let r0 = n0 in `last`.
pub fn let_in(last: u8) -> Case {
    let mut case = Case::new(false);
    case.pattern = vec![object(0), raw(last), bound(0, 0, 1)];
    case.declare(&[NONCE]);
    case
}

/// Matching t0:[] against a tuple of `n` equal bytes.
pub fn empty_tuple_against(n: usize) -> Case {
    let mut case = Case::new(false);
    case.pattern = vec![tuple(0, &[])];
    case.declare(&[TUPLE]);
    let byte = case.term(atom(BYTE, 0));
    case.accumulator = case.term(compound(TUPLE, n, &[byte; 4][..n]));
    case
}

/// Matching k0:keyOf(a1) against a public key, where a1 has no certificate.
pub fn no_certificate() -> Case {
    let mut case = Case::new(false);
    case.pattern = vec![key_of(0, 1)];
    case.declare(&[PUBLIC, AGENT]);
    case.objects[1] = case.term(atom(AGENT, 0));
    case.accumulator = case.term(atom(PUBLIC, 0));
    case.counter = 1;
    case
}

pub(crate) fn word(operation: u8, a: u8, b: u8, n: u8) -> [u8; 4] {
    Word { operation, a, b, n }.pack().to_be_bytes()
}

fn compiles_to(engine: &Engine, case: &Case, words: &[[u8; 4]]) {
    assert_eq!(case.lend_compile(CODE_WORDS).words(engine), Ok(words.concat()));
}

fn refuses(engine: &Engine, case: &Case, number: u32, place: u32) {
    assert_eq!(case.lend_compile(CODE_WORDS).words(engine), Err(Compiled { number, place }));
}

/// Compiles and runs over a full-size table.
fn runs(engine: &Engine, case: &Case) -> Ran {
    let code = case.lend_compile(CODE_WORDS).words(engine).unwrap();
    case.lend_run(TERM_ROWS, &code).call(engine)
}

/// The code of `greeting`.
pub(crate) fn greeting_words() -> [[u8; 4]; 6] {
    [
        word(DECODE, 1, 0, 0),
        word(ANALYZE_TUPLE, 1, 64, 2),
        word(LOAD, 64, 0, 0),
        word(DECODE, 0, 0, 0),
        word(LOAD, 65, 0, 0),
        word(STORE, 0, 0, 0),
    ]
}

fn p1(engine: &Engine) {
    compiles_to(engine, &greeting(), &greeting_words());
}

fn p2(engine: &Engine) {
    let words = [
        word(CREATE, 3, 0, 0),
        word(OPPOSITE, 3, 2, 0),
        word(CREATE, 0, 0, 0),
        word(ENCODE, 0, 0, 0),
        word(ENCRYPT, 2, 0, 0),
        word(DECODE, 1, 0, 0),
    ];
    let case = created_encryption();
    compiles_to(engine, &case, &words);
    let done = Ran { number: 0, place: 6, reason: 0, used: 4, counter: 2, accumulator: 3 };
    assert_eq!(runs(engine, &case), done);
}

fn p3(engine: &Engine) {
    let mut case = Case::new(false);
    case.pattern = vec![raw(0), raw(1), tuple(1, &[0, 1]), raw(2), tuple(0, &[2, 3])];
    case.declare(&[TUPLE, TUPLE]);
    let words = [
        word(DECODE, 0, 0, 0),
        word(ANALYZE_TUPLE, 0, 64, 2),
        word(LOAD, 64, 0, 0),
        word(DECODE, 1, 0, 0),
        word(ANALYZE_TUPLE, 1, 66, 2),
        word(LOAD, 66, 0, 0),
        word(STORE, 0, 0, 0),
        word(LOAD, 67, 0, 0),
        word(STORE, 1, 0, 0),
        word(LOAD, 65, 0, 0),
        word(STORE, 2, 0, 0),
    ];
    compiles_to(engine, &case, &words);
}

fn p4(engine: &Engine) {
    let case = Case { create: false, ..created_encryption() };
    refuses(engine, &case, 5, 1);
}

fn p5(engine: &Engine) {
    refuses(engine, &written_twice(), 6, 1);
}

fn p6(engine: &Engine) {
    let mut case = let_in(0);
    compiles_to(engine, &case, &[word(STORE, 0, 0, 0), word(LOAD, 0, 0, 0), word(DECODE, 0, 0, 0)]);
    case.messages[0] = 0;
    refuses(engine, &case, 6, 2);
}

fn p7(engine: &Engine) {
    refuses(engine, &let_in(1), 7, 2);
}

fn p8(engine: &Engine) {
    let mut case = Case::new(false);
    case.pattern = vec![object(0)];
    case.declare(&[TUPLE]);
    refuses(engine, &case, 5, 0);
}

fn p9(engine: &Engine) {
    let done = Ran { number: 0, place: 2, reason: 0, used: 2, counter: 0, accumulator: 1 };
    assert_eq!(runs(engine, &empty_tuple_against(0)), done);
    let stuck = Ran { number: 10, place: 1, reason: 4, ..done };
    assert_eq!(runs(engine, &empty_tuple_against(1)), stuck);
}

fn p10(engine: &Engine) {
    let stuck = Ran { number: 10, place: 3, reason: 5, used: 2, counter: 1, accumulator: 1 };
    assert_eq!(runs(engine, &no_certificate()), stuck);
}

fn listing(engine: &Engine) {
    let text = plain::listing(engine, &greeting().bundle());
    assert_eq!(String::from_utf8(text).unwrap(), GREETING);
}

/// Pairs in pairs, each of a pair and the nonce n63: a pattern of any number of rows up to 125.
pub fn nested_pairs(create: bool, rows: u8) -> Case {
    let mut case = Case::new(create);
    case.pattern = vec![tuple(0, &[])];
    for row in 1..rows {
        case.pattern.push(match (row % 2, row + 1 == rows) {
            (0, _) => tuple(row / 2, &[row - 2, row - 1]),
            (_, false) => object(63),
            (_, true) => tuple(row / 2 + 1, &[row - 1]),
        });
    }
    case.kinds = [TUPLE; NAMED];
    case.kinds[63] = NONCE;
    case
}

fn rows_at_the_limit(engine: &Engine) {
    let most = PATTERN_ROWS as u8;
    for create in [false, true] {
        assert_eq!(nested_pairs(create, most).lend_compile(CODE_WORDS).call(engine).number, 0);
        refuses(engine, &nested_pairs(create, most + 1), 1, 0);
    }
}

fn slice_one_short(engine: &Engine) {
    let case = greeting();
    let mut lent = case.lend_compile(5);
    let given = lent.clone();
    assert_eq!(lent.call(engine), Compiled { number: 8, place: 6 });
    assert_eq!(lent, given);
    assert_eq!(case.lend_compile(6).call(engine), Compiled { number: 0, place: 6 });
}

fn counters_at_the_limit(engine: &Engine) {
    let mut case = Case::new(true);
    case.pattern = vec![object(0)];
    case.declare(&[NONCE]);
    case.counter = NAMES - 1;
    let done = Ran { number: 0, place: 2, reason: 0, used: 1, counter: NAMES, accumulator: 0 };
    assert_eq!(runs(engine, &case), done);
    case.counter = NAMES;
    let out = Ran { number: 11, place: 0, reason: 0, used: 0, counter: NAMES, accumulator: UNSET as u32 };
    assert_eq!(runs(engine, &case), out);
    case.counter = NAMES + 1;
    assert_eq!(runs(engine, &case), Ran { number: 1, counter: NAMES + 1, ..out });
}

/// All 4,096 rows are used: an equal row serves a new term, and a term without one has no room.
fn full_table(engine: &Engine) {
    let mut case = Case::new(false);
    case.declare(&[BYTE, HASH]);
    case.terms = (0..TERM_ROWS as u64 - 1).map(|i| atom(AGENT, i)).collect();
    case.term(atom(BYTE, 7));
    let code = [word(STORE_CONST, 0, 7, 0), word(ENCODE, 0, 0, 0), word(HASHING, 1, 0, 0)];
    let full = Ran { number: 0, place: 2, reason: 0, used: 4096, counter: 0, accumulator: 4095 };
    assert_eq!(case.lend_run(TERM_ROWS, &code[..2].concat()).call(engine), full);
    let out = Ran { number: 11, place: 2, accumulator: UNSET as u32, ..full };
    assert_eq!(case.lend_run(TERM_ROWS, &code.concat()).call(engine), out);
}
