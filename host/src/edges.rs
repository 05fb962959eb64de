//! Runs at the edges of document 01, for any engine: each reason and refusal, and room for names and rows.
use crate::case::Case;
use crate::limits::{CODE_WORDS, NAMES, TERM_ROWS};
use crate::plain::code::{
    ANALYZE_TUPLE, CREATE, DECODE, DECRYPT, ENCODE, KEY_OF, LOAD, MATCH, STORE, STORE_CONST, VERIFY,
};
use crate::plain::terms::{atom, compound, AGENT, BYTE, ENCRYPTION, NONCE, PRIVATE, PUBLIC, SHARED, SIGNATURE, TUPLE};
use crate::worked::{greeting, greeting_words, word};
use crate::{Engine, Ran};

/// Tries each case.
pub fn hold(engine: &Engine) {
    for trial in [done(), stuck(), without_room(), refused()].into_iter().flatten() {
        println!("{}", trial.name);
        trial.hold(engine);
    }
}

/// A run of some words over a table of so many rows, its answer's number, place and reason, and what it leaves.
struct Trial {
    name: &'static str,
    given: Case,
    rows: usize,
    words: Vec<[u8; 4]>,
    answer: (u32, u32, u32),
    left: Case,
}

impl Trial {
    /// A run that leaves all as it was, over a table with one row to spare.
    fn unchanged(name: &'static str, given: Case, words: &[[u8; 4]], answer: (u32, u32, u32)) -> Trial {
        Trial { name, rows: given.terms.len() + 1, words: words.to_vec(), answer, left: given.clone(), given }
    }

    /// Every lent byte is looked at; counter and accumulator are given by value and come back in the answer.
    fn hold(&self, engine: &Engine) {
        let code = self.words.concat();
        let mut lent = self.given.lend_run(self.rows, &code);
        let (number, place, reason) = self.answer;
        let used = if number == 1 { 0 } else { self.left.terms.len() as u32 };
        let (counter, accumulator) = (self.left.counter, self.left.accumulator as u32);
        assert_eq!(lent.call(engine), Ran { number, place, reason, used, counter, accumulator });
        let (counter, accumulator) = (self.given.counter, self.given.accumulator);
        assert_eq!(lent, Case { counter, accumulator, ..self.left.clone() }.lend_run(self.rows, &code));
    }
}

/// Variables of some kinds, terms, and so many names that are taken.
fn stores(kinds: &[u8], terms: &[u64], counter: u32) -> Case {
    let mut case = Case::new(false);
    case.declare(kinds);
    case.terms = terms.to_vec();
    case.counter = counter;
    case
}

fn done() -> Vec<Trial> {
    vec![ends(), last_name(), full_table()]
}

/// The code of the scope's listing.
fn ends() -> Trial {
    let mut left = greeting();
    left.objects[..2].copy_from_slice(&[0, 2]);
    left.messages[0] = 1;
    left.messages[64..66].copy_from_slice(&[0, 1]);
    left.accumulator = 1;
    Trial { name: "ends", given: greeting(), rows: 4, words: greeting_words().to_vec(), answer: (0, 6, 0), left }
}

/// CREATE at counter 65,535.
fn last_name() -> Trial {
    let given = stores(&[NONCE], &[], NAMES - 1);
    let mut left = stores(&[NONCE], &[atom(NONCE, 65535)], NAMES);
    left.objects[0] = 0;
    Trial { name: "last name", given, rows: 2, words: vec![word(CREATE, 0, 0, 0)], answer: (0, 1, 0), left }
}

/// All 4,096 rows are used: byte 5, and then agents.
fn full() -> Case {
    let mut case = stores(&[BYTE], &[atom(BYTE, 5)], 0);
    case.terms.extend((1..TERM_ROWS as u64).map(|agent| atom(AGENT, agent)));
    case
}

/// Byte 5 has a row.
fn full_table() -> Trial {
    let mut left = full();
    left.objects[0] = 0;
    let words = vec![word(STORE_CONST, 0, 5, 0)];
    Trial { name: "full table", given: full(), rows: TERM_ROWS, words, answer: (0, 1, 0), left }
}

/// Each reason. What the words before the stuck one did is undone.
fn stuck() -> Vec<Trial> {
    let mut one_nonce = stores(&[SHARED], &[atom(NONCE, 0)], 1);
    one_nonce.accumulator = 0;
    let mut two_nonces = stores(&[], &[atom(NONCE, 0), atom(NONCE, 1)], 2);
    two_nonces.accumulator = 0;
    two_nonces.messages[0] = 1;
    let mut nothing = stores(&[TUPLE], &[compound(TUPLE, 0, &[])], 0);
    nothing.objects[0] = 0;
    vec![
        Trial { rows: 4, ..unset() },
        Trial::unchanged("another kind", one_nonce, &[word(DECODE, 0, 0, 0)], (10, 0, 2)),
        Trial::unchanged("two nonces", two_nonces, &[word(MATCH, 0, 0, 0)], (10, 0, 3)),
        Trial::unchanged("no part of nothing", nothing, &[word(ANALYZE_TUPLE, 0, 64, 1)], (10, 0, 4)),
        no_certificate(),
        not_opened(),
        not_verified(),
    ]
}

/// LOAD of an unset cell, after a new nonce was made and stored.
fn unset() -> Trial {
    let words = [word(CREATE, 0, 0, 0), word(ENCODE, 0, 0, 0), word(STORE, 3, 0, 0), word(LOAD, 4, 0, 0)];
    Trial::unchanged("unset", stores(&[NONCE], &[], 0), &words, (10, 3, 1))
}

/// Agent 1 has a certificate, agent 2 has none.
fn no_certificate() -> Trial {
    let mut given = stores(&[], &[atom(AGENT, 1), atom(PUBLIC, 0), atom(AGENT, 2)], 1);
    given.certificates = vec![(0, 1)];
    given.accumulator = 2;
    Trial::unchanged("no certificate", given, &[word(KEY_OF, 0, 0, 0)], (10, 0, 5))
}

/// What was encrypted under public key 0 does not open with private key 1.
fn not_opened() -> Trial {
    let terms = [atom(PUBLIC, 0), atom(PRIVATE, 1), compound(ENCRYPTION, 0, &[0, 1])];
    let mut given = stores(&[PRIVATE], &terms, 2);
    given.objects[0] = 1;
    given.accumulator = 2;
    Trial::unchanged("not opened", given, &[word(DECRYPT, 0, 0, 0)], (10, 0, 6))
}

/// A signature of row 0 is none of row 1.
fn not_verified() -> Trial {
    let terms = [atom(SHARED, 0), atom(NONCE, 1), compound(SIGNATURE, 0, &[0, 0])];
    let mut given = stores(&[SHARED], &terms, 2);
    given.objects[0] = 0;
    given.messages[0] = 1;
    given.accumulator = 2;
    Trial::unchanged("not verified", given, &[word(VERIFY, 0, 0, 0)], (10, 0, 7))
}

/// Two new nonces and one unused row; CREATE at counter 65,536; byte 6, which has no row in a full table.
fn without_room() -> Vec<Trial> {
    let two = [word(CREATE, 0, 0, 0), word(CREATE, 1, 0, 0)];
    let no_name = stores(&[NONCE], &[], NAMES);
    vec![
        Trial::unchanged("no row", stores(&[NONCE, NONCE], &[], 7), &two, (11, 1, 0)),
        Trial { rows: 2, ..Trial::unchanged("no name", no_name, &two[..1], (11, 0, 0)) },
        Trial { rows: TERM_ROWS, ..Trial::unchanged("too full", full(), &[word(STORE_CONST, 0, 6, 0)], (11, 0, 0)) },
    ]
}

/// What run refuses before it steps: 769 words; the later of two equal rows; a kind of 11; the word behind a good one.
fn refused() -> Vec<Trial> {
    let twice = stores(&[], &[atom(AGENT, 1), atom(AGENT, 1)], 0);
    let mut bad_kind = stores(&[], &[], 0);
    bad_kind.kinds[63] = 11;
    let words = [word(CREATE, 0, 0, 0), [0; 4]];
    vec![
        Trial::unchanged("limit", stores(&[], &[], 0), &[[0; 4]; CODE_WORDS + 1], (1, 0, 0)),
        Trial { rows: 2, ..Trial::unchanged("bad term", twice, &[], (2, 1, 0)) },
        Trial::unchanged("bad store", bad_kind, &[], (3, 0, 0)),
        Trial::unchanged("bad word", stores(&[NONCE], &[], 0), &words, (9, 1, 0)),
    ]
}
