//! A case for each direction that has every form, every way of giving a key and tuples of every width, and is done.
use crate::case::figure1::{bound, constant, encrypted, hashed, key_of, object, opposite, raw, signed, tuple, Key};
use crate::case::Case;
use crate::plain::patterns::Form;
use crate::plain::terms::{
    atom, compound, AGENT, BYTE, ENCRYPTION, HASH, NONCE, PRIVATE, PUBLIC, SHARED, SIGNATURE, TUPLE,
};

pub fn every_form(create: bool) -> Case {
    let mut author = Author { case: Case::new(create), variables: 0 };
    let mut parts = author.common();
    parts.extend(if create { author.created() } else { author.matched() });
    let mut groups = Vec::new();
    for width in [1, 2, 3, 4, 4] {
        let group: Vec<Part> = parts.drain(..width).collect();
        groups.push(author.tuple(&group));
    }
    groups.append(&mut parts);
    let halves = [author.tuple(&groups[..4]), author.tuple(&groups[4..])];
    author.case.accumulator = author.tuple(&halves).1;
    author.case
}

const BODY: u64 = atom(NONCE, 0);
const PUBLIC_KEY: u64 = atom(PUBLIC, 1);
const PRIVATE_KEY: u64 = atom(PRIVATE, 1);
const SHARED_KEY: u64 = atom(SHARED, 2);
const ALICE: u64 = atom(AGENT, 0);

/// A part: its row, and the row of the term that it matches.
type Part = (u8, u16);

struct Author {
    case: Case,
    variables: u8,
}

impl Author {
    fn new_variable(&mut self, kind: u8) -> u8 {
        self.case.kinds[self.variables as usize] = kind;
        self.variables += 1;
        self.variables - 1
    }

    /// A variable that holds a term.
    fn known(&mut self, kind: u8, term: u64) -> u8 {
        let v = self.new_variable(kind);
        self.case.objects[v as usize] = self.term(term);
        v
    }

    fn term(&mut self, term: u64) -> u16 {
        let known = self.case.terms.iter().position(|&row| row == term);
        known.map_or_else(|| self.case.term(term), |at| at as u16)
    }

    fn row(&mut self, form: Form) -> u8 {
        self.case.pattern.push(form);
        (self.case.pattern.len() - 1) as u8
    }

    fn part(&mut self, form: Form, term: u64) -> Part {
        let term = self.term(term);
        (self.row(form), term)
    }

    fn tuple(&mut self, parts: &[Part]) -> Part {
        let (rows, terms): (Vec<u8>, Vec<u16>) = parts.iter().copied().unzip();
        let t = self.new_variable(TUPLE);
        self.part(tuple(t, &rows), compound(TUPLE, terms.len(), &terms))
    }

    /// An encryption of the nonce in named cell 0.
    fn encrypted(&mut self, key: Key, under: u64) -> Part {
        let e = self.new_variable(ENCRYPTION);
        let body = self.row(raw(0));
        let parts = [self.term(under), self.term(BODY)];
        self.part(encrypted(e, key, body), compound(ENCRYPTION, 0, &parts))
    }

    /// A signature of the nonce in named cell 0.
    fn signed(&mut self, key: Key, by: u64) -> Part {
        let s = self.new_variable(SIGNATURE);
        let parts = [self.term(by), self.term(BODY)];
        self.part(signed(s, key, 0), compound(SIGNATURE, 0, &parts))
    }

    fn opposite_key(&mut self) -> Key {
        Key::Opposite(self.new_variable(PUBLIC), self.known(PRIVATE, PRIVATE_KEY))
    }

    fn key_of_alice(&mut self) -> Key {
        Key::KeyOf(self.new_variable(PUBLIC), self.known(AGENT, ALICE))
    }

    /// Forms for both directions.
    fn common(&mut self) -> Vec<Part> {
        self.case.counter = 3;
        self.case.messages[0] = self.term(BODY);
        self.case.certificates = vec![(self.term(ALICE), self.term(PUBLIC_KEY))];
        let hash = compound(HASH, 0, &[self.term(BODY)]);
        let (fresh, known, byte) = (self.new_variable(NONCE), self.known(NONCE, BODY), self.new_variable(BYTE));
        let (public, private) = (self.new_variable(PUBLIC), self.known(PRIVATE, PRIVATE_KEY));
        let (certified, alice) = (self.new_variable(PUBLIC), self.known(AGENT, ALICE));
        let (hashing, named) = (self.new_variable(HASH), self.new_variable(NONCE));
        let shared = [self.known(SHARED, SHARED_KEY), self.known(SHARED, SHARED_KEY)];
        let (first, second) = (self.row(object(named)), self.row(raw(1)));
        vec![
            self.part(object(fresh), BODY),
            self.part(object(known), BODY),
            self.part(raw(0), BODY),
            self.part(constant(byte, 5), atom(BYTE, 5)),
            self.part(opposite(public, private), PUBLIC_KEY),
            self.part(key_of(certified, alice), PUBLIC_KEY),
            self.part(hashed(hashing, 0), hash),
            self.part(bound(1, first, second), BODY),
            self.tuple(&[]),
            self.encrypted(Key::Plain(shared[0]), SHARED_KEY),
            self.signed(Key::Plain(shared[1]), SHARED_KEY),
        ]
    }

    fn matched(&mut self) -> Vec<Part> {
        let (private, public) = (self.known(PRIVATE, PRIVATE_KEY), self.known(PUBLIC, PUBLIC_KEY));
        let (opposite, certified) = (self.opposite_key(), self.key_of_alice());
        vec![
            self.part(raw(2), BODY),
            self.encrypted(Key::Plain(private), PUBLIC_KEY),
            self.signed(Key::Plain(public), PRIVATE_KEY),
            self.signed(opposite, PRIVATE_KEY),
            self.signed(certified, PRIVATE_KEY),
        ]
    }

    /// Their terms are made by the run, so that those named here do not matter.
    fn created(&mut self) -> Vec<Part> {
        let public = self.known(PUBLIC, PUBLIC_KEY);
        let (shared, private) = (self.new_variable(SHARED), self.new_variable(PRIVATE));
        let (given, certified) = (self.opposite_key(), self.key_of_alice());
        let made = [self.new_variable(PUBLIC), self.new_variable(PRIVATE)];
        vec![
            self.encrypted(Key::Plain(public), PUBLIC_KEY),
            self.encrypted(Key::Plain(shared), PUBLIC_KEY),
            self.encrypted(given, PUBLIC_KEY),
            self.encrypted(certified, PUBLIC_KEY),
            self.signed(Key::Plain(private), PRIVATE_KEY),
            self.part(opposite(made[0], made[1]), PUBLIC_KEY),
        ]
    }
}
