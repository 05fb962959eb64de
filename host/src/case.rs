//! A direction, a pattern, stores and terms in numbers, and how they are lent or bundled.
use crate::input::{CompileInput, RunInput};
use crate::limits::{MESSAGES, NAMED, UNSET};
use crate::plain::patterns::Form;

#[derive(Clone, Debug)]
pub struct Case {
    pub create: bool,
    /// The root is the last.
    pub pattern: Vec<Form>,
    pub kinds: [u8; NAMED],
    pub objects: [u16; NAMED],
    pub messages: [u16; MESSAGES],
    /// An agent's row and a public key's row.
    pub certificates: Vec<(u16, u16)>,
    pub accumulator: u16,
    pub terms: Vec<u64>,
    pub counter: u32,
}

impl Case {
    /// Nothing declared, nothing set, no terms.
    pub fn new(create: bool) -> Case {
        Case {
            create,
            pattern: Vec::new(),
            kinds: [0; NAMED],
            objects: [UNSET; NAMED],
            messages: [UNSET; MESSAGES],
            certificates: Vec::new(),
            accumulator: UNSET,
            terms: Vec::new(),
            counter: 0,
        }
    }

    /// Declares variables from 0 on.
    pub fn declare(&mut self, kinds: &[u8]) {
        self.kinds[..kinds.len()].copy_from_slice(kinds);
    }

    /// Adds a row, whose number comes back.
    pub fn term(&mut self, row: u64) -> u16 {
        self.terms.push(row);
        (self.terms.len() - 1) as u16
    }

    /// Compile with a slice of `words` words, filled with a byte that no code has at its end.
    pub fn lend_compile(&self, words: usize) -> CompileInput {
        CompileInput {
            create: self.create as u8,
            pattern: self.packed_pattern(),
            kinds: self.kinds.to_vec(),
            objects: pairs(&self.objects),
            named: pairs(&self.messages[..NAMED]),
            code: vec![0xa5; 4 * words],
        }
    }

    /// Run with a table of `rows` rows, or more where the case has more.
    pub fn lend_run(&self, rows: usize, code: &[u8]) -> RunInput {
        let mut terms = octets(self.terms.iter().copied());
        terms.resize(terms.len().max(8 * rows), 0);
        RunInput {
            kinds: self.kinds.to_vec(),
            objects: pairs(&self.objects),
            messages: pairs(&self.messages),
            certificates: self.packed_certificates(),
            accumulator: self.accumulator as u32,
            terms,
            counter: self.counter,
            code: code.to_vec(),
        }
    }

    /// The bundle that holds all but scratch.
    pub fn bundle(&self) -> Vec<u8> {
        let header = (self.create as u64) << 63
            | (self.pattern.len() as u64) << 56
            | (self.certificates.len() as u64) << 50
            | (self.accumulator as u64) << 34
            | (self.terms.len() as u64) << 21
            | (self.counter as u64) << 4;
        let kinds = self.kinds.chunks(2).map(|two| two[0] << 4 | two[1]).collect();
        let parts = [
            header.to_be_bytes().to_vec(),
            self.packed_pattern(),
            octets(self.terms.iter().copied()),
            kinds,
            pairs(&self.objects),
            pairs(&self.messages[..NAMED]),
            self.packed_certificates(),
        ];
        parts.concat()
    }

    fn packed_pattern(&self) -> Vec<u8> {
        octets(self.pattern.iter().map(Form::pack))
    }

    fn packed_certificates(&self) -> Vec<u8> {
        octets(self.certificates.iter().map(|&(agent, key)| (agent as u64) << 52 | (key as u64) << 40))
    }
}

pub(crate) fn pairs(cells: &[u16]) -> Vec<u8> {
    cells.iter().flat_map(|cell| cell.to_be_bytes()).collect()
}

pub(crate) fn octets(rows: impl Iterator<Item = u64>) -> Vec<u8> {
    rows.flat_map(|row| row.to_be_bytes()).collect()
}

/// Pattern rows by their form, as figure 1 writes them.
pub mod figure1 {
    use crate::plain::patterns::{self, Form};

    /// How the key of an encryption or a signature is given.
    #[derive(Clone, Copy, Debug)]
    pub enum Key {
        Plain(u8),
        Opposite(u8, u8),
        KeyOf(u8, u8),
    }

    pub fn object(v: u8) -> Form {
        Form { tag: patterns::OBJECT, v, ..Form::default() }
    }

    pub fn raw(r: u8) -> Form {
        Form { tag: patterns::RAW, r, ..Form::default() }
    }

    pub fn constant(v: u8, byte: u8) -> Form {
        Form { tag: patterns::CONSTANT, v, x: byte, ..Form::default() }
    }

    pub fn opposite(public: u8, private: u8) -> Form {
        Form { tag: patterns::OPPOSITE, v: public, y: private, ..Form::default() }
    }

    pub fn key_of(public: u8, agent: u8) -> Form {
        Form { tag: patterns::KEY_OF, v: public, y: agent, ..Form::default() }
    }

    pub fn encrypted(v: u8, key: Key, body: u8) -> Form {
        with_key(Form { tag: patterns::ENCRYPTED, v, n: 1, children: [body, 0, 0, 0], ..Form::default() }, key)
    }

    pub fn signed(v: u8, key: Key, r: u8) -> Form {
        with_key(Form { tag: patterns::SIGNED, v, r, ..Form::default() }, key)
    }

    pub fn hashed(v: u8, r: u8) -> Form {
        Form { tag: patterns::HASHED, v, r, ..Form::default() }
    }

    pub fn tuple(v: u8, parts: &[u8]) -> Form {
        let mut children = [0; 4];
        children[..parts.len()].copy_from_slice(parts);
        Form { tag: patterns::PARTS, v, n: parts.len(), children, ..Form::default() }
    }

    /// let r = first in second
    pub fn bound(r: u8, first: u8, second: u8) -> Form {
        Form { tag: patterns::LET, r, n: 2, children: [first, second, 0, 0], ..Form::default() }
    }

    fn with_key(form: Form, key: Key) -> Form {
        match key {
            Key::Plain(x) => Form { x, ..form },
            Key::Opposite(x, y) => Form { f: patterns::OPPOSITE_KEY, x, y, ..form },
            Key::KeyOf(x, y) => Form { f: patterns::KEY_OF_KEY, x, y, ..form },
        }
    }
}
