//! A role in numbers, two of them over one table that answer each other, and how they are lent.
use crate::case::{octets, pairs, Case};
use crate::input::{Field, RoleInput, RoundInput};
use crate::limits::{NAMED, RECORD, UNSET};
use crate::plain::patterns::Form;
use crate::roles::round_part;

#[derive(Clone, Debug)]
pub struct Role {
    /// A matching and a creating half to a round, each with its root last.
    pub halves: Vec<Vec<Form>>,
    /// What there is when the role begins: kinds and cells, terms and names; its accumulator is the first message.
    pub stores: Case,
}

impl Role {
    pub fn rounds(&self) -> usize {
        self.halves.len() / 2
    }

    /// Compile with a slice of `words` words, filled with a byte that no code has at its end.
    pub fn lend_compile(&self, words: usize) -> RoleInput {
        RoleInput {
            rows: octets(self.halves.iter().flatten().map(Form::pack)),
            counts: self.halves.iter().map(|half| half.len() as u8).collect(),
            kinds: self.stores.kinds.to_vec(),
            objects: pairs(&self.stores.objects),
            named: pairs(&self.stores.messages[..NAMED]),
            ends: vec![0x5a; 2 * self.rounds()],
            code: vec![0xa5; 4 * words],
        }
    }

    /// The first round, of `code`, with the message put and a table of `rows` rows, or more where there are more terms.
    pub fn lend_round(&self, rows: usize, code: &[u8]) -> RoundInput {
        let run = self.stores.lend_run(rows, code);
        let mut lent = RoundInput {
            session: vec![0; RECORD],
            rounds: self.rounds() as u32,
            kinds: run.kinds,
            objects: run.objects,
            messages: run.messages,
            certificates: run.certificates,
            terms: run.terms,
            code: run.code,
        };
        lent.put(Field::Used, self.stores.terms.len() as u32);
        lent.put(Field::Counter, run.counter);
        lent.put(Field::Message, run.accumulator);
        lent.put(Field::Answer, UNSET as u32);
        lent
    }
}

/// Two roles over one table, certificates and names; what one answers the other is sent.
#[derive(Clone, Debug)]
pub struct Game {
    pub roles: [Role; 2],
    /// The table has room for so many rows.
    pub rows: usize,
}

impl Game {
    pub fn turns(&self) -> usize {
        let [first, second] = &self.roles;
        first.rounds() + second.rounds()
    }
}

/// A compiled role and the record and stores with which it is played.
pub struct Player {
    pub compiled: RoleInput,
    pub lent: RoundInput,
}

impl Player {
    /// No message waits yet.
    pub fn new(role: &Role, rows: usize, compiled: RoleInput) -> Player {
        let mut lent = role.lend_round(rows, &[]);
        lent.put(Field::Message, UNSET as u32);
        Player { compiled, lent }
    }

    /// Takes up the code of the round whose turn it is, or of the last where the role has ended.
    pub fn turn_to_code(&mut self) {
        let round = (self.lent.field(Field::Round) as usize).min(self.compiled.ends.len() / 2 - 1);
        self.lent.code = round_part(&self.compiled.code, &self.compiled.ends, round).to_vec();
    }

    /// Takes up the code of the round whose turn it is, and puts the message that it is to read.
    pub fn put_message(&mut self, message: u32) {
        self.turn_to_code();
        self.lent.put(Field::Message, message);
    }

    /// Brings the record up to date with a table on which somebody else was last.
    pub fn turn_to_table(&mut self, last: &RoundInput) {
        self.lent.terms.clone_from(&last.terms);
        for field in [Field::Used, Field::Counter] {
            self.lent.put(field, last.field(field));
        }
    }
}
