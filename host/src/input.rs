//! The bytes lent to one call, good or bad.
use crate::plain::bytes::{put_word, word};
use crate::roles::{RoleCompiled, RoleEngine, Rounded, Taken};
use crate::{Compiled, Engine, Ran};

#[derive(Clone, Debug, PartialEq)]
pub struct CompileInput {
    pub create: u8,
    pub pattern: Vec<u8>,
    pub kinds: Vec<u8>,
    pub objects: Vec<u8>,
    pub named: Vec<u8>,
    pub code: Vec<u8>,
}

impl CompileInput {
    pub fn call(&mut self, engine: &Engine) -> Compiled {
        (engine.compile)(self.create, &self.pattern, &self.kinds, &self.objects, &self.named, &mut self.code)
    }

    /// What is lent to be read.
    pub fn slices(&mut self) -> [&mut Vec<u8>; 4] {
        [&mut self.pattern, &mut self.kinds, &mut self.objects, &mut self.named]
    }

    /// The words that compile writes, or its refusal.
    pub fn words(&self, engine: &Engine) -> Result<Vec<u8>, Compiled> {
        let mut lent = self.clone();
        let compiled = lent.call(engine);
        if compiled.number != 0 {
            return Err(compiled);
        }
        lent.code.truncate(4 * compiled.place as usize);
        Ok(lent.code)
    }
}

#[derive(Clone, Debug, PartialEq)]
pub struct RunInput {
    pub kinds: Vec<u8>,
    pub objects: Vec<u8>,
    pub messages: Vec<u8>,
    pub certificates: Vec<u8>,
    pub accumulator: u32,
    pub terms: Vec<u8>,
    pub counter: u32,
    pub code: Vec<u8>,
}

impl RunInput {
    pub fn slices(&mut self) -> [&mut Vec<u8>; 6] {
        let RunInput { kinds, objects, messages, certificates, terms, code, .. } = self;
        [kinds, objects, messages, certificates, terms, code]
    }

    pub fn call(&mut self, engine: &Engine) -> Ran {
        (engine.run)(
            &self.kinds,
            &mut self.objects,
            &mut self.messages,
            &self.certificates,
            self.accumulator,
            &mut self.terms,
            self.counter,
            &self.code,
        )
    }
}

#[derive(Clone, Debug, PartialEq)]
pub struct RoleInput {
    pub rows: Vec<u8>,
    pub counts: Vec<u8>,
    pub kinds: Vec<u8>,
    pub objects: Vec<u8>,
    pub named: Vec<u8>,
    pub ends: Vec<u8>,
    pub code: Vec<u8>,
}

impl RoleInput {
    pub fn call(&mut self, engine: &RoleEngine) -> RoleCompiled {
        let RoleInput { rows, counts, kinds, objects, named, ends, code } = self;
        (engine.compile_role)(rows, counts, kinds, objects, named, ends, code)
    }

    /// What is lent to be read.
    pub fn slices(&mut self) -> [&mut Vec<u8>; 5] {
        [&mut self.rows, &mut self.counts, &mut self.kinds, &mut self.objects, &mut self.named]
    }
}

/// A field of the session record.
#[derive(Clone, Copy, Debug)]
pub enum Field {
    Used,
    Counter,
    Round,
    Message,
    Answer,
}

#[derive(Clone, Debug, PartialEq)]
pub struct RoundInput {
    pub session: Vec<u8>,
    pub rounds: u32,
    pub kinds: Vec<u8>,
    pub objects: Vec<u8>,
    pub messages: Vec<u8>,
    pub certificates: Vec<u8>,
    pub terms: Vec<u8>,
    pub code: Vec<u8>,
}

impl RoundInput {
    pub fn slices(&mut self) -> [&mut Vec<u8>; 7] {
        let RoundInput { session, kinds, objects, messages, certificates, terms, code, .. } = self;
        [session, kinds, objects, messages, certificates, terms, code]
    }

    pub fn call(&mut self, engine: &RoleEngine) -> Rounded {
        let RoundInput { session, rounds, kinds, objects, messages, certificates, terms, code } = self;
        (engine.round)(session, *rounds, kinds, objects, messages, certificates, terms, code)
    }

    pub fn take(&mut self, engine: &RoleEngine) -> Taken {
        (engine.take)(&mut self.session)
    }

    /// A field of a record that is whole.
    pub fn field(&self, field: Field) -> u32 {
        word(&self.session, field as usize)
    }

    pub fn put(&mut self, field: Field, value: u32) {
        put_word(&mut self.session, field as usize, value);
    }
}
