//! What a walk straight from the pattern is lent, and the same by compile and then run.
use crate::case::{pairs, Case};
use crate::input::{CompileInput, RunInput};
use crate::limits::{CODE_WORDS, MESSAGES, NAMED, UNSET};
use crate::{Engine, Ran};

/// Direction, pattern, kinds, object cells, named cells, certificates, accumulator, terms, counter.
pub type Direct = fn(u8, &[u8], &[u8], &mut [u8], &mut [u8], &[u8], u32, &mut [u8], u32) -> Ran;

#[derive(Clone, Debug, PartialEq)]
pub struct DirectInput {
    pub create: u8,
    pub pattern: Vec<u8>,
    pub kinds: Vec<u8>,
    pub objects: Vec<u8>,
    pub named: Vec<u8>,
    pub certificates: Vec<u8>,
    pub accumulator: u32,
    pub terms: Vec<u8>,
    pub counter: u32,
}

impl DirectInput {
    pub fn slices(&mut self) -> [&mut Vec<u8>; 6] {
        let DirectInput { pattern, kinds, objects, named, certificates, terms, .. } = self;
        [pattern, kinds, objects, named, certificates, terms]
    }

    pub fn call(&mut self, direct: Direct) -> Ran {
        direct(
            self.create,
            &self.pattern,
            &self.kinds,
            &mut self.objects,
            &mut self.named,
            &self.certificates,
            self.accumulator,
            &mut self.terms,
            self.counter,
        )
    }

    /// Compile and then run, with scratch unset, in the engine's terms: done has place 0 and a match leaves the accumulator.
    /// Stuck and out of room keep the word for place, where the engine has the row.
    pub fn by_compile_and_run(&mut self, engine: &Engine) -> Ran {
        let unrun =
            Ran { number: 0, place: 0, reason: 0, used: 0, counter: self.counter, accumulator: self.accumulator };
        let code = match self.lend_compile().words(engine) {
            Err(refused) => return Ran { number: refused.number, place: refused.place, ..unrun },
            Ok(code) => code,
        };
        let mut run = self.lend_run(code);
        let mut ran = run.call(engine);
        if ran.number == 0 {
            ran.place = 0;
            if self.create == 0 {
                ran.accumulator = self.accumulator;
            }
        }
        run.messages.truncate(self.named.len());
        (self.objects, self.named, self.terms) = (run.objects, run.messages, run.terms);
        ran
    }

    pub fn lend_compile(&self) -> CompileInput {
        CompileInput {
            create: self.create,
            pattern: self.pattern.clone(),
            kinds: self.kinds.clone(),
            objects: self.objects.clone(),
            named: self.named.clone(),
            code: vec![0; 4 * CODE_WORDS],
        }
    }

    pub fn lend_run(&self, code: Vec<u8>) -> RunInput {
        RunInput {
            kinds: self.kinds.clone(),
            objects: self.objects.clone(),
            messages: [self.named.clone(), pairs(&[UNSET; MESSAGES - NAMED])].concat(),
            certificates: self.certificates.clone(),
            accumulator: self.accumulator,
            terms: self.terms.clone(),
            counter: self.counter,
            code,
        }
    }
}

impl Case {
    /// The engine with a table of `rows` rows, or more where the case has more.
    pub fn lend_direct(&self, rows: usize) -> DirectInput {
        let CompileInput { create, pattern, named, .. } = self.lend_compile(0);
        let RunInput { kinds, objects, certificates, accumulator, terms, counter, .. } = self.lend_run(rows, &[]);
        DirectInput { create, pattern, kinds, objects, named, certificates, accumulator, terms, counter }
    }
}
