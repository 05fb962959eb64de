//! Both compilers: figures 5 and 6 with document 01's amendments.
use super::bytes::{pair, row};
use super::code::{self, Word};
use super::patterns::{self, Form, KEY_OF_KEY, OPPOSITE_KEY, PLAIN_KEY};
use super::stores;
use super::terms::{NONCE, PRIVATE, SHARED};
use crate::limits::{CODE_WORDS, NAMED, PATTERN_ROWS, UNSET};
use crate::Compiled;

pub fn compile(create: u8, pattern: &[u8], kinds: &[u8], objects: &[u8], named: &[u8], code: &mut [u8]) -> Compiled {
    let refused = |number, place| Compiled { number, place: place as u32 };
    let whole = create <= 1
        && pattern.len() % 8 == 0
        && (1..=PATTERN_ROWS).contains(&(pattern.len() / 8))
        && kinds.len() == NAMED
        && objects.len() == 2 * NAMED
        && named.len() == 2 * NAMED
        && code.len() % 4 == 0;
    if !whole {
        return refused(1, 0);
    }
    if !stores::declared(kinds, objects) {
        return refused(3, 0);
    }
    let mut compiler = Compiler::new(kinds, objects, named);
    if let Err(refusal) = compiler.walk(create == 1, pattern) {
        return refusal;
    }
    let words = compiler.words();
    if code.len() / 4 < words.len() {
        return refused(8, words.len());
    }
    for (bytes, word) in code.chunks_exact_mut(4).zip(words) {
        bytes.copy_from_slice(&word.to_be_bytes());
    }
    refused(0, words.len())
}

type Walked = Result<(), Compiled>;

/// What is known where the next word is emitted.
pub struct Compiler<'a> {
    pattern: &'a [u8],
    kinds: &'a [u8],
    /// One bit a variable, as has the next.
    objects: u64,
    named: u64,
    /// The next scratch number not taken.
    scratch: u8,
    code: [u32; CODE_WORDS],
    words: usize,
}

fn set_cells(cells: &[u8]) -> u64 {
    (0..NAMED).fold(0, |set, v| set | ((pair(cells, v) != UNSET) as u64) << v)
}

fn written_while_set(at: usize) -> Walked {
    Err(Compiled { number: 6, place: at as u32 })
}

fn read_while_unset(at: usize) -> Walked {
    Err(Compiled { number: 7, place: at as u32 })
}

impl<'a> Compiler<'a> {
    /// Knows the variables whose cells are set.
    #[inline(always)]
    pub fn new(kinds: &'a [u8], objects: &[u8], named: &[u8]) -> Compiler<'a> {
        let (objects, named) = (set_cells(objects), set_cells(named));
        Compiler { pattern: &[], kinds, objects, named, scratch: NAMED as u8, code: [0; CODE_WORDS], words: 0 }
    }

    /// Compiles a pattern for the variables that are known, and then knows those that its code sets as well. Refused with
    /// 4, 5, and then 6 and 7 in the order of the words.
    #[inline(always)]
    pub fn walk(&mut self, create: bool, pattern: &'a [u8]) -> Walked {
        let refused = |number, place| Err(Compiled { number, place: place as u32 });
        if let Some(place) = patterns::first_bad(pattern) {
            return refused(4, place);
        }
        if let Some(place) = patterns::first_misfit(create, pattern, self.kinds) {
            return refused(5, place);
        }
        (self.pattern, self.scratch, self.words) = (pattern, NAMED as u8, 0);
        let root = pattern.len() / 8 - 1;
        if create {
            self.created(root)
        } else {
            self.matched(root)
        }
    }

    /// The words of the last pattern.
    pub fn words(&self) -> &[u32] {
        &self.code[..self.words]
    }

    fn form(&self, at: usize) -> Form {
        Form::unpack(row(self.pattern, at))
    }

    fn has_object(&self, v: u8) -> bool {
        self.objects >> v & 1 == 1
    }

    /// Scratch always passes: its numbers are taken once and written before they are read.
    fn has_message(&self, r: u8) -> bool {
        r as usize >= NAMED || self.named >> r & 1 == 1
    }

    fn take_scratch(&mut self, n: usize) -> u8 {
        let first = self.scratch;
        self.scratch += n as u8;
        first
    }

    fn write_object(&mut self, at: usize, v: u8) -> Walked {
        if self.has_object(v) {
            return written_while_set(at);
        }
        self.objects |= 1 << v;
        Ok(())
    }

    fn write_message(&mut self, at: usize, r: u8) -> Walked {
        if r as usize >= NAMED {
            return Ok(());
        }
        if self.has_message(r) {
            return written_while_set(at);
        }
        self.named |= 1 << r;
        Ok(())
    }

    /// Adds a word for row `at`, after its reads and then its write were looked at.
    #[inline(always)]
    fn emit(&mut self, at: usize, operation: u8, a: u8, b: u8, n: u8) -> Walked {
        let readable = match operation {
            code::LOAD | code::MATCH => self.has_message(a),
            code::ENCODE | code::ANALYZE_TUPLE | code::OPPOSITE => self.has_object(a),
            code::ENCRYPT | code::DECRYPT | code::SIGN => self.has_object(a),
            code::VERIFY => self.has_object(a) && self.has_message(b),
            _ => true,
        };
        if !readable {
            return read_while_unset(at);
        }
        match operation {
            code::STORE => self.write_message(at, a)?,
            code::STORE_CONST | code::DECODE | code::CREATE | code::CREATE_TUPLE => self.write_object(at, a)?,
            code::OPPOSITE => self.write_object(at, b)?,
            _ => {}
        }
        self.code[self.words] = Word { operation, a, b, n }.pack();
        self.words += 1;
        Ok(())
    }

    /// Compares the message put aside in `scratch` with the value of `v`.
    fn same_as(&mut self, at: usize, v: u8, scratch: u8) -> Walked {
        self.emit(at, code::ENCODE, v, 0, 0)?;
        self.emit(at, code::MATCH, scratch, 0, 0)
    }

    fn put_aside(&mut self, at: usize) -> Result<u8, Compiled> {
        let scratch = self.take_scratch(1);
        self.emit(at, code::STORE, scratch, 0, 0)?;
        Ok(scratch)
    }

    fn matched(&mut self, at: usize) -> Walked {
        let form = self.form(at);
        let Form { v, x, y, r, .. } = form;
        match form.tag {
            patterns::OBJECT if self.has_object(v) => {
                let scratch = self.put_aside(at)?;
                self.same_as(at, v, scratch)
            }
            patterns::OBJECT => self.emit(at, code::DECODE, v, 0, 0),
            patterns::RAW if self.has_message(r) => self.emit(at, code::MATCH, r, 0, 0),
            patterns::RAW => self.emit(at, code::STORE, r, 0, 0),
            patterns::CONSTANT => {
                let scratch = self.put_aside(at)?;
                self.emit(at, code::STORE_CONST, v, x, 0)?;
                self.same_as(at, v, scratch)
            }
            patterns::OPPOSITE => {
                let scratch = self.put_aside(at)?;
                self.emit(at, code::OPPOSITE, y, v, 0)?;
                self.same_as(at, v, scratch)
            }
            patterns::KEY_OF => {
                self.emit(at, code::DECODE, v, 0, 0)?;
                let scratch = self.put_aside(at)?;
                self.emit(at, code::ENCODE, y, 0, 0)?;
                self.emit(at, code::KEY_OF, 0, 0, 0)?;
                self.emit(at, code::MATCH, scratch, 0, 0)
            }
            patterns::ENCRYPTED => {
                self.emit(at, code::DECODE, v, 0, 0)?;
                self.emit(at, code::DECRYPT, x, 0, 0)?;
                self.matched(form.children[0] as usize)
            }
            patterns::SIGNED => self.matched_signature(at, form),
            patterns::HASHED => {
                self.emit(at, code::DECODE, v, 0, 0)?;
                let scratch = self.put_aside(at)?;
                self.emit(at, code::LOAD, r, 0, 0)?;
                self.emit(at, code::HASHING, v, 0, 0)?;
                self.emit(at, code::MATCH, scratch, 0, 0)
            }
            patterns::PARTS => self.matched_tuple(at, form),
            _ => self.matched_let(at, form),
        }
    }

    fn matched_signature(&mut self, at: usize, form: Form) -> Walked {
        let Form { v, x, y, r, .. } = form;
        self.emit(at, code::DECODE, v, 0, 0)?;
        match form.f {
            PLAIN_KEY => {}
            OPPOSITE_KEY => self.emit(at, code::OPPOSITE, y, x, 0)?,
            _ => {
                let scratch = self.put_aside(at)?;
                self.key_of(at, x, y)?;
                self.emit(at, code::LOAD, scratch, 0, 0)?;
            }
        }
        self.emit(at, code::VERIFY, x, r, 0)
    }

    fn matched_tuple(&mut self, at: usize, form: Form) -> Walked {
        self.emit(at, code::DECODE, form.v, 0, 0)?;
        let first = self.take_scratch(form.n);
        self.emit(at, code::ANALYZE_TUPLE, form.v, first, form.n as u8)?;
        for (i, &child) in form.children[..form.n].iter().enumerate() {
            self.emit(at, code::LOAD, first + i as u8, 0, 0)?;
            self.matched(child as usize)?;
        }
        Ok(())
    }

    /// The second part goes first, and sets the name for the first part.
    fn matched_let(&mut self, at: usize, form: Form) -> Walked {
        if self.has_message(form.r) {
            return written_while_set(at);
        }
        self.matched(form.children[1] as usize)?;
        self.emit(at, code::LOAD, form.r, 0, 0)?;
        self.matched(form.children[0] as usize)
    }

    /// The key `k` of the agent `a`, by certificate.
    fn key_of(&mut self, at: usize, k: u8, a: u8) -> Walked {
        self.emit(at, code::ENCODE, a, 0, 0)?;
        self.emit(at, code::KEY_OF, 0, 0, 0)?;
        self.emit(at, code::DECODE, k, 0, 0)
    }

    /// CREATE for an unset variable of a kind that can be created.
    fn create_where_unset(&mut self, at: usize, v: u8) -> Walked {
        if !self.has_object(v) && [NONCE, PRIVATE, SHARED].contains(&self.kinds[v as usize]) {
            self.emit(at, code::CREATE, v, 0, 0)?;
        }
        Ok(())
    }

    fn created(&mut self, at: usize) -> Walked {
        let form = self.form(at);
        let Form { v, x, y, r, .. } = form;
        match form.tag {
            patterns::OBJECT => {
                self.create_where_unset(at, v)?;
                self.emit(at, code::ENCODE, v, 0, 0)
            }
            patterns::RAW => self.emit(at, code::LOAD, r, 0, 0),
            patterns::CONSTANT => {
                self.emit(at, code::STORE_CONST, v, x, 0)?;
                self.emit(at, code::ENCODE, v, 0, 0)
            }
            patterns::OPPOSITE => {
                self.created_key(at, OPPOSITE_KEY, v, y)?;
                self.emit(at, code::ENCODE, v, 0, 0)
            }
            patterns::KEY_OF => self.created_key(at, KEY_OF_KEY, v, y),
            patterns::ENCRYPTED => {
                self.created_key(at, form.f, x, y)?;
                self.created(form.children[0] as usize)?;
                self.emit(at, code::ENCRYPT, x, 0, 0)?;
                self.emit(at, code::DECODE, v, 0, 0)
            }
            patterns::SIGNED => {
                self.created_key(at, form.f, x, y)?;
                self.emit(at, code::LOAD, r, 0, 0)?;
                self.emit(at, code::SIGN, x, 0, 0)?;
                self.emit(at, code::DECODE, v, 0, 0)
            }
            patterns::HASHED => {
                self.emit(at, code::LOAD, r, 0, 0)?;
                self.emit(at, code::HASHING, v, 0, 0)?;
                self.emit(at, code::DECODE, v, 0, 0)
            }
            patterns::PARTS => self.created_tuple(at, form),
            _ => {
                self.created(form.children[0] as usize)?;
                self.emit(at, code::STORE, r, 0, 0)?;
                self.created(form.children[1] as usize)
            }
        }
    }

    /// A plain key has to be there on entry, before the parts; the others are made here.
    fn created_key(&mut self, at: usize, f: u8, k: u8, from: u8) -> Walked {
        match f {
            PLAIN_KEY => {
                self.create_where_unset(at, k)?;
                if self.has_object(k) {
                    Ok(())
                } else {
                    read_while_unset(at)
                }
            }
            OPPOSITE_KEY => {
                self.create_where_unset(at, from)?;
                self.emit(at, code::OPPOSITE, from, k, 0)
            }
            _ => self.key_of(at, k, from),
        }
    }

    fn created_tuple(&mut self, at: usize, form: Form) -> Walked {
        let first = self.take_scratch(form.n);
        for (i, &child) in form.children[..form.n].iter().enumerate() {
            self.created(child as usize)?;
            self.emit(at, code::STORE, first + i as u8, 0, 0)?;
        }
        self.emit(at, code::CREATE_TUPLE, form.v, first, form.n as u8)?;
        self.emit(at, code::ENCODE, form.v, 0, 0)
    }
}
