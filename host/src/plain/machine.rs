//! The machine: figure 4, one instruction after another.
use super::bytes::{pair, put_pair, row, word};
use super::code::{self, Word};
use super::stores::{self, Rows};
use super::terms::{self, Check, Table, BYTE, ENCRYPTION, HASH, PRIVATE, PUBLIC, SHARED, SIGNATURE, TUPLE};
use crate::limits::{CERTIFICATES, CODE_WORDS, MESSAGES, NAMED, NAMES, TERM_ROWS, UNSET};
use crate::Ran;

/// Why a run stops before its end.
pub enum Stop {
    Stuck(u32),
    Room,
}

impl Stop {
    /// Its number and its reason.
    pub fn answer(self) -> (u32, u32) {
        match self {
            Stop::Stuck(reason) => (10, reason),
            Stop::Room => (11, 0),
        }
    }
}

const READ_UNSET: Stop = Stop::Stuck(1);
pub const OTHER_KIND: Stop = Stop::Stuck(2);
pub const DIFFERS: Stop = Stop::Stuck(3);
pub const PART_COUNT: Stop = Stop::Stuck(4);
pub const NO_CERTIFICATE: Stop = Stop::Stuck(5);
pub const NOT_OPENED: Stop = Stop::Stuck(6);
pub const NOT_VERIFIED: Stop = Stop::Stuck(7);

#[allow(clippy::too_many_arguments)]
pub fn run(
    kinds: &[u8],
    objects: &mut [u8],
    messages: &mut [u8],
    certificates: &[u8],
    accumulator: u32,
    terms: &mut [u8],
    counter: u32,
    code: &[u8],
) -> Ran {
    run_by(terms::first_bad, kinds, objects, messages, certificates, accumulator, terms, counter, code)
}

/// The same with an index for the check of the table.
#[allow(clippy::too_many_arguments)]
pub fn run_hashed(
    kinds: &[u8],
    objects: &mut [u8],
    messages: &mut [u8],
    certificates: &[u8],
    accumulator: u32,
    terms: &mut [u8],
    counter: u32,
    code: &[u8],
) -> Ran {
    run_by(terms::first_bad_hashed, kinds, objects, messages, certificates, accumulator, terms, counter, code)
}

#[allow(clippy::too_many_arguments)]
fn run_by(
    check: Check,
    kinds: &[u8],
    objects: &mut [u8],
    messages: &mut [u8],
    certificates: &[u8],
    accumulator: u32,
    terms: &mut [u8],
    counter: u32,
    code: &[u8],
) -> Ran {
    let answer = |number, place, reason, used: usize| {
        let (place, used) = (place as u32, used as u32);
        Ran { number, place, reason, used, counter, accumulator }
    };
    let within = lengths_fit(kinds, objects, messages, certificates, terms) && counter <= NAMES;
    if !within || code.len() % 4 != 0 || code.len() > 4 * CODE_WORDS {
        return answer(1, 0, 0, 0);
    }
    let used = terms::used(terms);
    if let Some(place) = check(terms, counter) {
        return answer(2, place, 0, used);
    }
    let rows = Rows(&terms[..8 * used]);
    if !rows.stores_fit(kinds, objects, messages, certificates) || !rows.accumulator_fits(accumulator) {
        return answer(3, 0, 0, used);
    }
    if let Some(place) = code::first_bad(code, kinds) {
        return answer(9, place, 0, used);
    }
    let mut machine =
        Machine::new(kinds, objects, messages, certificates, accumulator as u16, Table::new(terms, used), counter);
    if let Err((place, stop)) = machine.steps(code) {
        let (number, reason) = stop.answer();
        return answer(number, place, reason, used);
    }
    machine.leave(objects, messages);
    Ran {
        number: 0,
        place: (code.len() / 4) as u32,
        reason: 0,
        used: machine.used(),
        counter: machine.counter,
        accumulator: machine.accumulator as u32,
    }
}

/// The lengths of all that is lent to a run beside its code.
pub fn lengths_fit(kinds: &[u8], objects: &[u8], messages: &[u8], certificates: &[u8], terms: &[u8]) -> bool {
    kinds.len() == NAMED
        && objects.len() == 2 * NAMED
        && messages.len() == 2 * MESSAGES
        && certificates.len() % 8 == 0
        && certificates.len() <= 8 * CERTIFICATES
        && terms.len() % 8 == 0
        && terms.len() <= 8 * TERM_ROWS
}

pub struct Machine<'a> {
    kinds: &'a [u8],
    objects: [u16; NAMED],
    messages: [u16; MESSAGES],
    certificates: &'a [u8],
    pub accumulator: u16,
    table: Table<'a>,
    pub counter: u32,
}

impl<'a> Machine<'a> {
    pub fn new(
        kinds: &'a [u8],
        objects: &[u8],
        messages: &[u8],
        certificates: &'a [u8],
        accumulator: u16,
        table: Table<'a>,
        counter: u32,
    ) -> Machine<'a> {
        let objects = std::array::from_fn(|v| pair(objects, v));
        let messages = std::array::from_fn(|r| pair(messages, r));
        Machine { kinds, objects, messages, certificates, accumulator, table, counter }
    }

    /// Word after word; where one stops, all that the run took is given back and the word's place is told.
    pub fn steps(&mut self, code: &[u8]) -> Result<(), (usize, Stop)> {
        for place in 0..code.len() / 4 {
            if let Err(stop) = self.step(Word::unpack(word(code, place))) {
                self.table.give_back();
                return Err((place, stop));
            }
        }
        Ok(())
    }

    pub fn used(&self) -> u32 {
        self.table.used() as u32
    }

    /// Writes the cells back; the table is in place.
    pub fn leave(&self, objects: &mut [u8], messages: &mut [u8]) {
        for (v, &cell) in self.objects.iter().enumerate() {
            put_pair(objects, v, cell);
        }
        for (r, &cell) in self.messages.iter().enumerate() {
            put_pair(messages, r, cell);
        }
    }

    fn step(&mut self, word: Word) -> Result<(), Stop> {
        let Word { operation, a, b, n } = word;
        let (v, w) = (a as usize, b as usize);
        match operation {
            code::LOAD => self.accumulator = self.message(a)?,
            code::STORE => self.messages[v] = self.held()?,
            code::STORE_CONST => self.objects[v] = self.take(terms::atom(BYTE, b as u64))?,
            code::DECODE => self.objects[v] = self.decoded(a)?,
            code::ENCODE => self.accumulator = self.object(a)?,
            code::CREATE => self.objects[v] = self.fresh(a)?,
            code::ANALYZE_TUPLE => self.analyze(a, w, n as usize)?,
            code::CREATE_TUPLE => self.objects[v] = self.tuple(w, n as usize)?,
            code::OPPOSITE => {
                let private = self.table.row(self.object(a)?);
                self.objects[w] = self.take(terms::atom(PUBLIC, terms::number(private)))?;
            }
            code::KEY_OF => self.accumulator = self.certified()?,
            code::MATCH => self.compare(a)?,
            code::ENCRYPT => self.accumulator = self.under(ENCRYPTION, a)?,
            code::DECRYPT => self.accumulator = self.opened(a)?,
            code::SIGN => self.accumulator = self.under(SIGNATURE, a)?,
            code::VERIFY => self.verify(a, b)?,
            _ => {
                let body = self.held()?;
                self.accumulator = self.take(terms::compound(HASH, 0, &[body]))?;
            }
        }
        Ok(())
    }

    fn held(&self) -> Result<u16, Stop> {
        set(self.accumulator)
    }

    fn object(&self, v: u8) -> Result<u16, Stop> {
        set(self.objects[v as usize])
    }

    fn message(&self, r: u8) -> Result<u16, Stop> {
        set(self.messages[r as usize])
    }

    fn take(&mut self, term: u64) -> Result<u16, Stop> {
        self.table.take(term).ok_or(Stop::Room)
    }

    fn decoded(&self, v: u8) -> Result<u16, Stop> {
        let held = self.held()?;
        if terms::tag(self.table.row(held)) != self.kinds[v as usize] {
            return Err(OTHER_KIND);
        }
        Ok(held)
    }

    /// A name that was never taken; the counter is looked at before the row.
    fn fresh(&mut self, v: u8) -> Result<u16, Stop> {
        if self.counter == NAMES {
            return Err(Stop::Room);
        }
        let at = self.take(terms::atom(self.kinds[v as usize], self.counter as u64))?;
        self.counter += 1;
        Ok(at)
    }

    fn analyze(&mut self, t: u8, first: usize, n: usize) -> Result<(), Stop> {
        let tuple = self.table.row(self.object(t)?);
        if terms::count(tuple) != n {
            return Err(PART_COUNT);
        }
        for i in 0..n {
            self.messages[first + i] = terms::part(tuple, i);
        }
        Ok(())
    }

    fn tuple(&mut self, first: usize, n: usize) -> Result<u16, Stop> {
        let mut parts = [0; 4];
        for (i, part) in parts[..n].iter_mut().enumerate() {
            *part = set(self.messages[first + i])?;
        }
        self.take(terms::compound(TUPLE, n, &parts[..n]))
    }

    fn certified(&self) -> Result<u16, Stop> {
        certified(self.certificates, self.held()?).ok_or(NO_CERTIFICATE)
    }

    fn compare(&self, r: u8) -> Result<(), Stop> {
        if self.held()? != self.message(r)? {
            return Err(DIFFERS);
        }
        Ok(())
    }

    /// The accumulator encrypted or signed.
    fn under(&mut self, tag: u8, v: u8) -> Result<u16, Stop> {
        let parts = [self.object(v)?, self.held()?];
        self.take(terms::compound(tag, 0, &parts))
    }

    fn opened(&self, v: u8) -> Result<u16, Stop> {
        let key = self.table.row(self.object(v)?);
        let sealed = self.table.row(self.held()?);
        if terms::tag(sealed) != ENCRYPTION || !belong(self.table.row(terms::part(sealed, 0)), key) {
            return Err(NOT_OPENED);
        }
        Ok(terms::part(sealed, 1))
    }

    fn verify(&self, v: u8, r: u8) -> Result<(), Stop> {
        let key = self.table.row(self.object(v)?);
        let body = self.message(r)?;
        let signed = self.table.row(self.held()?);
        let own = terms::tag(signed) == SIGNATURE && terms::part(signed, 1) == body;
        if !own || !belong(key, self.table.row(terms::part(signed, 0))) {
            return Err(NOT_VERIFIED);
        }
        Ok(())
    }
}

pub fn set(cell: u16) -> Result<u16, Stop> {
    if cell == UNSET {
        return Err(READ_UNSET);
    }
    Ok(cell)
}

/// The key of an agent's certificate.
pub fn certified(certificates: &[u8], agent: u16) -> Option<u16> {
    let certificates = (0..certificates.len() / 8).map(|i| row(certificates, i));
    let mut own = certificates.filter(|&certificate| stores::agent(certificate) == agent);
    own.next().map(stores::key)
}

/// Whether two keys belong together: a public and its private one, or a shared one and itself.
pub fn belong(public: u64, private: u64) -> bool {
    let tags = (terms::tag(public), terms::tag(private));
    (tags == (PUBLIC, PRIVATE) || tags == (SHARED, SHARED)) && terms::number(public) == terms::number(private)
}
