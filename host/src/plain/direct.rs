//! Straight from the pattern: what compile and run would refuse, and then figures 2 and 3 as a walk over its rows.
use super::bytes::{pair, put_pair, row};
use super::machine::{
    belong, certified, set, Stop, DIFFERS, NOT_OPENED, NOT_VERIFIED, NO_CERTIFICATE, OTHER_KIND, PART_COUNT,
};
use super::patterns::{self, Form, KEY_OF_KEY, OPPOSITE_KEY, PLAIN_KEY};
use super::stores::{self, Rows};
use super::terms::{self, Table, BYTE, ENCRYPTION, HASH, NONCE, PRIVATE, PUBLIC, SHARED, SIGNATURE, TUPLE};
use crate::limits::{CERTIFICATES, NAMED, NAMES, PATTERN_ROWS, TERM_ROWS, UNSET};
use crate::Ran;

#[allow(clippy::too_many_arguments)]
pub fn direct(
    create: u8,
    pattern: &[u8],
    kinds: &[u8],
    objects: &mut [u8],
    named: &mut [u8],
    certificates: &[u8],
    accumulator: u32,
    terms: &mut [u8],
    counter: u32,
) -> Ran {
    let table_whole = terms.len() % 8 == 0 && terms.len() <= 8 * TERM_ROWS;
    let used = if table_whole { terms::used(terms) } else { 0 };
    let answer = |number, place, reason| {
        let used = if number == 1 { 0 } else { used as u32 };
        Ran { number, place: place as u32, reason, used, counter, accumulator }
    };
    let whole = create <= 1
        && pattern.len() % 8 == 0
        && (1..=PATTERN_ROWS).contains(&(pattern.len() / 8))
        && kinds.len() == NAMED
        && objects.len() == 2 * NAMED
        && named.len() == 2 * NAMED;
    if !whole {
        return answer(1, 0, 0);
    }
    if let Some((number, place)) = pattern_refused(create == 1, pattern, kinds, objects, named) {
        return answer(number, place, 0);
    }
    let certificates_whole = certificates.len() % 8 == 0 && certificates.len() <= 8 * CERTIFICATES;
    if !certificates_whole || !table_whole || counter > NAMES {
        return answer(1, 0, 0);
    }
    if let Some(place) = terms::first_bad(terms, counter) {
        return answer(2, place, 0);
    }
    let rows = Rows(&terms[..8 * used]);
    if !rows.stores_fit(kinds, objects, named, certificates) || !rows.accumulator_fits(accumulator) {
        return answer(3, 0, 0);
    }
    let table = Table::new(terms, used);
    let mut walk = Walk {
        pattern,
        kinds,
        certificates,
        objects: std::array::from_fn(|v| pair(objects, v)),
        named: std::array::from_fn(|r| pair(named, r)),
        table,
        counter,
    };
    let root = pattern.len() / 8 - 1;
    let left = match create {
        1 => walk.created(root).map(u32::from),
        _ => walk.matched(root, accumulator as u16).map(|()| accumulator),
    };
    match left {
        Err((at, stop)) => {
            walk.table.give_back();
            let (number, reason) = stop.answer();
            answer(number, at, reason)
        }
        Ok(accumulator) => {
            (0..NAMED).for_each(|v| put_pair(objects, v, walk.objects[v]));
            (0..NAMED).for_each(|r| put_pair(named, r, walk.named[r]));
            Ran { number: 0, place: 0, reason: 0, used: walk.table.used() as u32, counter: walk.counter, accumulator }
        }
    }
}

/// Compile's 3 to 7: the number and the place.
fn pattern_refused(create: bool, pattern: &[u8], kinds: &[u8], objects: &[u8], named: &[u8]) -> Option<(u32, usize)> {
    if !stores::declared(kinds, objects) {
        return Some((3, 0));
    }
    if let Some(place) = patterns::first_bad(pattern) {
        return Some((4, place));
    }
    if let Some(place) = patterns::first_misfit(create, pattern, kinds) {
        return Some((5, place));
    }
    let known = |cells: &[u8]| std::array::from_fn(|v| pair(cells, v) != UNSET);
    let mut survey = Survey { pattern, kinds, objects: known(objects), named: known(named) };
    let root = pattern.len() / 8 - 1;
    let looked = if create { survey.created(root) } else { survey.matched(root) };
    looked.err()
}

fn creatable(kind: u8) -> bool {
    [NONCE, PRIVATE, SHARED].contains(&kind)
}

/// Which variables are set where the looks for 6 and 7 have come to.
struct Survey<'a> {
    pattern: &'a [u8],
    kinds: &'a [u8],
    objects: [bool; NAMED],
    named: [bool; NAMED],
}

type Looked = Result<(), (u32, usize)>;

fn written(at: usize, cell: &mut bool) -> Looked {
    if std::mem::replace(cell, true) {
        return Err((6, at));
    }
    Ok(())
}

fn read(at: usize, cell: bool) -> Looked {
    if cell {
        Ok(())
    } else {
        Err((7, at))
    }
}

impl Survey<'_> {
    fn form(&self, at: usize) -> Form {
        Form::unpack(row(self.pattern, at))
    }

    fn writes(&mut self, at: usize, v: u8) -> Looked {
        written(at, &mut self.objects[v as usize])
    }

    fn reads(&self, at: usize, v: u8) -> Looked {
        read(at, self.objects[v as usize])
    }

    fn reads_raw(&self, at: usize, r: u8) -> Looked {
        read(at, self.named[r as usize])
    }

    fn reads_or_creates(&mut self, at: usize, v: u8) -> Looked {
        self.objects[v as usize] |= creatable(self.kinds[v as usize]);
        self.reads(at, v)
    }

    fn matched(&mut self, at: usize) -> Looked {
        let Form { tag, v, f, x, y, r, n, children } = self.form(at);
        match tag {
            patterns::OBJECT => self.objects[v as usize] = true,
            patterns::RAW => self.named[r as usize] = true,
            patterns::CONSTANT => self.writes(at, v)?,
            patterns::OPPOSITE => {
                self.reads(at, y)?;
                self.writes(at, v)?;
            }
            patterns::KEY_OF => {
                self.writes(at, v)?;
                self.reads(at, y)?;
            }
            patterns::ENCRYPTED => {
                self.writes(at, v)?;
                self.reads(at, x)?;
                self.matched(children[0] as usize)?;
            }
            patterns::SIGNED => {
                self.writes(at, v)?;
                if f == PLAIN_KEY {
                    self.reads(at, x)?;
                } else {
                    self.reads(at, y)?;
                    self.writes(at, x)?;
                }
                self.reads_raw(at, r)?;
            }
            patterns::HASHED => {
                self.writes(at, v)?;
                self.reads_raw(at, r)?;
            }
            patterns::PARTS => {
                self.writes(at, v)?;
                children[..n].iter().try_for_each(|&child| self.matched(child as usize))?;
            }
            _ => {
                if self.named[r as usize] {
                    return Err((6, at));
                }
                self.matched(children[1] as usize)?;
                self.reads_raw(at, r)?;
                self.matched(children[0] as usize)?;
            }
        }
        Ok(())
    }

    fn created_key(&mut self, at: usize, f: u8, x: u8, y: u8) -> Looked {
        match f {
            PLAIN_KEY => self.reads_or_creates(at, x),
            OPPOSITE_KEY => {
                self.reads_or_creates(at, y)?;
                self.writes(at, x)
            }
            _ => {
                self.reads(at, y)?;
                self.writes(at, x)
            }
        }
    }

    fn created(&mut self, at: usize) -> Looked {
        let Form { tag, v, f, x, y, r, n, children } = self.form(at);
        match tag {
            patterns::OBJECT => self.reads_or_creates(at, v),
            patterns::RAW => self.reads_raw(at, r),
            patterns::CONSTANT => self.writes(at, v),
            patterns::OPPOSITE => self.created_key(at, OPPOSITE_KEY, v, y),
            patterns::KEY_OF => self.created_key(at, KEY_OF_KEY, v, y),
            patterns::ENCRYPTED => {
                self.created_key(at, f, x, y)?;
                self.created(children[0] as usize)?;
                self.writes(at, v)
            }
            patterns::SIGNED => {
                self.created_key(at, f, x, y)?;
                self.reads_raw(at, r)?;
                self.writes(at, v)
            }
            patterns::HASHED => {
                self.reads_raw(at, r)?;
                self.writes(at, v)
            }
            patterns::PARTS => {
                children[..n].iter().try_for_each(|&child| self.created(child as usize))?;
                self.writes(at, v)
            }
            _ => {
                self.created(children[0] as usize)?;
                written(at, &mut self.named[r as usize])?;
                self.created(children[1] as usize)
            }
        }
    }
}

/// What the rules work on.
struct Walk<'a> {
    pattern: &'a [u8],
    kinds: &'a [u8],
    certificates: &'a [u8],
    objects: [u16; NAMED],
    named: [u16; NAMED],
    table: Table<'a>,
    counter: u32,
}

/// The row at which the walk ends, and why.
type Walked<T> = Result<T, (usize, Stop)>;

/// An answer without a place, at a row.
fn at<T>(row: usize, answer: Result<T, Stop>) -> Walked<T> {
    answer.map_err(|stop| (row, stop))
}

impl Walk<'_> {
    fn form(&self, row_number: usize) -> Form {
        Form::unpack(row(self.pattern, row_number))
    }

    fn object(&self, v: u8) -> Result<u16, Stop> {
        set(self.objects[v as usize])
    }

    fn raw(&self, r: u8) -> Result<u16, Stop> {
        set(self.named[r as usize])
    }

    fn take(&mut self, term: u64) -> Result<u16, Stop> {
        self.table.take(term).ok_or(Stop::Room)
    }

    /// v.decode(m)
    fn decode(&mut self, v: u8, message: u16) -> Result<u16, Stop> {
        let message = set(message)?;
        if terms::tag(self.table.row(message)) != self.kinds[v as usize] {
            return Err(OTHER_KIND);
        }
        self.objects[v as usize] = message;
        Ok(message)
    }

    fn opposite(&mut self, public: u8, private: u16) -> Result<u16, Stop> {
        let number = terms::number(self.table.row(private));
        self.objects[public as usize] = self.take(terms::atom(PUBLIC, number))?;
        Ok(self.objects[public as usize])
    }

    fn key_of(&mut self, agent: u8) -> Result<u16, Stop> {
        certified(self.certificates, self.object(agent)?).ok_or(NO_CERTIFICATE)
    }

    fn certified_key(&mut self, key: u8, agent: u8) -> Result<u16, Stop> {
        let found = self.key_of(agent)?;
        self.decode(key, found)
    }

    fn hash(&mut self, r: u8) -> Result<u16, Stop> {
        let body = self.raw(r)?;
        self.take(terms::compound(HASH, 0, &[body]))
    }

    fn matched(&mut self, row: usize, message: u16) -> Walked<()> {
        let form = self.form(row);
        match form.tag {
            patterns::ENCRYPTED => {
                let body = at(row, self.opened(&form, message))?;
                self.matched(form.children[0] as usize, body)
            }
            patterns::PARTS => {
                let tuple = at(row, self.parts(&form, message))?;
                let parts = form.children[..form.n].iter().enumerate();
                parts
                    .map(|(i, &child)| (child as usize, terms::part(tuple, i)))
                    .try_for_each(|(child, part)| self.matched(child, part))
            }
            patterns::LET => {
                self.matched(form.children[1] as usize, message)?;
                let bound = at(row, self.raw(form.r))?;
                self.matched(form.children[0] as usize, bound)
            }
            _ => at(row, self.matched_leaf(&form, message)),
        }
    }

    fn opened(&mut self, form: &Form, message: u16) -> Result<u16, Stop> {
        let sealed = self.decode(form.v, message)?;
        let key = self.table.row(self.object(form.x)?);
        let sealed = self.table.row(sealed);
        if terms::tag(sealed) != ENCRYPTION || !belong(self.table.row(terms::part(sealed, 0)), key) {
            return Err(NOT_OPENED);
        }
        Ok(terms::part(sealed, 1))
    }

    fn parts(&mut self, form: &Form, message: u16) -> Result<u64, Stop> {
        let at = self.decode(form.v, message)?;
        let tuple = self.table.row(at);
        if terms::count(tuple) != form.n {
            return Err(PART_COUNT);
        }
        Ok(tuple)
    }

    fn matched_leaf(&mut self, form: &Form, message: u16) -> Result<(), Stop> {
        let found = match form.tag {
            patterns::OBJECT if self.objects[form.v as usize] == UNSET => {
                return self.decode(form.v, message).map(drop)
            }
            patterns::OBJECT => self.objects[form.v as usize],
            patterns::RAW if self.named[form.r as usize] == UNSET => {
                self.named[form.r as usize] = set(message)?;
                return Ok(());
            }
            patterns::RAW => self.named[form.r as usize],
            patterns::CONSTANT => {
                set(message)?;
                self.objects[form.v as usize] = self.take(terms::atom(BYTE, form.x as u64))?;
                self.objects[form.v as usize]
            }
            patterns::OPPOSITE => {
                set(message)?;
                let private = self.object(form.y)?;
                self.opposite(form.v, private)?
            }
            patterns::KEY_OF => {
                self.decode(form.v, message)?;
                self.key_of(form.y)?
            }
            patterns::SIGNED => return self.verified(form, message),
            _ => {
                self.decode(form.v, message)?;
                self.hash(form.r)?
            }
        };
        if found != set(message)? {
            return Err(DIFFERS);
        }
        Ok(())
    }

    fn verified(&mut self, form: &Form, message: u16) -> Result<(), Stop> {
        let signed = self.decode(form.v, message)?;
        let key = match form.f {
            PLAIN_KEY => self.object(form.x)?,
            OPPOSITE_KEY => {
                let private = self.object(form.y)?;
                self.opposite(form.x, private)?
            }
            _ => self.certified_key(form.x, form.y)?,
        };
        let body = self.raw(form.r)?;
        let signed = self.table.row(signed);
        let own = terms::tag(signed) == SIGNATURE && terms::part(signed, 1) == body;
        if !own || !belong(self.table.row(key), self.table.row(terms::part(signed, 0))) {
            return Err(NOT_VERIFIED);
        }
        Ok(())
    }

    /// A variable's value; one that has none and can be created is. The counter is looked at before the row.
    fn value(&mut self, v: u8) -> Result<u16, Stop> {
        let kind = self.kinds[v as usize];
        if self.objects[v as usize] == UNSET && creatable(kind) {
            if self.counter == NAMES {
                return Err(Stop::Room);
            }
            self.objects[v as usize] = self.take(terms::atom(kind, self.counter as u64))?;
            self.counter += 1;
        }
        self.object(v)
    }

    fn key(&mut self, f: u8, x: u8, y: u8) -> Result<u16, Stop> {
        match f {
            PLAIN_KEY => self.value(x),
            OPPOSITE_KEY => {
                let private = self.value(y)?;
                self.opposite(x, private)
            }
            _ => self.certified_key(x, y),
        }
    }

    fn keep(&mut self, v: u8, term: u64) -> Result<u16, Stop> {
        let made = self.take(term)?;
        self.decode(v, made)
    }

    fn created(&mut self, row: usize) -> Walked<u16> {
        let form = self.form(row);
        let Form { tag, v, f, x, y, r, n, children } = form;
        match tag {
            patterns::OBJECT => at(row, self.value(v)),
            patterns::RAW => at(row, self.raw(r)),
            patterns::CONSTANT => at(row, self.keep(v, terms::atom(BYTE, x as u64))),
            patterns::OPPOSITE => at(row, self.key(OPPOSITE_KEY, v, y)),
            patterns::KEY_OF => at(row, self.key(KEY_OF_KEY, v, y)),
            patterns::ENCRYPTED => {
                let key = at(row, self.key(f, x, y))?;
                let body = self.created(children[0] as usize)?;
                at(row, self.keep(v, terms::compound(ENCRYPTION, 0, &[key, body])))
            }
            patterns::SIGNED => {
                let key = at(row, self.key(f, x, y))?;
                let body = at(row, self.raw(r))?;
                at(row, self.keep(v, terms::compound(SIGNATURE, 0, &[key, body])))
            }
            patterns::HASHED => {
                let made = at(row, self.hash(r))?;
                at(row, self.decode(v, made))
            }
            patterns::PARTS => {
                let mut parts = [0; 4];
                for (part, &child) in parts.iter_mut().zip(&children[..n]) {
                    *part = self.created(child as usize)?;
                }
                at(row, self.keep(v, terms::compound(TUPLE, n, &parts[..n])))
            }
            _ => {
                self.named[r as usize] = self.created(children[0] as usize)?;
                self.created(children[1] as usize)
            }
        }
    }
}
