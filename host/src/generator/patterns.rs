//! Patterns for given stores: for matching they describe a term, for creating they use what is set and make the rest.
//! Now and then the author slips and takes a variable that does not fit.
use super::random::Random;
use crate::case::figure1::{bound, constant, encrypted, hashed, key_of, object, opposite, raw, signed, tuple, Key};
use crate::case::Case;
use crate::limits::{NAMED, PATTERN_ROWS, UNSET};
use crate::plain::patterns::Form;
use crate::plain::terms::{
    atom, compound, count, number, part, tag, AGENT, BYTE, ENCRYPTION, HASH, NONCE, PRIVATE, PUBLIC, SHARED, SIGNATURE,
    TUPLE,
};

/// Gives the case a pattern for its direction.
pub fn write(random: &mut Random, case: &mut Case) {
    let size = random.one_of(&[1, 2, 4, 8, 12, 16, 24, 48, 72, PATTERN_ROWS]);
    let slips = random.one_of(&[16, 60, 250, 1000]);
    write_sized(random, case, size, slips);
}

/// Gives the case a pattern of at most `size` rows, by an author who slips once in about `slips` times.
pub fn write_sized(random: &mut Random, case: &mut Case, size: usize, slips: usize) {
    let mut author = Author {
        random,
        case,
        objects: case.objects,
        named: case.messages[..NAMED].try_into().unwrap(),
        rows: Vec::new(),
        slips,
    };
    let root = if case.create { author.creating(size) } else { author.matching(case.accumulator, size, None) };
    let rows = author.rows;
    case.pattern = in_any_order(random, &rows, root);
}

fn add(rows: &mut Vec<Form>, form: Form) -> u8 {
    rows.push(form);
    (rows.len() - 1) as u8
}

/// Shares `rows` rows out over `n` parts, each at least one.
fn shares(random: &mut Random, rows: usize, n: usize) -> Vec<usize> {
    let mut shares = vec![1; n];
    if n > 0 {
        for _ in n..rows {
            shares[random.below(n)] += 1;
        }
    }
    shares
}

/// A case whose pattern has `rows` rows: tuples of every width, names and one nonce that is in every cell.
pub fn write_large(random: &mut Random, create: bool, rows: usize) -> Case {
    let mut case = Case::new(create);
    case.counter = 1;
    case.kinds = [TUPLE; NAMED];
    case.declare(&[NONCE]);
    case.objects[0] = case.term(atom(NONCE, 0));
    case.messages[0] = case.objects[0];
    let mut tree = Tree { random, case: &mut case, rows: Vec::new(), names: 1, tuples: 1 };
    let (root, message) = tree.grow(rows);
    let rows = tree.rows;
    case.accumulator = message;
    case.pattern = in_any_order(random, &rows, root);
    case
}

/// A pattern that grows together with the term that it matches.
struct Tree<'a> {
    random: &'a mut Random,
    case: &'a mut Case,
    rows: Vec<Form>,
    names: u8,
    tuples: u8,
}

impl Tree<'_> {
    fn add(&mut self, form: Form) -> u8 {
        add(&mut self.rows, form)
    }

    /// Exactly `size` rows: the owner's number and the term's row.
    fn grow(&mut self, size: usize) -> (u8, u16) {
        match size {
            1 if self.random.one_in(2) => (self.add(object(0)), 0),
            1 => (self.add(raw(0)), 0),
            3 if self.random.one_in(2) && self.names < NAMED as u8 => (self.name(), 0),
            _ => self.tuple(size),
        }
    }

    /// let r = n0 in r, for a name not used before
    fn name(&mut self) -> u8 {
        let (first, second) = (self.add(object(0)), self.add(raw(self.names)));
        self.names += 1;
        self.add(bound(self.names - 1, first, second))
    }

    fn tuple(&mut self, size: usize) -> (u8, u16) {
        let n = if self.random.one_in(12) { 1 } else { 2 + self.random.below(3) }.min(size - 1);
        let shares = shares(self.random, size - 1, n);
        let t = self.tuples;
        self.tuples = (t + 1).min(NAMED as u8 - 1);
        let (parts, terms): (Vec<u8>, Vec<u16>) = shares.into_iter().map(|share| self.grow(share)).unzip();
        let term = compound(TUPLE, n, &terms);
        let known = self.case.terms.iter().position(|&row| row == term);
        let row = known.map_or_else(|| self.case.term(term), |at| at as u16);
        (self.add(tuple(t, &parts)), row)
    }
}

/// A term that a creating pattern will have made.
const MADE: u16 = UNSET - 1;

/// What is wanted of a variable's cell.
#[derive(Clone, Copy)]
enum Cell {
    Unset,
    Set,
    Holds(u16),
}

struct Author<'a> {
    random: &'a mut Random,
    case: &'a Case,
    objects: [u16; NAMED],
    named: [u16; NAMED],
    rows: Vec<Form>,
    slips: usize,
}

impl Author<'_> {
    fn add(&mut self, form: Form) -> u8 {
        add(&mut self.rows, form)
    }

    fn term(&self, row: u16) -> u64 {
        self.case.terms.get(row as usize).copied().unwrap_or(0)
    }

    /// A variable of one of the kinds whose cell is as wanted, or after a slip any.
    fn object(&mut self, kinds: &[u8], cell: Cell) -> Option<u8> {
        if self.random.one_in(8 * self.slips) {
            return Some(self.random.below(NAMED) as u8);
        }
        let any_cell = self.random.one_in(self.slips);
        let fits = |&v: &u8| {
            let v = v as usize;
            kinds.contains(&self.case.kinds[v]) && (any_cell || fits(cell, self.objects[v]))
        };
        let fitting: Vec<u8> = (0..NAMED as u8).filter(fits).collect();
        self.random.pick(&fitting)
    }

    /// A raw variable whose cell is as wanted, or after a slip any.
    fn raw(&mut self, cell: Cell) -> Option<u8> {
        let any_cell = self.random.one_in(self.slips);
        let fitting: Vec<u8> = (0..NAMED as u8).filter(|&r| any_cell || fits(cell, self.named[r as usize])).collect();
        self.random.pick(&fitting)
    }

    fn set(&mut self, v: u8, term: u16) -> u8 {
        self.objects[v as usize] = term;
        v
    }
}

fn fits(wanted: Cell, cell: u16) -> bool {
    match wanted {
        Cell::Unset => cell == UNSET,
        Cell::Set => cell != UNSET,
        Cell::Holds(term) => cell == term,
    }
}

/// Matching.
impl Author<'_> {
    /// At most `size` rows that match `term`; somewhere in them the raw variable `wanted` is set.
    fn matching(&mut self, term: u16, size: usize, wanted: Option<u8>) -> u8 {
        let compound = match tag(self.term(term)) {
            _ if size >= 3 && self.random.one_in(if size > 8 { 3 } else { 6 }) => self.matching_let(term, size, wanted),
            TUPLE if !self.random.one_in(12) => self.matching_tuple(term, size, wanted),
            ENCRYPTION if size >= 2 && !self.random.one_in(12) => self.matching_encryption(term, size, wanted),
            _ => None,
        };
        if let Some(at) = compound {
            return at;
        }
        let leaf = match wanted {
            Some(r) => {
                self.named[r as usize] = term;
                raw(r)
            }
            None => self.matching_leaf(term),
        };
        self.add(leaf)
    }

    fn matching_let(&mut self, term: u16, size: usize, wanted: Option<u8>) -> Option<u8> {
        let r = self.raw(Cell::Unset)?;
        let shares = shares(self.random, size - 1, 2);
        let second = self.matching(term, shares[1], Some(r));
        // A name that the second part set as well would be wanted twice.
        let first = self.matching(self.named[r as usize], shares[0], wanted.filter(|&w| w != r));
        Some(self.add(bound(r, first, second)))
    }

    fn matching_tuple(&mut self, term: u16, size: usize, wanted: Option<u8>) -> Option<u8> {
        let row = self.term(term);
        let n = if self.random.one_in(2 * self.slips) { self.random.below(5) } else { count(row) };
        if size < 1 + n || (wanted.is_some() && n == 0) {
            return None;
        }
        let t = self.object(&[TUPLE], Cell::Unset)?;
        self.set(t, term);
        let shares = shares(self.random, size - 1, n);
        let holder = self.random.below(n);
        let parts: Vec<u8> =
            (0..n).map(|i| self.matching(part(row, i), shares[i], wanted.filter(|_| i == holder))).collect();
        Some(self.add(tuple(t, &parts)))
    }

    fn matching_encryption(&mut self, term: u16, size: usize, wanted: Option<u8>) -> Option<u8> {
        let row = self.term(term);
        let key = self.opposite_row(self.term(part(row, 0)), PRIVATE)?;
        let e = self.object(&[ENCRYPTION], Cell::Unset)?;
        let key = self.object(&[PRIVATE, SHARED], Cell::Holds(key))?;
        self.set(e, term);
        let body = self.matching(part(row, 1), size - 1, wanted);
        Some(self.add(encrypted(e, Key::Plain(key), body)))
    }

    /// Where the key stands that belongs to `key`: a shared key itself, else the key of the other tag.
    fn opposite_row(&self, key: u64, other: u8) -> Option<u16> {
        let wanted = if tag(key) == SHARED { key } else { atom(other, number(key)) };
        self.case.terms.iter().position(|&row| row == wanted).map(|at| at as u16)
    }

    fn matching_leaf(&mut self, term: u16) -> Form {
        let own = match tag(self.term(term)) {
            _ if self.random.one_in(4) => None,
            BYTE => self.matching_constant(term),
            PUBLIC => self.matching_key(term),
            SIGNATURE => self.matching_signature(term),
            HASH => self.matching_hash(term),
            _ => None,
        };
        own.or_else(|| self.matching_variable(term)).unwrap_or_else(|| raw(self.random.below(NAMED) as u8))
    }

    fn matching_variable(&mut self, term: u16) -> Option<Form> {
        let kind = tag(self.term(term));
        let cell = if self.random.one_in(2) { Cell::Unset } else { Cell::Holds(term) };
        if kind != TUPLE && self.random.one_in(2) {
            let slipped = self.random.one_in(2 * self.slips);
            let kind = if slipped { 1 + self.random.below(9) as u8 } else { kind };
            let v = self.object(&[kind], cell)?;
            return Some(object(self.set(v, term)));
        }
        let r = self.raw(cell)?;
        self.named[r as usize] = term;
        Some(raw(r))
    }

    fn matching_constant(&mut self, term: u16) -> Option<Form> {
        let byte = number(self.term(term)) as u8;
        let byte = if self.random.one_in(self.slips) { self.random.byte() } else { byte };
        let c = self.object(&[BYTE], Cell::Unset)?;
        Some(constant(self.set(c, term), byte))
    }

    fn matching_key(&mut self, term: u16) -> Option<Form> {
        let k = self.object(&[PUBLIC], Cell::Unset)?;
        let form = if self.random.one_in(2) {
            let private = self.opposite_row(self.term(term), PRIVATE)?;
            opposite(k, self.object(&[PRIVATE], Cell::Holds(private))?)
        } else {
            key_of(k, self.certified(term)?)
        };
        self.set(k, term);
        Some(form)
    }

    /// An agent variable whose certificate has the key in `term`, or after a slip any agent.
    fn certified(&mut self, term: u16) -> Option<u8> {
        if self.random.one_in(self.slips) {
            return self.object(&[AGENT], Cell::Set);
        }
        let agents: Vec<u16> = self.case.certificates.iter().filter(|c| c.1 == term).map(|c| c.0).collect();
        let agent = self.random.pick(&agents)?;
        self.object(&[AGENT], Cell::Holds(agent))
    }

    fn matching_signature(&mut self, term: u16) -> Option<Form> {
        let row = self.term(term);
        let public = self.opposite_row(self.term(part(row, 0)), PUBLIC)?;
        let s = self.object(&[SIGNATURE], Cell::Unset)?;
        let r = self.raw(Cell::Holds(part(row, 1)))?;
        let key = match self.random.below(3) {
            0 => Key::Plain(self.object(&[PUBLIC, SHARED], Cell::Holds(public))?),
            1 => {
                let private = self.object(&[PRIVATE], Cell::Holds(part(row, 0)))?;
                Key::Opposite(self.new_public(public)?, private)
            }
            _ => {
                let agent = self.certified(public)?;
                Key::KeyOf(self.new_public(public)?, agent)
            }
        };
        self.set(s, term);
        Some(signed(s, key, r))
    }

    fn new_public(&mut self, term: u16) -> Option<u8> {
        let k = self.object(&[PUBLIC], Cell::Unset)?;
        Some(self.set(k, term))
    }

    fn matching_hash(&mut self, term: u16) -> Option<Form> {
        let h = self.object(&[HASH], Cell::Unset)?;
        let r = self.raw(Cell::Holds(part(self.term(term), 0)))?;
        Some(hashed(self.set(h, term), r))
    }
}

/// Creating.
impl Author<'_> {
    /// At most `size` rows that create a term.
    fn creating(&mut self, size: usize) -> u8 {
        for _ in 0..8 {
            let leaf = size == 1 || self.random.one_in(size.min(8));
            let form = match if leaf { self.random.below(8) } else { 8 + self.random.below(8) } {
                0 | 1 => self.object(&[NONCE, PRIVATE, SHARED], Cell::Unset).map(|v| object(self.set(v, MADE))),
                2 => self.object(&[1, 2, 3, 4, 5, 6, 7, 8, 9], Cell::Set).map(object),
                3 => self.raw(Cell::Set).map(raw),
                4 => self.creating_constant(),
                5 => self.creating_public(),
                6 => self.creating_signature(),
                7 => self.creating_hash(),
                8..=10 => self.creating_encryption(size),
                11..=13 => self.creating_tuple(size),
                _ => self.creating_let(size),
            };
            if let Some(form) = form {
                return self.add(form);
            }
        }
        let v = self.random.below(NAMED) as u8;
        self.add(object(v))
    }

    fn creating_constant(&mut self) -> Option<Form> {
        let c = self.object(&[BYTE], Cell::Unset)?;
        Some(constant(self.set(c, MADE), self.random.byte()))
    }

    fn creating_public(&mut self) -> Option<Form> {
        Some(match self.public_key()? {
            Key::Opposite(k, from) => opposite(k, from),
            Key::KeyOf(k, from) => key_of(k, from),
            Key::Plain(k) => object(k),
        })
    }

    /// A public key in any of the three ways.
    fn public_key(&mut self) -> Option<Key> {
        match self.random.below(3) {
            0 => Some(Key::Plain(self.object(&[PUBLIC], Cell::Set)?)),
            1 => {
                let cell = if self.random.one_in(2) { Cell::Unset } else { Cell::Set };
                let private = self.object(&[PRIVATE], cell)?;
                self.set(private, MADE);
                Some(Key::Opposite(self.new_public(MADE)?, private))
            }
            _ => {
                let keys: Vec<u16> = self.case.certificates.iter().map(|c| c.1).collect();
                let key = self.random.pick(&keys)?;
                let agent = self.certified(key)?;
                Some(Key::KeyOf(self.new_public(MADE)?, agent))
            }
        }
    }

    /// A shared key, or a key of the other kind given, as it is or to be created.
    fn plain_key(&mut self, kinds: &[u8]) -> Option<Key> {
        let key = self.object(kinds, Cell::Set).filter(|_| !self.random.one_in(2));
        let key = key.or_else(|| self.object(&[SHARED], Cell::Unset))?;
        Some(Key::Plain(self.set(key, MADE)))
    }

    fn creating_encryption(&mut self, size: usize) -> Option<Form> {
        let key = if self.random.one_in(2) { self.plain_key(&[SHARED]) } else { self.public_key() }?;
        let body = self.creating(size - 1);
        let e = self.object(&[ENCRYPTION], Cell::Unset).unwrap_or(0);
        Some(encrypted(self.set(e, MADE), key, body))
    }

    fn creating_signature(&mut self) -> Option<Form> {
        let r = self.raw(Cell::Set)?;
        let s = self.object(&[SIGNATURE], Cell::Unset)?;
        let key = self.plain_key(&[PRIVATE, SHARED])?;
        Some(signed(self.set(s, MADE), key, r))
    }

    fn creating_hash(&mut self) -> Option<Form> {
        let r = self.raw(Cell::Set)?;
        let h = self.object(&[HASH], Cell::Unset)?;
        Some(hashed(self.set(h, MADE), r))
    }

    fn creating_tuple(&mut self, size: usize) -> Option<Form> {
        self.object(&[TUPLE], Cell::Unset)?;
        let n = self.random.below(5).min(size - 1);
        let shares = shares(self.random, size - 1, n);
        let parts: Vec<u8> = shares.iter().map(|&share| self.creating(share)).collect();
        let t = self.object(&[TUPLE], Cell::Unset).unwrap_or(0);
        Some(tuple(self.set(t, MADE), &parts))
    }

    fn creating_let(&mut self, size: usize) -> Option<Form> {
        if size < 3 {
            return None;
        }
        let shares = shares(self.random, size - 1, 2);
        let first = self.creating(shares[0]);
        let r = self.raw(Cell::Unset).unwrap_or(0);
        self.named[r as usize] = MADE;
        let second = self.creating(shares[1]);
        Some(bound(r, first, second))
    }
}

/// The tree under `root`, numbered anew so that owners come after their children and nothing else is fixed.
fn in_any_order(random: &mut Random, rows: &[Form], root: u8) -> Vec<Form> {
    let mut order = Vec::new();
    let mut open = vec![root];
    while !open.is_empty() {
        let row = open.swap_remove(random.below(open.len()));
        let form = &rows[row as usize];
        open.extend(&form.children[..form.n]);
        order.push(row);
    }
    order.reverse();
    let place = |row: u8| order.iter().position(|&at| at == row).unwrap() as u8;
    let renumbered = |&row: &u8| {
        let mut form = rows[row as usize];
        for child in &mut form.children[..form.n] {
            *child = place(*child);
        }
        form
    };
    order.iter().map(renumbered).collect()
}
