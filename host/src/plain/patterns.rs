//! Pattern rows: figure 1, bad rows and wrong kinds.
use super::bytes::{field, row};
use super::terms::{AGENT, BYTE, ENCRYPTION, HASH, PRIVATE, PUBLIC, SHARED, SIGNATURE, TUPLE};

pub const OBJECT: u8 = 0;
pub const RAW: u8 = 1;
pub const CONSTANT: u8 = 2;
pub const OPPOSITE: u8 = 3;
pub const KEY_OF: u8 = 4;
pub const ENCRYPTED: u8 = 5;
pub const SIGNED: u8 = 6;
pub const HASHED: u8 = 7;
pub const PARTS: u8 = 8;
pub const LET: u8 = 9;

/// How a key is given: a variable, or the public key of a private one or of an agent.
pub const PLAIN_KEY: u8 = 0;
pub const OPPOSITE_KEY: u8 = 1;
pub const KEY_OF_KEY: u8 = 2;

const TAG: u64 = 15 << 60;
const V: u64 = 63 << 54;
const F: u64 = 3 << 52;
const X: u64 = 255 << 44;
const Y: u64 = 63 << 38;
const R: u64 = 63 << 32;
const N: u64 = 7 << 29;
/// By how many children there are.
const CHILDREN: [u64; 5] = [0, 127 << 22, 16383 << 15, 2097151 << 8, 268435455 << 1];

#[derive(Clone, Copy, Debug, Default)]
pub struct Form {
    pub tag: u8,
    pub v: u8,
    pub f: u8,
    pub x: u8,
    pub y: u8,
    pub r: u8,
    pub n: usize,
    pub children: [u8; 4],
}

impl Form {
    pub fn unpack(row: u64) -> Form {
        let part = |from, width| field(row, from, width) as u8;
        Form {
            tag: part(0, 4),
            v: part(4, 6),
            f: part(10, 2),
            x: part(12, 8),
            y: part(20, 6),
            r: part(26, 6),
            n: part(32, 3) as usize,
            children: [part(35, 7), part(42, 7), part(49, 7), part(56, 7)],
        }
    }

    pub fn pack(&self) -> u64 {
        let fields =
            [(self.tag, 60), (self.v, 54), (self.f, 52), (self.x, 44), (self.y, 38), (self.r, 32), (self.n as u8, 29)];
        let children = [(self.children[0], 22), (self.children[1], 15), (self.children[2], 8), (self.children[3], 1)];
        fields.iter().chain(&children).fold(0, |row, &(field, low)| row | (field as u64) << low)
    }

    /// The bits that the form's fields take.
    fn used_bits(&self) -> u64 {
        let key = F | X | if self.f == PLAIN_KEY { 0 } else { Y };
        let fields = match self.tag {
            OBJECT | PARTS => V,
            RAW | LET => R,
            CONSTANT => V | X,
            OPPOSITE | KEY_OF => V | Y,
            ENCRYPTED => V | key,
            SIGNED => V | key | R,
            _ => V | R,
        };
        TAG | fields | N | CHILDREN[self.n]
    }

    fn counted(&self) -> bool {
        match self.tag {
            OBJECT..=KEY_OF | SIGNED | HASHED => self.n == 0,
            ENCRYPTED => self.n == 1,
            PARTS => self.n <= 4,
            LET => self.n == 2,
            _ => false,
        }
    }

    fn key_given(&self) -> bool {
        let has_key = self.tag == ENCRYPTED || self.tag == SIGNED;
        !has_key || (self.f <= KEY_OF_KEY && self.x <= 63)
    }

    fn kinds_fit(&self, create: bool, kinds: &[u8]) -> bool {
        let is = |v: u8, wanted: u8| kinds[v as usize] == wanted;
        match self.tag {
            OBJECT => (BYTE..=HASH).contains(&kinds[self.v as usize]),
            CONSTANT => is(self.v, BYTE),
            OPPOSITE => is(self.v, PUBLIC) && is(self.y, PRIVATE),
            KEY_OF => is(self.v, PUBLIC) && is(self.y, AGENT),
            ENCRYPTED => is(self.v, ENCRYPTION) && self.key_fits(create, kinds),
            SIGNED => is(self.v, SIGNATURE) && self.key_fits(!create, kinds),
            HASHED => is(self.v, HASH),
            PARTS => is(self.v, TUPLE),
            _ => true,
        }
    }

    /// `public`: the key of a created encryption or a matched signature, which is public or shared.
    fn key_fits(&self, public: bool, kinds: &[u8]) -> bool {
        let key = kinds[self.x as usize];
        match self.f {
            PLAIN_KEY => key == SHARED || key == if public { PUBLIC } else { PRIVATE },
            OPPOSITE_KEY => public && key == PUBLIC && kinds[self.y as usize] == PRIVATE,
            _ => public && key == PUBLIC && kinds[self.y as usize] == AGENT,
        }
    }
}

/// The lowest row bad in itself or naming a child already taken, or else the lowest that nobody names.
pub fn first_bad(pattern: &[u8]) -> Option<usize> {
    let rows = pattern.len() / 8;
    let mut taken = 0u128;
    for at in 0..rows {
        let packed = row(pattern, at);
        let form = Form::unpack(packed);
        let whole = form.counted() && packed & !form.used_bits() == 0 && form.key_given();
        if !whole || !form.children[..form.n].iter().all(|&child| (child as usize) < at) {
            return Some(at);
        }
        for &child in &form.children[..form.n] {
            if taken >> child & 1 == 1 {
                return Some(at);
            }
            taken |= 1 << child;
        }
    }
    let unnamed = taken.trailing_ones() as usize;
    Some(unnamed).filter(|&row| row < rows - 1)
}

/// The lowest row with a variable of the wrong kind.
pub fn first_misfit(create: bool, pattern: &[u8], kinds: &[u8]) -> Option<usize> {
    (0..pattern.len() / 8).find(|&at| !Form::unpack(row(pattern, at)).kinds_fit(create, kinds))
}
