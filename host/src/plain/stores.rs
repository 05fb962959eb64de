//! Kinds, cells, certificates and accumulator.
use super::bytes::{field, pair, row};
use super::terms::{tag, AGENT, PUBLIC};
use crate::limits::{NAMED, UNSET};

/// The highest kind.
pub const KINDS: u8 = 10;

pub fn agent(certificate: u64) -> u16 {
    field(certificate, 0, 12) as u16
}

pub fn key(certificate: u64) -> u16 {
    field(certificate, 12, 12) as u16
}

/// Whether a certificate's spare bits are zero.
pub fn spared(certificate: u64) -> bool {
    field(certificate, 24, 40) == 0
}

/// Whether no kind is too high and no undeclared variable is set: all of it that compile sees.
pub fn declared(kinds: &[u8], objects: &[u8]) -> bool {
    kinds.iter().all(|&kind| kind <= KINDS) && (0..NAMED).all(|v| kinds[v] != 0 || pair(objects, v) == UNSET)
}

/// A table's used rows, as the stores refer to them.
pub struct Rows<'a>(pub &'a [u8]);

impl Rows<'_> {
    fn has(&self, at: u16) -> bool {
        (at as usize) < self.0.len() / 8
    }

    fn has_tag(&self, at: u16, kind: u8) -> bool {
        self.has(at) && tag(row(self.0, at as usize)) == kind
    }

    /// All that a run looks at in the stores, but for its accumulator.
    pub fn stores_fit(&self, kinds: &[u8], objects: &[u8], messages: &[u8], certificates: &[u8]) -> bool {
        declared(kinds, objects)
            && self.objects_fit(kinds, objects)
            && self.messages_fit(messages)
            && self.certificates_fit(certificates)
    }

    fn objects_fit(&self, kinds: &[u8], objects: &[u8]) -> bool {
        (0..NAMED).all(|v| match pair(objects, v) {
            UNSET => true,
            at => self.has_tag(at, kinds[v]),
        })
    }

    fn messages_fit(&self, messages: &[u8]) -> bool {
        messages.chunks_exact(2).all(|cell| match pair(cell, 0) {
            UNSET => true,
            at => self.has(at),
        })
    }

    pub fn accumulator_fits(&self, accumulator: u32) -> bool {
        accumulator == UNSET as u32 || (accumulator as usize) < self.0.len() / 8
    }

    fn certificates_fit(&self, certificates: &[u8]) -> bool {
        (0..certificates.len() / 8).all(|i| {
            let certificate = row(certificates, i);
            spared(certificate)
                && self.has_tag(agent(certificate), AGENT)
                && self.has_tag(key(certificate), PUBLIC)
                && (0..i).all(|j| agent(row(certificates, j)) != agent(certificate))
        })
    }
}
