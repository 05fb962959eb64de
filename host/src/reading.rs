//! The archive's C entry that reads a listing back, as a safe function over byte slices.
//! Lengths are in bytes, fields stand high byte first; `include/cram.h` describes every parameter.
use crate::plain::code::Word;

/// What reading back answers.
#[repr(C)]
#[derive(Clone, Copy, Debug, PartialEq, Eq)]
pub struct Read {
    pub number: u32,
    pub place: u64,
}

/// Text, kinds; code.
pub type ReadListing = fn(&[u8], &[u8], &mut [u8]) -> Read;

/// A reader that promises the same.
pub struct Reader {
    pub read_listing: ReadListing,
}

/// The proved archive.
pub const ARCHIVE: Reader = Reader { read_listing };

// Nothing checks this against the archive but the tests.
extern "C" {
    fn cram_read_listing(
        text: *const u8,
        text_len: usize,
        kinds: *const u8,
        kinds_len: usize,
        code: *mut u8,
        code_len: usize,
    ) -> Read;
}

/// The archive's reader: the code words of a listing's code lines.
pub fn read_listing(text: &[u8], kinds: &[u8], code: &mut [u8]) -> Read {
    // Slices neither overlap nor are null, which is all that the entry asks.
    unsafe { cram_read_listing(text.as_ptr(), text.len(), kinds.as_ptr(), kinds.len(), code.as_mut_ptr(), code.len()) }
}

/// The code lines of code, as the listing prints them.
pub fn printed(code: &[u8]) -> Vec<u8> {
    let mut text = Vec::new();
    for (place, bytes) in code.chunks_exact(4).enumerate() {
        let Word { operation, a, b, n } = Word::unpack(u32::from_be_bytes([bytes[0], bytes[1], bytes[2], bytes[3]]));
        text.extend(format!("{} {} {} {} {}\n", place, operation, a, b, n).bytes());
    }
    text
}

/// What is lent to a reading.
#[derive(Clone)]
pub struct ReadInput {
    pub text: Vec<u8>,
    pub kinds: Vec<u8>,
    pub code: Vec<u8>,
}

impl ReadInput {
    pub fn call(&mut self, reader: &Reader) -> Read {
        (reader.read_listing)(&self.text, &self.kinds, &mut self.code)
    }
}
