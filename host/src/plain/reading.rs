//! Code lines read back, written from document 02 alone.
use super::bytes::put_word;
use super::code::{first_bad, Word};
use crate::limits::{CODE_WORDS, NAMED};
use crate::reading::Read;

const DONE: u32 = 0;
const LIMIT: u32 = 1;
const SHORT: u32 = 8;
const BAD_WORD: u32 = 9;
const BAD_LINE: u32 = 15;

/// Operation, A, B and n.
const MOST: [u64; 4] = [31, 255, 255, 7];

/// Reads every line before it looks at anything else.
pub fn read_listing(text: &[u8], kinds: &[u8], code: &mut [u8]) -> Read {
    let answer = |number, place| Read { number, place };
    let mut words = Vec::new();
    let mut rest = text;
    let mut line = 0;
    while !rest.is_empty() {
        let (front, behind) = match rest.iter().position(|&byte| byte == b'\n') {
            Some(end) => (&rest[..end], &rest[end + 1..]),
            None => return answer(BAD_LINE, line),
        };
        match code_line(front, line) {
            Some(word) => words.push(word.pack()),
            None => return answer(BAD_LINE, line),
        }
        rest = behind;
        line += 1;
    }
    if words.len() > CODE_WORDS || kinds.len() != NAMED || code.len() % 4 != 0 {
        return answer(LIMIT, 0);
    }
    let bytes: Vec<u8> = words.iter().flat_map(|word| word.to_be_bytes()).collect();
    if let Some(word) = first_bad(&bytes, kinds) {
        return answer(BAD_WORD, word as u64);
    }
    if code.len() / 4 < words.len() {
        return answer(SHORT, words.len() as u64);
    }
    for (at, &word) in words.iter().enumerate() {
        put_word(code, at, word);
    }
    answer(DONE, words.len() as u64)
}

/// The word of a line without its line feed.
fn code_line(line: &[u8], number: u64) -> Option<Word> {
    let parts: Vec<&[u8]> = line.split(|&byte| byte == b' ').collect();
    if parts.len() != 5 || decimal(parts[0])? != number {
        return None;
    }
    let mut fields = [0; 4];
    for ((field, part), most) in fields.iter_mut().zip(&parts[1..]).zip(MOST) {
        let value = decimal(part)?;
        if value > most {
            return None;
        }
        *field = value as u8;
    }
    let [operation, a, b, n] = fields;
    Some(Word { operation, a, b, n })
}

/// A number without leading zeros; one too large for 64 bits is too large for any field and any line.
fn decimal(digits: &[u8]) -> Option<u64> {
    let leading = digits.len() > 1 && digits[0] == b'0';
    if digits.is_empty() || leading || !digits.iter().all(u8::is_ascii_digit) {
        return None;
    }
    digits.iter().try_fold(0u64, |value, digit| value.checked_mul(10)?.checked_add((digit - b'0') as u64))
}
