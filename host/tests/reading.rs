//! Listings read back: the archive against the second implementation, on what the listing prints and on damaged texts.
//! Each test also asserts that its inputs met what they are meant to meet.
use cram_host::generator::{self, Random};
use cram_host::limits::{CODE_WORDS, NAMED};
use cram_host::plain;
use cram_host::reading::{printed, Read, ReadInput, ARCHIVE};

/// How often each number came.
#[derive(Default)]
struct Tally {
    texts: usize,
    numbers: [usize; 16],
}

impl Tally {
    /// Both readers on the same input: the answers and every byte of the code slice have to agree.
    fn hold(&mut self, lent: &ReadInput) -> (Read, Vec<u8>) {
        let (mut ours, mut theirs) = (lent.clone(), lent.clone());
        let answer = ours.call(&ARCHIVE);
        assert_eq!(answer, theirs.call(&plain::READER), "{:?}", String::from_utf8_lossy(&lent.text));
        assert_eq!(ours.code, theirs.code);
        if answer.number != 0 {
            assert_eq!(ours.code, lent.code);
        }
        self.texts += 1;
        self.numbers[answer.number as usize] += 1;
        (answer, ours.code)
    }
}

/// Code that compiles or nearly does, and the kinds that it is for.
fn made(random: &mut Random) -> ReadInput {
    let run = generator::compiled_run(random);
    let slack = if random.one_in(2) { 0 } else { 4 * random.below(8) };
    ReadInput { text: printed(&run.code), kinds: run.kinds, code: vec![0x5a; run.code.len() + slack] }
}

/// Loads of raw variable 1: good whatever the kinds.
fn loads(lines: usize) -> ReadInput {
    let code: Vec<u8> = (0..lines).flat_map(|_| (2u32 << 27 | 1 << 19).to_be_bytes()).collect();
    ReadInput { text: printed(&code), kinds: vec![0; NAMED], code: vec![0x5a; code.len() + 8] }
}

#[test]
fn what_is_printed_is_read() {
    let mut random = Random::new(61);
    let mut tally = Tally::default();
    for _ in 0..4000 {
        let lent = made(&mut random);
        let (answer, code) = tally.hold(&lent);
        if answer.number == 0 {
            let end = 4 * answer.place as usize;
            assert_eq!(printed(&code[..end]), lent.text);
            assert_eq!(code[end..], lent.code[end..]);
        }
    }
    assert!(tally.numbers[0] > 3000);
}

#[test]
fn every_byte_changed_dropped_or_doubled() {
    let mut random = Random::new(62);
    let mut tally = Tally::default();
    while tally.texts < 100_000 {
        let lent = made(&mut random);
        for at in 0..lent.text.len().min(160) {
            let mut put = |bytes: &[u8], until: usize| {
                let mut changed = lent.clone();
                changed.text = [&lent.text[..at], bytes, &lent.text[until..]].concat();
                tally.hold(&changed);
            };
            put(&[], at + 1);
            put(&[lent.text[at]; 2], at + 1);
            for byte in b"\n\r\t 0123456789+-om" {
                put(&[*byte], at + 1);
            }
            put(&[random.below(256) as u8], at + 1);
        }
    }
    assert!(tally.numbers[15] > 50_000 && tally.numbers[9] > 1000 && tally.numbers[0] > 1000);
}

#[test]
fn every_value_of_a_byte() {
    let mut tally = Tally::default();
    let lent = loads(12);
    for at in 0..lent.text.len() {
        for byte in 0..=255 {
            let mut changed = lent.clone();
            changed.text[at] = byte;
            tally.hold(&changed);
        }
    }
    assert!(tally.numbers[15] > 20_000 && tally.numbers[0] > 100 && tally.numbers[9] > 10);
}

/// Numbers that come to a good one when they wrap, and numbers of many digits.
#[test]
fn long_numbers() {
    let mut tally = Tally::default();
    let good = ["1", "2", "1", "0", "0"];
    let most = [1, 31, 255, 255, 7];
    for field in 0..5 {
        let value: u128 = good[field].parse().unwrap();
        for bits in [3u32, 5, 8, 16, 31, 32, 63, 64, 96, 120] {
            for times in 1..=3u128 {
                let mut numbers = good.map(String::from);
                let large = value + (times << bits);
                numbers[field] = large.to_string();
                let mut lent = loads(1);
                lent.text.extend(format!("{}\n", numbers.join(" ")).bytes());
                let (answer, _) = tally.hold(&lent);
                assert_eq!(answer == Read { number: 15, place: 1 }, large > most[field]);
            }
        }
        for digits in [20, 21, 400, 70_000] {
            for lead in ["0", "1", "9"] {
                let mut numbers = good.map(String::from);
                numbers[field] = lead.repeat(digits) + good[field];
                let mut lent = loads(1);
                lent.text.extend(format!("{}\n", numbers.join(" ")).bytes());
                assert_eq!(tally.hold(&lent).0, Read { number: 15, place: 1 });
            }
        }
    }
}

#[test]
fn limits_and_their_order() {
    let mut tally = Tally::default();
    let mut answers = |lent: &ReadInput| {
        let (answer, _) = tally.hold(lent);
        (answer.number, answer.place)
    };
    for lines in [0, 1, 767, CODE_WORDS] {
        assert_eq!(answers(&loads(lines)), (0, lines as u64));
    }
    for lines in [CODE_WORDS + 1, 70_000] {
        assert_eq!(answers(&loads(lines)), (1, 0));
        let mut bad = loads(lines);
        bad.text.push(b'\n');
        assert_eq!(answers(&bad), (15, lines as u64));
        let mut open = loads(lines);
        open.text.pop();
        assert_eq!(answers(&open), (15, lines as u64 - 1));
    }
    for kinds in [0, 63, 65] {
        let mut lent = loads(3);
        lent.kinds.resize(kinds, 0);
        assert_eq!(answers(&lent), (1, 0));
        lent.text.extend(b"3 0 0 0 0\n");
        assert_eq!(answers(&lent), (1, 0));
        lent.text.extend(b"end\n");
        assert_eq!(answers(&lent), (15, 4));
    }
    for odd in 1..4 {
        let mut lent = loads(3);
        lent.code.resize(12 + odd, 0x5a);
        assert_eq!(answers(&lent), (1, 0));
        lent.text.pop();
        assert_eq!(answers(&lent), (15, 2));
    }
    for words in 0..3 {
        let mut lent = loads(3);
        lent.code.resize(4 * words, 0x5a);
        assert_eq!(answers(&lent), (8, 3));
        lent.text.extend(b"3 18 0 0 0\n");
        assert_eq!(answers(&lent), (9, 3));
    }
    // Two thousand words lent: those behind the read ones stay.
    let mut lent = loads(5);
    lent.code.resize(8000, 0x5a);
    assert_eq!(answers(&lent), (0, 5));
}
