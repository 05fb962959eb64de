//! The archive held to the second implementation, and a tally of what was met.
use crate::input::{CompileInput, RunInput};
use crate::plain::code::Word;
use crate::plain::patterns::Form;
use crate::{plain, Compiled, Ran, ARCHIVE};

mod roles;

pub use roles::RoleTally;

/// How often each answer came, and what stood in the inputs that were done.
#[derive(Debug, Default)]
pub struct Tally {
    pub inputs: usize,
    /// By number.
    pub answers: [usize; 12],
    /// Stuck runs by reason.
    pub reasons: [usize; 8],
    /// Rows of compiled patterns by direction, tag and way of giving a key.
    pub forms: [[[usize; 3]; 10]; 2],
    /// Words of runs that were done, by operation.
    pub operations: [usize; 18],
}

impl Tally {
    /// Both compile; the answers and every lent byte afterwards have to agree.
    pub fn compile(&mut self, lent: &CompileInput) {
        let mut expected = lent.clone();
        let answer = expected.call(&plain::ENGINE);
        let (ours, left) = compile_fenced(lent, self.inputs);
        assert_eq!(ours, answer, "compile's answer for {:?}", lent);
        assert_eq!(left, expected, "bytes after compile of {:?}", lent);
        self.count(answer.number, 0);
        if answer.number == 0 {
            self.count_forms(lent.create, &lent.pattern);
        }
    }

    /// Both run, and plain Rust with an index too; the answers and every lent byte afterwards have to agree.
    pub fn run(&mut self, lent: &RunInput) {
        let mut expected = lent.clone();
        let answer = expected.call(&plain::ENGINE);
        assert_eq!(lent.clone().call(&plain::HASHED), answer, "the hashed check's answer for {:?}", lent);
        let (ours, left) = run_fenced(lent, self.inputs);
        assert_eq!(ours, answer, "run's answer for {:?}", lent);
        assert_eq!(left, expected, "bytes after run of {:?}", lent);
        self.count(answer.number, answer.reason);
        if answer.number == 0 {
            self.count_operations(lent);
        }
    }

    /// Both list; the texts have to agree.
    pub fn list(&mut self, bundle: &[u8]) {
        let text = plain::listing(&plain::ENGINE, bundle);
        assert_eq!(plain::listing(&ARCHIVE, bundle), text, "listing of {:?}", bundle);
        let text = String::from_utf8(text).unwrap();
        let last = text.lines().find(|line| line.starts_with("refused") || line.starts_with("end")).unwrap();
        let numbers: Vec<u32> = last.split(' ').skip(1).map(|number| number.parse().unwrap()).collect();
        self.count(numbers[0], if numbers.len() > 2 { numbers[2] } else { 0 });
    }

    fn count(&mut self, number: u32, reason: u32) {
        self.inputs += 1;
        self.answers[number as usize] += 1;
        if reason != 0 {
            self.reasons[reason as usize] += 1;
        }
    }

    fn count_forms(&mut self, create: u8, pattern: &[u8]) {
        for row in pattern.chunks_exact(8) {
            let form = Form::unpack(u64::from_be_bytes(row.try_into().unwrap()));
            self.forms[create as usize][form.tag as usize][form.f as usize] += 1;
        }
    }

    fn count_operations(&mut self, lent: &RunInput) {
        for word in lent.code.chunks_exact(4) {
            let word = Word::unpack(u32::from_be_bytes(word.try_into().unwrap()));
            self.operations[word.operation as usize] += 1;
        }
    }
}

/// A slice between fences, so that a write beside it shows.
struct Fenced {
    bytes: Vec<u8>,
    before: usize,
    length: usize,
}

const FENCE: [u8; 16] = [0xc3; 16];

impl Fenced {
    /// `shift` moves the slice, so that all alignments are met.
    fn new(slice: &[u8], shift: usize) -> Fenced {
        let before = FENCE.len() - shift % 8;
        let bytes = [&FENCE[..before], slice, &FENCE].concat();
        Fenced { bytes, before, length: slice.len() }
    }

    fn lent(&mut self) -> &mut [u8] {
        &mut self.bytes[self.before..self.before + self.length]
    }

    fn taken_down(mut self) -> Vec<u8> {
        let (before, rest) = self.bytes.split_at(self.before);
        assert!(before == &FENCE[..self.before] && rest[self.length..] == FENCE, "a write beside a lent slice");
        self.lent().to_vec()
    }
}

fn compile_fenced(lent: &CompileInput, shift: usize) -> (Compiled, CompileInput) {
    let slices = [&lent.pattern, &lent.kinds, &lent.objects, &lent.named, &lent.code];
    let mut fenced = slices.map(|slice| Fenced::new(slice, shift));
    let [pattern, kinds, objects, named, code] = &mut fenced;
    let answer =
        (ARCHIVE.compile)(lent.create, pattern.lent(), kinds.lent(), objects.lent(), named.lent(), code.lent());
    let [pattern, kinds, objects, named, code] = fenced.map(Fenced::taken_down);
    (answer, CompileInput { create: lent.create, pattern, kinds, objects, named, code })
}

fn run_fenced(lent: &RunInput, shift: usize) -> (Ran, RunInput) {
    let slices = [&lent.kinds, &lent.objects, &lent.messages, &lent.certificates, &lent.terms, &lent.code];
    let mut fenced = slices.map(|slice| Fenced::new(slice, shift));
    let [kinds, objects, messages, certificates, terms, code] = &mut fenced;
    let answer = (ARCHIVE.run)(
        kinds.lent(),
        objects.lent(),
        messages.lent(),
        certificates.lent(),
        lent.accumulator,
        terms.lent(),
        lent.counter,
        code.lent(),
    );
    let [kinds, objects, messages, certificates, terms, code] = fenced.map(Fenced::taken_down);
    let left = RunInput { kinds, objects, messages, certificates, terms, code, ..*lent };
    (answer, left)
}
