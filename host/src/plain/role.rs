//! A role: its halves compiled in turn, a matching and a creating one to a round, each round between INPUT and OUTPUT.
use super::bytes::{put_pair, put_word};
use super::code::{INPUT, OUTPUT};
use super::compiler::Compiler;
use super::stores;
use crate::limits::{NAMED, PATTERN_ROWS, ROUNDS};
use crate::roles::RoleCompiled;

pub fn compile_role(
    rows: &[u8],
    counts: &[u8],
    kinds: &[u8],
    objects: &[u8],
    named: &[u8],
    ends: &mut [u8],
    code: &mut [u8],
) -> RoleCompiled {
    let answer = |number, words| RoleCompiled { number, place: words as u32, half: 0 };
    let whole = rows.len() % 8 == 0
        && counts.len() % 2 == 0
        && (1..=ROUNDS).contains(&(counts.len() / 2))
        && kinds.len() == NAMED
        && objects.len() == 2 * NAMED
        && named.len() == 2 * NAMED
        && ends.len() == counts.len()
        && code.len() % 4 == 0;
    if !whole || counts.iter().map(|&count| count as usize).sum::<usize>() != rows.len() / 8 {
        return answer(1, 0);
    }
    let role = Role { rows, counts, kinds, objects, named };
    // INPUT and OUTPUT are as many words as there are halves.
    let mut words = counts.len();
    if let Err(refusal) = role.compile_halves(|_, half| words += half.len()) {
        return refusal;
    }
    if code.len() / 4 < words {
        return answer(8, words);
    }
    role.deliver(ends, code);
    answer(0, words)
}

/// What is lent, once its lengths are right.
struct Role<'a> {
    rows: &'a [u8],
    counts: &'a [u8],
    kinds: &'a [u8],
    objects: &'a [u8],
    named: &'a [u8],
}

impl Role<'_> {
    /// Half after half, each for the variables that are set once those before it have run; `each` sees its words.
    fn compile_halves(&self, mut each: impl FnMut(usize, &[u32])) -> Result<(), RoleCompiled> {
        let declared = stores::declared(self.kinds, self.objects);
        let mut compiler = Compiler::new(self.kinds, self.objects, self.named);
        let mut rest = self.rows;
        for (half, &count) in self.counts.iter().enumerate() {
            let refused = |number, place| Err(RoleCompiled { number, place, half: half as u32 });
            if !(1..=PATTERN_ROWS).contains(&(count as usize)) {
                return refused(1, 0);
            }
            if !declared {
                return refused(3, 0);
            }
            let (pattern, after) = rest.split_at(8 * count as usize);
            rest = after;
            if let Err(refusal) = compiler.walk(half % 2 == 1, pattern) {
                return refused(refusal.number, refusal.place);
            }
            each(half, compiler.words());
        }
        Ok(())
    }

    /// Writes the words of halves that are not refused, and where each round ends.
    fn deliver(&self, ends: &mut [u8], code: &mut [u8]) {
        let mut words = 0;
        let mut put = |word| {
            put_word(code, words, word);
            words += 1;
            words
        };
        let delivered = self.compile_halves(|half, words| {
            if half % 2 == 0 {
                put(INPUT);
            }
            for &word in words {
                put(word);
            }
            if half % 2 == 1 {
                let end = put(OUTPUT);
                put_pair(ends, half / 2, end as u16);
            }
        });
        debug_assert!(delivered.is_ok());
    }
}
