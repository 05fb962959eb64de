//! Inputs made from a seed: valid, nearly valid and damaged. The same seed gives the same inputs everywhere.
mod code;
mod damage;
mod patterns;
mod random;
pub mod roles;
mod stores;

pub use damage::flip_bit;
pub use random::Random;

use crate::case::Case;
use crate::direct::DirectInput;
use crate::input::{CompileInput, RunInput};
use crate::limits::{CODE_WORDS, PATTERN_ROWS, TERM_ROWS};
use crate::plain;
use crate::plain::terms::{atom, AGENT};

/// Valid stores and a pattern for them.
fn case(random: &mut Random) -> Case {
    let mut case = stores::stores(random);
    patterns::write(random, &mut case);
    case
}

/// Mostly a case as above, and sometimes one with about as many rows as there can be, or one more.
fn any_case(random: &mut Random) -> Case {
    if random.one_in(32) {
        let rows = PATTERN_ROWS + 1 - random.below(12);
        let create = random.one_in(2);
        return patterns::write_large(random, create, rows);
    }
    case(random)
}

/// A compile: in half of the calls damaged, with a slice about as long as its code or longer.
pub fn compile(random: &mut Random) -> CompileInput {
    let mut lent = any_case(random).lend_compile(CODE_WORDS);
    if random.one_in(2) {
        damage::compile(random, &mut lent);
    }
    let needed = lent.words(&plain::ENGINE).map_or(8, |code| code.len() / 4);
    let words = match random.below(8) {
        0 => needed.saturating_sub(1),
        1 => random.below(needed + 1),
        2 => needed + 1,
        3 => CODE_WORDS + random.below(64),
        _ => needed,
    };
    let odd = if random.one_in(32) { 1 + random.below(3) } else { 0 };
    lent.code.resize(4 * words + odd, 0x5a);
    lent
}

/// A case that compiles, and its code.
fn compiled(random: &mut Random) -> (Case, Vec<u8>) {
    loop {
        let case = any_case(random);
        if let Ok(code) = case.lend_compile(CODE_WORDS).words(&plain::ENGINE) {
            return (case, code);
        }
    }
}

/// A run of compiled code, on the stores it was compiled for or on others.
pub fn compiled_run(random: &mut Random) -> RunInput {
    let (case, code) = compiled(random);
    let rows = table_length(random, case.terms.len());
    let case = match random.below(12) {
        0 => stores::other_terms(random, &case),
        1 => stores::other_cells(random, &case),
        2..=7 => stores::other_value(random, &case),
        _ => case,
    };
    let mut lent = case.lend_run(rows, &code);
    if random.one_in(8) {
        damage::run(random, &mut lent);
    }
    lent
}

/// A run of code that no compiler wrote; in a quarter of the calls damaged.
pub fn direct_run(random: &mut Random) -> RunInput {
    let mut case = stores::stores(random);
    stores::fill_scratch(random, &mut case);
    let rows = table_length(random, case.terms.len());
    let mut lent = case.lend_run(rows, &[]);
    lent.code = code::steps(random, &lent);
    if random.one_in(64) {
        lent.code = lent.code.iter().copied().cycle().take(4 * CODE_WORDS).collect();
    }
    if random.one_in(4) {
        damage::run(random, &mut lent);
    }
    lent
}

/// The engine: on a pattern that mostly compiles, with values that mostly fit; in a quarter of the calls damaged.
pub fn direct(random: &mut Random) -> DirectInput {
    let case = if random.one_in(4) { any_case(random) } else { compiled(random).0 };
    let rows = table_length(random, case.terms.len());
    let case = match random.below(12) {
        0 => stores::other_terms(random, &case),
        1 => stores::other_cells(random, &case),
        2..=7 => stores::other_value(random, &case),
        _ => case,
    };
    let mut lent = case.lend_direct(rows);
    if random.one_in(4) {
        damage::direct(random, &mut lent);
    }
    lent
}

/// A run over 4,096 used rows, some of them wrong, with up to 33 certificates: costly, so that a test takes few.
pub fn full_run(random: &mut Random) -> RunInput {
    let mut case = stores::stores(random);
    let rows = table_length(random, case.terms.len());
    let code = code::steps(random, &case.lend_run(rows, &[]));
    let first = 1000 + random.below(1000) as u64;
    let agents = (first..).map(|i| atom(AGENT, i)).take(TERM_ROWS - case.terms.len());
    case.terms.extend(agents);
    stores::add_certificates(random, &mut case);
    let mut lent = case.lend_run(TERM_ROWS, &code);
    match random.below(4) {
        0 => damage::late_row(random, &mut lent),
        1 => lent.terms.resize(8 * (TERM_ROWS + 1), 0),
        _ => {}
    }
    lent
}

/// A bundle: valid, truncated, extended, with spare bits or otherwise damaged.
pub fn bundle(random: &mut Random) -> Vec<u8> {
    let mut bundle = case(random).bundle();
    if random.one_in(2) {
        damage::bundle(random, &mut bundle);
    }
    bundle
}

/// A table with no, little or much room.
fn table_length(random: &mut Random, used: usize) -> usize {
    match random.below(6) {
        0 => used,
        1 => used + 1 + random.below(3),
        _ => used + 40 + random.below(40),
    }
}
