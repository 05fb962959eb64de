//! The archive against the worked cases, and against the second implementation on inputs made from seeds.
//! Each test also asserts that its inputs met what they are meant to meet.
use cram_host::case::Case;
use cram_host::compare::Tally;
use cram_host::every::every_form;
use cram_host::generator::{self, flip_bit, Random};
use cram_host::input::RunInput;
use cram_host::limits::{CODE_WORDS, TERM_ROWS};
use cram_host::plain::patterns::{ENCRYPTED, LET, OBJECT, SIGNED};
use cram_host::plain::terms::{atom, AGENT, BYTE};
use cram_host::{edges, examples, forms, plain, worked, ARCHIVE};

#[test]
fn worked_cases() {
    worked::hold(&ARCHIVE);
}

#[test]
fn each_form() {
    forms::hold(&ARCHIVE);
}

#[test]
fn runs_at_the_edges() {
    edges::hold(&ARCHIVE);
}

#[test]
fn kept_examples() {
    examples::are_kept(&ARCHIVE);
}

/// Makes `inputs` inputs from a seed and compares each.
fn tally<T>(seed: u64, inputs: usize, make: fn(&mut Random) -> T, compare: fn(&mut Tally, &T)) -> Tally {
    let mut random = Random::new(seed);
    let mut tally = Tally::default();
    for _ in 0..inputs {
        let input = make(&mut random);
        compare(&mut tally, &input);
    }
    println!("{:?}", tally);
    tally
}

fn assert_met(what: &str, counts: &[usize], least: usize) {
    assert!(counts.iter().all(|&count| count >= least), "{}: {:?}, not each at least {}", what, counts, least);
}

fn answers(tally: &Tally, numbers: &[usize]) -> Vec<usize> {
    numbers.iter().map(|&number| tally.answers[number]).collect()
}

#[test]
fn compile() {
    let tally = tally(1, 60_000, generator::compile, Tally::compile);
    assert_met("answers", &answers(&tally, &[0, 1, 3, 4, 5, 6, 7, 8]), 300);
    for [matched, created] in by_direction(&tally) {
        assert_met("matched and created rows of a form", &[matched, created], 200);
    }
    let [matched, created] = &tally.forms;
    assert_met("keys of matched signatures", &matched[SIGNED as usize], 100);
    assert_met("keys of created encryptions", &created[ENCRYPTED as usize], 100);
}

/// Rows of each form, matched and created.
fn by_direction(tally: &Tally) -> impl Iterator<Item = [usize; 2]> + '_ {
    let rows = |create: usize, tag: u8| tally.forms[create][tag as usize].iter().sum();
    (OBJECT..=LET).map(move |tag| [rows(0, tag), rows(1, tag)])
}

fn assert_runs_met(tally: &Tally) {
    assert_met("answers", &answers(tally, &[0, 1, 2, 3, 9, 10, 11]), 300);
    assert_met("reasons", &tally.reasons[1..], 200);
    assert_met("words of an operation", &tally.operations[2..], 100);
}

#[test]
fn runs_of_compiled_code() {
    assert_runs_met(&tally(2, 60_000, generator::compiled_run, Tally::run));
}

#[test]
fn runs_of_any_code() {
    assert_runs_met(&tally(3, 40_000, generator::direct_run, Tally::run));
}

/// Compares an input and then all that differ from it in one bit.
fn with_each_bit<T: Clone>(lent: &T, flip: fn(&mut T, usize) -> bool, mut compare: impl FnMut(&T)) {
    compare(lent);
    for bit in 0.. {
        let mut flipped = lent.clone();
        if !flip(&mut flipped, bit) {
            break;
        }
        compare(&flipped);
    }
}

/// Around inputs that have every form and every operation and are done.
#[test]
fn every_bit() {
    let mut tally = Tally::default();
    for create in [false, true] {
        let case = every_form(create);
        let compile = case.lend_compile(CODE_WORDS);
        let run = case.lend_run(case.terms.len() + 32, &compile.words(&plain::ENGINE).unwrap());
        assert_eq!(run.clone().call(&plain::ENGINE).number, 0);
        with_each_bit(&compile, |lent, bit| flip_bit(lent.slices(), bit), |lent| tally.compile(lent));
        with_each_bit(&run, |lent, bit| flip_bit(lent.slices(), bit), |lent| tally.run(lent));
    }
    println!("{:?}", tally);
    assert_met("words of an operation", &tally.operations[2..], 100);
    assert_met("rows of a form", &by_direction(&tally).flatten().collect::<Vec<usize>>(), 100);
}

#[test]
fn runs_over_full_tables() {
    let tally = tally(4, 80, generator::full_run, Tally::run);
    assert_met("answers", &answers(&tally, &[0, 1, 2, 10, 11]), 4);
}

/// A run of no code over agents, of which some rows are replaced by others.
fn agents_but(rows: usize, replaced: &[(usize, u64)]) -> RunInput {
    let mut case = Case::new(false);
    case.terms = (0..rows as u64).map(|i| atom(AGENT, i)).collect();
    for &(at, term) in replaced {
        case.terms[at] = term;
    }
    case.lend_run(rows, &[])
}

/// Of two equal rows the later is bad, unless a row before it is: in small tables, which are searched, in the first with
/// chains, and in full ones.
#[test]
fn equal_rows() {
    let mut tally = Tally::default();
    let mut refused_at = |place: usize, lent: &RunInput| {
        let answer = lent.clone().call(&plain::ENGINE);
        assert_eq!((answer.number, answer.place), (2, place as u32));
        tally.run(lent);
    };
    for rows in [2, 31, 32, 33, 64] {
        for later in 1..rows {
            for earlier in 0..later {
                let again = (later, atom(AGENT, earlier as u64));
                refused_at(later, &agents_but(rows, &[again]));
                refused_at(later, &agents_but(rows, &[again, (rows - 1, again.1)]));
                refused_at(earlier, &agents_but(rows, &[again, (earlier, atom(BYTE, 256))]));
            }
        }
    }
    for (earlier, later) in [(0, 1), (0, 4095), (2047, 2048), (1, 4000), (4094, 4095)] {
        refused_at(later, &agents_but(TERM_ROWS, &[(later, atom(AGENT, earlier as u64))]));
    }
    for rows in [1, 31, 32, 33, 512, TERM_ROWS] {
        tally.run(&agents_but(rows, &[]));
    }
    println!("{:?}", tally);
    assert_eq!(tally.answers[0], 6);
}

#[test]
fn bundles() {
    let tally = tally(5, 4_000, generator::bundle, |tally, bundle| tally.list(bundle));
    assert_met("answers", &answers(&tally, &[0, 1, 2, 3, 4, 5, 6, 7, 10, 11]), 20);
}
