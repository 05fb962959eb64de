//! The header's promises on stack, on the inputs that take the most.
use cram_host::reading::ARCHIVE as READER;
use cram_host::roles::ARCHIVE as ROLES;
use cram_host::{measured, stack, ARCHIVE};

/// The number that the header gives a name.
fn promised(name: &str) -> usize {
    let header = include_str!("../include/cram.h");
    let value = |line: &str| {
        let mut words = line.split_whitespace();
        let found = words.next() == Some("#define") && words.next() == Some(name);
        words.next().filter(|_| found).map(|value| value.trim_end_matches('u').parse().unwrap())
    };
    header.lines().find_map(value).unwrap()
}

fn assert_within(limit: usize, name: &str, taken: usize) {
    println!("{}: {} bytes of stack", name, taken);
    assert!(taken <= limit, "{} takes {} bytes of stack", name, taken);
}

#[test]
fn compile() {
    for (name, mut lent) in measured::compiles() {
        assert_within(promised("CRAM_COMPILE_STACK_BYTES"), name, stack::taken_by(|| lent.call(&ARCHIVE)));
    }
}

#[test]
fn run() {
    for (name, mut lent) in measured::runs() {
        assert_within(promised("CRAM_RUN_STACK_BYTES"), name, stack::taken_by(|| lent.call(&ARCHIVE)));
    }
}

#[test]
fn compile_role() {
    for (name, mut lent) in measured::role_compiles() {
        assert_within(promised("CRAM_ROLE_STACK_BYTES"), name, stack::taken_by(|| lent.call(&ROLES)));
    }
}

#[test]
fn round() {
    for (name, mut lent) in measured::rounds() {
        assert_within(promised("CRAM_ROUND_STACK_BYTES"), name, stack::taken_by(|| lent.call(&ROLES)));
    }
}

#[test]
fn read_listing() {
    for (name, mut lent) in measured::readings() {
        assert_within(promised("CRAM_READ_STACK_BYTES"), name, stack::taken_by(|| lent.call(&READER)));
    }
}
