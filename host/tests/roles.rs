//! Whole roles: the second implementation against worked cases, compile and run half after half, and the archive against
//! it on inputs made from seeds. Each test also asserts that its inputs met what they are meant to meet.
use cram_host::compare::RoleTally;
use cram_host::game::Game;
use cram_host::generator::{self, flip_bit, Random};
use cram_host::limits::{ROLE_WORDS, ROUNDS};
use cram_host::roles::RoleEngine;
use cram_host::{measured, plain, worked_roles};

/// The same tests for an engine.
macro_rules! held {
    ($name:ident, $engine:expr) => {
        mod $name {
            #[test]
            fn worked_cases() {
                cram_host::worked_roles::hold(&$engine);
            }

            #[test]
            fn compiles() {
                super::compiles(&$engine);
            }

            #[test]
            fn games() {
                super::games(&$engine);
            }

            #[test]
            fn rounds_of_any_code() {
                super::rounds_of_any_code(&$engine);
            }

            #[test]
            fn rounds_over_full_tables() {
                super::rounds_over_full_tables(&$engine);
            }

            #[test]
            fn every_bit() {
                super::every_bit(&$engine);
            }
        }
    };
}

held!(by_halves, cram_host::by_halves::ROLES);
held!(archive, cram_host::roles::ARCHIVE);

#[test]
fn plain_worked_cases() {
    worked_roles::hold(&plain::ROLES);
}

/// What the benchmark calls a refusal is one, and all else is done.
#[test]
fn measured_inputs() {
    for (name, mut lent) in measured::role_compiles() {
        assert_eq!(lent.call(&plain::ROLES).number == 0, !name.starts_with("refuse"), "{}", name);
    }
    for (name, mut lent) in measured::rounds() {
        assert_eq!(lent.call(&plain::ROLES).number, 0, "{}", name);
    }
}

fn assert_met(what: &str, counts: &[usize], least: usize) {
    assert!(counts.iter().all(|&count| count >= least), "{}: {:?}, not each at least {}", what, counts, least);
}

fn of(counts: &[usize], numbers: &[usize]) -> Vec<usize> {
    numbers.iter().map(|&number| counts[number]).collect()
}

fn needed(game: &Game, role: usize) -> usize {
    game.roles[role].lend_compile(ROLE_WORDS).call(&plain::ROLES).place as usize
}

fn compiles(engine: &RoleEngine) {
    let mut random = Random::new(11);
    let mut tally = RoleTally::new(engine);
    for _ in 0..900 {
        let game = generator::roles::game(&mut random);
        for role in 0..2 {
            let words = needed(&game, role);
            for _ in 0..if game.roles[role].rounds() > 8 { 150 } else { 24 } {
                tally.compile(&generator::roles::damaged_role(&mut random, &game.roles[role], words));
            }
        }
    }
    println!("{} compiles: {:?}, by half {:?}, rounds {:?}", tally.inputs, tally.compiled, tally.halves, tally.roles);
    assert_met("answers", &of(&tally.compiled, &[0, 1, 3, 4, 5, 6, 7, 8]), 300);
    for number in [1, 4, 5, 6, 7] {
        assert_met("refusals of a half", &tally.halves[number], 10);
    }
    assert_met("roles by rounds", &of(&tally.roles, &[1, 2, 3, 4, 6, ROUNDS]), 100);
}

fn games(engine: &RoleEngine) {
    let mut random = Random::new(12);
    let mut tally = RoleTally::new(engine);
    tally.play(&worked_roles::needham_schroeder(), 64, |_, _| ());
    for _ in 0..1_200 {
        let game = generator::roles::game(&mut random);
        let words = needed(&game, 0).max(needed(&game, 1));
        tally.play(&game, words, |tally, lent| {
            for _ in 0..6 {
                let damaged = generator::roles::damaged_round(&mut random, lent);
                tally.round(&damaged);
                tally.take(&damaged.session);
            }
        });
    }
    print_rounds(&tally);
    assert_met("answers", &of(&tally.rounds, &[0, 1, 2, 3, 9, 10, 11, 12, 13, 14]), 300);
    assert_met("reasons", &tally.reasons[1..], 50);
    assert_met("words of an operation", &tally.operations, 400);
    assert_met("12, 13 and 14 together", &tally.waiting[1..], 100);
    assert_met("takes", &tally.taken, 30);
    assert_eq!(tally.games, 1_201);
}

fn print_rounds(tally: &RoleTally) {
    println!(
        "{} inputs, {} games: {:?}, reasons {:?}, operations {:?}, stops {:?}, waiting {:?}, takes {:?}, roles {:?}",
        tally.inputs,
        tally.games,
        tally.rounds,
        tally.reasons,
        tally.operations,
        tally.stops,
        tally.waiting,
        tally.taken,
        tally.roles
    );
}

fn rounds_of_any_code(engine: &RoleEngine) {
    let mut random = Random::new(13);
    let mut tally = RoleTally::new(engine);
    for _ in 0..30_000 {
        tally.round(&generator::roles::direct_round(&mut random));
    }
    print_rounds(&tally);
    assert_met("answers", &of(&tally.rounds, &[0, 1, 2, 3, 9, 10, 11, 12, 13, 14]), 100);
    assert_met("reasons", &tally.reasons[1..], 100);
    assert_met("words of an operation", &tally.operations, 100);
}

fn rounds_over_full_tables(engine: &RoleEngine) {
    let mut random = Random::new(14);
    let mut tally = RoleTally::new(engine);
    for _ in 0..60 {
        tally.round(&generator::roles::full_round(&mut random));
    }
    print_rounds(&tally);
    assert_met("answers", &of(&tally.rounds, &[0, 1, 2, 10, 11]), 3);
}

/// Compares an input and then all that differ from it in one bit.
fn with_each_bit<T: Clone>(lent: &T, flip: fn(&mut T, usize) -> bool, mut compare: impl FnMut(&T)) {
    compare(lent);
    for bit in 0.. {
        let mut flipped = lent.clone();
        if !flip(&mut flipped, bit) {
            break;
        }
        compare(&flipped);
    }
}

/// Around the roles of Needham-Schroeder and the second of A's rounds.
fn every_bit(engine: &RoleEngine) {
    let mut tally = RoleTally::new(engine);
    let game = worked_roles::needham_schroeder();
    for role in &game.roles {
        let lent = role.lend_compile(40);
        with_each_bit(&lent, |lent, bit| flip_bit(lent.slices(), bit), |lent| drop(tally.compile(lent)));
    }
    let lent = worked_roles::second_of_initiator();
    with_each_bit(&lent, |lent, bit| flip_bit(lent.slices(), bit), |lent| drop(tally.round(lent)));
    println!("{} inputs: {:?} {:?}", tally.inputs, tally.compiled, tally.rounds);
    assert_met("compiles", &of(&tally.compiled, &[0, 1, 3, 4, 5, 6]), 20);
    assert_met("rounds", &of(&tally.rounds, &[0, 1, 2, 3, 9, 10, 14]), 20);
}
