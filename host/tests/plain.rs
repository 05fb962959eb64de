//! The second implementation alone, against document 01's worked cases and the kept examples.
use cram_host::generator::{self, Random};
use cram_host::{edges, examples, forms, plain, worked};

#[test]
fn worked_cases() {
    worked::hold(&plain::ENGINE);
    worked::hold(&plain::HASHED);
}

#[test]
fn each_form() {
    forms::hold(&plain::ENGINE);
}

#[test]
fn runs_at_the_edges() {
    edges::hold(&plain::ENGINE);
}

#[test]
fn kept_examples() {
    examples::are_kept(&plain::ENGINE);
}

/// An example's name says how it ends: refused-NUMBER, or stuck-REASON.
#[test]
fn examples_end_as_they_are_named() {
    for (name, bundle) in examples::all() {
        let text = String::from_utf8(plain::listing(&plain::ENGINE, &bundle)).unwrap();
        let words: Vec<&str> = name.split('-').collect();
        let end = match words[..] {
            ["refused", number, _] => format!("refused {} ", number),
            ["stuck", ..] | ["otway", "rees", "replayed"] => "end 10 ".to_string(),
            ["out", ..] => "end 11 ".to_string(),
            _ => "end 0 ".to_string(),
        };
        let last = text.lines().find(|line| line.starts_with(&end)).unwrap_or_else(|| panic!("{}: {}", name, text));
        if words[0] == "stuck" {
            assert_eq!(last.split(' ').nth(3), Some(words[1]), "{}", name);
        }
    }
}

/// The walk by the rules ends as compile and then run; where it ends early, rows for words apart.
#[test]
fn walk_is_compile_then_run() {
    let mut random = Random::new(15);
    for _ in 0..20_000 {
        let lent = generator::direct(&mut random);
        let (mut walked, mut ran) = (lent.clone(), lent.clone());
        let (ours, theirs) = (walked.call(plain::direct), ran.by_compile_and_run(&plain::ENGINE));
        assert_eq!((ours.number, ours.reason), (theirs.number, theirs.reason), "{:?}", lent);
        assert_eq!(walked, ran, "{:?}", lent);
    }
}
