//! The bundles kept in the folder examples/ at the root, whose page says what each shows.
use crate::case::figure1::{bound, encrypted, object, raw, signed, tuple, Key};
use crate::case::Case;
use crate::limits::{NAMED, NAMES, UNSET};
use crate::plain::terms::{atom, compound, AGENT, ENCRYPTION, NONCE, PRIVATE, PUBLIC, SHARED, SIGNATURE, TUPLE};
use crate::{plain, worked, Engine};
use std::fs;
use std::path::Path;

/// Each bundle by its name.
pub fn all() -> Vec<(&'static str, Vec<u8>)> {
    vec![
        ("greeting", worked::greeting().bundle()),
        ("created-encryption", worked::created_encryption().bundle()),
        ("needham-schroeder-1", first_of_needham_schroeder(0).bundle()),
        ("needham-schroeder-2", second_of_needham_schroeder().bundle()),
        ("otway-rees", last_of_otway_rees(otway_rees_ticket).bundle()),
        ("otway-rees-replayed", last_of_otway_rees(otway_rees_request).bundle()),
        ("signed-pair", signed_pair(true).bundle()),
        ("refused-1-size", refused_size()),
        ("refused-3-certificate", refused_certificate()),
        ("refused-4-pattern", refused_pattern().bundle()),
        ("refused-5-kind", Case { create: false, ..worked::created_encryption() }.bundle()),
        ("refused-6-written", worked::written_twice().bundle()),
        ("refused-7-unset", worked::let_in(1).bundle()),
        ("stuck-1-unset", Case { accumulator: UNSET, ..worked::greeting() }.bundle()),
        ("stuck-2-kind", Case { accumulator: 1, objects: [UNSET; NAMED], ..known_nonce() }.bundle()),
        ("stuck-3-differs", Case { accumulator: 2, ..known_nonce() }.bundle()),
        ("stuck-4-parts", worked::empty_tuple_against(1).bundle()),
        ("stuck-5-certificate", worked::no_certificate().bundle()),
        ("stuck-6-key", first_of_needham_schroeder(2).bundle()),
        ("stuck-7-body", signed_pair(false).bundle()),
        ("out-of-names", out_of_names().bundle()),
    ]
}

/// Holds an engine to the kept listings, and the kept bundles to the ones here.
pub fn are_kept(engine: &Engine) {
    let folder = Path::new(env!("CARGO_MANIFEST_DIR")).join("../examples");
    for (name, bundle) in all() {
        let kept = |ending: &str| fs::read(folder.join(format!("{}.{}", name, ending))).expect(name);
        assert_eq!(kept("bundle"), bundle, "the bundle {}", name);
        assert_eq!(kept("listing"), plain::listing(engine, &bundle), "the listing of {}", name);
    }
}

/// B matches {A, N_A} under B's public key: e0:E(K1, t2:[a3, n4]), with `number` for B's private key.
fn first_of_needham_schroeder(number: u64) -> Case {
    let mut case = Case::new(false);
    case.pattern = vec![object(3), object(4), tuple(2, &[0, 1]), encrypted(0, Key::Plain(1), 2)];
    case.declare(&[ENCRYPTION, PRIVATE, TUPLE, AGENT, NONCE]);
    case.objects[1] = case.term(atom(PRIVATE, number));
    let public = case.term(atom(PUBLIC, 0));
    let parts = [case.term(atom(AGENT, 1)), case.term(atom(NONCE, 1))];
    let body = case.term(compound(TUPLE, 2, &parts));
    case.accumulator = case.term(compound(ENCRYPTION, 0, &[public, body]));
    case.counter = 3;
    case
}

/// B creates {N_A, N_B} under A's public key: e5:E(k6:keyOf(a3), t7:[n4, n8]), after the first message.
fn second_of_needham_schroeder() -> Case {
    let mut case = first_of_needham_schroeder(0);
    case.create = true;
    case.pattern = vec![object(4), object(8), tuple(7, &[0, 1]), encrypted(5, Key::KeyOf(6, 3), 2)];
    case.declare(&[ENCRYPTION, PRIVATE, TUPLE, AGENT, NONCE, ENCRYPTION, PUBLIC, TUPLE, NONCE]);
    (case.objects[0], case.objects[2], case.objects[3], case.objects[4]) = (5, 4, 2, 3);
    let key = case.term(atom(PUBLIC, 2));
    case.certificates = vec![(2, key)];
    case.accumulator = UNSET;
    case
}

/// A matches N, {N_A, SK_AB} under SK_AS: t0:[n1, e2:E(sh3, t4:[n5, sh6])], where N, N_A and SK_AS are known.
fn last_of_otway_rees(sealed: fn(&mut Case, u16, u16) -> u16) -> Case {
    let mut case = Case::new(false);
    let parts = [object(1), object(5), object(6), tuple(4, &[1, 2]), encrypted(2, Key::Plain(3), 3), tuple(0, &[0, 4])];
    case.pattern = parts.to_vec();
    case.declare(&[TUPLE, NONCE, ENCRYPTION, SHARED, TUPLE, NONCE, SHARED]);
    let key = case.term(atom(SHARED, 0));
    let (session, own) = (case.term(atom(NONCE, 1)), case.term(atom(NONCE, 2)));
    (case.objects[1], case.objects[3], case.objects[5]) = (session, key, own);
    let body = sealed(&mut case, session, own);
    let sealed = case.term(compound(ENCRYPTION, 0, &[key, body]));
    case.accumulator = case.term(compound(TUPLE, 2, &[session, sealed]));
    case.counter = 4;
    case
}

/// N_A, SK_AB, as the server seals them.
fn otway_rees_ticket(case: &mut Case, _session: u16, own: u16) -> u16 {
    let fresh = case.term(atom(SHARED, 3));
    case.term(compound(TUPLE, 2, &[own, fresh]))
}

/// N_A, N, A, B, as A sealed them herself in the first message.
fn otway_rees_request(case: &mut Case, session: u16, own: u16) -> u16 {
    let (a, b) = (case.term(atom(AGENT, 1)), case.term(atom(AGENT, 2)));
    case.term(compound(TUPLE, 4, &[own, session, a, b]))
}

/// A pair and its signature, verified with the key of the agent that the pair names:
/// t0:[let r0 = t1:[a2, n3] in r0, s4:S(k5:keyOf(a2), r0)]. Otherwise the signature is of the nonce alone.
fn signed_pair(of_the_pair: bool) -> Case {
    let mut case = Case::new(false);
    case.pattern = vec![
        object(2),
        object(3),
        tuple(1, &[0, 1]),
        raw(0),
        bound(0, 2, 3),
        signed(4, Key::KeyOf(5, 2), 0),
        tuple(0, &[4, 5]),
    ];
    case.declare(&[TUPLE, TUPLE, AGENT, NONCE, SIGNATURE, PUBLIC]);
    let (private, public) = (case.term(atom(PRIVATE, 0)), case.term(atom(PUBLIC, 0)));
    let (agent, nonce) = (case.term(atom(AGENT, 1)), case.term(atom(NONCE, 1)));
    let pair = case.term(compound(TUPLE, 2, &[agent, nonce]));
    let body = if of_the_pair { pair } else { nonce };
    let signature = case.term(compound(SIGNATURE, 0, &[private, body]));
    case.accumulator = case.term(compound(TUPLE, 2, &[pair, signature]));
    case.certificates = vec![(agent, public)];
    case.counter = 2;
    case
}

/// The greeting without its last byte.
fn refused_size() -> Vec<u8> {
    let mut bundle = worked::greeting().bundle();
    bundle.pop();
    bundle
}

/// The signed pair with a spare bit in its certificate, which ends the bundle.
fn refused_certificate() -> Vec<u8> {
    let mut bundle = signed_pair(true).bundle();
    *bundle.last_mut().unwrap() |= 1;
    bundle
}

/// A tuple that names one part twice.
fn refused_pattern() -> Case {
    let mut case = worked::greeting();
    case.pattern[2] = tuple(1, &[0, 0]);
    case
}

/// n0, where it is nonce 0; the other terms are agent 1 and nonce 1.
fn known_nonce() -> Case {
    let mut case = Case::new(false);
    case.pattern = vec![object(0)];
    case.declare(&[NONCE]);
    case.objects[0] = case.term(atom(NONCE, 0));
    case.term(atom(AGENT, 1));
    case.term(atom(NONCE, 1));
    case.counter = 2;
    case
}

/// Creating a nonce when all names are taken.
fn out_of_names() -> Case {
    let mut case = Case::new(true);
    case.pattern = vec![object(0)];
    case.declare(&[NONCE]);
    case.counter = NAMES;
    case
}
