//! Figures 5 and 6 form by form, for any engine: the code word for word, or the refusal; and compile at its limits.
use crate::case::figure1::{bound, constant, encrypted, hashed, key_of, object, opposite, raw, signed, tuple, Key};
use crate::case::Case;
use crate::limits::PATTERN_ROWS;
use crate::plain::code::{
    ANALYZE_TUPLE, CREATE, CREATE_TUPLE, DECODE, DECRYPT, ENCODE, ENCRYPT, HASHING, KEY_OF, LOAD, MATCH, OPPOSITE,
    SIGN, STORE, STORE_CONST, VERIFY,
};
use crate::plain::patterns::Form;
use crate::plain::terms::{AGENT, BYTE, ENCRYPTION, HASH, NONCE, PRIVATE, PUBLIC, SHARED, SIGNATURE, TUPLE};
use crate::worked::{greeting, greeting_words, word};
use crate::{Compiled, Engine};

/// Tries each case.
pub fn hold(engine: &Engine) {
    for case in matched().into_iter().chain(created()).chain(limits()) {
        println!("{} {}", if case.given.create { "created" } else { "matched" }, case.name);
        case.hold(engine);
    }
}

/// What is compiled into so many words, and what comes of it: the words that are written, or a number and a place.
struct Trial {
    name: &'static str,
    given: Case,
    lent: usize,
    comes: Result<Vec<[u8; 4]>, (u32, u32)>,
}

impl Trial {
    /// Every lent byte is looked at, also those behind the written words.
    fn hold(&self, engine: &Engine) {
        let mut lent = self.given.lend_compile(self.lent);
        let mut left = lent.clone();
        let answer = match &self.comes {
            Ok(words) => {
                left.code[..4 * words.len()].copy_from_slice(&words.concat());
                Compiled { number: 0, place: words.len() as u32 }
            }
            &Err((number, place)) => Compiled { number, place },
        };
        assert_eq!(lent.call(engine), answer);
        assert_eq!(lent, left);
    }
}

/// Words lent where their number does not matter: more than any case needs.
const ROOM: usize = 104;

/// A second tuple; of each other kind there is one object variable, numbered as its kind is.
const INNER: u8 = 11;

/// All variables are declared, and none is set.
fn unset(create: bool) -> Case {
    let mut case = Case::new(create);
    for kind in BYTE..=TUPLE {
        case.kinds[kind as usize] = kind;
    }
    case.kinds[INNER as usize] = TUPLE;
    case
}

/// Cases of one direction, as they are written down.
struct Figure {
    create: bool,
    trials: Vec<Trial>,
}

/// Which variables are set: some object variables, or raw variable 0 with them. Any row will do, since compile sees only
/// that a cell is set.
enum Set {
    Objects(&'static [u8]),
    RawAnd(&'static [u8]),
}

const UNSET: Set = Set::Objects(&[]);
const RAW: Set = Set::RawAnd(&[]);

impl Figure {
    fn given(&self, set: Set, pattern: &[Form]) -> Case {
        let mut case = unset(self.create);
        case.pattern = pattern.to_vec();
        let objects = match set {
            Set::Objects(objects) => objects,
            Set::RawAnd(objects) => {
                case.messages[0] = 0;
                objects
            }
        };
        for &v in objects {
            case.objects[v as usize] = 0;
        }
        case
    }

    fn gives(&mut self, name: &'static str, set: Set, pattern: &[Form], words: &[[u8; 4]]) {
        let given = self.given(set, pattern);
        self.trials.push(Trial { name, given, lent: ROOM, comes: Ok(words.to_vec()) });
    }

    fn refuses(&mut self, name: &'static str, set: Set, pattern: &[Form], number: u32, place: u32) {
        let given = self.given(set, pattern);
        self.trials.push(Trial { name, given, lent: ROOM, comes: Err((number, place)) });
    }
}

fn load(r: u8) -> [u8; 4] {
    word(LOAD, r, 0, 0)
}

fn store(r: u8) -> [u8; 4] {
    word(STORE, r, 0, 0)
}

fn store_five() -> [u8; 4] {
    word(STORE_CONST, BYTE, 5, 0)
}

fn decode(v: u8) -> [u8; 4] {
    word(DECODE, v, 0, 0)
}

fn encode(v: u8) -> [u8; 4] {
    word(ENCODE, v, 0, 0)
}

fn new(v: u8) -> [u8; 4] {
    word(CREATE, v, 0, 0)
}

fn analyze(t: u8, first: u8, n: u8) -> [u8; 4] {
    word(ANALYZE_TUPLE, t, first, n)
}

fn compose(t: u8, first: u8, n: u8) -> [u8; 4] {
    word(CREATE_TUPLE, t, first, n)
}

fn opposite_key() -> [u8; 4] {
    word(OPPOSITE, PRIVATE, PUBLIC, 0)
}

fn certified() -> [u8; 4] {
    word(KEY_OF, 0, 0, 0)
}

fn equals(r: u8) -> [u8; 4] {
    word(MATCH, r, 0, 0)
}

fn encrypt(key: u8) -> [u8; 4] {
    word(ENCRYPT, key, 0, 0)
}

fn decrypt(key: u8) -> [u8; 4] {
    word(DECRYPT, key, 0, 0)
}

fn sign(key: u8) -> [u8; 4] {
    word(SIGN, key, 0, 0)
}

fn verify(key: u8) -> [u8; 4] {
    word(VERIFY, key, 0, 0)
}

fn hash() -> [u8; 4] {
    word(HASHING, HASH, 0, 0)
}

/// An encryption of raw variable 0.
fn sealed(key: Key) -> [Form; 2] {
    [raw(0), encrypted(ENCRYPTION, key, 0)]
}

/// let r0 = v in the raw variable `last`
fn let_in(last: u8) -> [Form; 3] {
    [object(NONCE), raw(last), bound(0, 0, 1)]
}

/// t : [v, t : [c : C, r], h : H(r)]
fn composed() -> [Form; 6] {
    let inner = tuple(INNER, &[1, 2]);
    [object(NONCE), constant(BYTE, 5), raw(0), inner, hashed(HASH, 0), tuple(TUPLE, &[0, 3, 4])]
}

/// t : [t : []], the same t
fn in_itself() -> [Form; 2] {
    [tuple(TUPLE, &[]), tuple(TUPLE, &[0])]
}

const OF_PRIVATE: Key = Key::Opposite(PUBLIC, PRIVATE);
const OF_AGENT: Key = Key::KeyOf(PUBLIC, AGENT);

/// Figure 5.
fn matched() -> Vec<Trial> {
    let mut figure = Figure { create: false, trials: Vec::new() };
    matched_leaves(&mut figure);
    matched_keys(&mut figure);
    matched_tuples(&mut figure);
    figure.trials
}

fn matched_leaves(figure: &mut Figure) {
    let v = [object(NONCE)];
    figure.gives("v unset", UNSET, &v, &[decode(NONCE)]);
    figure.gives("v set", Set::Objects(&[NONCE]), &v, &[store(64), encode(NONCE), equals(64)]);
    figure.gives("r unset", UNSET, &[raw(0)], &[store(0)]);
    figure.gives("r set", RAW, &[raw(0)], &[equals(0)]);
    let c = [constant(BYTE, 5)];
    figure.gives("c : C", UNSET, &c, &[store(64), store_five(), encode(BYTE), equals(64)]);
    figure.refuses("c : C, c set", Set::Objects(&[BYTE]), &c, 6, 0);
    let k = [opposite(PUBLIC, PRIVATE)];
    let words = [store(64), opposite_key(), encode(PUBLIC), equals(64)];
    figure.gives("k : op(K)", Set::Objects(&[PRIVATE]), &k, &words);
    figure.refuses("k : op(K), K unset", UNSET, &k, 7, 0);
    let words = [decode(PUBLIC), store(64), encode(AGENT), certified(), equals(64)];
    figure.gives("k : keyOf(a)", Set::Objects(&[AGENT]), &[key_of(PUBLIC, AGENT)], &words);
    let words = [decode(HASH), store(64), load(0), hash(), equals(64)];
    figure.gives("h : H(r)", RAW, &[hashed(HASH, 0)], &words);
}

/// What opens an encryption is a key of one's own: under op it is 5.
fn matched_keys(figure: &mut Figure) {
    let words = |key| [decode(ENCRYPTION), decrypt(key), store(0)];
    figure.gives("e : E(K, r)", Set::Objects(&[PRIVATE]), &sealed(Key::Plain(PRIVATE)), &words(PRIVATE));
    figure.gives("e : E(sh, r)", Set::Objects(&[SHARED]), &sealed(Key::Plain(SHARED)), &words(SHARED));
    figure.refuses("e : E(k : op(K), r)", Set::Objects(&[PRIVATE]), &sealed(OF_PRIVATE), 5, 1);
    let signature = |key| [signed(SIGNATURE, key, 0)];
    let words = |key| [decode(SIGNATURE), verify(key)];
    figure.gives("s : S(k, r)", Set::RawAnd(&[PUBLIC]), &signature(Key::Plain(PUBLIC)), &words(PUBLIC));
    figure.gives("s : S(sh, r)", Set::RawAnd(&[SHARED]), &signature(Key::Plain(SHARED)), &words(SHARED));
    let words = [decode(SIGNATURE), opposite_key(), verify(PUBLIC)];
    figure.gives("s : S(k : op(K), r)", Set::RawAnd(&[PRIVATE]), &signature(OF_PRIVATE), &words);
    let words = [decode(SIGNATURE), store(64), encode(AGENT), certified(), decode(PUBLIC), load(64), verify(PUBLIC)];
    figure.gives("s : S(k : keyOf(a), r)", Set::RawAnd(&[AGENT]), &signature(OF_AGENT), &words);
}

/// Scratch 64 to 66 is the outer tuple's in the last case, 67 the nonce's, 68 and 69 the inner tuple's, 70 the constant's,
/// 71 the hash's.
fn matched_tuples(figure: &mut Figure) {
    figure.gives("t : []", UNSET, &[tuple(TUPLE, &[])], &[decode(TUPLE), analyze(TUPLE, 64, 0)]);
    let mut words = vec![decode(TUPLE), analyze(TUPLE, 64, 4)];
    words.extend((0..4).flat_map(|part| [load(64 + part), store(part)]));
    let four = [raw(0), raw(1), raw(2), raw(3), tuple(TUPLE, &[0, 1, 2, 3])];
    figure.gives("t : [r0, r1, r2, r3]", UNSET, &four, &words);
    figure.gives("let r = v in r", UNSET, &let_in(0), &[store(0), load(0), decode(NONCE)]);
    figure.refuses("let r = v in r, r set", RAW, &let_in(0), 6, 2);
    figure.refuses("let r = v in r1", UNSET, &let_in(1), 7, 2);
    figure.refuses("t : [t : []], the inner written behind the outer", UNSET, &in_itself(), 6, 0);
    let mut words = vec![decode(TUPLE), analyze(TUPLE, 64, 3)];
    words.extend([load(64), store(67), encode(NONCE), equals(67)]);
    words.extend([load(65), decode(INNER), analyze(INNER, 68, 2)]);
    words.extend([load(68), store(70), store_five(), encode(BYTE), equals(70)]);
    words.extend([load(69), store(0)]);
    words.extend([load(66), decode(HASH), store(71), load(0), hash(), equals(71)]);
    figure.gives("t : [v, t : [c : C, r], h : H(r)]", Set::Objects(&[NONCE]), &composed(), &words);
}

/// Figure 6.
fn created() -> Vec<Trial> {
    let mut figure = Figure { create: true, trials: Vec::new() };
    created_leaves(&mut figure);
    created_encryptions(&mut figure);
    created_signatures(&mut figure);
    created_tuples(&mut figure);
    created_lets(&mut figure);
    figure.trials
}

fn created_leaves(figure: &mut Figure) {
    figure.gives("v unset", UNSET, &[object(NONCE)], &[new(NONCE), encode(NONCE)]);
    figure.gives("v set", Set::Objects(&[NONCE]), &[object(NONCE)], &[encode(NONCE)]);
    figure.refuses("a unset, which is not created", UNSET, &[object(AGENT)], 7, 0);
    figure.refuses("r unset", UNSET, &[raw(0)], 7, 0);
    figure.gives("r set", RAW, &[raw(0)], &[load(0)]);
    figure.gives("c : C", UNSET, &[constant(BYTE, 5)], &[store_five(), encode(BYTE)]);
    figure.refuses("c : C, c set", Set::Objects(&[BYTE]), &[constant(BYTE, 5)], 6, 0);
    let k = [opposite(PUBLIC, PRIVATE)];
    figure.gives("k : op(K)", Set::Objects(&[PRIVATE]), &k, &[opposite_key(), encode(PUBLIC)]);
    figure.gives("k : op(K), K unset", UNSET, &k, &[new(PRIVATE), opposite_key(), encode(PUBLIC)]);
    let words = [encode(AGENT), certified(), decode(PUBLIC)];
    figure.gives("k : keyOf(a)", Set::Objects(&[AGENT]), &[key_of(PUBLIC, AGENT)], &words);
    figure.gives("h : H(r)", RAW, &[hashed(HASH, 0)], &[load(0), hash(), decode(HASH)]);
}

fn created_encryptions(figure: &mut Figure) {
    let under = |key, before: &[[u8; 4]]| [before, &[load(0), encrypt(key), decode(ENCRYPTION)]].concat();
    figure.gives("e : E(k, r)", Set::RawAnd(&[PUBLIC]), &sealed(Key::Plain(PUBLIC)), &under(PUBLIC, &[]));
    let shared = sealed(Key::Plain(SHARED));
    figure.gives("e : E(sh, r)", Set::RawAnd(&[SHARED]), &shared, &under(SHARED, &[]));
    figure.gives("e : E(sh, r), sh unset", RAW, &shared, &under(SHARED, &[new(SHARED)]));
    let words = under(PUBLIC, &[opposite_key()]);
    figure.gives("e : E(k : op(K), r)", Set::RawAnd(&[PRIVATE]), &sealed(OF_PRIVATE), &words);
    let words = under(PUBLIC, &[new(PRIVATE), opposite_key()]);
    figure.gives("e : E(k : op(K), r), K unset", RAW, &sealed(OF_PRIVATE), &words);
    let words = under(PUBLIC, &[encode(AGENT), certified(), decode(PUBLIC)]);
    figure.gives("e : E(k : keyOf(a), r)", Set::RawAnd(&[AGENT]), &sealed(OF_AGENT), &words);
}

/// What signs is a key of one's own: by op it is 5.
fn created_signatures(figure: &mut Figure) {
    let signature = |key| [signed(SIGNATURE, key, 0)];
    let words = |key| [load(0), sign(key), decode(SIGNATURE)];
    let private = signature(Key::Plain(PRIVATE));
    figure.gives("s : S(K, r)", Set::RawAnd(&[PRIVATE]), &private, &words(PRIVATE));
    let made = [vec![new(PRIVATE)], words(PRIVATE).to_vec()].concat();
    figure.gives("s : S(K, r), K unset", RAW, &private, &made);
    figure.gives("s : S(sh, r)", Set::RawAnd(&[SHARED]), &signature(Key::Plain(SHARED)), &words(SHARED));
    figure.refuses("s : S(k : op(K), r)", Set::RawAnd(&[PRIVATE]), &signature(OF_PRIVATE), 5, 0);
}

/// Scratch 64 to 66 is the outer tuple's in the last case, 67 and 68 the inner tuple's.
fn created_tuples(figure: &mut Figure) {
    figure.gives("t : []", UNSET, &[tuple(TUPLE, &[])], &[compose(TUPLE, 64, 0), encode(TUPLE)]);
    let mut words: Vec<[u8; 4]> = (64..68).flat_map(|part| [load(0), store(part)]).collect();
    words.extend([compose(TUPLE, 64, 4), encode(TUPLE)]);
    let four = [raw(0), raw(0), raw(0), raw(0), tuple(TUPLE, &[0, 1, 2, 3])];
    figure.gives("t : [r, r, r, r]", RAW, &four, &words);
    figure.refuses("t : [t : []], the outer written behind the inner", UNSET, &in_itself(), 6, 1);
    let mut words = vec![new(NONCE), encode(NONCE), store(64)];
    words.extend([store_five(), encode(BYTE), store(67), load(0), store(68)]);
    words.extend([compose(INNER, 67, 2), encode(INNER), store(65)]);
    words.extend([load(0), hash(), decode(HASH), store(66)]);
    words.extend([compose(TUPLE, 64, 3), encode(TUPLE)]);
    figure.gives("t : [v, t : [c : C, r], h : H(r)]", RAW, &composed(), &words);
}

/// The let's r is read behind it in the last case.
fn created_lets(figure: &mut Figure) {
    let words = [new(NONCE), encode(NONCE), store(0), load(0)];
    figure.gives("let r = v in r", UNSET, &let_in(0), &words);
    figure.refuses("let r = v in r, r set", RAW, &let_in(0), 6, 2);
    let pattern = [&let_in(0)[..], &[raw(0), tuple(TUPLE, &[2, 3])]].concat();
    let behind = [store(64), load(0), store(65), compose(TUPLE, 64, 2), encode(TUPLE)];
    figure.gives("t : [let r = v in r, r]", UNSET, &pattern, &[&words[..], &behind].concat());
}

/// 96 rows and 97; a slice of just the listing's words, one short, and none.
fn limits() -> Vec<Trial> {
    let mut many = Case::new(false);
    many.pattern = vec![object(0); PATTERN_ROWS + 1];
    let words = greeting_words().to_vec();
    let slice = |name, lent, comes| Trial { name, given: greeting(), lent, comes };
    vec![
        most_rows(),
        Trial { name: "97 rows", given: many, lent: 1, comes: Err((1, 0)) },
        slice("just fits", words.len(), Ok(words.clone())),
        slice("one short", words.len() - 1, Err((8, 6))),
        slice("no slice", 0, Err((8, 6))),
    ]
}

/// Row 0 a nonce; 47 lets, each of a nonce in the one before; E of the last. Key and nonce are created, each let stores
/// the nonce, and what the lets lead to is sealed.
fn most_rows() -> Trial {
    let mut given = Case::new(true);
    given.declare(&[NONCE, SHARED, ENCRYPTION]);
    given.pattern = vec![object(0)];
    let mut words = vec![new(1), new(0)];
    for r in 0..47 {
        given.pattern.extend([object(0), bound(r, 2 * r + 1, 2 * r)]);
        words.extend([encode(0), store(46 - r)]);
    }
    given.pattern.push(encrypted(2, Key::Plain(1), 94));
    words.extend([encode(0), encrypt(1), decode(2)]);
    Trial { name: "96 rows", given, lent: words.len(), comes: Ok(words) }
}
