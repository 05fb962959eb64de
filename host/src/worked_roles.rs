//! Worked cases of whole roles, for any engine: what is carried from half to half, Needham-Schroeder's three messages, and
//! each refusal in its order.
use crate::case::figure1::{constant, encrypted, object, raw, tuple, Key};
use crate::case::Case;
use crate::game::{Game, Player, Role};
use crate::input::{Field, RoundInput};
use crate::limits::{NAMES, PATTERN_ROWS, ROLE_WORDS, ROUNDS, ROUND_WORDS, TERM_ROWS, UNSET};
use crate::plain::bytes::word as word_at;
use crate::plain::code::{
    Word, ANALYZE_TUPLE, CREATE, CREATE_TUPLE, DECODE, DECRYPT, ENCODE, ENCRYPT, INPUT, KEY_OF, LOAD, MATCH, OUTPUT,
    STORE, STORE_CONST,
};
use crate::plain::patterns::Form;
use crate::plain::terms::{atom, AGENT, BYTE, ENCRYPTION, NONCE, PRIVATE, PUBLIC, TUPLE};
use crate::roles::{RoleCompiled, RoleEngine, Rounded, Taken};
use crate::{plain, worked};

/// Tries each case.
pub fn hold(engine: &RoleEngine) {
    for (name, case) in CASES {
        println!("{}", name);
        case(engine);
    }
}

type Named = (&'static str, fn(&RoleEngine));

const CASES: [Named; 10] = [
    ("what is carried from half to half", carried),
    ("Needham-Schroeder", needham_schroeder_is_played),
    ("a reply that is not the expected one", stuck_reply),
    ("a refusal before a later half's", halves_in_order),
    ("rounds of a role", rounds_at_the_limit),
    ("rows of a half", rows_at_the_limit),
    ("a code slice one short", slice_one_short),
    ("words of a round", words_at_the_limit),
    ("12, 13 and 14", waiting),
    ("records and takes", records),
];

const NONE: u32 = UNSET as u32;

/// Two rounds: n0 is answered by t1:[n0, n2], and then n2 by n0.
pub fn two_rounds() -> Role {
    let mut stores = Case::new(false);
    stores.declare(&[NONCE, TUPLE, NONCE]);
    stores.accumulator = stores.term(atom(NONCE, 0));
    stores.counter = 1;
    let halves = vec![vec![object(0)], vec![object(0), object(2), tuple(1, &[0, 1])], vec![object(2)], vec![object(0)]];
    Role { halves, stores }
}

/// A is told to greet B and sends {A, N_A} under B's key; B answers {N_A, N_B} under A's; A answers {N_B} under B's; B
/// ends with the byte 1, after which A hands its own name out.
pub fn needham_schroeder() -> Game {
    let mut table = Case::new(false);
    let (a, b) = (table.term(atom(AGENT, 1)), table.term(atom(AGENT, 2)));
    let (private_a, public_a) = (table.term(atom(PRIVATE, 0)), table.term(atom(PUBLIC, 0)));
    let (private_b, public_b) = (table.term(atom(PRIVATE, 1)), table.term(atom(PUBLIC, 1)));
    table.certificates = vec![(a, public_a), (b, public_b)];
    table.counter = 2;
    table.accumulator = b;
    let mut first = Role { halves: initiator(), stores: table.clone() };
    first.stores.declare(&[
        AGENT, PRIVATE, AGENT, NONCE, PUBLIC, ENCRYPTION, TUPLE, ENCRYPTION, TUPLE, NONCE, ENCRYPTION, BYTE,
    ]);
    (first.stores.objects[0], first.stores.objects[1]) = (a, private_a);
    let mut second = Role { halves: responder(), stores: table };
    second
        .stores
        .declare(&[ENCRYPTION, PRIVATE, TUPLE, AGENT, NONCE, ENCRYPTION, PUBLIC, TUPLE, NONCE, ENCRYPTION, BYTE]);
    second.stores.objects[1] = private_b;
    Game { roles: [first, second], rows: 14 }
}

/// A's second round before it is run: it matches {N_A, N_B} and creates {N_B}.
pub fn second_of_initiator() -> RoundInput {
    let game = needham_schroeder();
    let [mut first, mut second] = game.roles.map(|role| {
        let mut compiled = role.lend_compile(ROLE_WORDS);
        assert_eq!(compiled.call(&plain::ROLES).number, 0);
        Player::new(&role, game.rows, compiled)
    });
    let answer = |player: &mut Player, message| {
        player.put_message(message);
        assert_eq!(player.lent.call(&plain::ROLES).number, 0);
        player.lent.take(&plain::ROLES).answer
    };
    let message = answer(&mut first, 1);
    second.turn_to_table(&first.lent);
    let message = answer(&mut second, message);
    first.turn_to_table(&second.lent);
    first.put_message(message);
    first.lent
}

/// a2, e5:E(k4:keyOf(a2), t6:[a0, n3]); e7:E(K1, t8:[n3, n9]), e10:E(k4, n9); c11:1, a0
fn initiator() -> Vec<Vec<Form>> {
    vec![
        vec![object(2)],
        vec![object(0), object(3), tuple(6, &[0, 1]), encrypted(5, Key::KeyOf(4, 2), 2)],
        vec![object(3), object(9), tuple(8, &[0, 1]), encrypted(7, Key::Plain(1), 2)],
        vec![object(9), encrypted(10, Key::Plain(4), 0)],
        vec![constant(11, 1)],
        vec![object(0)],
    ]
}

/// e0:E(K1, t2:[a3, n4]), e5:E(k6:keyOf(a3), t7:[n4, n8]); e9:E(K1, n8), c10:1
fn responder() -> Vec<Vec<Form>> {
    vec![
        vec![object(3), object(4), tuple(2, &[0, 1]), encrypted(0, Key::Plain(1), 2)],
        vec![object(4), object(8), tuple(7, &[0, 1]), encrypted(5, Key::KeyOf(6, 3), 2)],
        vec![object(8), encrypted(9, Key::Plain(1), 0)],
        vec![constant(10, 1)],
    ]
}

fn word(operation: u8, a: u8, b: u8, n: u8) -> u32 {
    Word { operation, a, b, n }.pack()
}

fn done(words: u32) -> Rounded {
    Rounded { number: 0, place: words, reason: 0 }
}

fn refused(number: u32) -> Rounded {
    Rounded { number, place: 0, reason: 0 }
}

/// Compiles a role; its words and ends have to be these, and bytes behind them stay.
fn compiles_to(engine: &RoleEngine, role: &Role, words: &[u32], ends: &[u16]) -> Player {
    let mut lent = role.lend_compile(words.len() + 1);
    let given = lent.clone();
    assert_eq!(lent.call(engine), RoleCompiled { number: 0, place: words.len() as u32, half: 0 });
    let written: Vec<u32> = (0..words.len()).map(|at| word_at(&lent.code, at)).collect();
    assert_eq!(written, words);
    assert_eq!(lent.ends, ends.iter().flat_map(|end| end.to_be_bytes()).collect::<Vec<u8>>());
    assert_eq!(lent.code[4 * words.len()..], given.code[4 * words.len()..]);
    Player::new(role, 16, lent)
}

/// The first round of a role, as it can be run.
fn first_round(role: &Role, engine: &RoleEngine) -> RoundInput {
    let mut compiled = role.lend_compile(ROLE_WORDS);
    assert_eq!(compiled.call(engine).number, 0);
    let mut player = Player::new(role, 16, compiled);
    player.put_message(role.stores.accumulator as u32);
    player.lent
}

/// A round with a message; the answer, and then the record, have to be these.
fn turn(engine: &RoleEngine, player: &mut Player, message: u32, answer: Rounded, record: [u32; 5]) {
    player.put_message(message);
    assert_eq!(player.lent.call(engine), answer);
    assert_eq!([0, 1, 2, 3, 4].map(|field| word_at(&player.lent.session, field)), record);
}

fn taken(engine: &RoleEngine, player: &mut Player, answer: u32) {
    assert_eq!(player.lent.take(engine), Taken { number: 0, answer });
    assert_eq!(player.lent.field(Field::Answer), NONE);
}

/// n2 is known in the second round, and scratch starts at 64 in each half.
fn carried(engine: &RoleEngine) {
    let words = [
        INPUT,
        word(DECODE, 0, 0, 0),
        word(ENCODE, 0, 0, 0),
        word(STORE, 64, 0, 0),
        word(CREATE, 2, 0, 0),
        word(ENCODE, 2, 0, 0),
        word(STORE, 65, 0, 0),
        word(CREATE_TUPLE, 1, 64, 2),
        word(ENCODE, 1, 0, 0),
        OUTPUT,
        INPUT,
        word(STORE, 64, 0, 0),
        word(ENCODE, 2, 0, 0),
        word(MATCH, 64, 0, 0),
        word(ENCODE, 0, 0, 0),
        OUTPUT,
    ];
    let mut player = compiles_to(engine, &two_rounds(), &words, &[10, 16]);
    turn(engine, &mut player, 0, done(10), [3, 2, 1, NONE, 2]);
    taken(engine, &mut player, 2);
    let stuck = Rounded { number: 10, place: 3, reason: 3 };
    turn(engine, &mut player, 0, stuck, [3, 2, 1, 0, NONE]);
    turn(engine, &mut player, 1, done(6), [3, 2, 2, NONE, 0]);
}

fn needham_schroeder_is_played(engine: &RoleEngine) {
    let [first, second] = needham_schroeder().roles;
    let mut first = compiles_to(engine, &first, &initiator_words(), &[15, 30, 37]);
    let mut second = compiles_to(engine, &second, &responder_words(), &[22, 31]);
    turn(engine, &mut first, 1, done(15), [9, 3, 1, NONE, 8]);
    taken(engine, &mut first, 8);
    second.turn_to_table(&first.lent);
    turn(engine, &mut second, 8, done(22), [12, 4, 1, NONE, 11]);
    taken(engine, &mut second, 11);
    first.turn_to_table(&second.lent);
    turn(engine, &mut first, 11, done(15), [13, 4, 2, NONE, 12]);
    taken(engine, &mut first, 12);
    second.turn_to_table(&first.lent);
    turn(engine, &mut second, 12, done(9), [14, 4, 2, NONE, 13]);
    taken(engine, &mut second, 13);
    // Two records over one table: a record that is not brought up to date is refused.
    let stale = first.lent.clone();
    first.lent.terms.clone_from(&second.lent.terms);
    turn(engine, &mut first, 13, refused(1), [13, 4, 2, 13, NONE]);
    first.lent = stale;
    first.turn_to_table(&second.lent);
    turn(engine, &mut first, 13, done(7), [14, 4, 3, NONE, 0]);
    taken(engine, &mut first, 0);
    turn(engine, &mut first, 0, refused(14), [14, 4, 3, 0, NONE]);
}

fn initiator_words() -> Vec<u32> {
    vec![
        INPUT,
        word(DECODE, 2, 0, 0),
        word(ENCODE, 2, 0, 0),
        word(KEY_OF, 0, 0, 0),
        word(DECODE, 4, 0, 0),
        word(ENCODE, 0, 0, 0),
        word(STORE, 64, 0, 0),
        word(CREATE, 3, 0, 0),
        word(ENCODE, 3, 0, 0),
        word(STORE, 65, 0, 0),
        word(CREATE_TUPLE, 6, 64, 2),
        word(ENCODE, 6, 0, 0),
        word(ENCRYPT, 4, 0, 0),
        word(DECODE, 5, 0, 0),
        OUTPUT,
        INPUT,
        word(DECODE, 7, 0, 0),
        word(DECRYPT, 1, 0, 0),
        word(DECODE, 8, 0, 0),
        word(ANALYZE_TUPLE, 8, 64, 2),
        word(LOAD, 64, 0, 0),
        word(STORE, 66, 0, 0),
        word(ENCODE, 3, 0, 0),
        word(MATCH, 66, 0, 0),
        word(LOAD, 65, 0, 0),
        word(DECODE, 9, 0, 0),
        word(ENCODE, 9, 0, 0),
        word(ENCRYPT, 4, 0, 0),
        word(DECODE, 10, 0, 0),
        OUTPUT,
        INPUT,
        word(STORE, 64, 0, 0),
        word(STORE_CONST, 11, 1, 0),
        word(ENCODE, 11, 0, 0),
        word(MATCH, 64, 0, 0),
        word(ENCODE, 0, 0, 0),
        OUTPUT,
    ]
}

fn responder_words() -> Vec<u32> {
    vec![
        INPUT,
        word(DECODE, 0, 0, 0),
        word(DECRYPT, 1, 0, 0),
        word(DECODE, 2, 0, 0),
        word(ANALYZE_TUPLE, 2, 64, 2),
        word(LOAD, 64, 0, 0),
        word(DECODE, 3, 0, 0),
        word(LOAD, 65, 0, 0),
        word(DECODE, 4, 0, 0),
        word(ENCODE, 3, 0, 0),
        word(KEY_OF, 0, 0, 0),
        word(DECODE, 6, 0, 0),
        word(ENCODE, 4, 0, 0),
        word(STORE, 64, 0, 0),
        word(CREATE, 8, 0, 0),
        word(ENCODE, 8, 0, 0),
        word(STORE, 65, 0, 0),
        word(CREATE_TUPLE, 7, 64, 2),
        word(ENCODE, 7, 0, 0),
        word(ENCRYPT, 6, 0, 0),
        word(DECODE, 5, 0, 0),
        OUTPUT,
        INPUT,
        word(DECODE, 9, 0, 0),
        word(DECRYPT, 1, 0, 0),
        word(STORE, 64, 0, 0),
        word(ENCODE, 8, 0, 0),
        word(MATCH, 64, 0, 0),
        word(STORE_CONST, 10, 1, 0),
        word(ENCODE, 10, 0, 0),
        OUTPUT,
    ]
}

/// A gets its own first message back: it is under B's key. A stuck round and one without room leave all as it was.
fn stuck_reply(engine: &RoleEngine) {
    let [first, _] = needham_schroeder().roles;
    let mut first = compiles_to(engine, &first, &initiator_words(), &[15, 30, 37]);
    first.lent.terms.truncate(8 * 8);
    let given = first.lent.clone();
    turn(engine, &mut first, 1, Rounded { number: 11, place: 12, reason: 0 }, [6, 2, 0, 1, NONE]);
    assert_eq!((&first.lent.terms, &first.lent.objects), (&given.terms, &given.objects));
    first.lent.terms = given.terms;
    first.lent.terms.resize(8 * 9, 0);
    turn(engine, &mut first, 1, done(15), [9, 3, 1, NONE, 8]);
    taken(engine, &mut first, 8);
    turn(engine, &mut first, 8, Rounded { number: 10, place: 2, reason: 6 }, [9, 3, 1, 8, NONE]);
}

fn refuses(engine: &RoleEngine, role: &Role, number: u32, place: u32, half: u32) {
    let mut lent = role.lend_compile(ROLE_WORDS);
    let given = lent.clone();
    assert_eq!(lent.call(engine), RoleCompiled { number, place, half });
    assert!(lent == given, "a refusal writes");
}

/// A half's refusal comes before all of a later half; 3 and the call's own 1 have half 0.
fn halves_in_order(engine: &RoleEngine) {
    let mut role = two_rounds();
    role.halves[1] = vec![constant(3, 1), constant(3, 1), tuple(1, &[0, 1])];
    role.stores.kinds[3] = BYTE;
    role.halves[2] = Vec::new();
    refuses(engine, &role, 6, 1, 1);
    role.halves[1] = vec![raw(0)];
    refuses(engine, &role, 7, 0, 1);
    role.halves[1] = vec![object(0)];
    refuses(engine, &role, 1, 0, 2);
    role.halves[2] = vec![object(1)];
    refuses(engine, &role, 5, 0, 2);
    role.halves[3].push(object(2));
    role.halves[2] = vec![raw(5)];
    refuses(engine, &role, 4, 0, 3);
    role.stores.kinds[63] = 11;
    refuses(engine, &role, 3, 0, 0);
    role.halves[0].clear();
    refuses(engine, &role, 1, 0, 0);
    let mut lent = two_rounds().lend_compile(16);
    lent.counts[1] += 1;
    assert_eq!(lent.call(engine), RoleCompiled { number: 1, place: 0, half: 0 });
}

/// r0 is answered by r0: a role of any number of rounds.
fn echo(rounds: usize) -> Role {
    let mut stores = Case::new(false);
    stores.accumulator = stores.term(atom(BYTE, 7));
    Role { halves: vec![vec![raw(0)]; 2 * rounds], stores }
}

fn rounds_at_the_limit(engine: &RoleEngine) {
    for rounds in [0, ROUNDS + 1] {
        refuses(engine, &echo(rounds), 1, 0, 0);
    }
    let mut words = vec![INPUT, word(STORE, 0, 0, 0), word(LOAD, 0, 0, 0), OUTPUT];
    while words.len() < 4 * ROUNDS {
        words.extend([INPUT, word(MATCH, 0, 0, 0), word(LOAD, 0, 0, 0), OUTPUT]);
    }
    let ends: Vec<u16> = (1..=ROUNDS as u16).map(|round| 4 * round).collect();
    let mut player = compiles_to(engine, &echo(ROUNDS), &words, &ends);
    for round in 1..=ROUNDS as u32 {
        turn(engine, &mut player, 0, done(4), [1, 0, round, NONE, 0]);
        taken(engine, &mut player, 0);
    }
    turn(engine, &mut player, 0, refused(14), [1, 0, ROUNDS as u32, 0, NONE]);
    let mut odd = echo(2);
    odd.halves.pop();
    refuses(engine, &odd, 1, 0, 0);
}

fn rows_at_the_limit(engine: &RoleEngine) {
    let most = PATTERN_ROWS as u8;
    for half in 0..2 {
        let mut role = echo(1);
        let large = worked::nested_pairs(half == 1, most);
        role.stores.kinds = large.kinds;
        role.stores.messages[0] = 0;
        role.halves[half] = large.pattern;
        assert_eq!(role.lend_compile(ROLE_WORDS).call(engine).number, 0);
        role.halves[half] = worked::nested_pairs(half == 1, most + 1).pattern;
        refuses(engine, &role, 1, 0, half as u32);
    }
}

/// 8 comes last and writes neither words nor ends.
fn slice_one_short(engine: &RoleEngine) {
    let mut lent = two_rounds().lend_compile(15);
    let given = lent.clone();
    assert_eq!(lent.call(engine), RoleCompiled { number: 8, place: 16, half: 0 });
    assert_eq!(lent, given);
    let mut spoiled = two_rounds();
    spoiled.halves[3] = vec![raw(1)];
    assert_eq!(spoiled.lend_compile(0).call(engine), RoleCompiled { number: 7, place: 0, half: 3 });
}

fn words_at_the_limit(engine: &RoleEngine) {
    let fresh = first_round(&echo(1), engine);
    let run = |words: &[u32]| {
        let mut lent = fresh.clone();
        lent.code = words.iter().flat_map(|word| word.to_be_bytes()).collect();
        lent.call(engine)
    };
    assert_eq!(run(&[INPUT, OUTPUT]), done(2));
    let mut most = vec![word(STORE, 0, 0, 0); ROUND_WORDS];
    (most[0], most[ROUND_WORDS - 1]) = (INPUT, OUTPUT);
    assert_eq!(run(&most), done(ROUND_WORDS as u32));
    most.insert(1, most[1]);
    assert_eq!(run(&most), refused(1));
    assert_eq!(run(&[INPUT]), refused(1));
    assert_eq!(run(&[]), refused(1));
    let bad = |place| Rounded { number: 9, place, reason: 0 };
    assert_eq!(run(&[OUTPUT, OUTPUT]), bad(0));
    assert_eq!(run(&[INPUT, INPUT]), bad(1));
    assert_eq!(run(&[1, OUTPUT]), bad(0));
    assert_eq!(run(&[INPUT, OUTPUT | 1 << 8]), bad(1));
    assert_eq!(run(&[INPUT, INPUT, OUTPUT]), bad(1));
    assert_eq!(run(&[INPUT, OUTPUT, OUTPUT]), bad(1));
}

/// The role's end comes before an answer that waits, and that before a message that does not.
fn waiting(engine: &RoleEngine) {
    let fresh = first_round(&echo(2), engine);
    for (round, answer, message, number) in [
        (2, 0, NONE, 14),
        (u32::MAX, 0, 0, 14),
        (2, NONE, NONE, 14),
        (1, 0, NONE, 13),
        (0, 0, 0, 13),
        (1, NONE, NONE, 12),
        (0, NONE, 0, 0),
        (2, 65536, NONE, 3),
        (2, NONE, 65536, 3),
        (0, 1, 0, 3),
        (0, NONE, 1, 3),
    ] {
        let mut lent = fresh.clone();
        lent.put(Field::Round, round);
        lent.put(Field::Answer, answer);
        lent.put(Field::Message, message);
        assert_eq!(lent.call(engine).number, number, "{:?}", (round, answer, message));
    }
}

/// A record of 20 bytes, with the table's used rows and a counter within its limit; take looks at nothing but its length.
fn records(engine: &RoleEngine) {
    let fresh = first_round(&echo(1), engine);
    let with = |field, value| {
        let mut lent = fresh.clone();
        lent.put(field, value);
        lent.call(engine).number
    };
    assert_eq!([with(Field::Used, 0), with(Field::Used, 2), with(Field::Used, 65537)], [1, 1, 1]);
    assert_eq!([with(Field::Counter, NAMES), with(Field::Counter, NAMES + 1)], [0, 1]);
    let with_rounds = |rounds| RoundInput { rounds, ..fresh.clone() }.call(engine).number;
    assert_eq!([0, 1, 16, 17].map(with_rounds), [1, 0, 0, 1]);
    let mut full = fresh.clone();
    full.terms.resize(8 * TERM_ROWS + 8, 0);
    assert_eq!(full.call(engine), refused(1));
    for length in [0, 19, 21] {
        let mut lent = fresh.clone();
        lent.session.resize(length, 9);
        let given = lent.clone();
        assert_eq!(lent.call(engine), refused(1));
        assert_eq!(lent.take(engine), Taken { number: 1, answer: NONE });
        assert_eq!(lent, given);
    }
    let mut record = vec![7; 20];
    assert_eq!((engine.take)(&mut record), Taken { number: 0, answer: 0x0707_0707 });
    assert_eq!(record, [[7; 16].to_vec(), vec![0, 0, 255, 255]].concat());
    assert_eq!((engine.take)(&mut record), Taken { number: 0, answer: NONE });
}
