//! Calls for roles: an engine held to the second implementation, and a tally of what was met.
use super::Fenced;
use crate::game::{Game, Player, Role};
use crate::input::{Field, RoleInput, RoundInput};
use crate::limits::{ROUNDS, UNSET};
use crate::plain;
use crate::plain::bytes::word;
use crate::plain::code::Word;
use crate::roles::{RoleCompiled, RoleEngine, Rounded, Taken};

/// How often each answer came, and where.
pub struct RoleTally<'a> {
    subject: &'a RoleEngine,
    pub inputs: usize,
    /// Compiles by number.
    pub compiled: [usize; 9],
    /// Compiles by number and half.
    pub halves: [[usize; 2 * ROUNDS]; 9],
    /// Roles that were compiled, by their rounds.
    pub roles: [usize; ROUNDS + 1],
    /// Rounds by number.
    pub rounds: [usize; 15],
    /// Stuck rounds by reason.
    pub reasons: [usize; 8],
    /// Words of rounds that were done, by operation.
    pub operations: [usize; 18],
    /// Words at which a round stopped, by operation.
    pub stops: [usize; 18],
    /// Rounds refused with 12, 13 or 14, by which of the three were so: 1, 2 and 4 added.
    pub waiting: [usize; 8],
    /// Takes by number.
    pub taken: [usize; 2],
    /// Sessions played to their end.
    pub games: usize,
}

impl<'a> RoleTally<'a> {
    pub fn new(subject: &'a RoleEngine) -> RoleTally<'a> {
        RoleTally {
            subject,
            inputs: 0,
            compiled: [0; 9],
            halves: [[0; 2 * ROUNDS]; 9],
            roles: [0; ROUNDS + 1],
            rounds: [0; 15],
            reasons: [0; 8],
            operations: [0; 18],
            stops: [0; 18],
            waiting: [0; 8],
            taken: [0; 2],
            games: 0,
        }
    }

    /// Both compile; the answers and every lent byte afterwards have to agree. The answer and what was lent come back.
    pub fn compile(&mut self, lent: &RoleInput) -> (RoleCompiled, RoleInput) {
        let mut expected = lent.clone();
        let answer = expected.call(&plain::ROLES);
        let (ours, left) = self.compile_fenced(lent);
        assert_eq!(ours, answer, "the compile's answer for {:?}", lent);
        assert_eq!(left, expected, "bytes after the compile of {:?}", lent);
        assert!(answer.number == 0 || left == *lent, "a refusal writes: {:?}", lent);
        self.inputs += 1;
        self.compiled[answer.number as usize] += 1;
        self.halves[answer.number as usize][answer.half as usize] += 1;
        if answer.number == 0 {
            self.roles[lent.counts.len() / 2] += 1;
        }
        (answer, left)
    }

    /// Both run a round; the answers and every lent byte afterwards have to agree. The answer and what was lent come
    /// back.
    pub fn round(&mut self, lent: &RoundInput) -> (Rounded, RoundInput) {
        let mut expected = lent.clone();
        let answer = expected.call(&plain::ROLES);
        let (ours, left) = self.round_fenced(lent);
        assert_eq!(ours, answer, "the round's answer for {:?}", lent);
        assert_eq!(left, expected, "bytes after the round of {:?}", lent);
        assert!(answer.number == 0 || left == *lent, "a refusal writes: {:?}", lent);
        self.inputs += 1;
        self.rounds[answer.number as usize] += 1;
        self.count_words(lent, answer);
        (answer, left)
    }

    fn count_words(&mut self, lent: &RoundInput, answer: Rounded) {
        let operation = |at: usize| Word::unpack(word(&lent.code, at)).operation as usize;
        match answer.number {
            0 => (0..lent.code.len() / 4).for_each(|at| self.operations[operation(at)] += 1),
            10 | 11 => {
                self.reasons[answer.reason as usize] += 1;
                self.stops[operation(answer.place as usize)] += 1;
            }
            12..=14 => {
                let set = |field| lent.field(field) != UNSET as u32;
                let ended = lent.field(Field::Round) >= lent.rounds;
                self.waiting[!set(Field::Message) as usize + 2 * set(Field::Answer) as usize + 4 * ended as usize] += 1;
            }
            _ => {}
        }
    }

    /// Both take; the answers and the record have to agree. The answer and the record come back.
    pub fn take(&mut self, session: &[u8]) -> (Taken, Vec<u8>) {
        let mut expected = session.to_vec();
        let answer = (plain::ROLES.take)(&mut expected);
        let mut fenced = Fenced::new(session, self.inputs);
        let ours = (self.subject.take)(fenced.lent());
        let left = fenced.taken_down();
        assert_eq!((ours, &left), (answer, &expected), "the take from {:?}", session);
        self.inputs += 1;
        self.taken[answer.number as usize] += 1;
        (answer, left)
    }

    /// Compiles both roles and plays them to the end; `each` sees every round before it is run.
    pub fn play(&mut self, game: &Game, words: usize, mut each: impl FnMut(&mut Self, &RoundInput)) {
        let [mut own, mut other] = [0, 1].map(|role| self.player(&game.roles[role], game.rows, words));
        let mut message = game.roles[0].stores.accumulator as u32;
        for _ in 0..game.turns() {
            own.turn_to_code();
            assert_eq!(self.round(&own.lent).0.number, 12);
            own.put_message(message);
            each(self, &own.lent);
            message = self.turn(&mut own);
            other.turn_to_table(&own.lent);
            std::mem::swap(&mut own, &mut other);
        }
        for player in [own, other] {
            assert_eq!(self.round(&player.lent).0.number, 14);
        }
        self.games += 1;
    }

    fn player(&mut self, role: &Role, rows: usize, words: usize) -> Player {
        let (answer, compiled) = self.compile(&role.lend_compile(words));
        assert_eq!(answer.number, 0, "the compile of {:?}", role);
        Player::new(role, rows, compiled)
    }

    /// A round that is done, and its answer, which has to be taken before the next.
    fn turn(&mut self, player: &mut Player) -> u32 {
        let (answer, left) = self.round(&player.lent);
        assert_eq!((answer.number, answer.place as usize), (0, left.code.len() / 4), "the round of {:?}", left);
        player.lent = left;
        player.turn_to_code();
        let ended = player.lent.field(Field::Round) == player.lent.rounds;
        assert_eq!(self.round(&player.lent).0.number, if ended { 14 } else { 13 });
        let (taken, session) = self.take(&player.lent.session);
        player.lent.session = session;
        taken.answer
    }

    fn compile_fenced(&self, lent: &RoleInput) -> (RoleCompiled, RoleInput) {
        let slices = [&lent.rows, &lent.counts, &lent.kinds, &lent.objects, &lent.named, &lent.ends, &lent.code];
        let mut fenced = slices.map(|slice| Fenced::new(slice, self.inputs));
        let [rows, counts, kinds, objects, named, ends, code] = &mut fenced;
        let answer = (self.subject.compile_role)(
            rows.lent(),
            counts.lent(),
            kinds.lent(),
            objects.lent(),
            named.lent(),
            ends.lent(),
            code.lent(),
        );
        let [rows, counts, kinds, objects, named, ends, code] = fenced.map(Fenced::taken_down);
        (answer, RoleInput { rows, counts, kinds, objects, named, ends, code })
    }

    fn round_fenced(&self, lent: &RoundInput) -> (Rounded, RoundInput) {
        let slices =
            [&lent.session, &lent.kinds, &lent.objects, &lent.messages, &lent.certificates, &lent.terms, &lent.code];
        let mut fenced = slices.map(|slice| Fenced::new(slice, self.inputs));
        let [session, kinds, objects, messages, certificates, terms, code] = &mut fenced;
        let answer = (self.subject.round)(
            session.lent(),
            lent.rounds,
            kinds.lent(),
            objects.lent(),
            messages.lent(),
            certificates.lent(),
            terms.lent(),
            code.lent(),
        );
        let [session, kinds, objects, messages, certificates, terms, code] = fenced.map(Fenced::taken_down);
        let left = RoundInput { session, rounds: lent.rounds, kinds, objects, messages, certificates, terms, code };
        (answer, left)
    }
}
