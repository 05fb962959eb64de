/*
 * The Cryptographic Abstract Machine (CrAM) for C.
 *
 * cram_compile turns a message pattern into code, for matching a message or for creating one.
 * cram_run runs code over a table of abstract terms.
 * cram_compile_role compiles a whole role, all its patterns in turn; cram_round plays a round of it, which matches a
 * message and creates the answer, on a session record; cram_take takes the answer from the record.
 * cram_read_listing reads the code lines of a listing back into code.
 *
 * What holds for every call
 *
 * - They take any input, end, and use no heap, no global and no file. They may be called from several threads
 *   over different slices.
 * - A slice is a pointer to bytes and a length IN BYTES. Numbers of more than one byte lie HIGH BYTE FIRST, at any
 *   alignment. A slice that does not hold whole elements is refused with 1.
 * - Outside the contract: a null pointer, also with length 0; slices of one call that overlap; a length past the
 *   memory that was lent. A slice of length 0 is never read or written, so any other pointer will do for it.
 * - Slices given as const are only read. Nothing is kept after the return.
 * - With any answer but 0 every lent byte is as it was before the call.
 * - Stack: cram_compile takes at most CRAM_COMPILE_STACK_BYTES, cram_run CRAM_RUN_STACK_BYTES, cram_compile_role
 *   CRAM_ROLE_STACK_BYTES, cram_round, also cram_take, CRAM_ROUND_STACK_BYTES, and cram_read_listing
 *   CRAM_READ_STACK_BYTES, each with all its frames.
 *
 * Elements; fields are listed from the most significant bit down, unused fields are zero
 *
 * - Kind, 1 byte, of an object variable: 0 undeclared, 1 byte, 2 nonce, 3 agent, 4 public key, 5 private key,
 *   6 shared key, 7 encryption, 8 signature, 9 hash, 10 tuple.
 * - Cell, 2 bytes: the number of a used term row, or 65535 for unset.
 * - Term row, 8 bytes: tag 4 bits, n 4, zero 8, then C1 to C4 of 12 each, which are row numbers. The tag is a kind.
 *     1..6    a number in the low 16 bits (a byte: 0..255)
 *     7       encryption: C1 the key (tag 4 or 6), C2 the body
 *     8       signature: C1 the key (tag 5 or 6), C2 the body
 *     9       hash: C1 the body
 *     10      tuple: n parts, 0..4, in C1..Cn
 *   A zero row is unused. The used rows are those before the first zero row; all rows after it are zero. A row's
 *   parts have smaller row numbers. No two used rows are equal. Numbers of tags 2, 4, 5 and 6 are below the counter.
 * - Certificate, 8 bytes: agent row 12 bits, public key row 12, zero 40. No agent row stands in two certificates.
 * - Pattern row, 8 bytes: tag 4 bits, V 6, F 2, X 8, Y 6, R 6, n 3, four children of 7, zero 1.
 *     0  object variable       V
 *     1  raw variable          R
 *     2  c : C                 V = c, X = the byte C
 *     3  k : op(K)             V = k, Y = K
 *     4  k : keyOf(a)          V = k, Y = a
 *     5  e : E(key, p)         V = e, key, n = 1: p
 *     6  s : S(key, r)         V = s, key, R = r
 *     7  h : H(r)              V = h, R = r
 *     8  t : [p1..pn]          V = t, n = 0..4: p1..pn
 *     9  let r = p1 in p2      R = r, n = 2: p1, p2
 *   A key is F = 0: the variable X; F = 1: X : op(Y); F = 2: X : keyOf(Y), with X at most 63. The last row is the
 *   root; a child has a smaller number than its owner; each other row is a child exactly once.
 * - Code word, 4 bytes: operation 5 bits, A 8, B 8, n 3, zero 8. A, and B where two are named, are the operands.
 *     2 LOAD r            3 STORE r           4 STORE CONST c C   5 DECODE v
 *     6 ENCODE v          7 CREATE v          8 ANALYZE TUPLE t   9 CREATE TUPLE t
 *     10 OPPOSITE K k     11 KEY OF           12 MATCH r          13 ENCRYPT v
 *     14 DECRYPT v        15 SIGN v           16 VERIFY v r       17 HASH h
 *   For 8 and 9, B is the first of n consecutive message cells, n is at most 4 and B + n at most 256.
 * - Code of a round: the word INPUT (0x00000000), the words that match, the words that create, the word OUTPUT
 *   (0x08000000).
 * - Session record, 20 bytes, five fields of 4: used rows of the table, name counter, round, message, answer. The round
 *   is the number of the next one, from 0. Message and answer are a used row, or 65535 where none waits.
 *
 * Matching a message in short, where the slices are as cram_compile and cram_run below have them:
 *
 *   struct cram_compiled c = cram_compile(0, pattern, 8 * rows, kinds, 64, objects, 128, messages, 128, code, 3072);
 *   if (c.number == CRAM_DONE) {
 *       struct cram_ran r = cram_run(kinds, 64, objects, 128, messages, 512, certificates, 8 * certified, message,
 *                                    terms, 32768, counter, code, 4 * c.place);
 *       if (r.number == CRAM_DONE) { ... the variables are in objects and messages, and counter = r.counter ... }
 *   }
 *
 * The named cells are the first 128 bytes of the message cells. For creating, pass 1 and CRAM_UNSET as the message; the
 * created message is then r.accumulator.
 *
 * A role in short, and then a message whose row the caller has put into bytes 12 to 15 of the record; `from` and `to`
 * are the words up to the end of the round before (0 for the first) and of this round, as ends has them:
 *
 *   struct cram_role c = cram_compile_role(rows, 8 * all_rows, counts, 2 * rounds, kinds, 64, objects, 128,
 *                                          messages, 128, ends, 2 * rounds, code, 4 * CRAM_ROLE_WORDS);
 *   if (c.number == CRAM_DONE) {
 *       struct cram_rounded r = cram_round(session, 20, rounds, kinds, 64, objects, 128, messages, 512, certificates,
 *                                          8 * certified, terms, 32768, code + 4 * from, 4 * (to - from));
 *       if (r.number == CRAM_DONE) { ... send cram_take(session, 20).answer ... }
 *   }
 *
 * The record starts with the table's used rows, the next name, round 0, and 65535 twice.
 */
#ifndef CRAM_H
#define CRAM_H

#include <stddef.h>
#include <stdint.h>

#ifdef __cplusplus
extern "C" {
#endif

#define CRAM_VARIABLES 64u       /* kinds, object cells, and named message cells */
#define CRAM_MESSAGES 256u       /* message cells: 0..63 named, 64..255 scratch */
#define CRAM_PATTERN_ROWS 96u    /* at most, and at least 1 */
#define CRAM_CODE_WORDS 768u     /* at most, in a run; compiled code never has more than 767 */
#define CRAM_TERM_ROWS 4096u     /* at most */
#define CRAM_CERTIFICATES 32u    /* at most */
#define CRAM_COUNTER 65536u      /* the name counter's highest value; CREATE then finds no name */
#define CRAM_UNSET 65535u        /* a cell, an accumulator, a message or an answer that is unset */
#define CRAM_ROUNDS 16u          /* at most, of a role, and at least 1 */
#define CRAM_ROUND_WORDS 1538u   /* at most, in a round, with INPUT and OUTPUT; at least 2 */
#define CRAM_ROLE_WORDS 24576u   /* no role has more */
#define CRAM_SESSION_BYTES 20u   /* of the session record */
#define CRAM_COMPILE_STACK_BYTES 16384u /* see above */
#define CRAM_RUN_STACK_BYTES 65536u     /* see above */
#define CRAM_ROLE_STACK_BYTES 24576u    /* see above */
#define CRAM_ROUND_STACK_BYTES 65536u   /* see above */
#define CRAM_READ_STACK_BYTES 8192u     /* see above */

/* What a number says, in every call. Compile is a role's too, and run a round's. */
enum {
    CRAM_DONE = 0,           /* place: words written, or words run */
    CRAM_LIMIT = 1,          /* a length, a count, the direction or the counter is outside its limit; place 0 */
    CRAM_BAD_TERM = 2,       /* run: a term row breaks a rule; place: the lowest such row */
    CRAM_BAD_STORE = 3,      /* a kind above 10, or a bad cell, certificate, accumulator, message or answer; place 0 */
    CRAM_BAD_PATTERN = 4,    /* compile: a bad pattern row; place: see cram_compile */
    CRAM_WRONG_KIND = 5,     /* compile: a variable of the wrong kind; place: the lowest such pattern row */
    CRAM_WRITTEN_SET = 6,    /* compile: a variable would be written while set; place: the pattern row */
    CRAM_READ_UNSET = 7,     /* compile: a variable would be read while unset; place: the pattern row */
    CRAM_SHORT = 8,          /* compile: the code slice is too short; place: words needed */
    CRAM_BAD_WORD = 9,       /* run: a bad code word; place: the lowest such word */
    CRAM_STUCK = 10,         /* run: the word at this place cannot be run; the reason says why */
    CRAM_NO_ROOM = 11,       /* run: a new row is needed and none is unused, or CREATE at counter 65536; place: word */
    CRAM_NO_MESSAGE = 12,    /* round: no message waits; place 0 */
    CRAM_NOT_TAKEN = 13,     /* round: the last answer has not been taken; place 0 */
    CRAM_ROLE_ENDED = 14,    /* round: the role has no round left; place 0 */
    CRAM_BAD_LINE = 15       /* read_listing: no such line, misnumbered, or a number too large; place: line, from 0 */
};

/* Why a run or a round is stuck. The reason is 0 with every other number. */
enum {
    CRAM_OPERAND_UNSET = 1,  /* an operand or an accumulator that the word reads is unset */
    CRAM_OTHER_KIND = 2,     /* DECODE of a message of another kind */
    CRAM_DIFFERS = 3,        /* MATCH of two different messages */
    CRAM_PART_COUNT = 4,     /* ANALYZE TUPLE of a tuple with another number of parts */
    CRAM_NO_CERTIFICATE = 5, /* KEY OF a message without a certificate */
    CRAM_NOT_OPENED = 6,     /* DECRYPT of anything that the key does not open */
    CRAM_NOT_VERIFIED = 7    /* VERIFY of anything that is not the key's signature of the cell */
};

struct cram_compiled {
    uint32_t number;
    uint32_t place;
};

struct cram_ran {
    uint32_t number;
    uint32_t place;
    uint32_t reason;
    uint32_t used;        /* rows before the first zero row of the table after the call; 0 with number 1 */
    uint32_t counter;     /* after the run; as given with any number but 0 */
    uint32_t accumulator; /* after the run, CRAM_UNSET if unset; as given with any number but 0 */
};

struct cram_role {
    uint32_t number;
    uint32_t place;
    uint32_t half;        /* the half that is refused, 0..31; 0 where none is */
};

struct cram_rounded {
    uint32_t number;
    uint32_t place;
    uint32_t reason;
};

struct cram_taken {
    uint32_t number;
    uint32_t answer;
};

struct cram_read {
    uint32_t number;
    uint64_t place; /* a text may have more lines than 32 bits count */
};

/*
 * Compiles a pattern.
 *
 *   create    0 for matching, 1 for creating; anything else is 1
 *   pattern   1 to 96 pattern rows (8 to 768 bytes)
 *   kinds     64 kinds (64 bytes)
 *   objects   64 object cells (128 bytes)
 *   named     64 named message cells (128 bytes)
 *   code      any number of words; the first `place` words are written where the number is 0, later ones stay
 *
 * Of the cells it matters only which are set (not 65535): the code serves all stores with the same cells set.
 * The numbers are looked at in the order 1, 3, 4, 5, then 6 and 7 in the order of the code, then 8:
 *   0   place: words written (at most 767)
 *   1   a length as above is not kept, or create is above 1
 *   3   a kind above 10, or a set object cell whose kind is 0
 *   4   a field is wrong, or the rows are no tree. Place: the lowest row that is bad in itself or names a child
 *       already taken, else the lowest row that nobody names
 *   5   the variable before a colon has its form's kind (c 1, k 4, e 7, s 8, h 9, t 10), K has 5, a has 3, a bare
 *       object variable 1..9. A plain key has 5 or 6 in a matched E or created S, 4 or 6 in a matched S or created E.
 *       F = 1 and F = 2 stand in a matched S or created E only
 *   6   written while set; place: the row whose form writes it
 *   7   read while unset; place: the row whose form reads it
 *   8   place: words needed; nothing is written
 */
struct cram_compiled cram_compile(uint8_t create,
                                  const uint8_t *pattern, size_t pattern_len,
                                  const uint8_t *kinds, size_t kinds_len,
                                  const uint8_t *objects, size_t objects_len,
                                  const uint8_t *named, size_t named_len,
                                  uint8_t *code, size_t code_len);

/*
 * Runs code.
 *
 *   kinds         64 kinds (64 bytes)
 *   objects       64 object cells (128 bytes); a set cell's row has the variable's kind
 *   messages      256 message cells (512 bytes): the named ones and then scratch
 *   certificates  0 to 32 certificates (0 to 256 bytes)
 *   accumulator   the message: a used row, or 65535 for unset
 *   terms         0 to 4096 term rows (0 to 32768 bytes): the used ones, and zero rows as room for new ones
 *   counter       the next name, 0 to 65536
 *   code          0 to 768 words (0 to 3072 bytes)
 *
 * A new term takes the row that equals it, or else the first unused row. A run that is done writes objects, messages
 * and new rows in place, and hands back used rows, counter and accumulator; after any other all are as before.
 * The numbers are looked at in the order 1, 2, 3, 9, and then word after word:
 *   0    place: words run, which is all of them
 *   1    a length as above is not kept, or the counter is above 65536
 *   2    place: the lowest term row that breaks a rule; of two equal rows the later is the bad one
 *   3    a kind above 10; a cell that is neither unset nor a used row; an object cell whose row has another kind, or
 *        that is set and undeclared; a certificate with a spare bit, with rows that are no agent and public key, or
 *        for an agent that has one; an accumulator that is neither 65535 nor a used row
 *   9    place: the lowest word with an unknown operation, a field out of its bounds or a variable of the wrong kind
 *   10   place: the word; the reason says why. Reason 1 is looked at first
 *   11   place: the word
 */
struct cram_ran cram_run(const uint8_t *kinds, size_t kinds_len,
                         uint8_t *objects, size_t objects_len,
                         uint8_t *messages, size_t messages_len,
                         const uint8_t *certificates, size_t certificates_len,
                         uint32_t accumulator,
                         uint8_t *terms, size_t terms_len,
                         uint32_t counter,
                         const uint8_t *code, size_t code_len);

/*
 * Compiles a role: 1 to 16 rounds of two halves each, a pattern that is matched and then one that is created.
 *
 *   rows      the pattern rows of all halves, half after half (8 bytes each)
 *   counts    the rows of each half (2 to 32 bytes, 2 a round): half 2i is matched in round i, half 2i + 1 created
 *   kinds     64 kinds (64 bytes), of all halves
 *   objects   64 object cells (128 bytes)
 *   named     64 named message cells (128 bytes)
 *   ends      a number a round (2 bytes each): the words up to the round's end
 *   code      any number of words; the first `place` words are written where the number is 0, later ones stay
 *
 * Round i's code is the words of code from ends[i - 1], or 0 for the first round, up to ends[i]. Of the cells it
 * matters only which are set. Each half finds set what was set before the role and what earlier halves have written;
 * scratch cells start again with each half.
 * The numbers are looked at in the order 1 of the call; then, half by half, 1 of the half and 3 to 7 as cram_compile
 * has them; then 8:
 *   0   place: words written, with INPUT and OUTPUT (at most 24576)
 *   1   a length as above is not kept, the rounds are not 1 to 16, or the counts' sum is not the rows lent: half 0.
 *       Or a half has no row or above 96: that half
 *   3   as in cram_compile; half 0
 *   4, 5, 6, 7   as in cram_compile, of a half; place: the row in that half, from 0
 *   8   place: words needed by the whole role; nothing is written; half 0
 */
struct cram_role cram_compile_role(const uint8_t *rows, size_t rows_len,
                                   const uint8_t *counts, size_t counts_len,
                                   const uint8_t *kinds, size_t kinds_len,
                                   const uint8_t *objects, size_t objects_len,
                                   const uint8_t *named, size_t named_len,
                                   uint8_t *ends, size_t ends_len,
                                   uint8_t *code, size_t code_len);

/*
 * Plays a round of a role.
 *
 *   session       the session record (20 bytes), with a message and no answer
 *   rounds        the rounds of the role, 1 to 16
 *   kinds         64 kinds (64 bytes)
 *   objects       64 object cells (128 bytes)
 *   messages      256 message cells (512 bytes)
 *   certificates  0 to 32 certificates (0 to 256 bytes)
 *   terms         0 to 4096 term rows (0 to 32768 bytes), as cram_run has them
 *   code          the round's own words: 2 to 1538 (8 to 6152 bytes)
 *
 * INPUT takes the message for the accumulator, the words up to OUTPUT are run as by cram_run, and OUTPUT puts the
 * accumulator into the record as the answer. A round that is done writes objects, messages, new rows and the record in
 * place: used rows and counter after the run, the next round, message 65535, and the answer. After any other number all
 * are as before. It is not checked that the cells which are set are those that the role was compiled for.
 * Where several records share a table, bring used and counter of a record up to date before its round: a record whose
 * used is behind is refused with 1, one whose counter alone is behind with 2.
 * The numbers are looked at in the order 1, 2, 3, 9, 14, 13, 12, and then word after word:
 *   0    place: words run, which is all of them with INPUT and OUTPUT
 *   1    a length as above is not kept, the record's counter is above 65536, the rounds are not 1 to 16, or the
 *        record's used is not the number of rows before the first zero row
 *   2    as in cram_run
 *   3    as in cram_run, with the message for the accumulator; or an answer that is neither 65535 nor a used row
 *   9    place: the lowest bad word: the first is INPUT, the last OUTPUT, each between is good for cram_run
 *   10   place: the word, where INPUT is word 0; the reason says why
 *   11   place: the word
 *   12   the message is 65535
 *   13   the answer is not 65535
 *   14   the record's round is not below rounds
 */
struct cram_rounded cram_round(uint8_t *session, size_t session_len,
                               uint32_t rounds,
                               const uint8_t *kinds, size_t kinds_len,
                               uint8_t *objects, size_t objects_len,
                               uint8_t *messages, size_t messages_len,
                               const uint8_t *certificates, size_t certificates_len,
                               uint8_t *terms, size_t terms_len,
                               const uint8_t *code, size_t code_len);

/*
 * Takes the answer that waits in a session record (20 bytes), and puts 65535 there.
 *   0   answer: what stood there, 65535 where none waited; nothing else is looked at
 *   1   the record is not 20 bytes; the answer is then 65535
 */
struct cram_taken cram_take(uint8_t *session, size_t session_len);

/*
 * Reads code lines back into code. A line is five decimal numbers without leading zeros, one space between, and a line
 * feed: the line's own number from 0, operation, A, B, n. Lines that do not begin with a number are no code lines.
 *
 *   text      any bytes
 *   kinds     64 kinds (64 bytes)
 *   code      any number of words; the first `place` words are written where the number is 0, later ones stay
 *
 * Looked at in this order; `place` is 0 unless said otherwise.
 *   15   a line, the last without its line feed too, that is not such a line, has another number, or a number too large
 *        for its field, however long: operation above 31, A or B above 255, n above 7; place: the lowest such line
 *   1    more than CRAM_CODE_WORDS lines, not 64 kinds, or code that is not whole words
 *   9    a bad code word; place: the lowest such word
 *   8    code is too short; place: the words needed
 *   0    place: the words read
 */
struct cram_read cram_read_listing(const uint8_t *text, size_t text_len,
                                   const uint8_t *kinds, size_t kinds_len,
                                   uint8_t *code, size_t code_len);

#ifdef __cplusplus
}
#endif

#endif
