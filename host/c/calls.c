/* The entries from C: the listing's example, a refusal, a stuck run, a run out of names, and a role of one round. */
#include "cram.h"

#include <stdio.h>
#include <string.h>

static int passed, failed;

static void expect(int holds, const char *what)
{
    if (holds) {
        passed++;
    } else {
        failed++;
        printf("failed: %s\n", what);
    }
}

/* What a terminal holds: all undeclared and unset, no terms, no certificates. */
struct terminal {
    uint8_t kinds[CRAM_VARIABLES];
    uint8_t objects[2 * CRAM_VARIABLES];
    uint8_t messages[2 * CRAM_MESSAGES];
    uint8_t terms[8 * 8];
    uint8_t code[4 * 16];
};

static void clear(struct terminal *t)
{
    memset(t, 0, sizeof *t);
    memset(t->objects, 255, sizeof t->objects);
    memset(t->messages, 255, sizeof t->messages);
}

static void put_row(uint8_t *rows, size_t at, uint64_t row)
{
    for (int i = 0; i < 8; i++)
        rows[8 * at + i] = (uint8_t)(row >> (56 - 8 * i));
}

static unsigned cell(const uint8_t *cells, size_t at)
{
    return 256u * cells[2 * at] + cells[2 * at + 1];
}

static struct cram_compiled compile(struct terminal *t, uint8_t create, const uint8_t *pattern, size_t rows,
                                    size_t words)
{
    return cram_compile(create, pattern, 8 * rows, t->kinds, sizeof t->kinds, t->objects, sizeof t->objects,
                        t->messages, 2 * CRAM_VARIABLES, t->code, 4 * words);
}

static struct cram_ran run(struct terminal *t, uint32_t accumulator, uint32_t counter, size_t words)
{
    static const uint8_t none[1] = {0};
    return cram_run(t->kinds, sizeof t->kinds, t->objects, sizeof t->objects, t->messages, sizeof t->messages,
                    none, 0, accumulator, t->terms, sizeof t->terms, counter, t->code, 4 * words);
}

static int ended(struct cram_ran r, uint32_t number, uint32_t place, uint32_t reason, uint32_t used, uint32_t counter,
                 uint32_t accumulator)
{
    return r.number == number && r.place == place && r.reason == reason && r.used == used && r.counter == counter &&
           r.accumulator == accumulator;
}

/* The pattern t1 : [n0, r0], and the tuple of nonce 3 and agent 1 in row 2. */
static void set_out(struct terminal *t, uint8_t *pattern)
{
    clear(t);
    put_row(pattern, 0, 0);
    put_row(pattern, 1, 1ull << 60);
    put_row(pattern, 2, 8ull << 60 | 1ull << 54 | 2ull << 29 | 1ull << 15);
    t->kinds[0] = 2;
    t->kinds[1] = 10;
    put_row(t->terms, 0, 2ull << 60 | 3);
    put_row(t->terms, 1, 3ull << 60 | 1);
    put_row(t->terms, 2, 10ull << 60 | 2ull << 56 | 1ull << 24);
}

/* Matching that pattern against that tuple. */
static void greeting(void)
{
    static const uint8_t words[24] = {0x28, 0x08, 0x00, 0x00, 0x40, 0x0a, 0x02, 0x00, 0x12, 0x00, 0x00, 0x00,
                                      0x28, 0x00, 0x00, 0x00, 0x12, 0x08, 0x00, 0x00, 0x18, 0x00, 0x00, 0x00};
    struct terminal t, given;
    uint8_t pattern[24];
    set_out(&t, pattern);

    given = t;
    struct cram_compiled c = compile(&t, 0, pattern, 3, 5);
    expect(c.number == CRAM_SHORT && c.place == 6, "a slice one short");
    expect(memcmp(&t, &given, sizeof t) == 0, "a refusal writes nothing");
    c = compile(&t, 0, pattern, 3, 8);
    expect(c.number == CRAM_DONE && c.place == 6, "the greeting compiles");
    expect(memcmp(t.code, words, sizeof words) == 0, "its words");
    expect(memcmp(t.code + 24, given.code + 24, 8) == 0, "later words stay");

    given = t;
    expect(ended(run(&t, CRAM_UNSET, 4, 6), CRAM_STUCK, 0, CRAM_OPERAND_UNSET, 3, 4, CRAM_UNSET), "no message");
    expect(ended(run(&t, 0, 4, 6), CRAM_STUCK, 0, CRAM_OTHER_KIND, 3, 4, 0), "a nonce is no tuple");
    expect(ended(run(&t, 2, 3, 6), CRAM_BAD_TERM, 0, 0, 3, 3, 2), "a nonce at the counter");
    expect(ended(run(&t, 65536 + 2, 4, 6), CRAM_BAD_STORE, 0, 0, 3, 4, 65536 + 2), "an accumulator that is no row");
    expect(memcmp(&t, &given, sizeof t) == 0, "what is not done changes nothing");
    expect(ended(run(&t, 2, 4, 6), CRAM_DONE, 6, 0, 3, 4, 1), "the greeting is matched");
    expect(cell(t.objects, 0) == 0 && cell(t.objects, 1) == 2 && cell(t.messages, 0) == 1, "its cells");
}

/* Matching a tuple of c0 : 5 twice. */
static void refusal(void)
{
    struct terminal t;
    uint8_t pattern[24];
    clear(&t);
    put_row(pattern, 0, 2ull << 60 | 5ull << 44);
    put_row(pattern, 1, 2ull << 60 | 5ull << 44);
    put_row(pattern, 2, 8ull << 60 | 1ull << 54 | 2ull << 29 | 1ull << 15);
    t.kinds[0] = 1;
    t.kinds[1] = 10;
    struct cram_compiled c = compile(&t, 0, pattern, 3, 8);
    expect(c.number == CRAM_WRITTEN_SET && c.place == 1, "a constant written twice");
    c = cram_compile(0, pattern, 23, t.kinds, sizeof t.kinds, t.objects, sizeof t.objects, t.messages,
                     2 * CRAM_VARIABLES, t.code, sizeof t.code);
    expect(c.number == CRAM_LIMIT && c.place == 0, "a slice that is not whole rows");
}

/* Creating n0 at the counter's last values. */
static void out_of_names(void)
{
    struct terminal t;
    uint8_t pattern[8] = {0};
    clear(&t);
    t.kinds[0] = 2;
    struct cram_compiled c = compile(&t, 1, pattern, 1, 8);
    expect(c.number == CRAM_DONE && c.place == 2, "a nonce is created and encoded");
    expect(ended(run(&t, CRAM_UNSET, CRAM_COUNTER, 2), CRAM_NO_ROOM, 0, 0, 0, CRAM_COUNTER, CRAM_UNSET),
           "no name left");
    expect(ended(run(&t, CRAM_UNSET, CRAM_COUNTER + 1, 2), CRAM_LIMIT, 0, 0, 0, CRAM_COUNTER + 1, CRAM_UNSET),
           "a counter above its limit");
    expect(ended(run(&t, CRAM_UNSET, CRAM_COUNTER - 1, 2), CRAM_DONE, 2, 0, 1, CRAM_COUNTER, 0), "the last name");
}

/* The five fields of a session record. */
static void put_fields(uint8_t *session, uint32_t used, uint32_t counter, uint32_t round, uint32_t message,
                       uint32_t answer)
{
    uint32_t fields[5] = {used, counter, round, message, answer};
    for (int i = 0; i < 20; i++)
        session[i] = (uint8_t)(fields[i / 4] >> (24 - 8 * (i % 4)));
}

static int holds(const uint8_t *session, uint32_t used, uint32_t counter, uint32_t round, uint32_t message,
                 uint32_t answer)
{
    uint8_t wanted[CRAM_SESSION_BYTES];
    put_fields(wanted, used, counter, round, message, answer);
    return memcmp(session, wanted, sizeof wanted) == 0;
}

/* Whether a round answers so; with any number but 0 nothing may have changed. */
static int answers(struct terminal *t, uint8_t *session, uint32_t rounds, uint32_t number, uint32_t place,
                   uint32_t reason)
{
    static const uint8_t none[1] = {0};
    struct terminal given = *t;
    uint8_t before[CRAM_SESSION_BYTES];
    memcpy(before, session, sizeof before);
    struct cram_rounded r = cram_round(session, CRAM_SESSION_BYTES, rounds, t->kinds, sizeof t->kinds, t->objects,
                                       sizeof t->objects, t->messages, sizeof t->messages, none, 0, t->terms,
                                       sizeof t->terms, t->code, 4 * 9);
    int kept = memcmp(t, &given, sizeof given) == 0 && memcmp(session, before, sizeof before) == 0;
    return r.number == number && r.place == place && r.reason == reason && (number == CRAM_DONE || kept);
}

static int takes(uint8_t *session, size_t length, uint32_t number, uint32_t answer)
{
    struct cram_taken t = cram_take(session, length);
    return t.number == number && t.answer == answer;
}

/* INPUT, the greeting's words, ENCODE n0, OUTPUT. */
static const uint8_t round_words[36] = {0x00, 0x00, 0x00, 0x00, 0x28, 0x08, 0x00, 0x00, 0x40, 0x0a, 0x02, 0x00,
                                        0x12, 0x00, 0x00, 0x00, 0x28, 0x00, 0x00, 0x00, 0x12, 0x08, 0x00, 0x00,
                                        0x18, 0x00, 0x00, 0x00, 0x30, 0x00, 0x00, 0x00, 0x08, 0x00, 0x00, 0x00};

/* A round that matches the greeting and answers n0. */
static void rounds(void)
{
    struct terminal t;
    uint8_t pattern[24], session[CRAM_SESSION_BYTES];
    set_out(&t, pattern);
    memcpy(t.code, round_words, sizeof round_words);
    put_fields(session, 3, 4, 0, CRAM_UNSET, CRAM_UNSET);
    expect(answers(&t, session, 2, CRAM_NO_MESSAGE, 0, 0), "no message waits");
    put_fields(session, 2, 4, 0, 2, CRAM_UNSET);
    expect(answers(&t, session, 2, CRAM_LIMIT, 0, 0), "used is behind the table");
    put_fields(session, 3, 4, 0, 0, CRAM_UNSET);
    expect(answers(&t, session, 2, CRAM_STUCK, 1, CRAM_OTHER_KIND), "a nonce is no tuple, and INPUT is word 0");
    expect(answers(&t, session, 17, CRAM_LIMIT, 0, 0), "a role of 17 rounds");
    put_fields(session, 3, 4, 0, 2, CRAM_UNSET);
    t.code[4 * 8] = 0x30;
    expect(answers(&t, session, 2, CRAM_BAD_WORD, 8, 0), "the last word is no OUTPUT");
    t.code[4 * 8] = 0x08;
    expect(answers(&t, session, 2, CRAM_DONE, 9, 0), "the round is done");
    expect(holds(session, 3, 4, 1, CRAM_UNSET, 0), "its record");
    expect(cell(t.objects, 0) == 0 && cell(t.objects, 1) == 2 && cell(t.messages, 0) == 1, "its cells");
    expect(answers(&t, session, 2, CRAM_NOT_TAKEN, 0, 0), "an answer waits");
    expect(takes(session, CRAM_SESSION_BYTES - 1, CRAM_LIMIT, CRAM_UNSET), "a record one short");
    expect(holds(session, 3, 4, 1, CRAM_UNSET, 0), "a refusal takes nothing");
    expect(takes(session, CRAM_SESSION_BYTES, CRAM_DONE, 0), "the answer");
    expect(holds(session, 3, 4, 1, CRAM_UNSET, CRAM_UNSET), "no answer waits any more");
    expect(takes(session, CRAM_SESSION_BYTES, CRAM_DONE, CRAM_UNSET), "none to take");
    expect(answers(&t, session, 1, CRAM_ROLE_ENDED, 0, 0), "the role has ended");
}

static struct cram_role compile_role(struct terminal *t, const uint8_t *rows, size_t count, const uint8_t *counts,
                                     uint8_t *ends, size_t words)
{
    return cram_compile_role(rows, 8 * count, counts, 2, t->kinds, sizeof t->kinds, t->objects, sizeof t->objects,
                             t->messages, 2 * CRAM_VARIABLES, ends, 2, t->code, 4 * words);
}

static int refuses(struct cram_role c, uint32_t number, uint32_t place, uint32_t half)
{
    return c.number == number && c.place == place && c.half == half;
}

/* The role of that round. */
static void role(void)
{
    static const uint8_t counts[2] = {3, 1};
    struct terminal t, given;
    uint8_t rows[32], ends[2] = {255, 255};
    set_out(&t, rows);
    given = t;
    put_row(rows, 3, 1ull << 60 | 5ull << 32);
    expect(refuses(compile_role(&t, rows, 4, counts, ends, 16), CRAM_READ_UNSET, 0, 1), "r5 is never written");
    put_row(rows, 3, 0);
    expect(refuses(compile_role(&t, rows, 3, counts, ends, 16), CRAM_LIMIT, 0, 0), "a row missing");
    expect(refuses(compile_role(&t, rows, 4, counts, ends, 8), CRAM_SHORT, 9, 0), "a role's slice one short");
    expect(memcmp(&t, &given, sizeof t) == 0 && cell(ends, 0) == CRAM_UNSET, "a refused role writes nothing");
    struct cram_role c = compile_role(&t, rows, 4, counts, ends, 16);
    expect(refuses(c, CRAM_DONE, 9, 0) && cell(ends, 0) == 9, "the role compiles");
    expect(memcmp(t.code, round_words, sizeof round_words) == 0, "the words of its round");
}

/* A listing's code lines, read back. */
static void reading(void)
{
    static const char text[] = "0 2 64 0 0\n1 3 0 0 0\n";
    static const uint8_t words[8] = {0x12, 0, 0, 0, 0x18, 0, 0, 0};
    uint8_t kinds[CRAM_VARIABLES] = {0}, code[12];
    memset(code, 0x5a, sizeof code);
    struct cram_read r = cram_read_listing((const uint8_t *)text, sizeof text - 2, kinds, sizeof kinds, code, sizeof code);
    expect(r.number == CRAM_BAD_LINE && r.place == 1, "a last line without its line feed");
    r = cram_read_listing((const uint8_t *)text, sizeof text - 1, kinds, sizeof kinds - 1, code, sizeof code);
    expect(r.number == CRAM_LIMIT && r.place == 0, "63 kinds");
    r = cram_read_listing((const uint8_t *)text, sizeof text - 1, kinds, sizeof kinds, code, 4);
    expect(r.number == CRAM_SHORT && r.place == 2 && code[0] == 0x5a, "one word lent for two lines");
    r = cram_read_listing((const uint8_t *)text, sizeof text - 1, kinds, sizeof kinds, code, sizeof code);
    expect(r.number == CRAM_DONE && r.place == 2, "two lines are read");
    expect(memcmp(code, words, sizeof words) == 0 && code[8] == 0x5a, "their words, and no other");
}

int main(void)
{
    greeting();
    refusal();
    out_of_names();
    rounds();
    role();
    reading();
    printf("c: %d passed, %d failed\n", passed, failed);
    return failed != 0;
}
