/* compare [CARDS [SEED [names]]]: the library against the event-driven simulator, on random cards, rests and vectors, and on damaged ones. Compared is
 *   - the history after each rest, after each vector by fields and after each by steps, one at a time: each net at every time 0 to 63, before values and flags;
 *   - the words of lists of vectors in one call, by fields and by steps: lists of one vector, of some, and of up to 200;
 *   - the session's bytes after each call that was done, with what krasvome.h says of them: what they hold, and by which engine the last vector ran;
 *   - number and count of calls with random arguments at every state of a session, with the order in which document 01 gives the numbers; a refused call has to leave the
 *     session and all rooms, whose contents are known, as they were; and bytes that no call left get 12 by every call.
 * The words by steps are those that the calls by steps hand out: of a list the call's own, of one vector those of the run by which krasvome_history makes the session
 * again. That they were worked out by steps is in the contracts, and cannot be seen from here.
 * The first mismatch is written out as a session file, and the program ends with status 1. With `names` each thing that was compared is named at the end, as a mismatch of
 * it would be: tests/host.sh asks for a seeded fault of each. */
#include "krasvome.h"
#include "random_cards.h"
#include "session_bytes.h"
#include "simulator.h"

#include <stdio.h>
#include <stdlib.h>
#include <string.h>

enum { LONGEST = 65536, MOST = 200 }; /* bytes of a session file; vectors in one call */

static uint8_t file[LONGEST];            /* the card's bytes, and the rests and vectors after it */
static size_t file_length, card_length;
static uint64_t seed;
static unsigned long cards, taken, damaged, vectors[2], rest_values, sequences, in_sequences;
static unsigned long numbers[256];

/* The calls, as mismatches name them; a vector and many have one for each engine. */
enum { LOAD, REST, VECTOR, MANY = VECTOR + 2, HISTORY = MANY + 2 };
static const char *const call_name[] = {"load", "rest", "vector by fields", "vector by steps", "many by fields", "many by steps", "history"};

/* The engines: their calls for one vector and for many, what byte 0 of a session then says, whether they count steps, and what was compared of them. */
static struct {
    const char *by;
    uint64_t (*one)(uint8_t *session, size_t session_length, const uint8_t *vector, size_t vector_length);
    uint64_t (*many)(uint8_t *session, size_t session_length, const uint8_t *vectors, size_t vectors_length, uint64_t *words, size_t words_length);
    uint8_t mark;
    int counts;
    unsigned long values, many_values;
} engine[] = {{" by fields", krasvome_vector, krasvome_vectors, 3, 0, 0, 0},
              {" by steps", krasvome_steps, krasvome_vectors_steps, 4, 1, 0, 0}};
enum { FIELDS, STEPS, ENGINES };

/* A session: the lent bytes and one more, and what they have to hold. The states are those of byte 0. */
enum { NOTHING, CARD, RESTED };
struct session {
    uint8_t bytes[KRASVOME_SESSION + 1], state, older[SIM_NETS], last[SIM_NETS];
};

/* Rooms for a history, with known contents, an entry more than the largest card has nets. */
struct rooms {
    uint64_t word[SIM_NETS + 1];
    uint8_t before[SIM_NETS + 1], flag[SIM_NETS + 1];
};

static void put_record(unsigned kind, const uint8_t *body, size_t length)
{
    if (file_length + 4 + length > LONGEST)
        return;
    file[file_length++] = (uint8_t)(length & 255);
    file[file_length++] = (uint8_t)(length >> 8);
    file[file_length++] = (uint8_t)kind;
    file[file_length++] = 0;
    memcpy(file + file_length, body, length);
    file_length += length;
}

/* What was compared, where that is asked for. */
static int naming;
static struct {
    const char *what, *by;
} named[256];
static int names;

static void name_once(const char *what, const char *by)
{
    static int last;
    if (names && named[last].what == what && named[last].by == by)
        return;
    for (last = 0; last < names; last++)
        if (!strcmp(named[last].what, what) && !strcmp(named[last].by, by))
            return;
    if (names == sizeof named / sizeof *named)
        abort();
    named[names].what = what;
    named[names++].by = by;
}

static void check_by(const char *what, const char *by, unsigned long wanted, unsigned long got)
{
    if (naming)
        name_once(what, by);
    if (wanted == got)
        return;
    const char *name = "mismatch.session"; /* in the folder that the program was started in */
    FILE *out = fopen(name, "wb");
    if (out) {
        fwrite(file, 1, file_length, out);
        fclose(out);
    }
    printf("mismatch: %s%s: wanted %lu, got %lu (card %lu, seed %llu; written to %s)\n", what, by, wanted, got, cards, (unsigned long long)seed, name);
    exit(1);
}

static void check_same(const char *what, const char *by, const uint8_t *wanted, const uint8_t *got, size_t length)
{
    for (size_t i = 0; i < length; i++)
        check_by(what, by, wanted[i], got[i]);
}

/* Lent memory that has to have the contents 0xaa still. */
static void check_kept(const char *what, const char *by, const void *room, size_t bytes)
{
    const uint8_t *at = room;
    for (size_t i = 0; i < bytes; i++)
        check_by(what, by, 0xaa, at[i]);
}

/* An answer of a call, and where it was asked: the number and the count; and where it is a refusal, the session's bytes as they were. */
static void check_answer(int call, const char *where, uint64_t answer, unsigned number, size_t count, const uint8_t *bytes, const uint8_t *old)
{
    check_by(call_name[call], where, number, KRASVOME_NUMBER(answer));
    check_by(number ? "count of a refused " : "count of ", call_name[call], number ? 0 : count, KRASVOME_COUNT(answer));
    if (number)
        check_same("session after a refused ", call_name[call], old, bytes, KRASVOME_SESSION + 1);
    numbers[number]++;
}

/* The rooms of a history that was refused: all as they were. */
static void check_rooms(const struct rooms *r)
{
    check_kept("words of a refused history", "", r->word, sizeof r->word);
    check_kept("before values of a refused history", "", r->before, sizeof r->before);
    check_kept("flags of a refused history", "", r->flag, sizeof r->flag);
}

/* The session's bytes as krasvome.h describes them. */
static void check_session(const char *what, const char *by, const struct session *k, size_t inputs)
{
    uint8_t want[KRASVOME_SESSION + 1] = {k->state, (uint8_t)(card_length & 255), (uint8_t)(card_length >> 8)};
    if (k->state > RESTED)
        memcpy(want + OLDER_AT, k->older, inputs);
    if (k->state >= RESTED)
        memcpy(want + LAST_AT, k->last, inputs);
    memcpy(want + CARD_AT, file, card_length);
    for (size_t i = 0; i < sizeof want; i++)
        check_by(what, by, want[i], k->bytes[i]);
}

static void note_vector(struct session *k, int e, const uint8_t *v, size_t n)
{
    memcpy(k->older, k->last, n);
    memcpy(k->last, v, n);
    k->state = engine[e].mark;
}

static void random_vector(struct random_source *r, const struct sim *s, uint8_t *v)
{
    unsigned part = 1 + random_below(r, 100);
    for (int i = 0; i < s->inputs; i++)
        if (random_below(r, 100) < part)
            v[i] = (uint8_t)random_below(r, 2);
}

/* Calls with random arguments. Lengths are near to those that fit, bytes are wrong now and then. */
struct arguments {
    size_t session, size, words, befores, flags;
    int wrong;
    uint8_t v[2 * SIM_NETS + 1];
};

static size_t near_to(struct random_source *r, size_t n)
{
    switch (random_below(r, 6)) {
    case 0:
        return 0;
    case 1:
        return n ? n - 1 : 0;
    case 2:
        return n + 1;
    default:
        return n;
    }
}

static struct arguments random_arguments(struct random_source *r, size_t inputs, size_t nets)
{
    struct arguments a = {0};
    a.session = random_below(r, 5) ? KRASVOME_SESSION : random_below(r, KRASVOME_SESSION);
    a.size = near_to(r, (1 + random_below(r, 2)) * inputs);
    a.words = near_to(r, random_below(r, 3) ? nets : a.size / inputs * nets);
    a.befores = near_to(r, nets);
    a.flags = near_to(r, nets);
    for (size_t i = 0; i < a.size; i++)
        a.v[i] = (uint8_t)random_below(r, 2);
    a.wrong = a.size && random_below(r, 3) == 0;
    if (a.wrong)
        a.v[random_below(r, (unsigned)a.size)] = (uint8_t)(2 + random_below(r, 254));
    return a;
}

/* "Rest: 12 (card only), 10, 11. Vector by either engine: 12, 10, 11." A session that is too short comes first. */
static unsigned vector_number(const struct arguments *a, int ready, size_t inputs)
{
    return a->session < KRASVOME_SESSION ? 18 : !ready ? 12 : a->size != inputs ? 10 : a->wrong ? 11 : 0;
}

/* The same of many vectors, and then room for a word a net and vector. */
static unsigned many_number(const struct arguments *a, int ready, size_t inputs, size_t nets)
{
    return a->session < KRASVOME_SESSION ? 18 : !ready ? 12 : a->size % inputs ? 10 : a->wrong ? 11 : a->words < a->size / inputs * nets ? 18 : 0;
}

/* "History (words, before values, flags): 12, 18" */
static unsigned history_number(const struct arguments *a, int ready, size_t nets)
{
    return a->session < KRASVOME_SESSION ? 18 : !ready ? 12 : a->words < nets || a->befores < nets || a->flags < nets ? 18 : 0;
}

static const char *state_name(int state)
{
    return state == NOTHING ? ", nothing loaded" : state == CARD ? ", not rested" : ", rested";
}

static void try_history(const struct session *k, struct arguments a, size_t nets)
{
    struct rooms r;
    uint8_t bytes[KRASVOME_SESSION + 1];
    memset(&r, 0xaa, sizeof r);
    memcpy(bytes, k->bytes, sizeof bytes);
    if (a.words > SIM_NETS + 1)
        a.words = SIM_NETS + 1;
    unsigned number = history_number(&a, k->state >= RESTED, nets);
    uint64_t answer = krasvome_history(bytes, a.session, r.word, a.words, r.before, a.befores, r.flag, a.flags);
    check_answer(HISTORY, state_name(k->state), answer, number, nets, bytes, k->bytes);
    if (number)
        check_rooms(&r);
    else
        check_same("session after a history", "", k->bytes, bytes, sizeof bytes);
}

static void try_many(const struct sim *s, const struct session *k, struct arguments a, size_t inputs, size_t nets, int e)
{
    uint64_t word[3 * SIM_NETS + 2]; /* with one input up to three vectors, and one word more */
    uint8_t bytes[KRASVOME_SESSION + 1];
    memset(word, 0xaa, sizeof word);
    memcpy(bytes, k->bytes, sizeof bytes);
    unsigned number = many_number(&a, k->state >= RESTED, inputs, nets);
    size_t count = a.size / inputs, done = number ? 0 : count * nets;
    uint64_t answer = engine[e].many(bytes, a.session, a.v, a.size, word, a.words);
    check_answer(MANY + e, state_name(k->state), answer, number, count && engine[e].counts ? (size_t)s->pairs : 0, bytes, k->bytes);
    check_kept(number ? "words of a refused " : "words past ", call_name[MANY + e], word + done, sizeof word - done * sizeof *word);
    if (!number && !count)
        check_same("session after no vectors", engine[e].by, k->bytes, bytes, sizeof bytes);
}

static void try_calls(struct random_source *r, const struct sim *s, const struct session *k)
{
    size_t inputs = k->state ? (size_t)s->inputs : 1, nets = k->state ? (size_t)s->nets : 1;
    uint8_t bytes[KRASVOME_SESSION + 1];
    memcpy(bytes, k->bytes, sizeof bytes);
    struct arguments a = random_arguments(r, inputs, nets);
    unsigned number = vector_number(&a, k->state >= CARD, inputs);
    check_answer(REST, state_name(k->state), krasvome_rest(bytes, a.session, a.v, a.size), number, 0, bytes, k->bytes);
    for (int e = 0; e < ENGINES; e++) {
        memcpy(bytes, k->bytes, sizeof bytes);
        a = random_arguments(r, inputs, nets);
        number = vector_number(&a, k->state >= RESTED, inputs);
        uint64_t answer = engine[e].one(bytes, a.session, a.v, a.size);
        check_answer(VECTOR + e, state_name(k->state), answer, number, engine[e].counts ? (size_t)s->pairs : 0, bytes, k->bytes);
        try_many(s, k, random_arguments(r, inputs, nets), inputs, nets, e);
    }
    try_history(k, random_arguments(r, inputs, nets), nets);
    memcpy(bytes, k->bytes, sizeof bytes);
    check_answer(LOAD, " into a short slice", krasvome_load(bytes, random_below(r, KRASVOME_SESSION), file, card_length), 18, 0, bytes, k->bytes);
}

/* Changes a session's bytes to ones that no call left; 0: not this time. */
static int damage_session(struct random_source *r, const struct session *k, size_t inputs, uint8_t *b)
{
    size_t end = CARD_AT + card_length, past = CARD_TO - end, i = random_below(r, 512);
    switch (random_below(r, 7)) {
    case 0: /* no such state */
        b[0] = (uint8_t)(5 + random_below(r, 251));
        return 1;
    case 1: /* nothing, and yet a card */
        b[0] = NOTHING;
        return 1;
    case 2: /* another state, in whose room there is something */
        b[0] = k->state > RESTED && memchr(k->older, 1, inputs) ? RESTED : CARD;
        return b[0] == RESTED || (k->state >= RESTED && memchr(k->last, 1, inputs)) || (k->state > RESTED && memchr(k->older, 1, inputs));
    case 3: /* another length: no card has a card's bytes at its front */
        b[random_below(r, 2) ? 1 : 2] ^= (uint8_t)(1 + random_below(r, 255));
        return 1;
    case 4: /* a vector's byte that is not 0 or 1, or a byte where there is no vector */
        if (i % 256 < inputs && (i < 256 ? k->state > RESTED : k->state >= RESTED))
            b[OLDER_AT + i] = (uint8_t)(2 + random_below(r, 254));
        else
            b[OLDER_AT + i] = (uint8_t)(1 + random_below(r, 255));
        return 1;
    case 5: /* the last byte */
        b[CARD_TO - 1] ^= 1;
        return past > 0;
    default: /* any byte past the card */
        if (past)
            b[end + random_below(r, (unsigned)past)] ^= 1;
        return past > 0;
    }
}

/* Bytes that no call left: every call answers 12. */
static void check_unleft(struct random_source *r, const struct sim *s, const struct session *k)
{
    static const uint8_t v[SIM_NETS];
    const char *where = " on bytes that no call left";
    uint8_t broken[KRASVOME_SESSION + 1], bytes[KRASVOME_SESSION + 1];
    uint64_t word[SIM_NETS];
    struct rooms rooms;
    size_t n = (size_t)s->inputs;
    memcpy(broken, k->bytes, sizeof broken);
    if (!damage_session(r, k, n, broken))
        return;
    memcpy(bytes, broken, sizeof bytes);
    memset(&rooms, 0xaa, sizeof rooms);
    check_answer(LOAD, where, krasvome_load(bytes, KRASVOME_SESSION, file, card_length), 12, 0, bytes, broken);
    check_answer(REST, where, krasvome_rest(bytes, KRASVOME_SESSION, v, n), 12, 0, bytes, broken);
    for (int e = 0; e < ENGINES; e++) {
        memset(word, 0xaa, sizeof word);
        check_answer(VECTOR + e, where, engine[e].one(bytes, KRASVOME_SESSION, v, n), 12, 0, bytes, broken);
        check_answer(MANY + e, where, engine[e].many(bytes, KRASVOME_SESSION, v, n, word, SIM_NETS), 12, 0, bytes, broken);
        check_kept("words of a refused ", call_name[MANY + e], word, sizeof word);
    }
    uint64_t answer = krasvome_history(bytes, KRASVOME_SESSION, rooms.word, SIM_NETS, rooms.before, SIM_NETS, rooms.flag, SIM_NETS);
    check_answer(HISTORY, where, answer, 12, 0, bytes, broken);
    check_rooms(&rooms);
}

static void check_history(const struct sim *s, const struct session *k, const char *by, unsigned long *values)
{
    struct rooms r;
    size_t n = (size_t)s->nets;
    uint8_t bytes[KRASVOME_SESSION + 1];
    memset(&r, 0xaa, sizeof r);
    memcpy(bytes, k->bytes, sizeof bytes);
    check_answer(HISTORY, state_name(k->state), krasvome_history(bytes, KRASVOME_SESSION, r.word, n + 1, r.before, n + 1, r.flag, n + 1), 0, n, bytes, k->bytes);
    check_same("session after a history", "", k->bytes, bytes, sizeof bytes);
    for (size_t i = 0; i < n; i++) {
        check_by("before value", by, (unsigned long)s->before[i], r.before[i]);
        for (int t = 0; t < SIM_TIMES; t++)
            check_by("value", by, (unsigned long)(s->word[i] >> t & 1), (unsigned long)(r.word[i] >> t & 1));
        check_by("flag", by, (unsigned long)sim_flag(s, (int)i), r.flag[i]);
        *values += SIM_TIMES;
    }
    check_kept("words past a history", "", r.word + n, sizeof r.word - n * sizeof *r.word);
    check_kept("before values past a history", "", r.before + n, sizeof r.before - n);
    check_kept("flags past a history", "", r.flag + n, sizeof r.flag - n);
}

/* A list of vectors in one call, from a session: the words of each, and the bytes after the last two. */
static void check_many(const struct sim *s, int e, struct session k, const uint8_t *all, size_t count, const uint64_t *word)
{
    static uint64_t got[(MOST + 1) * SIM_NETS];
    size_t n = (size_t)s->inputs, room = count * (size_t)s->nets;
    uint8_t old[KRASVOME_SESSION + 1];
    memcpy(old, k.bytes, sizeof old);
    memset(got, 0xaa, (room + 1) * sizeof *got);
    uint64_t answer = engine[e].many(k.bytes, KRASVOME_SESSION, all, count * n, got, room + 1);
    check_answer(MANY + e, state_name(k.state), answer, 0, engine[e].counts ? (size_t)s->pairs : 0, k.bytes, old);
    for (size_t i = 0; i < room; i++)
        check_by("word of many", engine[e].by, (unsigned long)word[i], (unsigned long)got[i]);
    engine[e].many_values += room * SIM_TIMES;
    check_kept("words past ", call_name[MANY + e], got + room, sizeof *got);
    for (size_t j = 0; j < count; j++)
        note_vector(&k, e, all + j * n, n);
    check_session("bytes after many", engine[e].by, &k, n);
}

static void check_lists(const struct sim *s, const struct session *k, const uint8_t *all, size_t count, const uint64_t *word)
{
    for (int e = 0; e < ENGINES; e++)
        check_many(s, e, *k, all, count, word);
}

/* A longer list, from where the card stands. */
static void check_sequence(struct random_source *r, struct sim *s, const struct session *k, uint8_t *v)
{
    static uint8_t all[MOST * SIM_NETS];
    static uint64_t word[MOST * SIM_NETS];
    size_t n = (size_t)s->inputs, nets = (size_t)s->nets, count = 1 + random_below(r, MOST);
    for (size_t j = 0; j < count; j++) {
        random_vector(r, s, v);
        put_record(6, v, n);
        sim_vector(s, v);
        memcpy(all + j * n, v, n);
        memcpy(word + j * nets, s->word, nets * sizeof *word);
    }
    check_lists(s, k, all, count, word);
    sequences++;
    in_sequences += count;
}

static void rest_session(const struct sim *s, struct session *k, const uint8_t *v)
{
    uint8_t old[KRASVOME_SESSION + 1];
    memcpy(old, k->bytes, sizeof old);
    check_answer(REST, state_name(k->state), krasvome_rest(k->bytes, KRASVOME_SESSION, v, (size_t)s->inputs), 0, 0, k->bytes, old);
    k->state = RESTED;
    memcpy(k->last, v, (size_t)s->inputs);
    check_session("bytes after a rest", "", k, (size_t)s->inputs);
}

static void move_session(const struct sim *s, struct session *k, int e, const uint8_t *v)
{
    uint8_t old[KRASVOME_SESSION + 1];
    size_t n = (size_t)s->inputs;
    memcpy(old, k->bytes, sizeof old);
    check_answer(VECTOR + e, state_name(k->state), engine[e].one(k->bytes, KRASVOME_SESSION, v, n), 0, engine[e].counts ? (size_t)s->pairs : 0, k->bytes, old);
    note_vector(k, e, v, n);
    check_session("bytes after a vector", engine[e].by, k, n);
}

/* Rests and vectors on a card that was taken: by fields on one session; by steps, or now and then by fields, on the other. */
static void check_runs(struct random_source *r, struct sim *s, struct session *one, struct session *other)
{
    uint8_t v[SIM_NETS] = {0}, all[8 * SIM_NETS];
    static uint64_t word[8 * SIM_NETS];
    struct session rested = *one;
    size_t n = (size_t)s->inputs, nets = (size_t)s->nets, count = 0;
    random_vector(r, s, v);
    for (int k = (int)(1 + random_below(r, 5)); k >= 0; k--) {
        if (one->state == CARD || random_below(r, 6) == 0) {
            put_record(5, v, n);
            sim_rest(s, v);
            rest_session(s, one, v);
            rest_session(s, other, v);
            check_history(s, one, " after a rest", &rest_values);
            rested = *one;
            count = 0;
        }
        const struct session *some = random_below(r, 2) ? one : other;
        try_calls(r, s, some);
        check_unleft(r, s, some);
        random_vector(r, s, v);
        put_record(6, v, n);
        sim_vector(s, v);
        int by = random_below(r, 3) ? STEPS : FIELDS;
        move_session(s, one, FIELDS, v);
        move_session(s, other, by, v);
        check_history(s, one, engine[FIELDS].by, &engine[FIELDS].values);
        vectors[FIELDS]++;
        if (by == STEPS) { /* by fields it would be the same bytes, compared already */
            check_history(s, other, engine[STEPS].by, &engine[STEPS].values);
            vectors[STEPS]++;
        }
        memcpy(all + count * n, v, n);
        memcpy(word + count * nets, s->word, nets * sizeof *word);
        count++;
        if (count == 1)
            check_lists(s, &rested, all, 1, word);
    }
    if (count > 1)
        check_lists(s, &rested, all, count, word);
    struct random_source further = {seed + cards};
    if (random_below(&further, 4) == 0)
        check_sequence(&further, s, one, v);
}

/* A card, loaded into an empty session and over what the card before it left. "A loaded card replaces the old one and is not yet rested; a refused one leaves the old
 * card and its rest." */
static void check_card(struct random_source *r, const uint8_t *bytes, size_t length)
{
    static struct sim s;
    static struct session left;
    static const struct session empty;
    struct session fresh = empty, over = left;
    memcpy(file, bytes, length);
    file_length = card_length = length;
    unsigned number = (unsigned)sim_load(&s, bytes, length);
    check_answer(LOAD, "", krasvome_load(fresh.bytes, KRASVOME_SESSION, bytes, length), number, (size_t)s.nets, fresh.bytes, empty.bytes);
    check_answer(LOAD, " over a card", krasvome_load(over.bytes, KRASVOME_SESSION, bytes, length), number, (size_t)s.nets, over.bytes, left.bytes);
    cards++;
    if (number)
        return;
    taken++;
    fresh.state = over.state = CARD;
    check_session("bytes after load", "", &fresh, 0);
    check_session("bytes after load over a card", "", &over, 0);
    try_calls(r, &s, &empty);
    try_calls(r, &s, &fresh);
    check_unleft(r, &s, &fresh);
    check_runs(r, &s, &fresh, &over);
    left = over;
}

/* NULL with the length 0 is an empty slice. */
static void check_nulls(void)
{
    static const uint8_t card[] = {0, 0, 1, 0, 3, 0, 3, 0, 0, 0, 0, 0, 0, 4, 0}; /* an input, and a BUF of it */
    uint8_t b[KRASVOME_SESSION + 1] = {0}, old[KRASVOME_SESSION + 1] = {0}, v = 1;
    uint64_t word[2];
    check_answer(LOAD, " with no session", krasvome_load(NULL, 0, card, sizeof card), 18, 0, b, old);
    check_answer(REST, " with no session", krasvome_rest(NULL, 0, &v, 1), 18, 0, b, old);
    check_answer(HISTORY, " with no session", krasvome_history(NULL, 0, NULL, 0, NULL, 0, NULL, 0), 18, 0, b, old);
    check_answer(LOAD, " of no bytes", krasvome_load(b, KRASVOME_SESSION, NULL, 0), 1, 0, b, old);
    check_answer(LOAD, "", krasvome_load(b, KRASVOME_SESSION, card, sizeof card), 0, 2, b, old);
    memcpy(old, b, sizeof old);
    check_answer(REST, " of no bytes", krasvome_rest(b, KRASVOME_SESSION, NULL, 0), 10, 0, b, old);
    check_answer(REST, state_name(CARD), krasvome_rest(b, KRASVOME_SESSION, &v, 1), 0, 0, b, old);
    memcpy(old, b, sizeof old);
    for (int e = 0; e < ENGINES; e++) {
        check_answer(VECTOR + e, " with no session", engine[e].one(NULL, 0, &v, 1), 18, 0, b, old);
        check_answer(MANY + e, " with no session", engine[e].many(NULL, 0, &v, 1, word, 2), 18, 0, b, old);
        check_answer(VECTOR + e, " of no bytes", engine[e].one(b, KRASVOME_SESSION, NULL, 0), 10, 0, b, old);
        check_answer(MANY + e, " of no bytes", engine[e].many(b, KRASVOME_SESSION, NULL, 0, NULL, 0), 0, 0, b, old);
        check_same("session after no vectors", engine[e].by, old, b, sizeof old);
        check_answer(MANY + e, " with no room", engine[e].many(b, KRASVOME_SESSION, &v, 1, NULL, 0), 18, 0, b, old);
    }
    check_answer(HISTORY, " with no room", krasvome_history(b, KRASVOME_SESSION, NULL, 0, NULL, 0, NULL, 0), 18, 0, b, old);
}

int main(int argc, char **argv)
{
    unsigned long wanted = argc > 1 ? strtoul(argv[1], NULL, 10) : 1000;
    uint64_t first = argc > 2 ? strtoull(argv[2], NULL, 10) : 1;
    uint8_t bytes[CARD_ROOM];
    naming = argc > 3 && !strcmp(argv[3], "names");
    printf("cards %lu, seed %llu\n", wanted, (unsigned long long)first);
    check_nulls();
    for (unsigned long k = 0; k < wanted; k++) {
        seed = first + k;
        struct random_source r = {seed * UINT64_C(0x2545f4914f6cdd1d)};
        size_t length = random_card(&r, bytes);
        check_card(&r, bytes, length);
        for (int d = 0; d < 3; d++) {
            uint8_t worse[CARD_ROOM];
            memcpy(worse, bytes, length);
            size_t worse_length = random_damage(&r, worse, length);
            check_card(&r, worse, worse_length);
            damaged++;
        }
    }
    check_card(&(struct random_source){7}, bytes, 0);
    printf("%lu cards (%lu of them damaged), %lu taken: 0 mismatches\n", cards, damaged, taken);
    printf("values after rests %lu; one vector at a time by fields %lu (%lu vectors), by steps %lu (%lu vectors)\n", rest_values, engine[FIELDS].values, vectors[FIELDS],
           engine[STEPS].values, vectors[STEPS]);
    printf("values of lists of vectors in one call by fields %lu, by steps %lu\n", engine[FIELDS].many_values, engine[STEPS].many_values);
    printf("%lu of the lists are longer ones, %lu vectors\n", sequences, in_sequences);
    printf("answers:");
    for (int n = 0; n < 256; n++)
        if (numbers[n])
            printf(" %d: %lu", n, numbers[n]);
    printf("\n");
    for (int i = 0; i < names; i++)
        printf("compared: %s%s\n", named[i].what, named[i].by);
    return 0;
}
