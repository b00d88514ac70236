/* The calls of krasvome.h over the engines by hand, with the session's bytes as the library has them: a library to seed faults in. Cards are read and rested by the
 * simulator. The fault is the number in the environment variable FAULT; host/faults.txt says what each is. */
#include "by_hand.h"
#include "krasvome.h"
#include "session_bytes.h"
#include "steps_by_hand.h"

#include <stdlib.h>
#include <string.h>

enum { FIELDS = 3, STEPS = 4 }; /* what byte 0 says of a card that a vector moved */

int hand_fault;

static struct sim held;        /* the card of the session that was opened last */
static struct hand_steps list; /* and its steps */

/* The calls; a vector and many have one for each engine. */
enum { LOAD, REST, VECTOR, MANY = VECTOR + 2, HISTORY = MANY + 2 };

/* What the call under way was handed: a session or none, what its bytes came to (0, 12, 18), and byte 0. */
static struct {
    int none, opened, state;
} met;

static size_t card_length(const uint8_t *b)
{
    return b[1] + 256u * b[2];
}

/* A vector by an engine, from where the words end: the history stands in the words. Returns the steps done. */
static int run(struct hand *h, int engine, const uint8_t *vector)
{
    hand_ends(h, h->before);
    if (engine == FIELDS) {
        for (int i = 0; FAULT(2) && i < h->inputs; i++)
            h->before[h->input[i]] = vector[i];
        return hand_vector(h, vector), 0;
    }
    int done = hand_steps_vector(&list, h, h->before, vector);
    memcpy(h->word, list.word, sizeof list.word);
    for (int n = 0; FAULT(33) && n < h->nets; n++)
        h->before[n] = (uint8_t)(h->word[n] & 1);
    return done;
}

static void rest(struct hand *h, const uint8_t *vector)
{
    hand_rest(h, &held, vector);
    for (int g = 0; FAULT(17) && g < h->gates; g++)
        h->word[h->gate[g].net] ^= 1;
}

static int is_clear(const uint8_t *b, size_t from, size_t to)
{
    for (size_t i = from; i < to; i++)
        if (b[i])
            return 0;
    return 1;
}

/* A room of 256 bytes: a vector of so many bytes, 0 past it. */
static int room_fits(const uint8_t *room, size_t size)
{
    for (size_t i = 0; i < size; i++)
        if (room[i] > 1 && !FAULT(38))
            return 0;
    return FAULT(39) || is_clear(room, size, 256);
}

static int opened(struct hand *h, const uint8_t *b, size_t length)
{
    if (length < KRASVOME_SESSION)
        return FAULT(40) && b ? 12 : 18;
    if (b[0] == 0)
        return FAULT(41) || is_clear(b, 0, KRASVOME_SESSION) ? 0 : 12;
    int state = FAULT(14) && b[0] > STEPS ? STEPS : b[0];
    size_t card = card_length(b);
    for (; FAULT(97) && card > 0 && (card > LONGEST_CARD || sim_load(&held, b + CARD_AT, card)); card--)
        ;
    if (state > STEPS || card > LONGEST_CARD || sim_load(&held, b + CARD_AT, card))
        return 12;
    size_t inputs = (size_t)held.inputs, older = state >= FIELDS ? inputs : 0, last = state >= 2 ? inputs : 0;
    if (!is_clear(b, FAULT(98) ? CARD_TO - 1 : CARD_AT + card, CARD_TO - (size_t)FAULT(15)) || !room_fits(b + OLDER_AT, older) || !room_fits(b + LAST_AT, last))
        return 12;
    hand_load(h, &held);
    hand_steps_load(&list, h);
    if (state == 2)
        rest(h, b + LAST_AT);
    if (state >= FIELDS) {
        rest(h, b + OLDER_AT);
        run(h, state, b + LAST_AT);
    }
    return 0;
}

static int open_session(struct hand *h, const uint8_t *b, size_t length)
{
    static int asked;
    if (!asked++ && getenv("FAULT"))
        hand_fault = atoi(getenv("FAULT"));
    met.opened = opened(h, b, length);
    met.none = !b;
    met.state = met.opened ? -1 : b[0];
    return met.opened;
}

/* The answer of a call, with the faults that every call can have: 100 + 20 * call + kind. */
static uint64_t answer(int call, const uint8_t *b, int given, int room, int number, int count)
{
    int fault = hand_fault - 100 - 20 * call, refused = number != 0;
    if (fault == 0 && !refused)
        count++;
    if (fault == 1 && refused)
        count = 1;
    if (fault == 2 && refused && met.opened != 18)
        ((uint8_t *)b)[KRASVOME_SESSION - 1] ^= 1;
    if ((fault == 3 && met.none) || (fault == 4 && met.opened == 12))
        number = 10;
    if ((fault == 5 && met.state == 0 && refused) || (fault == 6 && met.state == 1 && refused && given) || (fault == 7 && met.state >= 2 && !refused && given))
        number = 13;
    if ((fault == 8 && !given && !met.opened) || (fault == 9 && !room && given && !met.opened))
        number = 17;
    return (uint64_t)number + ((uint64_t)count << 8);
}

uint64_t krasvome_load(uint8_t *b, size_t length, const uint8_t *card, size_t size)
{
    static struct hand h;
    static struct sim fresh;
    int number = open_session(&h, b, length);
    if (FAULT(75) && number == 18 && b)
        number = sim_load(&fresh, card, size);
    if (!number)
        number = sim_load(&fresh, card, size);
    if (FAULT(25) && number == 8)
        number = 2;
    if (FAULT(26) && number == 8)
        b[KRASVOME_SESSION - 1]++;
    if (FAULT(43) && !number && b[0] > 1)
        number = 9;
    if (FAULT(44) && number && number < 10 && b[0])
        memset(b, 0, KRASVOME_SESSION);
    if (number)
        return answer(LOAD, b, card != NULL, 1, number, 0);
    memset(b + (FAULT(45) ? CARD_AT : 0), 0, CARD_TO - (FAULT(45) ? CARD_AT : 0));
    b[0] = FAULT(87) ? 2 : 1;
    b[1] = (uint8_t)(size & 255);
    b[2] = (uint8_t)(size >> 8);
    memcpy(b + CARD_AT, card, size);
    return answer(LOAD, b, 1, 1, 0, fresh.nets);
}

static int has_wrong_byte(const uint8_t *v, size_t size)
{
    for (size_t i = 0; i < size; i++)
        if (v[i] > 1)
            return 1;
    return 0;
}

/* 12, 10, 11: "card only" for a rest, a rest for a vector */
static int vector_number(int call, const uint8_t *b, const uint8_t *v, size_t size)
{
    int other = size != (size_t)held.inputs, least = call == REST ? 1 : 2;
    if (b[0] < least && !(least == 1 ? FAULT(46) : FAULT(47)) && !(FAULT(48) && b[0] && other))
        return FAULT(49) && !b[0] && least == 1 ? 13 : 12;
    if (FAULT(call == REST ? 50 : call == VECTOR ? 99 : 27) && has_wrong_byte(v, size))
        return 11;
    if (other)
        return 10;
    return has_wrong_byte(v, size) && !FAULT(52) ? 11 : 0;
}

uint64_t krasvome_rest(uint8_t *b, size_t length, const uint8_t *v, size_t size)
{
    static struct hand h;
    int number = open_session(&h, b, length);
    if (!number)
        number = vector_number(REST, b, v, size);
    if (number)
        return answer(REST, b, v != NULL, 1, number, 0);
    b[0] = 2;
    memset(b + OLDER_AT, 0, FAULT(54) ? 0 : 256);
    memset(b + LAST_AT, 0, 256);
    memcpy(b + LAST_AT, v, size);
    return answer(REST, b, 1, 1, 0, 0);
}

static void keep_vector(uint8_t *b, int engine, const uint8_t *v, size_t size)
{
    b[0] = (uint8_t)(FAULT(13) ? FIELDS : engine);
    if (!FAULT(16))
        memcpy(b + OLDER_AT, b + LAST_AT, 256);
    memset(b + LAST_AT, 0, 256);
    memcpy(b + LAST_AT, v, size);
    if (FAULT(37))
        b[KRASVOME_SESSION] = 1;
}

static uint64_t vector(uint8_t *b, size_t length, const uint8_t *v, size_t size, int engine)
{
    static struct hand h;
    int call = VECTOR + (engine == STEPS), number = open_session(&h, b, length);
    if (!number)
        number = vector_number(call, b, v, size);
    if (number)
        return answer(call, b, v != NULL, 1, number, 0);
    int done = run(&h, engine, v);
    keep_vector(b, engine, v, size);
    return answer(call, b, 1, 1, 0, engine == STEPS && FAULT(12) ? h.gates : done);
}

uint64_t krasvome_vector(uint8_t *b, size_t length, const uint8_t *v, size_t size)
{
    return vector(b, length, v, size, FIELDS);
}

uint64_t krasvome_steps(uint8_t *b, size_t length, const uint8_t *v, size_t size)
{
    return vector(b, length, v, size, STEPS);
}

/* 12, 10, 11, and 18 for the words */
static int many_number(const uint8_t *b, const uint8_t *v, size_t size, size_t room, int engine)
{
    if (b[0] < 2)
        return FAULT(58) && !size && engine == FIELDS ? 0 : FAULT(59) && b[0] && engine == STEPS ? 10 : 12;
    size_t n = (size_t)held.inputs, need = size / n * (size_t)held.nets;
    if (FAULT(60) && engine == STEPS && room < need)
        return 18;
    if (size % n && !(FAULT(61) && engine == FIELDS))
        return 10;
    if (has_wrong_byte(v, size) && !(FAULT(62) && engine == FIELDS))
        return 11;
    return room < need ? 18 : 0;
}

static uint64_t many(uint8_t *b, size_t length, const uint8_t *v, size_t size, uint64_t *words, size_t room, int engine)
{
    static struct hand h, first;
    int steps = engine == STEPS, call = MANY + steps, number = open_session(&h, b, length);
    if (!number)
        number = many_number(b, v, size, room, engine);
    if (FAULT(steps ? 88 : 31) && number && room)
        words[0] = 0;
    if (number)
        return answer(call, b, v != NULL, words != NULL, number, 0);
    size_t n = (size_t)held.inputs, nets = (size_t)h.nets, count = size / n;
    int done = 0;
    first = h;
    if (FAULT(steps ? 90 : 65) && !count)
        b[0] = (uint8_t)engine;
    for (size_t k = 0; k < count; k++) {
        if (FAULT(engine == FIELDS ? 20 : 21))
            h = first;
        if (FAULT(steps ? 34 : 96) && count == 1)
            done = steps ? held.pairs : 0;
        else
            done = run(&h, engine, v + k * n) + (FAULT(22) ? done : 0);
        if (FAULT(36) && steps && list.steps) {
            list.gate[list.steps - 1] = list.gate[0];
            list.time[list.steps - 1] = list.time[0];
        }
        memcpy(words + k * nets, h.word + (FAULT(23) && k == count - 1 && nets > 1), nets * sizeof *words);
        keep_vector(b, engine, v + (FAULT(steps ? 91 : 24) && k + 2 == count ? k + 1 : k) * n, n);
    }
    if (FAULT(steps ? 89 : 66) && room > count * nets)
        words[count * nets] = 0;
    return answer(call, b, v != NULL, words != NULL, 0, done);
}

uint64_t krasvome_vectors(uint8_t *b, size_t length, const uint8_t *v, size_t size, uint64_t *words, size_t room)
{
    return many(b, length, v, size, words, room, FIELDS);
}

uint64_t krasvome_vectors_steps(uint8_t *b, size_t length, const uint8_t *v, size_t size, uint64_t *words, size_t room)
{
    return many(b, length, v, size, words, room, STEPS);
}

/* 12, 18 */
static int history_number(const uint8_t *b, size_t nets, size_t w, size_t x, size_t y)
{
    int few = w < nets || (x < nets && !FAULT(67)) || y < nets;
    if (FAULT(68) && b[0] && few)
        return 18;
    if (b[0] < 2 && !(FAULT(30) && b[0]) && !(FAULT(69) && !b[0]))
        return 12;
    return few ? 18 : 0;
}

uint64_t krasvome_history(const uint8_t *b, size_t length, uint64_t *words, size_t w, uint8_t *befores, size_t x, uint8_t *flags, size_t y)
{
    static struct hand h;
    int number = open_session(&h, b, length);
    if (!number)
        number = history_number(b, (size_t)h.nets, w, x, y);
    if (FAULT(84) && !number && b[0] == STEPS)
        number = 12;
    if (FAULT(92) && number == 18 && w)
        words[0] = 0;
    if (FAULT(28) && number == 18 && x)
        befores[0] = 0;
    if (FAULT(93) && number == 18 && y)
        flags[0] = 0;
    if (FAULT(71) && !number && b[0] == STEPS)
        ((uint8_t *)b)[0] = FIELDS;
    if (number)
        return answer(HISTORY, b, 1, words != NULL, number, 0);
    for (int n = 0; n < h.nets && b[0]; n++) {
        uint64_t moves = h.word[n] ^ (h.word[n] << 1 | h.before[n]);
        if (FAULT(18)) /* at the last time */
            moves &= ~UINT64_C(0) >> 1;
        if (FAULT(19)) /* at time 0 */
            moves &= ~UINT64_C(1);
        int changes = 0;
        for (; moves; moves &= moves - 1)
            changes++;
        words[n] = h.word[n];
        befores[n] = FAULT(73) && b[0] == 2 ? 0 : h.before[n];
        flags[n] = (uint8_t)(changes < 2 ? changes : h.before[n] == h.word[n] >> 63 ? 2 : 3);
        if (FAULT(35) && b[0] == STEPS && flags[n] == 3)
            flags[n] = 2;
        if (FAULT(74) && b[0] == 2)
            flags[n] = 1;
    }
    if (FAULT(94) && w > (size_t)h.nets)
        words[h.nets] = 0;
    if (FAULT(32) && x > (size_t)h.nets)
        befores[h.nets] = 0;
    if (FAULT(95) && y > (size_t)h.nets)
        flags[h.nets] = 0;
    return answer(HISTORY, b, 1, words != NULL, 0, h.nets);
}
