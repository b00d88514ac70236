/* Times of the engines on one card, as the mean of many vectors, with a given part of the inputs changing. One line: nets, gates, depth, steps, inputs, percent; then
 * nanoseconds a vector: the library's field engine inside the call that runs many vectors, the same pass in the best C by hand, the event-driven simulator; the library's step
 * engine inside the call that runs many vectors by steps, the same algorithm by hand, the same with all reads looked up ahead; a call for one vector by fields and by
 * steps, each of which makes the session again from its bytes; last the part of the steps, in a hundred, that change their net. The words of each are compared with the
 * simulator's.
 *
 *     measure SHAPE SIZE PERCENT        SHAPE: largest, ladder, random
 *     measure SHAPE SIZE PERCENT show   the card and the vectors in hex instead, a line each */
#define _POSIX_C_SOURCE 199309L

#include "by_hand.h"
#include "krasvome.h"
#include "random_cards.h"
#include "simulator.h"
#include "steps_by_hand.h"

#include <stdio.h>
#include <stdlib.h>
#include <string.h>
#include <time.h>

enum { VECTORS = 2000, CALLS = 100 };

static double now(void)
{
    struct timespec t;
    clock_gettime(CLOCK_MONOTONIC, &t);
    return (double)t.tv_sec * 1e9 + (double)t.tv_nsec;
}

static double less(double best, double time)
{
    return time < best ? time : best;
}

static size_t make_card(struct random_source *r, const char *shape, int size, uint8_t *bytes, struct sim *s)
{
    static const int largest[3] = {63, 63, 10};
    if (!strcmp(shape, "largest"))
        return ladder_card(bytes, largest, 3, 9, 256);
    if (!strcmp(shape, "ladder"))
        return ladder_card(bytes, &size, 1, 0, 0);
    for (;;) {
        size_t length = random_card(r, bytes);
        if (!sim_load(s, bytes, length) && s->nets == size && s->inputs * 2 < s->nets && s->depth > 6)
            return length;
    }
}

static void show(const uint8_t *bytes, size_t length)
{
    for (size_t i = 0; i < length; i++)
        printf("%02x", bytes[i]);
    putchar('\n');
}

int main(int argc, char **argv)
{
    static struct sim s;
    static struct hand h;
    static struct hand_steps st;
    uint8_t bytes[CARD_ROOM], session[KRASVOME_SESSION] = {0};
    struct random_source r = {2026};
    if (argc < 4)
        return 2;
    int size = atoi(argv[2]);
    unsigned percent = (unsigned)atoi(argv[3]);
    size_t length = make_card(&r, argv[1], size, bytes, &s);
    if (sim_load(&s, bytes, length))
        return 2;
    size_t n = (size_t)s.inputs, nets = (size_t)s.nets;
    uint8_t *vectors = malloc(VECTORS * n);
    size_t room = VECTORS * nets;
    uint64_t *words = malloc(room * sizeof *words), *wanted = malloc(room * sizeof *words);
    if (!vectors || !words || !wanted)
        return 2;
    memset(words, 0, room * sizeof *words);
    for (size_t k = 0; k < VECTORS; k++)
        for (size_t i = 0; i < n; i++) {
            uint8_t old = k ? vectors[(k - 1) * n + i] : 0;
            vectors[k * n + i] = random_below(&r, 100) < percent ? !old : old;
        }
    if (argc > 4) {
        show(bytes, length);
        show(vectors, VECTORS * n);
        return 0;
    }
    uint8_t rest[SIM_NETS] = {0};
    hand_load(&h, &s);
    hand_steps_load(&st, &h);
    hand_steps_look_up(&st, &h);
    uint8_t *before = malloc(CALLS * nets);
    if (!before || st.steps != s.pairs)
        return 2;
    sim_rest(&s, rest);
    double changes = 0;
    for (size_t k = 0; k < VECTORS; k++) {
        sim_vector(&s, vectors + k * n);
        memcpy(wanted + k * nets, s.word, nets * sizeof *words);
        for (size_t i = 0; i < nets; i++)
            changes += __builtin_popcountll((s.word[i] ^ s.word[i] << 1) & ~UINT64_C(1));
    }
    hand_rest(&h, &s, rest);
    for (size_t k = 0; k < CALLS; k++) {
        hand_ends(&h, before + k * nets);
        hand_vector(&h, vectors + k * n);
        if (memcmp(h.word, wanted + k * nets, nets * sizeof *words))
            return 1;
        hand_steps_vector(&st, &h, before + k * nets, vectors + k * n);
        if (memcmp(st.word, h.word, nets * sizeof *words))
            return 1;
        hand_steps_ready(&st, &h, before + k * nets, vectors + k * n);
        if (memcmp(st.word, h.word, nets * sizeof *words))
            return 1;
    }
    double fields = 1e30, hand = 1e30, events = 1e30, steps = 1e30, steps_hand = 1e30, ready = 1e30, call = 1e30, call_steps = 1e30;
    for (int turn = 0; turn < 40; turn++) {
        memset(session, 0, sizeof session);
        krasvome_load(session, sizeof session, bytes, length);
        krasvome_rest(session, sizeof session, rest, n);
        double t = now();
        if (krasvome_vectors(session, sizeof session, vectors, VECTORS * n, words, room))
            return 1;
        fields = less(fields, (now() - t) / VECTORS);
        if (memcmp(words, wanted, room * sizeof *words))
            return 1;
        krasvome_rest(session, sizeof session, rest, n);
        t = now();
        if (krasvome_vectors_steps(session, sizeof session, vectors, CALLS * n, words, room) != (uint64_t)s.pairs << 8)
            return 1;
        steps = less(steps, (now() - t) / CALLS);
        if (memcmp(words, wanted, CALLS * nets * sizeof *words))
            return 1;
        t = now();
        for (size_t k = 0; k < CALLS; k++)
            if (krasvome_vector(session, sizeof session, vectors + k * n, n))
                return 1;
        call = less(call, (now() - t) / CALLS);
        t = now();
        for (size_t k = 0; k < CALLS; k++)
            if (krasvome_steps(session, sizeof session, vectors + k * n, n) != (uint64_t)s.pairs << 8)
                return 1;
        call_steps = less(call_steps, (now() - t) / CALLS);
        t = now();
        for (size_t k = 0; k < CALLS; k++)
            hand_steps_vector(&st, &h, before + k * nets, vectors + k * n);
        steps_hand = less(steps_hand, (now() - t) / CALLS);
        t = now();
        for (size_t k = 0; k < CALLS; k++)
            hand_steps_ready(&st, &h, before + k * nets, vectors + k * n);
        ready = less(ready, (now() - t) / CALLS);
        hand_rest(&h, &s, rest);
        t = now();
        for (size_t k = 0; k < VECTORS; k++) {
            hand_vector(&h, vectors + k * n);
            memcpy(words + k * nets, h.word, nets * sizeof *words);
        }
        hand = less(hand, (now() - t) / VECTORS);
        if (memcmp(words, wanted, room * sizeof *words))
            return 1;
        sim_rest(&s, rest);
        t = now();
        for (size_t k = 0; k < VECTORS; k++) {
            sim_vector(&s, vectors + k * n);
            memcpy(words + k * nets, s.word, nets * sizeof *words);
        }
        events = less(events, (now() - t) / VECTORS);
    }
    printf("%d %d %d %d %d %u %.0f %.0f %.0f %.0f %.0f %.0f %.0f %.0f %.1f\n", s.nets, h.gates, s.depth, s.pairs, s.inputs, percent, fields, hand, events, steps, steps_hand, ready,
           call, call_steps, 100 * changes / VECTORS / s.pairs);
    return 0;
}
