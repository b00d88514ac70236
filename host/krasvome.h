/* Krasvome for a host program: the timing of a logic card, every value proved.
 *
 * A session lives in KRASVOME_SESSION bytes that you lend to each call. Set them to 0 before the first one; between calls they are yours to copy and to
 * keep, not to change. Nothing has to be checked beforehand: any bytes at all are met with a result or a number.
 *
 * Every call answers one number that holds two: KRASVOME_NUMBER is 0 for done or one of the refusals below, KRASVOME_COUNT says how many. A refused call
 * has the count 0 and changes no byte that it was lent. A slice of the session that is shorter than KRASVOME_SESSION gets KRASVOME_NO_ROOM, bytes that
 * no call left get KRASVOME_NOT_READY.
 *
 * What you have to see to: behind each pointer there are as many entries as its length says; `uint64_t` rooms are aligned, as C asks anyway; and what a call may
 * write (a session that is not const, words, before values, flags) overlaps nothing else that it is lent. NULL with the length 0 is an empty slice, and is met as one:
 * a card that is cut short, a vector or room that is too short, no vectors. */
#ifndef KRASVOME_H
#define KRASVOME_H

#include <stddef.h>
#include <stdint.h>

#ifdef __cplusplus
extern "C" {
#endif

/* What the session's bytes are: byte 0 says what is kept (0 nothing, 1 a card, 2 a card at rest, 3 a card that a vector moved by bit-fields, 4 by steps); bytes 1
 * and 2 are the length of the card's bytes, low byte first; from byte 3 on there is room for the vector before the last one, from 259 on for the last one, 256 bytes
 * each; from 515 on for the card's own bytes. What is not used is 0. Each call makes the session again from them, the last vector by the engine that ran it: what
 * krasvome_history shows after a run by steps was run by steps. */
#define KRASVOME_SESSION 5895

#define KRASVOME_NUMBER(answer) ((unsigned)((answer) & 255u))
#define KRASVOME_COUNT(answer) ((size_t)((answer) >> 8))

enum krasvome_number {
    KRASVOME_DONE = 0,
    KRASVOME_CUT_SHORT = 1,      /* the card ends inside a head or body, or before an end record */
    KRASVOME_BAD_RECORD = 2,     /* a kind, length, constant, gate type or number of pins that there is not */
    KRASVOME_TOO_MANY_NETS = 3,  /* a 257th net */
    KRASVOME_NO_SUCH_PIN = 4,    /* a pin names no net and is not open */
    KRASVOME_LOOPED = 5,         /* a gate reaches itself through pins */
    KRASVOME_TOO_DEEP = 6,       /* a level over 63 */
    KRASVOME_TOO_MANY_STEPS = 7, /* over 4,096 steps */
    KRASVOME_BYTES_AFTER = 8,    /* bytes after the end record */
    KRASVOME_NO_INPUT = 9,       /* no input on the card */
    KRASVOME_VECTOR_LENGTH = 10, /* a vector that is not one byte an input */
    KRASVOME_VECTOR_BYTE = 11,   /* a vector byte that is not 0 or 1 */
    KRASVOME_NOT_READY = 12,     /* no card, or not rested; or bytes that no call left */
    KRASVOME_NO_ROOM = 18        /* lent room that is too short */
};

/* Takes a card, in place of the one that was there. Count: its number of nets. 1 to 9. */
uint64_t krasvome_load(uint8_t *session, size_t session_length, const uint8_t *card, size_t card_length);

/* Settles the card with the inputs at these values, one byte an input. Count: 0. 12 (no card), 10, 11. */
uint64_t krasvome_rest(uint8_t *session, size_t session_length, const uint8_t *vector, size_t vector_length);

/* Moves the inputs to these values, by bit-fields, from where the last vector ended. Count: 0. 12, 10, 11. */
uint64_t krasvome_vector(uint8_t *session, size_t session_length, const uint8_t *vector, size_t vector_length);

/* The same step by step. Count: the steps done. 12, 10, 11. */
uint64_t krasvome_steps(uint8_t *session, size_t session_length, const uint8_t *vector, size_t vector_length);

/* Many vectors by bit-fields in one call, one after another, one byte an input each: all of them or, where one would be refused, none. For each a word a net goes
 * to `words`, nets of them at a time, as krasvome_history gives them. Count: 0. 12, 10 (bytes that are no whole number of vectors), 11, 18. */
uint64_t krasvome_vectors(uint8_t *session, size_t session_length, const uint8_t *vectors, size_t vectors_length, uint64_t *words, size_t words_length);

/* The same step by step, one vector after another. Count: the steps done for each vector; 0 where there are none. 12, 10, 11, 18. The words are those of
 * krasvome_vectors, which took less than a microsecond a vector on the largest cards that were measured, on Arm; this call took 20 to 30. Use that one, unless it is
 * the steps that you want. */
uint64_t krasvome_vectors_steps(uint8_t *session, size_t session_length, const uint8_t *vectors, size_t vectors_length, uint64_t *words, size_t words_length);

/* The last run: for each net a word (bit t is its value at time t, 0 to 63), its value from before, and its flag (0 no change, 1 one change, 2 static hazard,
 * 3 dynamic hazard). Count: the number of nets. 12, 18. Room past that keeps its contents. */
uint64_t krasvome_history(const uint8_t *session, size_t session_length, uint64_t *words, size_t words_length, uint8_t *befores, size_t befores_length,
                          uint8_t *flags, size_t flags_length);

#ifdef __cplusplus
}
#endif

#endif
