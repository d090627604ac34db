/* turn.h: what far.c and served.c say to each other through two pipes. Uses hop.h's types.
 *
 * served.c says READY once. Each call is then a turn_call and the bytes of its lent buffers one after another, and the
 * answer to it a turn_answer and all bytes of these buffers, also of those that a call may only read.
 */
#ifndef TURN_H
#define TURN_H

#include "hop.h"

/* Both sides have these numbers in one form; the emulated one is little-endian with a size_t of 64 bits. */
#if __BYTE_ORDER__ != __ORDER_LITTLE_ENDIAN__ || __SIZEOF_SIZE_T__ != 8
#error "the calls are handed on to x86-64 as they are, and this machine has another form of numbers"
#endif

/* The most bytes that a lent buffer can have here; a state takes at most 198,401. */
#define MOST_LENT (1u << 20)
/* How many buffers a call can be lent. */
#define LENT 3
#define READY 'r'

enum {
    SIZE, MAKE, CHECK, UP, DOWN, NOTICE, DELIVER, PASS, RUN, ROUTE, QUEUE_LENGTH, TOTAL_QUEUED, STATUS, WRITE_EVENT,
    READ_EVENT, WORTH, WHY
};

/* Which call, its numbers, and its buffers: the state or the bytes; the output, the place, the trial or the list of
 * bytes; the list of numbers. */
typedef struct {
    uint64_t which, number[3];
    struct {
        uint64_t length, is_null;
    } lent[LENT];
} turn_call;

/* hop_size's answer, or the fields of another's in their order. */
typedef struct {
    uint64_t size;
    uint32_t field[4];
} turn_answer;

#endif
