/* served.c: the archive for x86-64 as a program that is asked its calls through a pipe, for machines that can only
 * emulate it. Uses the archive and six system calls; no C library, so that the archive's needs are met here alone.
 * Each lent buffer stands between closed pages, at the front of its open pages or at their back, with guard bytes on
 * the open side. A stray access ends this program, and far.c then ends the caller.
 */
#include "turn.h"

/* Pages as large as any machine has them. */
#define PAGE 65536u
#define OPEN (MOST_LENT + PAGE)
#define GUARD 64u
#define GUARD_BYTE 0xc3

enum { IN, OUT, SAID };
enum { SYS_READ = 0, SYS_WRITE = 1, SYS_MMAP = 9, SYS_MPROTECT = 10, SYS_WRITEV = 20, SYS_EXIT = 60 };

static long ask_system(long number, long a, long b, long c, long d, long e)
{
    long answer;
    register long fourth __asm__("r10") = d;
    register long fifth __asm__("r8") = e;
    register long sixth __asm__("r9") = 0;
    __asm__ volatile("syscall"
                     : "=a"(answer)
                     : "a"(number), "D"(a), "S"(b), "d"(c), "r"(fourth), "r"(fifth), "r"(sixth)
                     : "rcx", "r11", "memory");
    return answer;
}

static void end(long status)
{
    for (;;)
        ask_system(SYS_EXIT, status, 0, 0, 0, 0);
}

static void must(int holds, const char *else_said)
{
    if (holds)
        return;
    size_t length = 0;
    while (else_said[length])
        length++;
    ask_system(SYS_WRITE, SAID, (long)else_said, (long)length, 0, 0);
    end(1);
}

/* What the archive needs from the C library. Words first: every step here is emulated. */
typedef uint64_t __attribute__((aligned(1), may_alias)) word;

void *memcpy(void *to, const void *from, size_t length)
{
    size_t k = 0;
    for (; k + 8 <= length; k += 8)
        *(word *)((uint8_t *)to + k) = *(const word *)((const uint8_t *)from + k);
    for (; k < length; k++)
        ((uint8_t *)to)[k] = ((const uint8_t *)from)[k];
    return to;
}

void *memset(void *to, int byte, size_t length)
{
    size_t k = 0;
    for (; k + 8 <= length; k += 8)
        *(word *)((uint8_t *)to + k) = (uint8_t)byte * 0x0101010101010101u;
    for (; k < length; k++)
        ((uint8_t *)to)[k] = (uint8_t)byte;
    return to;
}

/* Reads so many bytes. Nothing at all is the end where a call may begin, and nowhere else. */
static void take(void *to, size_t length, int may_end)
{
    for (size_t had = 0; had < length;) {
        long now = ask_system(SYS_READ, IN, (long)((uint8_t *)to + had), (long)(length - had), 0, 0);
        if (now == 0 && had == 0 && may_end)
            end(0);
        must(now > 0, "served: a call was cut short\n");
        had += (size_t)now;
    }
}

/* Open pages between two closed ones, and the buffer that stands there now. */
typedef struct {
    uint8_t *open, *at, *guard;
    size_t length;
    int is_null;
} fence;

static void close_off(fence *its)
{
    /* No access; private, and no file's. */
    long all = ask_system(SYS_MMAP, 0, OPEN + 2 * PAGE, 0, 0x22, -1);
    must(all > 0, "served: no memory\n");
    its->open = (uint8_t *)all + PAGE;
    must(ask_system(SYS_MPROTECT, (long)its->open, OPEN, 3, 0, 0) == 0, "served: no memory\n");
}

/* The sides take turns that fall in with no caller's own: two bits of a small generator. */
static uint64_t turns = 1;

static void put(fence *its, size_t length, int is_null)
{
    must(length <= MOST_LENT, "served: a buffer is too long\n");
    turns = turns * 6364136223846793005u + 1442695040888963407u;
    its->length = length;
    its->is_null = is_null;
    if (turns >> 63) {
        its->at = its->open;
        its->guard = its->at + length;
    } else {
        its->at = its->open + OPEN - length;
        its->guard = its->at - GUARD;
    }
    memset(its->guard, GUARD_BYTE, GUARD);
    take(its->at, length, 0);
}

static void look_at_guard(const fence *its)
{
    for (size_t k = 0; k < GUARD; k++)
        must(its->guard[k] == GUARD_BYTE, "served: a byte outside of a lent buffer was written\n");
}

static turn_answer one(uint32_t code)
{
    return (turn_answer){0, {code, 0, 0, 0}};
}

static turn_answer two(hop_answer is)
{
    return (turn_answer){0, {is.code, is.value, 0, 0}};
}

static uint8_t *lent(const fence *its)
{
    return its->is_null ? NULL : its->at;
}

static turn_answer asked(const turn_call *call, const fence all[LENT])
{
    uint8_t *state = lent(&all[0]), *out = lent(&all[1]);
    size_t length = all[0].length, room = all[1].length;
    size_t a = call->number[0], b = call->number[1], c = call->number[2];
    switch (call->which) {
    case SIZE:
        return (turn_answer){hop_size(a), {0, 0, 0, 0}};
    case MAKE:
        return one(hop_make(state, length, a));
    case CHECK:
        return one(hop_check(state, length));
    case UP:
        return one(hop_up(state, length, a, b));
    case DOWN:
        return one(hop_down(state, length, a, b));
    case NOTICE:
        return one(hop_notice(state, length, a, b));
    case DELIVER:
        return one(hop_deliver(state, length, a, b));
    case PASS:
        return two(hop_pass(state, length));
    case RUN: {
        hop_ran ran = hop_run(state, length, (uint8_t)a);
        return (turn_answer){0, {ran.code, ran.passes, ran.deliveries, 0}};
    }
    case ROUTE: {
        hop_way way = hop_route(state, length, a, b);
        return (turn_answer){0, {way.code, way.distance, way.downstream, 0}};
    }
    case QUEUE_LENGTH:
        return two(hop_queue_length(state, length, a, b));
    case TOTAL_QUEUED:
        return two(hop_total_queued(state, length));
    case STATUS:
        return two(hop_status(state, length, a, out, room));
    case WRITE_EVENT:
        return two(hop_write_event((uint32_t)a, (uint16_t)b, (uint16_t)c, out, room));
    case READ_EVENT: {
        /* The place is the second buffer; its bytes go back with it. */
        hop_event event = hop_read_event(state, length, (size_t *)(void *)out);
        return (turn_answer){0, {event.code, event.kind, event.first, event.second}};
    }
    case WORTH: {
        /* Pages are aligned for anything, and a list has whole numbers: it is aligned at either end of them. */
        int32_t *list = (int32_t *)(void *)lent(&all[2]);
        return two(hop_worth(state, length, out, room, list, all[2].length / sizeof *list));
    }
    case WHY: {
        hop_reason reason = hop_why(state, length, a, b, out, room);
        return (turn_answer){0, {reason.code, reason.kind, reason.count, 0}};
    }
    default:
        must(0, "served: no such call\n");
        return one(0);
    }
}

__attribute__((used)) static void serve(void)
{
    fence all[LENT];
    turn_call call;
    for (int k = 0; k < LENT; k++)
        close_off(&all[k]);
    must(ask_system(SYS_WRITE, OUT, (long)&(char){READY}, 1, 0, 0) == 1, "served: nobody listens\n");
    for (;;) {
        take(&call, sizeof call, 1);
        for (int k = 0; k < LENT; k++)
            put(&all[k], call.lent[k].length, call.lent[k].is_null != 0);
        turn_answer answer = asked(&call, all);
        struct {
            void *bytes;
            size_t length;
        } parts[1 + LENT] = {{&answer, sizeof answer}};
        size_t length = sizeof answer;
        for (int k = 0; k < LENT; k++) {
            look_at_guard(&all[k]);
            parts[1 + k].bytes = all[k].at;
            parts[1 + k].length = all[k].length;
            length += all[k].length;
        }
        must(ask_system(SYS_WRITEV, OUT, (long)parts, 1 + LENT, 0, 0) == (long)length,
             "served: an answer was cut short\n");
    }
}

__asm__(".globl _start\n_start: xor %ebp, %ebp\n and $-16, %rsp\n call serve\n");
