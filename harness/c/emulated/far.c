/* far.c: hop.h's calls on a machine that is not x86-64: each is made on the archive for x86-64, which served.c holds
 * under an emulator. Uses turn.h and the C library. EMULATOR and SERVED are the two programs' full paths.
 * Where anything goes wrong on the way the process ends, as served.c did where a signal ended it; no answer is made
 * up. Calls of several threads take turns.
 */
#define _GNU_SOURCE
#include "turn.h"

#include <fcntl.h>
#include <poll.h>
#include <pthread.h>
#include <signal.h>
#include <stdio.h>
#include <stdlib.h>
#include <string.h>
#include <sys/resource.h>
#include <sys/wait.h>
#include <unistd.h>

/* No call takes so many milliseconds; one that does hangs. */
#define PATIENCE 300000

static pthread_mutex_t turn = PTHREAD_MUTEX_INITIALIZER;
static pid_t served;
static int to_served, from_served;
static union {
    uint8_t bytes[sizeof(turn_call) + LENT * MOST_LENT];
    turn_call call;
    turn_answer answer;
} message;

static _Noreturn void fail(const char *what)
{
    int status = 0;
    fprintf(stderr, "far: %s\n", what);
    if (served > 0) {
        kill(served, SIGKILL);
        waitpid(served, &status, 0);
    }
    /* A program that watches for a fault in the core hears of it. Killed is only who is killed above. */
    if (WIFSIGNALED(status) && WTERMSIG(status) != SIGKILL) {
        fprintf(stderr, "far: the core ended with signal %d\n", WTERMSIG(status));
        raise(WTERMSIG(status));
    }
    abort();
}

static void take(size_t length)
{
    struct pollfd there = {from_served, POLLIN, 0};
    for (size_t had = 0; had < length;) {
        if (poll(&there, 1, PATIENCE) != 1)
            fail("a call does not end");
        ssize_t now = read(from_served, message.bytes + had, length - had);
        if (now <= 0)
            fail("no answer, or one that is cut short");
        had += (size_t)now;
    }
}

static void start(void)
{
    char *words[] = {EMULATOR, SERVED, NULL}, *none[] = {NULL};
    int there[2], back[2];
    if (pipe2(there, O_CLOEXEC) != 0 || pipe2(back, O_CLOEXEC) != 0)
        fail("no pipes");
    /* Room for a whole call, so that it takes one step; without it the call takes more. */
    fcntl(there[1], F_SETPIPE_SZ, MOST_LENT);
    fcntl(back[1], F_SETPIPE_SZ, MOST_LENT);
    served = fork();
    if (served == 0) {
        struct rlimit no_core = {0, 0};
        setrlimit(RLIMIT_CORE, &no_core);
        dup2(there[0], 0);
        dup2(back[1], 1);
        execve(EMULATOR, words, none);
        _exit(127);
    }
    if (served < 0)
        fail("no process");
    close(there[0]);
    close(back[1]);
    to_served = there[1];
    from_served = back[0];
    take(1);
    if (message.bytes[0] != READY)
        fail("the core did not start");
}

/* A buffer that is lent for a call. One that is only read must come back as it was. */
typedef struct {
    uint8_t *bytes;
    size_t length;
    int only_read;
} lent;

static const lent nothing = {NULL, 0, 1};

static lent written(void *bytes, size_t length)
{
    return (lent){bytes, length, 0};
}

static lent only_read(const uint8_t *bytes, size_t length)
{
    union {
        const uint8_t *is;
        uint8_t *plain;
    } same = {bytes};
    return (lent){same.plain, length, 1};
}

/* Hands a call on with all bytes of its buffers, and takes all of them back. */
static turn_answer hand_on(turn_call call, const lent all[LENT])
{
    size_t length = sizeof(turn_call);
    turn_answer answer;
    pthread_mutex_lock(&turn);
    if (served == 0)
        start();
    for (int k = 0; k < LENT; k++) {
        if (all[k].length > MOST_LENT)
            fail("a buffer is too long to be handed on");
        call.lent[k].length = all[k].length;
        call.lent[k].is_null = all[k].bytes == NULL;
        if (all[k].length > 0)
            memcpy(message.bytes + length, all[k].bytes, all[k].length);
        length += all[k].length;
    }
    message.call = call;
    if (write(to_served, message.bytes, length) != (ssize_t)length)
        fail("a call was not taken");
    take(sizeof(turn_answer) + length - sizeof(turn_call));
    answer = message.answer;
    length = sizeof(turn_answer);
    for (int k = 0; k < LENT; k++) {
        const uint8_t *back = message.bytes + length;
        length += all[k].length;
        if (all[k].length == 0)
            continue;
        if (!all[k].only_read)
            memcpy(all[k].bytes, back, all[k].length);
        else if (memcmp(all[k].bytes, back, all[k].length) != 0)
            fail("a byte was written that is lent for reading");
    }
    pthread_mutex_unlock(&turn);
    return answer;
}

static turn_answer ask(uint64_t which, uint64_t a, uint64_t b, uint64_t c, lent first, lent second)
{
    return hand_on((turn_call){.which = which, .number = {a, b, c}}, (lent[LENT]){first, second, nothing});
}

static hop_answer two(turn_answer is)
{
    return (hop_answer){is.field[0], is.field[1]};
}

size_t hop_size(size_t n)
{
    return ask(SIZE, n, 0, 0, nothing, nothing).size;
}

uint32_t hop_make(uint8_t *state, size_t len, size_t n)
{
    return ask(MAKE, n, 0, 0, written(state, len), nothing).field[0];
}

uint32_t hop_check(const uint8_t *state, size_t len)
{
    return ask(CHECK, 0, 0, 0, only_read(state, len), nothing).field[0];
}

uint32_t hop_up(uint8_t *state, size_t len, size_t a, size_t b)
{
    return ask(UP, a, b, 0, written(state, len), nothing).field[0];
}

uint32_t hop_down(uint8_t *state, size_t len, size_t a, size_t b)
{
    return ask(DOWN, a, b, 0, written(state, len), nothing).field[0];
}

uint32_t hop_notice(uint8_t *state, size_t len, size_t noticing, size_t other)
{
    return ask(NOTICE, noticing, other, 0, written(state, len), nothing).field[0];
}

uint32_t hop_deliver(uint8_t *state, size_t len, size_t from, size_t to)
{
    return ask(DELIVER, from, to, 0, written(state, len), nothing).field[0];
}

hop_answer hop_pass(uint8_t *state, size_t len)
{
    return two(ask(PASS, 0, 0, 0, written(state, len), nothing));
}

hop_ran hop_run(uint8_t *state, size_t len, uint8_t allowance)
{
    turn_answer is = ask(RUN, allowance, 0, 0, written(state, len), nothing);
    return (hop_ran){is.field[0], is.field[1], is.field[2]};
}

hop_way hop_route(const uint8_t *state, size_t len, size_t node, size_t destination)
{
    turn_answer is = ask(ROUTE, node, destination, 0, only_read(state, len), nothing);
    return (hop_way){is.field[0], is.field[1], is.field[2]};
}

hop_answer hop_queue_length(const uint8_t *state, size_t len, size_t from, size_t to)
{
    return two(ask(QUEUE_LENGTH, from, to, 0, only_read(state, len), nothing));
}

hop_answer hop_total_queued(const uint8_t *state, size_t len)
{
    return two(ask(TOTAL_QUEUED, 0, 0, 0, only_read(state, len), nothing));
}

hop_answer hop_status(const uint8_t *state, size_t len, size_t node, uint8_t *out, size_t out_len)
{
    return two(ask(STATUS, node, 0, 0, only_read(state, len), written(out, out_len)));
}

hop_answer hop_write_event(uint32_t kind, uint16_t first, uint16_t second, uint8_t *out, size_t out_len)
{
    return two(ask(WRITE_EVENT, kind, first, second, nothing, written(out, out_len)));
}

hop_event hop_read_event(const uint8_t *bytes, size_t len, size_t *place)
{
    turn_answer is = ask(READ_EVENT, 0, 0, 0, only_read(bytes, len), written(place, sizeof *place));
    return (hop_event){is.field[0], is.field[1], is.field[2], is.field[3]};
}

hop_answer hop_worth(const uint8_t *state, size_t len, uint8_t *trial, size_t trial_len, int32_t *lines,
                     size_t lines_len)
{
    /* Before it is counted in bytes, or a long list could pass for a short one. */
    if (lines_len > MOST_LENT / sizeof *lines)
        fail("a list is too long to be handed on");
    lent all[LENT] = {only_read(state, len), written(trial, trial_len), written(lines, lines_len * sizeof *lines)};
    return two(hand_on((turn_call){.which = WORTH}, all));
}

hop_reason hop_why(const uint8_t *state, size_t len, size_t node, size_t destination, uint8_t *list, size_t list_len)
{
    turn_answer is = ask(WHY, node, destination, 0, only_read(state, len), written(list, list_len));
    return (hop_reason){is.field[0], is.field[1], is.field[2]};
}
